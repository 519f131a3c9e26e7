//! The tokens of a rules text: other spaces between them, and small changes around
//! each of them.

use crate::random::Random;
use std::ops::Range;

/// Signs of more than one byte, longer ones before those that they begin with.
const SIGNS: [&[u8]; 6] = [b"<?=", b"<?", b":=", b"==", b"!=", b"+="];
/// Tokens behind which an operand must begin.
const BEFORE_OPERANDS: [&[u8]; 11] = [
    b"(", b":=", b"<?=", b"+=", b"+", b"-", b"<?", b"<", b"==", b"!=", b"if",
];
/// Words that keep a space behind them.
const SPACED: [&[u8]; 3] = [b"if", b"remote", b"loop"];
/// What is put in the place of a token or beside it.
const PUT_IN: [&[u8]; 34] = [
    b"(",
    b")",
    b"(",
    b")",
    b"()",
    b"+",
    b"-",
    b"<?",
    b"<",
    b"==",
    b"!=",
    b":=",
    b":",
    b"<?=",
    b"+=",
    b"=",
    b"?",
    b"--",
    b"[",
    b"]",
    b"u",
    b"A",
    b"M",
    b"Z",
    b"0",
    b"1",
    b"-1",
    b"-0",
    b"1.80",
    b"2147483648",
    b"if ",
    b"remote ",
    b"if",
    b"step",
];

/// Where the tokens of a text stand, byte 10 among them. A minus belongs to the
/// digits behind it where an operand must begin.
pub fn tokens(text: &[u8]) -> Vec<Range<usize>> {
    let mut tokens: Vec<Range<usize>> = Vec::new();
    let mut at = 0;
    while at < text.len() {
        if text[at] == b' ' {
            at += 1;
            continue;
        }
        let due = tokens
            .last()
            .is_some_and(|token| BEFORE_OPERANDS.contains(&&text[token.clone()]));
        let length = length(&text[at..], due);
        tokens.push(at..at + length);
        at += length;
    }
    tokens
}

/// The length of the token that a text begins with, at least 1.
fn length(text: &[u8], operand_due: bool) -> usize {
    let run = |from: usize, wanted: fn(&u8) -> bool| {
        let bytes = text[from..].iter();
        from + bytes.take_while(|byte| wanted(byte)).count()
    };
    let is_figure = |byte: &u8| byte.is_ascii_digit() || *byte == b'.';
    match text {
        [b'-', b'0'..=b'9', ..] if operand_due => run(1, is_figure),
        [b'0'..=b'9', ..] => run(0, is_figure),
        [b'a'..=b'z', ..] => run(0, u8::is_ascii_lowercase),
        _ => {
            let sign = SIGNS.iter().find(|sign| text.starts_with(sign));
            sign.map_or(1, |sign| sign.len())
        }
    }
}

/// A text that has passed with other spaces between its tokens: none, few or many.
pub fn respaced(random: &mut Random, text: &[u8]) -> Vec<u8> {
    let most = random.pick(&[0, 0, 1, 1, 2, 4]);
    let far = random.percent(5);
    let tokens = tokens(text);
    let mut spaced = Vec::with_capacity(text.len());
    for (index, token) in tokens.iter().enumerate() {
        let token = &text[token.clone()];
        spaced.extend(token);
        let next = tokens.get(index + 1).map(|next| &text[next.clone()]);
        if token == b"\n" || matches!(next, None | Some(b"\n")) {
            continue;
        }
        let least = usize::from(SPACED.contains(&token));
        let more = match far && random.percent(3) {
            true => random.between(5, 60),
            false => random.between(0, most),
        };
        spaced.resize(spaced.len() + least + more, b' ');
    }
    spaced
}

/// A change around a token of a text: what is put where.
type Change = fn(&mut Random, &[u8], Range<usize>) -> (Range<usize>, Vec<u8>);

/// All changes around a token, by name.
pub const CHANGES: [(&str, Change); 12] = [
    ("token left out", |_, _, token| (token, Vec::new())),
    ("token doubled", |random, text, token| {
        let space: &[u8] = random.pick(&[b"" as &[u8], b" "]);
        let piece = [&text[token.clone()], space].concat();
        (token.start..token.start, piece)
    }),
    ("token replaced", |random, _, token| {
        (token, random.pick(&PUT_IN).to_vec())
    }),
    ("token put in before", |random, _, token| {
        let place = token.start;
        (place..place, random.pick(&PUT_IN).to_vec())
    }),
    ("token put in behind", |random, _, token| {
        (token.end..token.end, random.pick(&PUT_IN).to_vec())
    }),
    ("token and the next exchanged", |_, text, token| {
        let next = tokens(&text[token.end..]);
        let Some(next) = next.first() else {
            return (token, Vec::new());
        };
        let (from, to) = (token.end + next.start, token.end + next.end);
        let piece = [
            &text[from..to],
            &text[token.end..from],
            &text[token.clone()],
        ]
        .concat();
        (token.start..to, piece)
    }),
    ("spaces put in before", |random, _, token| {
        let spaces = vec![b' '; random.between(1, 3)];
        (token.start..token.start, spaces)
    }),
    ("spaces put in behind", |random, _, token| {
        let spaces = vec![b' '; random.between(1, 3)];
        (token.end..token.end, spaces)
    }),
    ("space put inside", |random, _, token| {
        let place = random.between(token.start, token.end);
        (place..place, b" ".to_vec())
    }),
    ("spaces left out behind", |_, text, token| {
        let spaces = text[token.end..].iter().take_while(|byte| **byte == b' ');
        (token.end..token.end + spaces.count(), Vec::new())
    }),
    ("brackets put around", |_, text, token| {
        let piece = [b"(", &text[token.clone()], b")"].concat();
        (token, piece)
    }),
    ("byte changed", |random, _, token| {
        let place = random.between(token.start, token.end - 1);
        let byte = match random.percent(80) {
            true => random.pick(crate::mutations::ALPHABET),
            false => random.byte(),
        };
        (place..place + 1, vec![byte])
    }),
];

/// A text with a change around a token.
pub fn changed(random: &mut Random, text: &[u8], token: Range<usize>, change: Change) -> Vec<u8> {
    let (place, piece) = change(random, text, token);
    [&text[..place.start], &piece, &text[place.end..]].concat()
}

/// How many operators stand in the expression around a place, and how deep the
/// groups are that the place stands in.
pub(crate) fn around(text: &[u8], place: usize) -> (usize, usize) {
    const ENDS: [&[u8]; 9] = [b":=", b"<?=", b"+=", b"if", b"<", b"==", b"!=", b":", b"\n"];
    let tokens = tokens(text);
    let spelled = |token: &Range<usize>| &text[token.clone()];
    let inside = |token: &&Range<usize>| !ENDS.contains(&spelled(token));
    let (before, behind): (Vec<_>, Vec<_>) = tokens.into_iter().partition(|one| one.start < place);
    let before: Vec<&Range<usize>> = before.iter().rev().take_while(inside).collect();
    let behind: Vec<&Range<usize>> = behind.iter().take_while(inside).collect();
    let count = |tokens: &[&Range<usize>], sign: &[u8]| {
        let equal = tokens.iter().filter(|token| spelled(token) == sign);
        equal.count()
    };
    let operators =
        [b"+" as &[u8], b"-", b"<?"].map(|sign| count(&before, sign) + count(&behind, sign));
    let depth = count(&before, b"(") - count(&before, b")");
    (operators.iter().sum(), depth)
}
