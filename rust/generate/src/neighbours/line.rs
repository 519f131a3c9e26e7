//! 9 to 12: what a line's letters, kinds, hops and numbers may be.

use super::{Pair, some_number, some_place, with_numbers};
use crate::chains;
use crate::random::Random;
use reference::register::Sizes;

/// 9: a letter that names no field, and one of the same kind that does.
pub fn field(random: &mut Random, sizes: Sizes, text: &[u8]) -> Option<Pair> {
    let place = some_place(random, text, |place| text[place].is_ascii_uppercase())?;
    let beyond = match text[place] {
        b'A'..=b'H' => b'A' + sizes.references as u8,
        _ => b'M' + sizes.measures as u8,
    };
    let unnamed: Vec<u8> = (b'A'..=b'Z')
        .filter(|&letter| sizes.field(letter).is_none())
        .collect();
    let refused = match random.percent(70) {
        true => beyond,
        false => random.pick(&unnamed),
    };
    let accepted = random.pick(&[text[place], beyond - 1]);
    Some(Pair::replacing(
        text,
        place..place + 1,
        &[refused],
        &[accepted],
    ))
}

/// 10: a side of the other kind, a measure inside a chain, or an operation that
/// references do not take.
pub fn kind(random: &mut Random, sizes: Sizes, text: &[u8]) -> Option<Pair> {
    match random.below(4) {
        0 | 1 => other_kind(random, sizes, text),
        2 => reference_for_number(random, text),
        _ => operation_on_references(random, sizes, text),
    }
}

/// A letter becomes one of the other kind; a loop takes both.
fn other_kind(random: &mut Random, sizes: Sizes, text: &[u8]) -> Option<Pair> {
    let place = some_place(random, text, |place| {
        text[place].is_ascii_uppercase() && !text[..place].ends_with(b"loop ")
    })?;
    let (first, several) = match text[place] {
        b'A'..=b'H' => (b'M', sizes.measures),
        _ => (b'A', sizes.references),
    };
    let other = first + random.below(several.max(1)) as u8;
    sizes.field(other)?;
    Some(Pair::replacing(
        text,
        place..place + 1,
        &[other],
        &text[place..=place],
    ))
}

fn reference_for_number(random: &mut Random, text: &[u8]) -> Option<Pair> {
    let place = some_number(random, text)?;
    let number = &text[place.clone()];
    Some(Pair::replacing(text, place, b"u", number))
}

/// `+`, `-` or `+=` for a reference field.
fn operation_on_references(random: &mut Random, sizes: Sizes, text: &[u8]) -> Option<Pair> {
    let letter = char::from(sizes.letter(random.below(sizes.references.max(1))));
    let sum = random.pick(&["u + u", "u - u", "1 + 1", "u + 1", "1 - u"]);
    let (refused, accepted) = match random.percent(50) {
        true => (
            format!("{letter}[u] := {sum}\n"),
            format!("{letter}[u] := u\n"),
        ),
        false => (
            format!("remote {letter}[u] += u\n"),
            format!("remote {letter}[u] <?= u\n"),
        ),
    };
    let behind_step = |place: usize| text[..place].ends_with(b"step\n");
    let place = some_place(random, text, behind_step)?;
    (sizes.references > 0)
        .then(|| Pair::replacing(text, place..place, refused.as_bytes(), accepted.as_bytes()))
}

/// 11: 17 hops or more, and 16.
pub fn hops(random: &mut Random, sizes: Sizes, text: &[u8]) -> Option<Pair> {
    let stored_to = |place: usize| text[place..].starts_with(b"u] := ");
    let place = some_place(random, text, |place| {
        text[place] == b'u' && !stored_to(place)
    })?;
    let inner = 16_usize.checked_sub(hops_around(text, place))?;
    let reference = Sizes {
        measures: 0,
        ..sizes
    };
    let more = random.pick(&[1, 1, 1, 2, 16, 300]);
    let letters = chains::valid_letters(random, reference, inner + more);
    let (refused, accepted) = (chains::text(&letters), chains::text(letters.get(more..)?));
    Some(Pair::replacing(text, place..place + 1, &refused, &accepted))
}

/// The hops of the chain whose `u` stands here; in `remote F[C]` those of C.
fn hops_around(text: &[u8], place: usize) -> usize {
    let opening = |pair: &&[u8]| pair[0].is_ascii_uppercase() && pair[1] == b'[';
    let letters = text[..place].rchunks_exact(2).take_while(opening).count();
    let target = text[..place - 2 * letters].ends_with(b"remote ");
    letters - usize::from(target)
}

/// Numbers out of range, each with the nearest one in range: by one, and by what
/// a sum of 32 or 64 bits would lose.
const NUMBERS: [(&str, &str); 18] = [
    ("2147483648", "2147483647"),
    ("2147483648", "2147483647"),
    ("-2147483649", "-2147483648"),
    ("-2147483649", "-2147483648"),
    ("2147483650", "214748365"),
    ("10000000000", "1000000000"),
    ("4294967295", "-1"),
    ("4294967296", "0"),
    ("-4294967297", "-1"),
    ("9223372036854775808", "922337203"),
    ("18446744073709551616", "0"),
    ("-36893488147419103233", "-1"),
    ("21474836.48", "21474836.47"),
    ("-21474836.49", "-21474836.48"),
    ("2147483647.00", "2147483647"),
    ("42949672.96", "0.00"),
    ("92233720368547758.08", "9223372.08"),
    ("-184467440737095516.17", "-0.01"),
];

/// 12: a number outside the range of sums.
pub fn number(random: &mut Random, text: &[u8]) -> Option<Pair> {
    with_numbers(random, text, &NUMBERS)
}
