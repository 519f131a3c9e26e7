//! Numbers in metres, and small changes around their point.

use crate::random::Random;
use std::ops::Range;

/// So many centimetres in metres: digits, a point and two digits.
pub fn text(centimetres: i32) -> String {
    let size = centimetres.unsigned_abs();
    let minus = match centimetres < 0 {
        true => "-",
        false => "",
    };
    format!("{minus}{}.{:02}", size / 100, size % 100)
}

/// A text with every number that has a point in centimetres: the point is taken
/// out, and zeros before another digit.
pub fn in_centimetres(text: &[u8]) -> Vec<u8> {
    let mut text = text.to_vec();
    while let Some(point) = text.iter().position(|&byte| byte == b'.') {
        text.remove(point);
        let first = digits_before(&text, point).start;
        while text[first] == b'0' && text[first + 1].is_ascii_digit() {
            text.remove(first);
        }
    }
    text
}

/// Whether a text holds a number with a point.
pub fn has_point(text: &[u8]) -> bool {
    let is_digit = |place: usize| text.get(place).is_some_and(u8::is_ascii_digit);
    (1..text.len()).any(|place| text[place] == b'.' && is_digit(place - 1) && is_digit(place + 1))
}

/// A change around the point at a place of a text: what is put where.
type Change = fn(&mut Random, &[u8], usize) -> (Range<usize>, Vec<u8>);

/// All changes around a point, by name.
pub const CHANGES: [(&str, Change); 12] = [
    ("decimal left out", |random, _, point| {
        let place = point + random.between(1, 2);
        (place..place + 1, Vec::new())
    }),
    ("decimals left out", |_, _, point| {
        (point + 1..point + 3, Vec::new())
    }),
    ("decimals added", |random, _, point| {
        let place = point + random.between(1, 3);
        (place..place, digits(random, 2))
    }),
    ("decimal changed", |random, _, point| {
        let place = point + random.between(1, 2);
        (place..place + 1, vec![digit(random)])
    }),
    ("point left out", |_, _, point| {
        (point..point + 1, Vec::new())
    }),
    ("point changed", |random, _, point| {
        (point..point + 1, vec![random.pick(b",: -+'0e/")])
    }),
    ("second point", |random, _, point| {
        let place = point + random.between(0, 3);
        let more = digits(random, 2);
        (place..place, [b".", &more[..]].concat())
    }),
    ("space put in", |random, text, point| {
        let before = digits_before(text, point);
        let place = random.between(before.start, point + 3);
        (place..place, vec![b' '])
    }),
    ("zeros in front", |random, text, point| {
        let before = digits_before(text, point);
        let zeros = vec![b'0'; random.between(1, 3)];
        (before.start..before.start, zeros)
    }),
    ("digits in front", |random, text, point| {
        let before = digits_before(text, point);
        (before.start..before.start, digits(random, 9))
    }),
    ("whole part changed", |random, text, point| {
        let whole: &[u8] = random.pick(&[b"" as &[u8], b"0", b"-0", b"+1", b"21474836", b"-"]);
        (digits_before(text, point), whole.to_vec())
    }),
    ("minus put in", |random, text, point| {
        let before = digits_before(text, point);
        match random.percent(30) {
            true => (before.start..point + 3, b"-0.00".to_vec()),
            false => (before.start..before.start, b"-".to_vec()),
        }
    }),
];

/// A text with a change around one of its points.
pub fn changed(random: &mut Random, text: &[u8], change: Change) -> Vec<u8> {
    let points: Vec<usize> = (0..text.len()).filter(|&at| text[at] == b'.').collect();
    let point = random.pick(&points);
    let (place, piece) = change(random, text, point);
    [&text[..place.start], &piece, &text[place.end..]].concat()
}

/// Where the digits before a point stand.
fn digits_before(text: &[u8], point: usize) -> Range<usize> {
    let digits = text[..point].iter().rev();
    point - digits.take_while(|byte| byte.is_ascii_digit()).count()..point
}

fn digit(random: &mut Random) -> u8 {
    b'0' + random.below(10) as u8
}

/// One digit or more, up to so many.
fn digits(random: &mut Random, most: usize) -> Vec<u8> {
    let count = random.between(1, most);
    (0..count).map(|_| digit(random)).collect()
}
