//! Texts that are not written as rules texts: bytes and lines in any order.

use crate::mutations::ALPHABET;
use crate::random::Random;
use crate::texts;
use reference::register::Sizes;

/// A length of a text, seldom a great one or one near the limit.
fn length(random: &mut Random) -> usize {
    match random.below(40) {
        0 => random.between(8185, 8200),
        1 => random.between(100, 20_000),
        2..=4 => 0,
        _ => random.between(1, 60),
    }
}

/// Any bytes.
pub fn any_bytes(random: &mut Random) -> Vec<u8> {
    let length = length(random);
    random.bytes(length)
}

/// Bytes of the format.
pub fn format_bytes(random: &mut Random) -> Vec<u8> {
    let length = length(random);
    (0..length).map(|_| random.pick(ALPHABET)).collect()
}

/// Lines that have a form, mostly out of place.
pub fn any_lines(random: &mut Random, sizes: Sizes) -> Vec<u8> {
    let count = random.between(1, 12);
    let mut text = String::new();
    for _ in 0..count {
        text += &match random.below(6) {
            0 | 1 => "step\n".to_owned(),
            2 => "end\n".to_owned(),
            3 => "done\n".to_owned(),
            4 => format!("loop {}\n", char::from(b'A' + random.below(26) as u8)),
            _ => texts::rule(random, sizes),
        };
    }
    text.into_bytes()
}
