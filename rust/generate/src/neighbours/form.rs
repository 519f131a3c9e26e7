//! 7: a line that has a form, and the same line with one thing amiss.

use super::{Pair, some_place, with_numbers};
use crate::random::Random;

/// Numbers that are not written as numbers are, each with one that is.
const NUMBERS: [(&str, &str); 20] = [
    ("-0", "0"),
    ("00", "0"),
    ("01", "1"),
    ("-01", "-1"),
    ("+1", "1"),
    ("--1", "-1"),
    ("-", "-1"),
    ("", "1"),
    ("-0.00", "0.00"),
    ("-0.00", "-0.01"),
    ("00.50", "0.50"),
    ("01.80", "1.80"),
    (".80", "0.80"),
    ("-.05", "-0.05"),
    ("1.", "1"),
    ("1.8", "1.80"),
    ("1.800", "1.80"),
    ("1.80.20", "1.80"),
    ("1,80", "1.80"),
    ("+1.80", "1.80"),
];

/// Bytes that stand in no line.
const FOREIGN: [u8; 12] = *b"\0\t\r\"*/>@\\_\x7f\xff";

/// A pair for 7.
pub fn form(random: &mut Random, text: &[u8]) -> Option<Pair> {
    match random.below(8) {
        0 => with_numbers(random, text, &NUMBERS),
        1 => last_line_unended(text),
        2 => inserted(random, text, b"\n", |place, text| begins_line(text, place)),
        3 => inserted(random, text, b" ", |place, text| ends_line(text, place)),
        4 => {
            let foreign = random.pick(&FOREIGN);
            inserted(random, text, &[foreign], |_, _| true)
        }
        5 => deleted(random, text, |place, text| follows_word(text, place)),
        6 => deleted(random, text, |place, text| {
            b"[]:u<?!=()".contains(&text[place])
        }),
        _ => in_other_case(random, text),
    }
}

/// The last line loses its byte 10.
fn last_line_unended(text: &[u8]) -> Option<Pair> {
    let last = text.len().checked_sub(1)?;
    Some(Pair::replacing(text, last..text.len(), b"", b"\n"))
}

fn inserted(
    random: &mut Random,
    text: &[u8],
    piece: &[u8],
    wanted: impl Fn(usize, &[u8]) -> bool,
) -> Option<Pair> {
    let place = some_place(random, text, |place| wanted(place, text))?;
    Some(Pair::replacing(text, place..place, piece, b""))
}

fn begins_line(text: &[u8], place: usize) -> bool {
    place == 0 || text[place - 1] == b'\n'
}

/// At a line's ends.
fn ends_line(text: &[u8], place: usize) -> bool {
    begins_line(text, place) || text[place] == b'\n'
}

/// The space that a word keeps behind it.
fn follows_word(text: &[u8], place: usize) -> bool {
    let words = [b"if" as &[u8], b"remote", b"loop"];
    text[place] == b' ' && words.iter().any(|word| text[..place].ends_with(word))
}

/// A byte that is needed where it stands is deleted.
fn deleted(
    random: &mut Random,
    text: &[u8],
    wanted: impl Fn(usize, &[u8]) -> bool,
) -> Option<Pair> {
    let place = some_place(random, text, |place| wanted(place, text))?;
    Some(Pair::replacing(
        text,
        place..place + 1,
        b"",
        &text[place..=place],
    ))
}

/// A letter changes between capital and small.
fn in_other_case(random: &mut Random, text: &[u8]) -> Option<Pair> {
    let place = some_place(random, text, |place| text[place].is_ascii_alphabetic())?;
    let other = text[place] ^ (b'A' ^ b'a');
    Some(Pair::replacing(
        text,
        place..place + 1,
        &[other],
        &text[place..=place],
    ))
}
