//! Small changes to a rules text: of a byte, or of a line.

use crate::random::Random;

/// A change to a text: gives the text as changed.
pub type Mutation = fn(&mut Random, &[u8]) -> Vec<u8>;

/// All mutations, by name.
pub const MUTATIONS: [(&str, Mutation); 5] = [
    ("byte changed", change_byte),
    ("byte inserted", insert_byte),
    ("byte deleted", delete_byte),
    ("line moved", move_line),
    ("line doubled", double_line),
];

/// The bytes of the format; letters and digits that decide something stand often.
pub const ALPHABET: &[u8] = b"steploopdoneifremoteu ABCHIMNOTUZAM[]():=+-<?!0123456789..\n\n";

/// A byte of the format more often than any other.
fn byte(random: &mut Random) -> u8 {
    match random.percent(80) {
        true => random.pick(ALPHABET),
        false => random.byte(),
    }
}

/// A place of a text that is not empty, at a field letter or a digit more often
/// than chance has it: there the other refusals than 7 are decided.
fn place(random: &mut Random, text: &[u8]) -> usize {
    let mut place = random.below(text.len());
    for _ in 0..random.below(6) {
        match text[place] {
            b'A'..=b'Z' | b'0'..=b'9' => return place,
            _ => place = random.below(text.len()),
        }
    }
    place
}

/// A byte becomes another, often one of its own sort.
fn change_byte(random: &mut Random, text: &[u8]) -> Vec<u8> {
    let mut changed = text.to_vec();
    if !text.is_empty() {
        let place = place(random, text);
        changed[place] = match text[place] {
            b'A'..=b'Z' if random.percent(70) => b'A' + random.below(26) as u8,
            b'0'..=b'9' if random.percent(70) => b'0' + random.below(10) as u8,
            _ => byte(random),
        };
    }
    changed
}

/// A byte comes in, behind a digit often another one.
fn insert_byte(random: &mut Random, text: &[u8]) -> Vec<u8> {
    let (place, inserted) = match random.below(text.len() + 1) {
        0 => (0, byte(random)),
        _ => match place(random, text) {
            digit if text[digit].is_ascii_digit() && random.percent(70) => {
                (digit + 1, b'0' + random.below(10) as u8)
            }
            place => (place + 1, byte(random)),
        },
    };
    [&text[..place], &[inserted], &text[place..]].concat()
}

fn delete_byte(random: &mut Random, text: &[u8]) -> Vec<u8> {
    let mut changed = text.to_vec();
    if !text.is_empty() {
        changed.remove(place(random, text));
    }
    changed
}

fn move_line(random: &mut Random, text: &[u8]) -> Vec<u8> {
    let mut lines = lines(text);
    if !lines.is_empty() {
        let line = lines.remove(random.below(lines.len()));
        lines.insert(random.below(lines.len() + 1), line);
    }
    lines.concat()
}

fn double_line(random: &mut Random, text: &[u8]) -> Vec<u8> {
    let mut lines = lines(text);
    if !lines.is_empty() {
        let line = lines[random.below(lines.len())].clone();
        lines.insert(random.below(lines.len() + 1), line);
    }
    lines.concat()
}

/// Two to four mutations.
pub fn several(random: &mut Random, text: &[u8]) -> Vec<u8> {
    let mut changed = text.to_vec();
    for _ in 0..random.between(2, 4) {
        let (_, mutate) = random.pick(&MUTATIONS);
        changed = mutate(random, &changed);
    }
    changed
}

/// The lines of a text, each with its byte 10.
pub(crate) fn lines(text: &[u8]) -> Vec<Vec<u8>> {
    let lines = text.split_inclusive(|&byte| byte == b'\n');
    lines.map(<[u8]>::to_vec).collect()
}
