//! Chain texts: valid, ill-kinded, too long, and not chains at all.

use crate::random::Random;
use reference::register::Sizes;

/// A chain text of these letters, the outermost first.
pub fn text(letters: &[u8]) -> Vec<u8> {
    let mut text = Vec::with_capacity(3 * letters.len() + 1);
    for &letter in letters {
        text.extend([letter, b'[']);
    }
    text.push(b'u');
    text.resize(text.len() + letters.len(), b']');
    text
}

/// The letters of a chain with so many hops, the outermost first: every field
/// but the outermost a reference. Without reference fields it is shorter.
pub fn valid_letters(random: &mut Random, sizes: Sizes, hops: usize) -> Vec<u8> {
    let mut letters = Vec::with_capacity(hops);
    if hops > 0 && sizes.fields() > 0 && (hops == 1 || sizes.references > 0) {
        letters.push(outermost(random, sizes));
        letters.extend((1..hops).map(|_| reference(random, sizes)));
    }
    letters
}

fn outermost(random: &mut Random, sizes: Sizes) -> u8 {
    match sizes.measures > 0 && random.percent(60) {
        true => b'M' + random.below(sizes.measures) as u8,
        false => sizes.letter(random.below(sizes.fields())),
    }
}

fn reference(random: &mut Random, sizes: Sizes) -> u8 {
    b'A' + random.below(sizes.references) as u8
}

/// A valid chain text, of few hops more often than of many.
pub fn valid(random: &mut Random, sizes: Sizes) -> Vec<u8> {
    let hops = match random.below(10) {
        0 | 1 => 0,
        2..=4 => 1,
        5 | 6 => 2,
        7 => random.between(3, 5),
        8 => random.between(6, 16),
        _ => 16,
    };
    text(&valid_letters(random, sizes, hops))
}

/// A chain text with more hops than may be, sometimes with other faults besides.
pub fn too_long(random: &mut Random, sizes: Sizes) -> Vec<u8> {
    let hops = match random.below(40) {
        0..20 => 17,
        20..30 => 18,
        30..39 => random.between(19, 700),
        _ => random.between(701, 40_000),
    };
    let mut letters = valid_letters(random, sizes, hops);
    if random.percent(20) {
        put_inside(random, &mut letters, b'M');
    }
    if random.percent(20) {
        let letter = random.between(usize::from(b'A'), usize::from(b'Z')) as u8;
        put_inside(random, &mut letters, letter);
    }
    let mut chain = text(&letters);
    if random.percent(20) {
        mutate(random, &mut chain);
    }
    chain
}

/// A chain text with any letters: some name no field, some are of the wrong kind.
pub fn any_letters(random: &mut Random, sizes: Sizes) -> Vec<u8> {
    let hops = random.between(1, 5);
    let mut letters = valid_letters(random, sizes, hops);
    match random.below(3) {
        0 => put_inside(random, &mut letters, b'M'),
        1 => put_inside(random, &mut letters, sizes.letter(sizes.fields())),
        _ => {
            let letter = random.between(usize::from(b'A'), usize::from(b'Z')) as u8;
            put_inside(random, &mut letters, letter);
        }
    }
    text(&letters)
}

/// Puts a letter somewhere, seldom as the outermost.
fn put_inside(random: &mut Random, letters: &mut Vec<u8>, letter: u8) {
    let place = random.between(usize::from(!letters.is_empty()), letters.len());
    letters.insert(place, letter);
}

/// Changes, inserts or deletes a byte, or adds or takes a closing.
pub fn mutate(random: &mut Random, text: &mut Vec<u8>) {
    let place = random.below(text.len() + 1);
    match random.below(8) {
        0 => text.insert(place, b"[]uAMam \n0@"[random.below(11)]),
        1 => text.insert(place, random.byte()),
        2 => text.push(b"]\n u"[random.below(4)]),
        3 => text.truncate(place),
        4 => drop(text.pop()),
        5 if place < text.len() => text[place] = random.byte(),
        6 if place < text.len() => text[place] = text[place].to_ascii_lowercase(),
        _ if place < text.len() => drop(text.remove(place)),
        _ => text.clear(),
    }
}

/// Random bytes, sometimes only such as stand in chains.
pub fn random_bytes(random: &mut Random) -> Vec<u8> {
    let length = random.below(12);
    let chain_bytes = random.percent(50);
    let byte = |_| match chain_bytes {
        true => b"uA[M]B"[random.below(6)],
        false => random.byte(),
    };
    (0..length).map(byte).collect()
}

/// Any chain text.
pub fn any(random: &mut Random, sizes: Sizes) -> Vec<u8> {
    match random.below(20) {
        0..11 => valid(random, sizes),
        11..14 => too_long(random, sizes),
        14..17 => any_letters(random, sizes),
        17 | 18 => {
            let mut text = valid(random, sizes);
            mutate(random, &mut text);
            text
        }
        _ => random_bytes(random),
    }
}
