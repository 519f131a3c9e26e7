//! Damage to a register file: anywhere, and where a refusal is decided.

use crate::random::Random;
use reference::register::Sizes;

/// Damages a file of these sizes once.
pub fn damage(random: &mut Random, sizes: Sizes, file: &mut Vec<u8>) {
    match random.below(12) {
        0 => cut(random, file),
        1 => file.truncate(file.len().saturating_sub(random.between(1, 3))),
        2 => file.resize(file.len() + random.between(1, 6), 0),
        3 | 4 => change_byte(random, file),
        5 => change_size(random, file),
        6 => exceed_limit(random, sizes, file),
        7 => exchange_kinds(file),
        _ => damage_cell(random, sizes, file),
    }
}

/// Only a part from the front is left.
fn cut(random: &mut Random, file: &mut Vec<u8>) {
    let length = random.below(file.len() + 1);
    file.truncate(length);
}

/// One byte becomes another, anywhere.
fn change_byte(random: &mut Random, file: &mut [u8]) {
    if !file.is_empty() {
        let place = random.below(file.len());
        file[place] = file[place].wrapping_add(random.between(1, 255) as u8);
    }
}

/// One size becomes another, near its limit or far from it; the length stays.
fn change_size(random: &mut Random, file: &mut [u8]) {
    let sizes = [
        0,
        1,
        7,
        8,
        9,
        4095,
        4096,
        4097,
        0x7fff_ffff,
        0x8000_0000,
        u32::MAX,
    ];
    let place = random.below(3);
    set_size(file, place, random.pick(&sizes));
}

/// One size goes over its limit, and the file has the length of the new sizes.
fn exceed_limit(random: &mut Random, mut sizes: Sizes, file: &mut Vec<u8>) {
    let place = random.below(3);
    let (size, limit) = match place {
        0 => (&mut sizes.records, 4097),
        1 => (&mut sizes.references, 9),
        _ => (&mut sizes.measures, 9),
    };
    *size = limit;
    set_size(file, place, limit as u32);
    file.resize(sizes.file_length(), 0);
}

/// r and m change places, which keeps the length.
fn exchange_kinds(file: &mut [u8]) {
    if file.len() >= 12 {
        let (references, measures) = file[4..12].split_at_mut(4);
        references.swap_with_slice(measures);
    }
}

pub(crate) fn set_size(file: &mut [u8], place: usize, size: u32) {
    if let Some(bytes) = file.get_mut(4 * place..4 * place + 4) {
        bytes.copy_from_slice(&size.to_le_bytes());
    }
}

/// One cell becomes one that 3, 4 or 5 looks at, or the nearest that passes.
fn damage_cell(random: &mut Random, sizes: Sizes, file: &mut [u8]) {
    if sizes.cells() == 0 || file.len() < sizes.file_length() {
        return;
    }
    let record = random.below(sizes.records);
    let reference = sizes.references > 0 && random.percent(60);
    let field = match reference {
        true => random.below(sizes.references),
        false => random.below(sizes.fields()),
    };
    let last = sizes.records as i32 - 1;
    let (value, mark) = match random.below(12) {
        0 => (0, 3),
        1 => (last, 255),
        8 => (last, 2),
        9 => (last + 1, 2),
        10 => (0, 2),
        2 => (1, 0),
        3 => (i32::MIN, 0),
        4 => (last + 1, 1),
        5 => (-1, 1),
        6 => (last, 1),
        7 => (0, 1),
        _ => (random.number() as i32, random.below(4) as u8),
    };
    set_cell(file, sizes, record * sizes.fields() + field, value, mark);
}

pub(crate) fn set_cell(file: &mut [u8], sizes: Sizes, cell: usize, value: i32, mark: u8) {
    let value_place = 12 + 4 * cell;
    file[value_place..value_place + 4].copy_from_slice(&value.to_le_bytes());
    file[12 + 4 * sizes.cells() + cell] = mark;
}
