//! Register files that load: of all sizes, from empty to full.

use crate::random::Random;
use reference::register::{Cell, MAX_FIELDS, MAX_RECORDS, Sizes, encode};

/// Measures worth meeting often: zero, the ends of the range, and near them.
const MEASURES: [i32; 8] = [0, 0, 1, -1, 180, i32::MAX, i32::MIN, i32::MAX - 1];

/// Sizes of any register, seldom a large one.
pub fn sizes(random: &mut Random) -> Sizes {
    let records = match random.below(20) {
        0 => 0,
        1..=3 => 1,
        4..=7 => 3,
        8..=18 => random.between(2, 20),
        _ => random.between(21, 300),
    };
    fields(random, records)
}

/// Sizes of a register with as many records as may be.
pub fn large_sizes(random: &mut Random) -> Sizes {
    fields(random, MAX_RECORDS)
}

/// The sizes of the largest register.
pub const LARGEST: Sizes = Sizes {
    records: MAX_RECORDS,
    references: MAX_FIELDS,
    measures: MAX_FIELDS,
};

fn fields(random: &mut Random, records: usize) -> Sizes {
    Sizes {
        records,
        references: random.pick(&[0, 1, 1, 2, 2, 3, 4, 5, 6, 7, 8, 8]),
        measures: random.pick(&[0, 1, 1, 2, 2, 3, 4, 5, 6, 7, 8, 8]),
    }
}

/// How many cells in a hundred are filled, from the second clerk's to the first's.
pub fn density(random: &mut Random) -> usize {
    random.pick(&[0, 10, 50, 90, 97, 100, 100])
}

/// Random cells for these sizes, so many in a hundred filled.
pub fn cells(random: &mut Random, sizes: Sizes, density: usize) -> Vec<Cell> {
    let mut cells = Vec::with_capacity(sizes.cells());
    for _ in 0..sizes.records {
        for field in 0..sizes.fields() {
            cells.push(match random.percent(density) {
                false => Cell::Missing,
                true if field < sizes.references => {
                    let record = random.below(sizes.records) as i32;
                    filled(random, record)
                }
                true => {
                    let measure = measure(random);
                    filled(random, measure)
                }
            });
        }
    }
    cells
}

/// The same cell, with a mark drawn anew where it is filled.
pub fn marked_anew(random: &mut Random, cell: Cell) -> Cell {
    match cell.value() {
        None => Cell::Missing,
        Some(value) => filled(random, value),
    }
}

/// A filled cell with this value: measured, seldom worked out.
fn filled(random: &mut Random, value: i32) -> Cell {
    match random.percent(25) {
        true => Cell::WorkedOut(value),
        false => Cell::Measured(value),
    }
}

/// A measure: a small one, one worth meeting, or any.
pub fn measure(random: &mut Random) -> i32 {
    match random.below(3) {
        0 => random.below(400) as i32 - 100,
        1 => random.pick(&MEASURES),
        _ => random.number() as i32,
    }
}

/// A register file that loads.
pub fn file(random: &mut Random, sizes: Sizes) -> Vec<u8> {
    let density = density(random);
    encode(sizes, &cells(random, sizes, density))
}

/// A register file that loads and has every cell filled.
pub fn full_file(random: &mut Random, sizes: Sizes) -> Vec<u8> {
    encode(sizes, &cells(random, sizes, 100))
}
