//! 1 to 5: a register file that is refused, and the nearest one that loads.

use crate::damage::{set_cell, set_size};
use crate::random::Random;
use crate::registers;
use reference::register::{Kind, MAX_FIELDS, MAX_RECORDS, Sizes};

/// A refused register file and its nearest neighbour that loads.
#[derive(Clone, Debug)]
pub struct RegisterPair {
    /// The refused file.
    pub refused: Vec<u8>,
    /// The file that loads, and its sizes.
    pub accepted: Vec<u8>,
    /// The sizes of the file that loads.
    pub sizes: Sizes,
}

/// A pair for a refusal number from 1 to 5.
pub fn register_pair(random: &mut Random, number: u32) -> RegisterPair {
    loop {
        let sizes = registers::sizes(random);
        let pair = match number {
            1 => Some(length(random, sizes)),
            2 => Some(limit(random, sizes)),
            3 | 4 => cell(random, sizes, number),
            5 => reference(random, sizes),
            _ => panic!("no register is refused by {number}"),
        };
        if let Some(pair) = pair {
            return pair;
        }
    }
}

/// 1: a byte too few or too many, or less than the three sizes.
fn length(random: &mut Random, sizes: Sizes) -> RegisterPair {
    let accepted = registers::file(random, sizes);
    let mut refused = accepted.clone();
    match random.below(3) {
        0 => drop(refused.pop()),
        1 => refused.push(random.pick(&[0, 1])),
        _ => refused.truncate(random.below(12)),
    }
    RegisterPair {
        refused,
        accepted,
        sizes,
    }
}

/// 2: a size at its limit and one above it, each file as long as its sizes ask.
fn limit(random: &mut Random, mut sizes: Sizes) -> RegisterPair {
    let place = random.below(3);
    let (size, limit) = match place {
        0 => (&mut sizes.records, MAX_RECORDS),
        1 => (&mut sizes.references, MAX_FIELDS),
        _ => (&mut sizes.measures, MAX_FIELDS),
    };
    *size = limit;
    if place == 0 {
        (sizes.references, sizes.measures) = random.pick(&[(0, 0), (1, 0), (0, 2)]);
    }
    let accepted = registers::file(random, sizes);
    let mut refused = accepted.clone();
    set_size(&mut refused, place, limit as u32 + 1);
    let more = match place {
        0 => sizes.fields(),
        _ => sizes.records,
    };
    refused.resize(accepted.len() + 5 * more, 0);
    RegisterPair {
        refused,
        accepted,
        sizes,
    }
}

/// 3: a mark of 3 and of 2, or 255 and 0. 4: an unfilled cell whose value is 1 and one of 0.
fn cell(random: &mut Random, sizes: Sizes, number: u32) -> Option<RegisterPair> {
    let place = random.below(sizes.cells().max(1));
    let pairs = match number {
        3 => [((0, 3), (0, 2)), ((0, 255), (0, 0))],
        _ => [((1, 0), (0, 0)), ((i32::MIN, 0), (0, 0))],
    };
    let (refused, accepted) = random.pick(&pairs);
    (sizes.cells() > 0).then(|| with_cells(random, sizes, place, refused, accepted))
}

/// 5: the reference n and n − 1, or −1 and 0, measured or worked out.
fn reference(random: &mut Random, sizes: Sizes) -> Option<RegisterPair> {
    let place = random.below(sizes.cells().max(1));
    if sizes.cells() == 0 || sizes.kind(place % sizes.fields()) == Kind::Measure {
        return None;
    }
    let records = sizes.records as i32;
    let (refused, accepted) = random.pick(&[(records, records - 1), (-1, 0)]);
    let mark = random.pick(&[1, 2]);
    Some(with_cells(
        random,
        sizes,
        place,
        (refused, mark),
        (accepted, mark),
    ))
}

/// A register twice, with two different cells in one place.
fn with_cells(
    random: &mut Random,
    sizes: Sizes,
    place: usize,
    refused: (i32, u8),
    accepted: (i32, u8),
) -> RegisterPair {
    let file = registers::file(random, sizes);
    let with = |(value, mark)| {
        let mut file = file.clone();
        set_cell(&mut file, sizes, place, value, mark);
        file
    };
    RegisterPair {
        refused: with(refused),
        accepted: with(accepted),
        sizes,
    }
}
