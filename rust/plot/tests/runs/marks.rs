//! Marks of register files: 0, 1 and 2 load where their value may be, and 3 begins
//! above 2.

use crate::common::any_answer;
use generate::on_failure::OnFailure;
use generate::random::Random;
use generate::registers;
use generate::tally::Tally;
use plot::lent;
use reference::register::{Register, Sizes};

const FILES: usize = 20_000;
const LEAST: u64 = 500;
/// What comes of one cell of a register that is fine otherwise.
const NAMES: [&str; 8] = [
    "mark 0 loads",
    "mark 0 is refusal 4",
    "mark 1 loads",
    "mark 1 is refusal 5",
    "mark 2 loads",
    "mark 2 is refusal 5",
    "mark 3 is refusal 3",
    "mark 255 is refusal 3",
];

/// A register with this value and mark in a cell of it.
fn with_cell(sizes: Sizes, file: &[u8], cell: usize, value: i32, mark: u8) -> Vec<u8> {
    let mut file = file.to_vec();
    file[12 + 4 * cell..][..4].copy_from_slice(&value.to_le_bytes());
    file[12 + 4 * sizes.cells() + cell] = mark;
    file
}

#[test]
fn marks_load_or_are_refused() {
    let mut random = Random::new(108);
    let mut tally = Tally::default();
    for _ in 0..FILES {
        let sizes = Sizes {
            records: random.between(1, 6),
            references: random.between(1, 3),
            measures: random.between(0, 3),
        };
        let file = registers::file(&mut random, sizes);
        let cell = random.below(sizes.cells());
        let value = random.pick(&[0, 0, sizes.records as i32 - 1, sizes.records as i32, -1]);
        let mark = random.pick(&[0, 1, 2, 2, 3, 3, 255]);
        let file = with_cell(sizes, &file, cell, value, mark);
        let _failing = OnFailure::new(&file).number("cell", cell as u64);
        let number = lent::check(&file, b"", &mut any_answer(&mut random));
        let expected = Register::load(&file).map_or_else(|refusal| refusal.reason.number(), |_| 0);
        assert_eq!(number, expected);
        tally.count(&match number {
            0 => format!("mark {mark} loads"),
            number => format!("mark {mark} is refusal {number}"),
        });
    }
    tally.print("registers by the mark of a cell");
    tally.require(LEAST, &NAMES);
}
