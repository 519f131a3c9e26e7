//! For each number from 1 to 15, 24 and 25 a generated input that is refused by it, and the
//! nearest one that is not.

use crate::folders::Folder;
use generate::cases::Case;
use generate::neighbours::registers::{RegisterPair, register_pair};
use generate::random::Random;
use generate::{neighbours, registers};
use reference::register::Sizes;

/// The folders for all numbers.
pub fn folders() -> Vec<Folder> {
    let mut random = Random::new(62);
    let mut folders = Vec::new();
    for number in 1..=5 {
        let pair = small_pair(&mut random, number);
        let text = Case::new(&mut random, pair.sizes).text;
        let inputs = [(&pair.refused, &text), (&pair.accepted, &text)];
        folders.extend(neighbouring(number, 0, inputs));
    }
    for number in (6..=15).chain([24, 25]) {
        let (sizes, pair) = neighbours::pair(&mut random, number);
        let records = random.below(3);
        let register = registers::file(&mut random, Sizes { records, ..sizes });
        let inputs = [(&register, &pair.refused), (&register, &pair.accepted)];
        folders.extend(neighbouring(number, pair.line, inputs));
    }
    folders
}

/// A pair of registers that are not too large for the program.
fn small_pair(random: &mut Random, number: u32) -> RegisterPair {
    loop {
        let pair = register_pair(random, number);
        if pair.refused.len().max(pair.accepted.len()) <= 512 {
            return pair;
        }
    }
}

/// Register and text as refused by a number at a line, and as not refused by it.
fn neighbouring(number: u32, line: usize, inputs: [(&Vec<u8>, &Vec<u8>); 2]) -> [Folder; 2] {
    let [(register, text), (near_register, near_text)] = inputs;
    let name = format!("refused by {number}");
    [
        Folder::refused(&name, register, text, (number, line)),
        Folder::new(&format!("near {number}"), near_register, near_text, ""),
    ]
}
