//! Two faults on one line, of which the lower number is answered.

use super::{Pair, try_pair};
use crate::mutations::lines;
use crate::random::Random;
use reference::register::Sizes;
use reference::text::MAX_BYTES;

/// The refusal numbers of a line in the order in which they are asked.
const ORDER: [u32; 11] = [7, 8, 9, 10, 11, 12, 24, 25, 13, 14, 15];
/// How many of them a line can have by itself, 8 among them.
const BY_ITSELF: usize = 8;

fn rank(number: u32) -> usize {
    let place = ORDER.iter().position(|one| *one == number);
    place.expect("a line is refused by it")
}

/// A text whose refused line has a fault as well that is asked earlier, and the
/// number of that with its line. The pair is one for a number from 9 on; none if the
/// line has no place for the other fault, or the text would become too long for it.
pub fn lower(
    random: &mut Random,
    sizes: Sizes,
    number: u32,
    pair: &Pair,
) -> Option<(Vec<u8>, (u32, usize))> {
    let mut lines = lines(&pair.refused);
    let line = &mut lines[pair.line - 1];
    let (text, made) = match random.pick(&ORDER[..BY_ITSELF]) {
        8 => out_of_place(line),
        lower if rank(lower) < rank(number) => {
            *line = try_pair(random, lower, sizes, line)?.refused;
            (lines.concat(), (lower, pair.line))
        }
        _ => return None,
    };
    (text.len() <= MAX_BYTES).then_some((text, made))
}

/// The line where it may not stand: in a step, or else outside of all steps.
fn out_of_place(line: &[u8]) -> (Vec<u8>, (u32, usize)) {
    match line.starts_with(b"step") || line.starts_with(b"loop") {
        true => ([b"step\n", line].concat(), (8, 2)),
        false => (line.to_vec(), (8, 1)),
    }
}
