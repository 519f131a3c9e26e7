//! 8: lines out of place, empty loops, and what is not closed.

use super::{Pair, line_of};
use crate::random::Random;
use crate::texts;
use reference::register::Sizes;

/// Sequences of lines by their first letters (`step`, `end`, `loop F`, `done`,
/// and r for a rule): one that is refused, its line that is refused, and its
/// nearest neighbour that passes. A line behind the last means unclosed.
const SEQUENCES: [(&str, usize, &str); 17] = [
    ("r", 1, "sre"),
    ("lserd", 4, "lsred"),
    ("lrsed", 2, "lsred"),
    ("ssee", 2, "sese"),
    ("srsre", 3, "sresre"),
    ("see", 3, "se"),
    ("led", 2, "lsed"),
    ("sled", 2, "lsed"),
    ("srled", 3, "srelsed"),
    ("llsedd", 2, "lsed"),
    ("lselsedd", 4, "lsedlsed"),
    ("lsde", 3, "lsed"),
    ("sed", 3, "se"),
    ("ld", 2, "lsed"),
    ("sr", 3, "sre"),
    ("lsrese", 7, "lsresed"),
    ("lsr", 4, "lsred"),
];

/// A pair for 8: a sequence behind a text, and unless it must be last, before another.
pub fn place(random: &mut Random, sizes: Sizes, text: &[u8]) -> Option<Pair> {
    if sizes.fields() == 0 {
        return None;
    }
    let (refused, line, accepted) = random.pick(&SEQUENCES);
    let behind: &[u8] = match line > refused.len() {
        true => b"",
        false => text,
    };
    let rule = texts::rule(random, sizes);
    let field = sizes.letter(random.below(sizes.fields()));
    let spelled = |sequence: &str| spell(sequence, &rule, char::from(field));
    Some(Pair {
        refused: [text, &spelled(refused), behind].concat(),
        line: line_of(text, text.len()) - 1 + line,
        accepted: [text, &spelled(accepted), behind].concat(),
    })
}

fn spell(sequence: &str, rule: &str, field: char) -> Vec<u8> {
    let line = |letter| match letter {
        's' => "step\n".to_owned(),
        'e' => "end\n".to_owned(),
        'l' => format!("loop {field}\n"),
        'd' => "done\n".to_owned(),
        _ => rule.to_owned(),
    };
    sequence.chars().map(line).collect::<String>().into_bytes()
}
