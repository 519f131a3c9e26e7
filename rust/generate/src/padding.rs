//! Texts filled up to an exact length with steps that need no plan line.

use crate::random::Random;
use reference::register::{Kind, Sizes};

/// The bytes of `step` and `end`.
const STEP_BYTES: usize = 9;
/// The bytes of the shortest rule that pads, and those that its two numbers can add.
const RULE_BYTES: usize = 20;
const MORE_BYTES: usize = 20;
/// The most rules of a step that pads; more would be 13.
const MAX_RULES: usize = 32;

/// Adds steps to a text until it has this length. None if it is too long, or so
/// near that no step has the bytes it lacks, or if the register has no field.
pub fn pad(random: &mut Random, sizes: Sizes, text: &[u8], length: usize) -> Option<Vec<u8>> {
    let mut lacking = length.checked_sub(text.len())?;
    let mut padded = text.to_vec();
    if sizes.fields() == 0 || lacking < STEP_BYTES + RULE_BYTES {
        return None;
    }
    let full = STEP_BYTES + MAX_RULES * (RULE_BYTES + MORE_BYTES);
    while lacking > full {
        let bytes = (lacking - STEP_BYTES - RULE_BYTES).min(full);
        let bytes = random.between(bytes.min(1000), bytes);
        padded.extend(step(random, sizes, bytes));
        lacking -= bytes;
    }
    padded.extend(step(random, sizes, lacking));
    Some(padded)
}

/// A step of so many bytes, as few rules as they fit.
fn step(random: &mut Random, sizes: Sizes, bytes: usize) -> Vec<u8> {
    let mut lacking = bytes - STEP_BYTES;
    let mut rules = lacking.div_ceil(RULE_BYTES + MORE_BYTES);
    let mut step = b"step\n".to_vec();
    while rules > 0 {
        rules -= 1;
        let least = lacking.saturating_sub(rules * (RULE_BYTES + MORE_BYTES));
        let most = (RULE_BYTES + MORE_BYTES).min(lacking - rules * RULE_BYTES);
        let bytes = random.between(least.max(RULE_BYTES), most);
        step.extend(rule(random, sizes, bytes - RULE_BYTES).bytes());
        lacking -= bytes;
    }
    step.extend(b"end\n");
    step
}

/// `if X < Y: F[u] := u`, or a digit in place of the last `u`, with so many
/// bytes more than the shortest one.
fn rule(random: &mut Random, sizes: Sizes, more: usize) -> String {
    let field = random.below(sizes.fields());
    let stored = match sizes.kind(field) {
        Kind::Reference => 'u',
        Kind::Measure => random.pick(&['0', '1', '9']),
    };
    let left = random.between(
        more.saturating_sub(MORE_BYTES / 2),
        more.min(MORE_BYTES / 2),
    );
    let x = number(random, left + 1);
    let y = number(random, more - left + 1);
    format!(
        "if {x} < {y}: {}[u] := {stored}\n",
        char::from(sizes.letter(field))
    )
}

/// A number in range of so many bytes, from 1 to 11.
fn number(random: &mut Random, bytes: usize) -> String {
    match bytes {
        1 => random.below(10).to_string(),
        11 => (-1_000_000_000 - random.below(1_147_483_649) as i64).to_string(),
        _ if random.percent(50) => format!("-{}", digits(random, bytes - 1)),
        10 => (1_000_000_000 + random.below(1_147_483_648)).to_string(),
        _ => digits(random, bytes),
    }
}

/// A number of so many digits, from 1 to 9, the first of them not 0.
fn digits(random: &mut Random, count: usize) -> String {
    let least = 10_usize.pow(count as u32 - 1);
    random.between(least, 10 * least - 1).to_string()
}
