//! 6, 13 and 14: how much a text and a step may hold, and one sort of remote
//! write to a field.

use super::{Pair, some_step};
use crate::mutations::lines;
use crate::padding::pad;
use crate::random::Random;
use reference::register::{Kind, Sizes};
use reference::text::{MAX_BYTES, MAX_RULES, MAX_STEPS};

/// 6: a text that is right but too long, by one byte or by more, and one of
/// 8,192 bytes.
pub fn length(random: &mut Random, sizes: Sizes, text: &[u8]) -> Option<Pair> {
    let accepted = pad(random, sizes, text, MAX_BYTES)?;
    let longer = MAX_BYTES + random.pick(&[1, 1, 1, 2, 8192]);
    let refused = match random.percent(70) {
        true => pad(random, sizes, text, longer)?,
        false => [&accepted[..], &random.bytes(longer - MAX_BYTES)].concat(),
    };
    Some(Pair {
        refused,
        line: 0,
        accepted,
    })
}

/// 13: 33 steps and 32, or 33 rules in a step and 32.
pub fn counts(random: &mut Random, sizes: Sizes, text: &[u8]) -> Option<Pair> {
    match random.percent(50) {
        true => steps(random, text),
        false => rules(random, sizes, text),
    }
}

/// Empty steps are put before others, or behind the last part.
fn steps(random: &mut Random, text: &[u8]) -> Option<Pair> {
    let mut accepted = lines(text);
    let is_step = |line: &Vec<u8>| line == b"step\n";
    let present = accepted.iter().filter(|line| is_step(line)).count();
    for _ in 0..MAX_STEPS.checked_sub(present)? {
        insert_step(random, &mut accepted);
    }
    let mut refused = accepted.clone();
    insert_step(random, &mut refused);
    let mut begins = (0..refused.len()).filter(|&line| is_step(&refused[line]));
    Some(Pair {
        line: begins.nth(MAX_STEPS)? + 1,
        refused: refused.concat(),
        accepted: accepted.concat(),
    })
}

fn insert_step(random: &mut Random, lines: &mut Vec<Vec<u8>>) {
    let mut places: Vec<usize> = vec![lines.len()];
    places.extend((0..lines.len()).filter(|&line| lines[line] == b"step\n"));
    let place = random.pick(&places);
    lines.splice(place..place, [b"step\n".to_vec(), b"end\n".to_vec()]);
}

fn rules(random: &mut Random, sizes: Sizes, text: &[u8]) -> Option<Pair> {
    let mut accepted = lines(text);
    let step = some_step(random, &accepted)?;
    for count in step.len()..MAX_RULES {
        let rule = short_rule(random, sizes)?;
        accepted.insert(random.between(step.start, step.start + count), rule);
    }
    let mut refused = accepted.clone();
    let place = random.between(step.start, step.start + MAX_RULES);
    refused.insert(place, short_rule(random, sizes)?);
    Some(Pair {
        refused: refused.concat(),
        line: step.start + MAX_RULES + 1,
        accepted: accepted.concat(),
    })
}

/// A rule that needs no plan line; none without fields.
fn short_rule(random: &mut Random, sizes: Sizes) -> Option<Vec<u8>> {
    let field = random.below(sizes.fields().max(1));
    let letter = char::from(sizes.letter(field));
    let stored = match sizes.kind(field) {
        Kind::Reference => "u",
        Kind::Measure => "7",
    };
    (sizes.fields() > 0).then(|| format!("{letter}[u] := {stored}\n").into_bytes())
}

/// 14: two remote writes to a field in one step, of two sorts and of the same.
pub fn sorts(random: &mut Random, sizes: Sizes, text: &[u8]) -> Option<Pair> {
    let mut first_only = lines(text);
    let step = some_step(random, &first_only)?;
    let field = b'M' + random.below(sizes.measures.max(1)) as u8;
    sizes.field(field)?;
    let [same, other] = random.pick(&[["+=", "<?="], ["<?=", "+="]]);
    let first = random.between(step.start, step.end);
    first_only.insert(first, remote(random, sizes, field, same));
    let second = first_only[..random.between(first + 1, step.end + 1)]
        .concat()
        .len();
    let text = first_only.concat();
    let refused = remote(random, sizes, field, other);
    let accepted = remote(random, sizes, field, same);
    Some(Pair::replacing(&text, second..second, &refused, &accepted))
}

/// A remote write of a sort to a field, which is a measure.
fn remote(random: &mut Random, sizes: Sizes, field: u8, sort: &str) -> Vec<u8> {
    let field = char::from(field);
    let target = match sizes.references > 0 && random.percent(50) {
        true => "A[u]",
        false => "u",
    };
    let test = random.pick(&["", "if 1 < 2: ", "if u != u: "]);
    format!("{test}remote {field}[{target}] {sort} 5\n").into_bytes()
}
