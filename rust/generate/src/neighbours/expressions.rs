//! 24 and 25: groups 8 and 9 deep, 64 and 65 operators; and 7 for what stands in the
//! place of an operand.

use super::{Pair, some_number, some_place, with_numbers};
use crate::random::Random;
use crate::rule_writer::RuleWriter;
use crate::texts::Shape;
use crate::tokens::around;
use reference::line_check::{MAX_GROUPS, MAX_OPERATORS};
use reference::register::{Kind, Sizes};

/// Expressions that have no form, each with one that has, which has a single tree
/// whatever it is joined with.
const EXPRESSIONS: [(&str, &str); 30] = [
    ("- 1", "-1"),
    ("1 - - 1", "1 - -1"),
    ("1-- 1", "1--1"),
    ("-(1)", "(-1)"),
    ("--1", "-1"),
    ("1 - -0", "1 - 0"),
    ("3--0", "3-0"),
    ("1---1", "1--1"),
    ("(- 1)", "(-1)"),
    ("-M[u]", "1-M[u]"),
    ("+1", "(1)"),
    ("1 + +1", "1 + 1"),
    ("1 <?= 2", "1 <? 2"),
    ("1 += 2", "1 + 2"),
    ("1 + = 2", "1 + 2"),
    ("1 < ? 2", "1 <? 2"),
    ("1 <? <? 2", "1 <? 2"),
    ("(1", "(1)"),
    ("1)", "(1)"),
    ("((1)", "((1))"),
    ("()", "(1)"),
    ("(1)(2)", "(1)-(2)"),
    ("1 (2)", "1 +(2)"),
    ("(1 +)", "(1 + 2)"),
    ("1 2", "12"),
    ("1 0", "10"),
    ("1. 80", "1.80"),
    ("1 + (2 - 1", "1 + (2 - 1)"),
    ("[1]", "(1)"),
    ("1 * 2", "1 + 2"),
];

/// 7: a number makes way for an expression that has no form.
pub fn form(random: &mut Random, text: &[u8]) -> Option<Pair> {
    with_numbers(random, text, &EXPRESSIONS)
}

/// 24: 9 groups or more in each other, and 8.
pub fn groups(random: &mut Random, sizes: Sizes, text: &[u8]) -> Option<Pair> {
    let more = random.pick(&[1, 1, 1, 2, 4, 100]);
    if random.percent(50) {
        let place = some_number(random, text)?;
        let (_, depth) = around(text, place.start);
        let number = &text[place.clone()];
        let with = |groups: usize| {
            let groups = groups - depth.min(groups);
            [&b"(".repeat(groups)[..], number, &b")".repeat(groups)].concat()
        };
        let (refused, accepted) = (with(MAX_GROUPS + more), with(MAX_GROUPS));
        return Some(Pair::replacing(text, place, &refused, &accepted));
    }
    let operators = random.between(0, 20);
    rule(random, sizes, text, |writer, kind| {
        let accepted = writer.expression(kind, operators, MAX_GROUPS);
        let spare = format!("{}{accepted}{}", "(".repeat(more), ")".repeat(more));
        (spare, accepted)
    })
}

/// 25: 65 operators or more in an expression, and 64.
pub fn operators(random: &mut Random, sizes: Sizes, text: &[u8]) -> Option<Pair> {
    let more = random.pick(&[1, 1, 1, 2, 16, 300]);
    if random.percent(50) {
        let place = some_number(random, text)?;
        let (present, _) = around(text, place.start);
        let number = &text[place.clone()];
        let sign: &[u8] = random.pick(&[b" + 1" as &[u8], b" - 1", b" <? 1", b" - (-1)"]);
        let with = |operators: usize| [number, &sign.repeat(operators)].concat();
        let lacking = MAX_OPERATORS.checked_sub(present)?;
        let (refused, accepted) = (with(lacking + more), with(lacking));
        return Some(Pair::replacing(text, place, &refused, &accepted));
    }
    let groups = random.between(0, MAX_GROUPS);
    rule(random, sizes, text, |writer, kind| {
        let accepted = writer.expression(kind, MAX_OPERATORS, groups);
        let mut refused = accepted.clone();
        for _ in 0..more {
            let operator = writer.operator(kind);
            let term = writer.term(kind);
            refused = match writer.random.percent(50) {
                true => format!("{refused} {operator} {term}"),
                false => format!("{term} {operator} {refused}"),
            };
        }
        (refused, accepted)
    })
}

/// A rule more in a text, twice: with a refused and with an accepted expression.
fn rule(
    random: &mut Random,
    sizes: Sizes,
    text: &[u8],
    expressions: impl FnOnce(&mut RuleWriter<'_>, Kind) -> (String, String),
) -> Option<Pair> {
    let behind_step = |place: usize| text[..place].ends_with(b"step\n");
    let place = some_place(random, text, behind_step)?;
    if sizes.fields() == 0 {
        return None;
    }
    let field = random.below(sizes.fields());
    let letter = char::from(sizes.letter(field));
    let shape = Shape {
        hops: 1,
        numbers: 50,
        ..crate::texts::DOCUMENT_01
    };
    let mut writer = RuleWriter::new(random, sizes, shape);
    let kind = sizes.kind(field);
    let (refused, accepted) = expressions(&mut writer, kind);
    let side = writer.term(kind);
    let with = match random.below(4) {
        0 => [
            format!("if {side} < "),
            format!(": {letter}[u] := {side}\n"),
        ],
        1 => [
            "if ".to_owned(),
            format!(" != {side}: {letter}[u] := {side}\n"),
        ],
        2 => [format!("remote {letter}[u] <?= "), "\n".to_owned()],
        _ => [format!("{letter}[u] := "), "\n".to_owned()],
    };
    let line = |expression: String| {
        [&with[0], &expression, &with[1]]
            .map(String::as_str)
            .concat()
    };
    let (refused, accepted) = (line(refused), line(accepted));
    Some(Pair::replacing(
        text,
        place..place,
        refused.as_bytes(),
        accepted.as_bytes(),
    ))
}
