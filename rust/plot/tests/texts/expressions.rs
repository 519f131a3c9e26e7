//! Texts with expressions (M-105 of document 02): each line of the paper by itself,
//! generated texts in every spacing, changes around every token, and each refusal
//! number with its nearest neighbour.

use crate::common::refusal_name;
use crate::compare::{compare, outcome};
use crate::edges::in_step;
use generate::cases::Case;
use generate::neighbours::{expression_pair, lower};
use generate::on_failure::OnFailure;
use generate::random::Random;
use generate::tally::Tally;
use generate::tokens::{CHANGES, changed, respaced, tokens};
use generate::written::expressions;
use generate::{registers, texts};
use reference::program::Program;
use reference::refusal::Refusal;

/// The fewest texts of all.
const TEXTS: u64 = 200_000;
/// Generated texts, as they are made and in another spacing.
const GENERATED: usize = 40_000;
/// Texts with a change around a token.
const CHANGED: u64 = 130_000;
/// Pairs for each number.
const PAIRS: usize = 600;
/// How often each outcome comes up at least.
const LEAST: u64 = 200;

/// A test for each expression of measures: its refusal wherever one may stand, 0 if
/// it passes.
macro_rules! expressions {
    ($($name:ident: $expression:expr => $refusal:expr,)*) => {
        $(
            #[test]
            fn $name() {
                let expression = $expression;
                for line in [
                    format!("M[u] := {expression}"),
                    format!("remote M[A[u]] += {expression}"),
                    format!("remote M[u] <?= {expression}"),
                    format!("if {expression} < N[u]: M[u] := 1"),
                    format!("if 1 == {expression}: A[u] := u"),
                    format!("if M[u] != {expression}: remote N[A[u]] += 5"),
                ] {
                    assert_eq!(in_step(&line), $refusal, "{line}");
                }
            }
        )*
    };
}

expressions! {
    minus_twice: "1--1" => 0,
    minus_and_number_below_zero: "1 - -1" => 0,
    minus_tight: "1-1" => 0,
    number_below_zero_in_a_group: "(-1)" => 0,
    minus_before_a_number_is_the_operator: "3 -5" => 0,
    minus_zero_behind_an_operand: "3-0" => 0,
    minus_apart_from_its_digits: "- 1" => 7,
    second_minus_apart_from_its_digits: "1 - - 1" => 7,
    minus_before_a_group: "-(1)" => 7,
    two_minuses_before_a_number: "--1" => 7,
    minus_and_zero: "1 - -0" => 7,
    minus_before_a_chain: "-M[u]" => 7,
    sign_of_a_remote_write: "1 <?= 2" => 7,
    plus_and_equals: "1 + = 2" => 7,
    smaller_with_a_space_in_it: "1 < ? 2" => 7,
    group_unclosed: "(1" => 7,
    group_unopened: "1)" => 7,
    group_of_nothing: "()" => 7,
    groups_side_by_side: "(1)(2)" => 7,
    groups_8: format!("{}1{}", "(".repeat(8), ")".repeat(8)) => 0,
    groups_9: format!("{}1{}", "(".repeat(9), ")".repeat(9)) => 24,
    groups_3000: format!("{}1{}", "(".repeat(3000), ")".repeat(3000)) => 24,
    groups_9_unclosed: format!("{}1{}", "(".repeat(9), ")".repeat(8)) => 7,
    groups_9_around_a_wrong_letter: format!("{}O[Z[u]]{}", "(".repeat(9), ")".repeat(9)) => 9,
    groups_9_around_a_reference: format!("{}1 <? u{}", "(".repeat(9), ")".repeat(9)) => 10,
    groups_9_around_a_large_number: format!("{}2147483648{}", "(".repeat(9), ")".repeat(9)) => 12,
    operators_64: format!("1{}", " + 1".repeat(64)) => 0,
    operators_65: format!("1{}", " + 1".repeat(65)) => 25,
    operators_3000: format!("1{}", "+1".repeat(3000)) => 25,
    operators_64_in_two_groups: format!("(1{}) - (1{})", " + 1".repeat(32), " <? 1".repeat(31)) => 0,
    operators_65_in_two_groups: format!("(1{}) - (1{})", " + 1".repeat(32), " <? 1".repeat(32)) => 25,
    operators_65_and_groups_9: format!("1{} + {}1{}", " + 1".repeat(65), "(".repeat(9), ")".repeat(9)) => 24,
}

#[test]
fn words_keep_a_space_and_lines_none_at_their_ends() {
    for (line, refusal) in [
        ("if(1) < 2: M[u] := 1", 7),
        ("if (1) < 2: M[u] := 1", 0),
        ("if 1 < 2:remote M[u]+=1", 0),
        ("remoteM[u] += 1", 7),
        ("remote  M [ u ]+=1", 0),
        ("M [ A [u ] ] := 1", 7),
        ("M [ u ] := M [ A [u ] ]", 0),
        ("M[u] := 1 ", 7),
        (" M[u] := 1", 7),
        ("M[u]:=1", 0),
        ("M[u] :=\t1", 7),
        ("if 1 < 2 < 3: M[u] := 1", 7),
        ("A[u] := u <? A[u]", 0),
        ("A[u] := u + A[u]", 10),
        ("if u <? A[u] == (u): M[u] := 1", 0),
    ] {
        assert_eq!(in_step(line), refusal, "{line}");
    }
}

/// Counts what came of a text.
fn count(tally: &mut Tally, program: &Result<Program, Refusal>) {
    tally.count("texts");
    tally.count(&outcome(program));
}

/// Counts how the expressions of a text are written: groups, operators, kinds, spaces.
fn count_forms(tally: &mut Tally, text: &[u8]) {
    for written in text.split(|&byte| byte == b'\n').flat_map(expressions) {
        tally.count(&depth_name(written.depth()));
        tally.count(&operators_name(written.operators()));
        tally.count(match written.is_reference() {
            true => "of references",
            false => "of measures",
        });
        if written.has_spare_brackets() {
            tally.count("spare brackets");
        }
    }
    let gaps = text.split(|&byte| byte != b' ').map(<[u8]>::len);
    let widest = gaps.max().unwrap_or(0).min(5);
    tally.count(&gap_name(widest));
}

fn depth_name(depth: usize) -> String {
    format!("groups {depth:>2} deep")
}

fn operators_name(operators: usize) -> String {
    format!("operators {operators:>2}")
}

/// The widest gap of a text; 5 and more are one.
fn gap_name(spaces: usize) -> String {
    format!("at most {spaces} spaces")
}

#[test]
fn texts_with_expressions_agree() {
    let mut random = Random::new(60);
    let mut tally = Tally::default();
    for _ in 0..GENERATED {
        let sizes = registers::sizes(&mut random);
        let register = registers::file(&mut random, sizes);
        let shape = texts::expression_shape(&mut random);
        let text = texts::text(&mut random, sizes, shape);
        let plain = compare(&mut random, &register, &text);
        count(&mut tally, &plain);
        let spaced = respaced(&mut random, &text);
        let again = compare(&mut random, &register, &spaced);
        count(&mut tally, &again);
        count_forms(&mut tally, &text);
        count_forms(&mut tally, &spaced);
        if plain != again {
            tally.count("the spacing shows");
        }
    }
    while tally.of("changed") < CHANGED {
        let case = Case::with_expressions(&mut random);
        for token in tokens(&case.text) {
            let (name, change) = random.pick(&CHANGES);
            let text = changed(&mut random, &case.text, token, change);
            let program = compare(&mut random, &case.register, &text);
            count(&mut tally, &program);
            tally.count("changed");
            tally.count(&format!("{name}, {}", program.is_ok()));
        }
    }
    tally.print("texts with expressions");
    tally.require(TEXTS, &["texts"]);
    tally.require(LEAST, &["accepted"]);
    tally.require(LEAST, &[6, 7, 9, 10, 24, 25].map(refusal_name));
    tally.require(1_000, &["of references", "of measures", "spare brackets"]);
    tally.require(1_000, &[1, 2, 3, 4, 5].map(gap_name));
    tally.require(1_000, &(0..=12).map(depth_name).collect::<Vec<_>>());
    tally.require(LEAST / 4, &(0..=80).map(operators_name).collect::<Vec<_>>());
    let changes = CHANGES.map(|(name, _)| [true, false].map(|passes| format!("{name}, {passes}")));
    tally.require(LEAST / 4, &changes.concat());
}

#[test]
fn refused_texts_with_expressions_and_their_neighbours_agree() {
    let mut random = Random::new(61);
    let mut tally = Tally::default();
    for number in (6..=15).chain([24, 25]) {
        for _ in 0..PAIRS {
            let (sizes, pair) = expression_pair(&mut random, number);
            let register = registers::file(&mut random, sizes);
            let refused = compare(&mut random, &register, &pair.refused);
            let accepted = compare(&mut random, &register, &pair.accepted);
            let _failing = OnFailure::new(&register).bytes("text", &pair.refused);
            let refusal = refused.expect_err("it is made to be refused");
            assert_eq!((refusal.reason.number(), refusal.line), (number, pair.line));
            assert!(accepted.is_ok(), "neighbour of {number}");
            tally.count(&refusal_name(number));
            if number < 9 {
                continue;
            }
            if let Some((text, made)) = lower(&mut random, sizes, number, &pair) {
                let refused = compare(&mut random, &register, &text);
                let refusal = refused.expect_err("it has two faults");
                assert_eq!((refusal.reason.number(), refusal.line), made);
                tally.count(&format!("{} before {number}", made.0));
            }
        }
    }
    tally.print("refused texts with expressions");
    tally.require(LEAST, &[24, 25].map(refusal_name));
    let before = ["7", "8", "9", "10", "11", "12"];
    tally.require(10, &before.map(|number| format!("{number} before 24")));
    tally.require(10, &before.map(|number| format!("{number} before 25")));
    let between = [
        "24 before 25",
        "24 before 13",
        "25 before 13",
        "24 before 14",
        "25 before 14",
    ];
    tally.require(1, &between);
}
