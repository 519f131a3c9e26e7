//! Generated runs by both machines.

use crate::common::refusal_name;
use crate::compare::{Left, compare};
use crate::trials::{self, Trial};
use generate::random::Random;
use generate::tally::Tally;
use plot::lent;
use reference::apply::OutOfRange;
use reference::marks::Transition;
use reference::text::MAX_STEPS;

/// Runs of texts that pass, by each machine.
const RUNS: usize = 50_000;
/// How often each of 18 to 21 comes up at least.
const LEAST: u64 = 500;
/// More steps finished than a text can have.
const REPEATED: &str = "a loop repeated";
/// A gap left what an earlier rule of its step had stored.
const KEPT: &str = "a gap left what its step had stored";

/// 21 where two places or more are out of range; of these, what they are; and
/// those where another record has an earlier field among the totals.
const SEVERAL: &str = "21 with several places";
const SUMS: &str = "21 with several sums alone";
const TOTALS: &str = "21 with several totals alone";
const BOTH: &str = "21 with sums and totals";
const EARLIER_FIELD: &str = "21 with an earlier field";

/// What offends in a run that ended in 21 with two places or more.
fn offences(left: &Left) -> Vec<&'static str> {
    let OutOfRange { sums, totals } = &left.outside;
    let first = sums.first();
    let several_sums = sums.iter().any(|place| Some(place) != first);
    let kind = match (sums.is_empty(), totals.len()) {
        (true, 0 | 1) => return Vec::new(),
        (true, _) => TOTALS,
        (false, 0) if !several_sums => return Vec::new(),
        (false, 0) => SUMS,
        (false, _) => BOTH,
    };
    let mut found = vec![SEVERAL, kind];
    let field = totals.iter().map(|place| place.field).min();
    if kind == TOTALS && field < Some(left.answer[lent::FIELD] as usize) {
        found.push(EARLIER_FIELD);
    }
    found
}

/// Compares so many trials, and counts and prints what came of them.
fn tallied(title: &str, seed: u64, runs: usize, trial: fn(&mut Random) -> Trial) -> Tally {
    let mut random = Random::new(seed);
    let mut tally = Tally::default();
    for _ in 0..runs {
        let trial = trial(&mut random);
        let left = compare(&mut random, &trial);
        tally.count("runs");
        tally.count(&refusal_name(left.number));
        if left.answer[lent::FINISHED] > MAX_STEPS as u64 {
            tally.count(REPEATED);
        }
        if left.kept > 0 {
            tally.count(KEPT);
        }
        for (transition, name) in Transition::ALL {
            if left.transitions.of(transition) > 0 {
                tally.count(name);
            }
        }
        for found in offences(&left) {
            tally.count(found);
        }
        tally.count(match left.answer[lent::LETTERS] {
            0 => "letters 0",
            1..100 => "letters 1 to 99",
            100..10_000 => "letters 100 to 9,999",
            _ => "letters 10,000 and more",
        });
    }
    tally.print(title);
    tally
}

#[test]
fn runs_agree() {
    let tally = tallied("runs", 40, RUNS, trials::right);
    tally.require(RUNS as u64, &["runs"]);
    tally.require(LEAST, &[0, 20, 21].map(refusal_name));
    tally.require(LEAST, &["letters 1 to 99", "letters 100 to 9,999"]);
    tally.require(100, &["letters 10,000 and more", REPEATED]);
}

/// What rules make of marks, each transition in many runs.
#[test]
fn runs_over_marks_agree() {
    let tally = tallied("runs over marks", 107, 10_000, trials::with_marks);
    tally.require(LEAST, &Transition::ALL.map(|(_, name)| name));
    tally.require(LEAST, &[0, 20].map(refusal_name));
}

#[test]
fn runs_over_gaps_agree() {
    let tally = tallied("runs over gaps", 44, 10_000, trials::with_gaps);
    tally.require(5_000, &[KEPT]);
    tally.require(1_000, &[0, 21].map(refusal_name));
}

#[test]
fn the_first_overflow_is_named() {
    let title = "runs out of range";
    let tally = tallied(title, 46, 24_000, trials::out_of_range);
    tally.require(5_000, &[SEVERAL]);
    tally.require(LEAST, &[SUMS, TOTALS, BOTH, EARLIER_FIELD]);
}

#[test]
fn runs_of_large_registers_agree() {
    let tally = tallied("runs of 4,096 records", 43, 300, trials::large);
    tally.require(20, &[0, 20, 21].map(refusal_name));
    tally.require(20, &["letters 10,000 and more"]);
}

#[test]
fn buffers_of_other_lengths_are_refused() {
    let title = "runs with buffers of any lengths";
    let tally = tallied(title, 41, 4_000, trials::of_any_lengths);
    tally.require(LEAST, &[18, 19].map(refusal_name));
}

#[test]
fn damaged_registers_and_texts_come_first() {
    let title = "runs of damaged registers and texts";
    let tally = tallied(title, 42, 8_000, trials::damaged);
    let refusals: Vec<String> = (1..=15).chain([24, 25]).map(refusal_name).collect();
    tally.require(50, &refusals);
    tally.require(LEAST, &[18].map(refusal_name));
}
