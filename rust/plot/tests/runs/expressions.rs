//! Runs of texts with expressions (M-105 of document 02), with 21 from each place where
//! a sum is checked.

use crate::common::refusal_name;
use crate::compare::compare;
use crate::trials;
use generate::offences::{Fate, Stands, offences};
use generate::random::Random;
use generate::tally::Tally;
use plot::lent;
use reference::register::Register;
use reference::text::read_text;

/// Runs of texts with expressions of any length and depth.
const RUNS: usize = 30_000;
/// Runs of one step whose sums are mostly out of range.
const NEAR_THE_RANGE: usize = 30_000;
const _: () = assert!(RUNS + NEAR_THE_RANGE >= 50_000);
/// How often 21 comes from each place at least, and from no other in that step.
const LEAST: u64 = 300;

#[test]
fn runs_with_expressions_agree() {
    let mut random = Random::new(62);
    let mut tally = Tally::default();
    for _ in 0..RUNS {
        let trial = trials::with_expressions(&mut random);
        let left = compare(&mut random, &trial);
        tally.count("runs");
        tally.count(&refusal_name(left.number));
        tally.count(match left.answer[lent::LETTERS] {
            0 => "no letters",
            _ => "letters",
        });
    }
    tally.print("runs with expressions");
    tally.require(500, &[0, 20, 21].map(refusal_name));
    tally.require(500, &["letters"]);
}

#[test]
fn sums_out_of_range_agree() {
    let mut random = Random::new(63);
    let mut tally = Tally::default();
    for _ in 0..NEAR_THE_RANGE {
        let trial = trials::near_the_range(&mut random);
        let left = compare(&mut random, &trial);
        let _failing = trial.on_failure();
        tally.count("runs");
        tally.count(&refusal_name(left.number));
        let register = Register::load(&trial.register).expect("it loads");
        let program = read_text(&trial.text, &register.sizes).expect("it passes");
        let sums = offences(program.step(1).expect("it has a step"), &register);
        let Some(first) = sums.first() else {
            continue;
        };
        let named = [lent::RECORD, lent::FIELD].map(|place| left.answer[place] as usize);
        assert_eq!((left.number, named), (21, [first.record, first.field]));
        if sums.iter().all(|one| one.fate == first.fate) {
            tally.count(&format!("{:?}", first.fate));
        }
        if sums.iter().all(|one| one.stands == first.stands) {
            tally.count(&format!("{:?}", first.stands));
        }
    }
    tally.print("where alone sums are out of range");
    let fates = [
        Fate::Outside,
        Fate::Unfilled,
        Fate::BroughtBack,
        Fate::Losing,
    ];
    tally.require(LEAST, &fates.map(|fate| format!("{fate:?}")));
    let stands = [
        Stands::Local,
        Stands::TestHolds,
        Stands::TestFails,
        Stands::OtherSideUnfilled,
        Stands::OwnSideUnfilled,
        Stands::AmountTargetFilled,
        Stands::AmountTargetUnfilled,
    ];
    tally.require(LEAST, &stands.map(|stands| format!("{stands:?}")));
}
