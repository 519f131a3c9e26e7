//! Runs of texts with numbers in metres, beside those of the same texts in
//! centimetres.

use crate::common::refusal_name;
use crate::compare::compare;
use crate::trials::{self, Trial};
use generate::metres::{self, CHANGES};
use generate::random::Random;
use generate::tally::Tally;
use plot::lent;
use reference::register::{Cell, Sizes, encode};

/// Runs of texts that hold a number with a point.
const RUNS: usize = 10_000;
/// Runs that come to something else once a decimal is changed, at least.
const SHOWN: u64 = 500;

/// A trial with another text.
fn with_text(trial: &Trial, text: Vec<u8>) -> Trial {
    Trial {
        text,
        ..trial.clone()
    }
}

#[test]
fn runs_in_metres_and_in_centimetres_agree() {
    let (_, change) = CHANGES
        .into_iter()
        .find(|(name, _)| *name == "decimal changed")
        .expect("it is a change");
    let mut random = Random::new(44);
    let mut tally = Tally::default();
    let mut runs = 0;
    while runs < RUNS {
        let trial = trials::right(&mut random);
        if !metres::has_point(&trial.text) {
            continue;
        }
        runs += 1;
        let left = compare(&mut random, &trial);
        tally.count(&refusal_name(left.number));
        let _failing = trial.on_failure();
        let centimetres = with_text(&trial, metres::in_centimetres(&trial.text));
        let same = compare(&mut random, &centimetres);
        assert_eq!(left.in_common(), same.in_common());
        assert_eq!(left.answer, same.answer);
        let changed = with_text(&trial, metres::changed(&mut random, &trial.text, change));
        let other = compare(&mut random, &changed);
        if other.number == left.number && other.in_common() != left.in_common() {
            tally.count("a decimal shows");
        }
    }
    tally.print("runs of texts in metres");
    tally.require(SHOWN, &[0, 21].map(refusal_name));
    tally.require(SHOWN, &["a decimal shows"]);
}

/// What a rule that stores this number leaves in the cell.
fn stored(number: &str) -> Vec<u8> {
    let sizes = Sizes {
        records: 1,
        references: 0,
        measures: 1,
    };
    let register = encode(sizes, &[Cell::Missing]);
    let text = format!("step\nM[u] := {number}\nend\n");
    let mut buffers = trials::rubbish(&mut Random::new(45), register.len(), 2, 2);
    let mut answer = lent::Answer::default();
    let refusal = lent::run_messages(&register, text.as_bytes(), 1, &mut buffers, &mut answer);
    assert_eq!(refusal, 0, "{number}");
    buffers.output
}

#[test]
fn metres_and_centimetres_are_one_constant() {
    let cell = |value| {
        let sizes = Sizes {
            records: 1,
            references: 0,
            measures: 1,
        };
        encode(sizes, &[Cell::WorkedOut(value)])
    };
    for (number, centimetres) in [
        ("180", 180),
        ("1.80", 180),
        ("1", 1),
        ("1.00", 100),
        ("0.05", 5),
        ("-0.05", -5),
        ("0.00", 0),
        ("21474836.47", i32::MAX),
        ("-21474836.48", i32::MIN),
    ] {
        assert_eq!(stored(number), cell(centimetres), "{number}");
    }
}
