//! Plans of generated steps: from no chain to 128, with shared beginnings and
//! ends, on both sides of 64 lines.

use crate::common::refusal_name;
use crate::compare::{compare, plan};
use generate::random::Random;
use generate::tally::Tally;
use generate::{neighbours, registers, texts};
use reference::program::{Program, Step};
use reference::refusal::{Reason, Refusal};
use reference::register::{MAX_FIELDS, Sizes};

/// Generated steps whose plans are compared.
const STEPS: u64 = 24_000;
/// How often each number of lines and of hops comes up at least.
const LEAST: u64 = 200;
/// How often the rare ends of a range come up at least.
const LEAST_AT_ENDS: u64 = 20;

/// Sizes with a reference field, so that chains may have any number of hops.
fn sizes(random: &mut Random) -> Sizes {
    Sizes {
        records: random.between(0, 3),
        references: random.between(1, MAX_FIELDS),
        measures: random.between(0, MAX_FIELDS),
    }
}

/// Counts what a step that passes holds.
fn count(tally: &mut Tally, step: &Step) {
    let chains = step.rules.iter().flat_map(|rule| rule.chains());
    let mut read = 0;
    for chain in chains {
        tally.count(&format!("hops {:>2}", chain.word.fields().len()));
        read += 1;
    }
    tally.count("steps");
    tally.count(match read {
        0 => "chains 0",
        1..=31 => "chains 1 to 31",
        32..=127 => "chains 32 to 127",
        _ => "chains 128",
    });
    tally.count(match step.rules.len() {
        1 => "rules 1",
        2..=31 => "rules 2 to 31",
        _ => "rules 32",
    });
    tally.count(match step.plan.lines().len() {
        0 => "lines 0",
        1..=31 => "lines 1 to 31",
        32..=63 => "lines 32 to 63",
        _ => "lines 64",
    });
    tally.count(&format!("rounds {}", step.plan.rounds()));
    tally.count(match step.has_remote() {
        true => "remote exchange",
        false => "no remote exchange",
    });
}

/// The steps of a text, or its refusal.
fn count_text(tally: &mut Tally, program: &Result<Program, Refusal>) {
    match program {
        Ok(program) => program.steps().for_each(|step| count(tally, step)),
        Err(refusal) => tally.count(&refusal_name(refusal.reason.number())),
    }
}

#[test]
fn plans_agree() {
    let mut random = Random::new(15);
    let mut tally = Tally::default();
    while tally.of("steps") < STEPS {
        let sizes = sizes(&mut random);
        let register = registers::file(&mut random, sizes);
        let text = match random.below(20) {
            0 => neighbours::full_step(&mut random, sizes).unwrap_or_default(),
            _ => {
                let shape = texts::plan_shape(&mut random);
                texts::text(&mut random, sizes, shape)
            }
        };
        let program = compare(&mut random, &register, &text);
        count_text(&mut tally, &program);
    }
    tally.print("generated steps");
    let hops: Vec<String> = (0..=16).map(|hops| format!("hops {hops:>2}")).collect();
    tally.require(LEAST, &hops);
    tally.require(LEAST, &["chains 0", "chains 1 to 31", "chains 32 to 127"]);
    tally.require(LEAST, &["rules 1", "rules 2 to 31", "rules 32"]);
    tally.require(
        LEAST,
        &["lines 0", "lines 1 to 31", "lines 32 to 63", "lines 64"],
    );
    tally.require(
        LEAST,
        &["rounds 0", "rounds 2", "rounds 3", "rounds 4", "rounds 5"],
    );
    tally.require(
        LEAST,
        &["remote exchange", "no remote exchange", "refusal 15"],
    );
    tally.require(LEAST_AT_ENDS, &["chains 128"]);
}

#[test]
fn steps_that_are_not_there_are_17_behind_all_else() {
    let mut random = Random::new(16);
    let mut tally = Tally::default();
    for _ in 0..4_000 {
        let sizes = registers::sizes(&mut random);
        let register = registers::file(&mut random, sizes);
        let shape = texts::shape(&mut random);
        let text = texts::text(&mut random, sizes, shape);
        let program = reference::text::check(&register, &text);
        let steps = program
            .as_ref()
            .map_or(0, |program| program.steps().count() as u64);
        let far = [
            u64::MAX,
            1 << 63,
            1 << 32,
            (1 << 32) + 1,
            (1 << 16) + 1,
            257,
        ];
        for step in [
            0,
            steps + 1,
            steps + 2,
            random.pick(&far),
            random.number() | 64,
        ] {
            let refusal = match &program {
                Ok(_) => Reason::NoSuchStep.into(),
                Err(refusal) => *refusal,
            };
            tally.count(&refusal_name(refusal.reason.number()));
            plan(&mut random, &register, &text, step, Err(refusal));
        }
    }
    tally.print("plans of steps that are not there");
    tally.require(LEAST, &["refusal 15", "refusal 17"]);
}
