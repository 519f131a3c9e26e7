//! Texts of every shape, mutations of every accepted one, and texts of random
//! bytes and lines.

use crate::common::refusal_name;
use crate::compare::{compare, outcome};
use crate::forms;
use generate::mutations::{self, MUTATIONS};
use generate::random::Random;
use generate::tally::Tally;
use generate::{damage, registers, scraps, texts};
use reference::register::Sizes;

/// Accepted texts, each of which comes back once for each mutation, and with several.
const ACCEPTED: usize = 20_000;
/// Texts of any bytes, of bytes of the format, and of lines in any order, each.
const SCRAPS: usize = 8_000;
/// The fewest texts of all.
const TEXTS: u64 = 100_000;
/// How often each outcome and each form comes up at least.
const LEAST: u64 = 200;

/// A small register that loads.
fn register(random: &mut Random) -> (Sizes, Vec<u8>) {
    let sizes = registers::sizes(random);
    (sizes, registers::file(random, sizes))
}

/// Compares a text and counts what came of it.
fn count(random: &mut Random, tally: &mut Tally, register: &[u8], text: &[u8]) -> bool {
    let program = compare(random, register, text);
    tally.count("texts");
    tally.count(&outcome(&program));
    program.is_ok()
}

#[test]
fn texts_and_their_mutations_agree() {
    let mut random = Random::new(10);
    let mut tally = Tally::default();
    let mut accepted = 0;
    while accepted < ACCEPTED {
        let (sizes, register) = register(&mut random);
        let shape = texts::shape(&mut random);
        let text = texts::text(&mut random, sizes, shape);
        let Ok(program) = compare(&mut random, &register, &text) else {
            continue;
        };
        accepted += 1;
        tally.count("texts");
        tally.count("accepted");
        forms::count(&mut tally, &program, &sizes);
        for (name, mutate) in MUTATIONS {
            let mutated = mutate(&mut random, &text);
            match count(&mut random, &mut tally, &register, &mutated) {
                true => tally.count(&format!("{name}, accepted")),
                false => tally.count(&format!("{name}, refused")),
            }
        }
        let mutated = mutations::several(&mut random, &text);
        count(&mut random, &mut tally, &register, &mutated);
    }
    tally.print("accepted texts and their mutations");
    tally.require(TEXTS, &["texts"]);
    tally.require(LEAST, &forms::FORMS);
    for (name, _) in MUTATIONS {
        tally.require(
            LEAST,
            &["accepted", "refused"].map(|what| format!("{name}, {what}")),
        );
    }
    tally.require(LEAST, &[7, 8, 9, 10].map(refusal_name));
}

#[test]
fn random_bytes_and_lines_agree() {
    let mut random = Random::new(11);
    let mut tally = Tally::default();
    for _ in 0..SCRAPS {
        let (sizes, register) = register(&mut random);
        let scraps = [
            scraps::any_bytes(&mut random),
            scraps::format_bytes(&mut random),
            scraps::any_lines(&mut random, sizes),
        ];
        for text in scraps {
            count(&mut random, &mut tally, &register, &text);
        }
    }
    tally.print("texts of random bytes and lines");
    tally.require(LEAST, &["accepted"]);
    tally.require(LEAST, &[6, 7, 8, 9].map(refusal_name));
}

#[test]
fn damaged_registers_come_before_any_text() {
    let mut random = Random::new(12);
    let mut tally = Tally::default();
    for _ in 0..SCRAPS {
        let (sizes, mut register) = register(&mut random);
        damage::damage(&mut random, sizes, &mut register);
        let text = match random.percent(50) {
            true => scraps::any_lines(&mut random, sizes),
            false => {
                let shape = texts::shape(&mut random);
                texts::text(&mut random, sizes, shape)
            }
        };
        count(&mut random, &mut tally, &register, &text);
    }
    tally.print("texts for damaged registers");
    tally.require(LEAST, &[1, 2, 3, 4, 5, 8].map(refusal_name));
}
