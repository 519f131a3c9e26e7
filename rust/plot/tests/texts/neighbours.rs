//! For each refusal number of a check: inputs that are refused by it, and beside
//! each the nearest input that passes. Both are known by how they are made.

use crate::common::refusal_name;
use crate::compare::{compare, outcome};
use generate::cases::Case;
use generate::neighbours::registers::register_pair;
use generate::neighbours::{lower, pair};
use generate::on_failure::OnFailure;
use generate::random::Random;
use generate::tally::Tally;
use generate::{registers, scraps};

/// Pairs for each number.
const PAIRS: usize = 600;
/// How often each number and each neighbour comes up at least.
const LEAST: u64 = 200;

/// Compares inputs and counts them.
struct Comparison {
    random: Random,
    tally: Tally,
}

impl Comparison {
    fn new(seed: u64) -> Comparison {
        Comparison {
            random: Random::new(seed),
            tally: Tally::default(),
        }
    }

    /// An input that is made to be refused by this number at this line.
    fn refused(&mut self, register: &[u8], text: &[u8], made: (u32, usize)) {
        let refused = compare(&mut self.random, register, text);
        let _failing = OnFailure::new(register).bytes("text", text);
        let refusal = refused.as_ref().expect_err("it is made to be refused");
        assert_eq!((refusal.reason.number(), refusal.line), made);
        self.tally.count(&outcome(&refused));
    }

    /// An input that is made to pass beside one that is refused by this number.
    fn accepted(&mut self, register: &[u8], text: &[u8], number: u32) {
        let accepted = compare(&mut self.random, register, text);
        let _failing = OnFailure::new(register).bytes("text", text);
        assert_eq!(outcome(&accepted), "accepted", "neighbour of {number}");
        self.tally.count(&neighbour_name(number));
    }

    fn require(&self, number: u32) {
        let names = [refusal_name(number), neighbour_name(number)];
        self.tally.require(LEAST, &names);
    }
}

fn neighbour_name(number: u32) -> String {
    format!("neighbour of {number:>2}")
}

#[test]
fn refused_texts_and_their_neighbours_agree() {
    let mut both = Comparison::new(13);
    for number in (6..=15).chain([24, 25]) {
        for _ in 0..PAIRS {
            let (sizes, pair) = pair(&mut both.random, number);
            let register = registers::file(&mut both.random, sizes);
            both.refused(&register, &pair.refused, (number, pair.line));
            both.accepted(&register, &pair.accepted, number);
        }
        both.require(number);
    }
    both.tally.print("refused texts and their neighbours");
}

#[test]
fn lower_number_of_a_line_comes_first() {
    let mut both = Comparison::new(18);
    for number in (9..=15).chain([24, 25]) {
        for _ in 0..2 * PAIRS {
            let (sizes, pair) = pair(&mut both.random, number);
            let register = registers::file(&mut both.random, sizes);
            if let Some((text, made)) = lower(&mut both.random, sizes, number, &pair) {
                both.refused(&register, &text, made);
            }
        }
    }
    both.tally.print("two faults on one line");
    let refusals = [7, 8, 9, 10, 11, 12].map(refusal_name);
    both.tally.require(LEAST, &refusals);
    both.tally.require(LEAST / 4, &[24, 25].map(refusal_name));
}

#[test]
fn refused_registers_and_their_neighbours_agree() {
    let mut both = Comparison::new(14);
    for number in 1..=5 {
        for _ in 0..PAIRS {
            let pair = register_pair(&mut both.random, number);
            let text = Case::new(&mut both.random, pair.sizes).text;
            both.accepted(&pair.accepted, &text, number);
            for text in [text, scraps::format_bytes(&mut both.random)] {
                both.refused(&pair.refused, &text, (number, 0));
            }
        }
        both.require(number);
    }
    both.tally.print("refused registers and their neighbours");
}
