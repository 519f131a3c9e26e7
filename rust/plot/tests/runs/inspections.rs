//! Inspections: every place of both buffers, for every step and every t.

use crate::common::{any_answer, refusal_name, refused};
use crate::trials::{self, rubbish};
use generate::cases::Case;
use generate::random::Random;
use generate::registers;
use generate::tally::Tally;
use plot::lent::{self, Answer, RunBuffers};
use reference::messages::inspect;
use reference::refusal::Refusal;
use reference::register::Register;

/// Inspections that are not refused.
const SHOWN: u64 = 40_000;
/// How often each refusal and each sort of t comes up at least.
const LEAST: u64 = 500;

/// Steps that no text has.
const FAR: [u64; 5] = [33, 257, (1 << 16) + 1, (1 << 32) + 1, u64::MAX];

/// An input of an inspection.
struct Look<'a> {
    register: &'a [u8],
    text: &'a [u8],
    step: u64,
    t: u16,
}

impl Look<'_> {
    /// Inspects by both with buffers like these, and counts what came of it. Gives
    /// the refusal number.
    fn compare(&self, random: &mut Random, tally: &mut Tally, before: &RunBuffers) -> u32 {
        let _failing = trials::on_failure(self.register, self.text, before)
            .number("step", self.step)
            .number("t", self.t);
        let (mut buffers, mut expected) = (before.clone(), before.clone());
        let found = self.by_library(random, &mut buffers);
        let shown = match self.by_reference(&mut expected) {
            Err(refusal) => {
                assert_eq!(found, refused(refusal));
                0
            }
            Ok(lines) => {
                assert_eq!(found, answered(lines));
                lines * self.records()
            }
        };
        assert_eq!(buffers, expected);
        assert_eq!(buffers.values[shown..], before.values[shown..]);
        assert_eq!(buffers.marks[shown..], before.marks[shown..]);
        let sent = buffers.marks[..shown].iter().filter(|&&mark| mark == 1);
        let sent = sent.count() as u64;
        tally.count("inspections");
        tally.count(&refusal_name(found.0));
        tally.add("places: a letter", sent);
        tally.add("places: no letter", shown as u64 - sent);
        tally.add("places: left", (buffers.marks.len() - shown) as u64);
        found.0
    }

    /// n of a register that loads.
    fn records(&self) -> usize {
        let register = Register::load(self.register).expect("it loads");
        register.sizes.records
    }

    fn by_reference(&self, buffers: &mut RunBuffers) -> Result<usize, Refusal> {
        let (values, marks) = (&mut buffers.values, &mut buffers.marks);
        inspect(self.register, self.text, self.step, self.t, values, marks)
    }

    fn by_library(&self, random: &mut Random, buffers: &mut RunBuffers) -> (u32, Answer) {
        let mut answer = any_answer(random);
        let (values, marks) = (&mut buffers.values, &mut buffers.marks);
        let (register, text) = (self.register, self.text);
        let number = lent::inspect(
            register,
            text,
            self.step,
            self.t,
            values,
            marks,
            &mut answer,
        );
        (number, answer)
    }
}

/// The number and the answer array of a step with so many lines.
fn answered(lines: usize) -> (u32, Answer) {
    let mut answer = Answer::default();
    answer[lent::LINES] = lines as u64;
    (0, answer)
}

/// Scratch buffers that will do, longer ones, and seldom one or both too short.
fn buffers(random: &mut Random, length: usize) -> RunBuffers {
    let mut near = || match random.below(20) {
        0 => length.saturating_sub(1 + random.below(2)),
        1..10 => length,
        _ => length + random.below(40),
    };
    let (values, marks) = (near(), near());
    rubbish(random, 0, values, marks)
}

/// Where t stands among the rounds of a step, for counting.
fn moment(t: u16, rounds: u16) -> &'static str {
    match t {
        0 => "t: 0",
        u16::MAX => "t: 65,535",
        _ if t < rounds => "t: before the last round",
        _ if t == rounds => "t: the last round",
        _ => "t: past the last round",
    }
}

/// Inspects every step from 0 to past the last, and one far off, after every
/// round from 0 to past the last.
fn compare_case(random: &mut Random, tally: &mut Tally, case: &Case) {
    let steps = case.program.steps().count() as u64;
    for step in (0..=steps + 1).chain([random.pick(&FAR)]) {
        let planned = case.program.step(step);
        let rounds = planned.map_or(0, |step| step.plan.rounds() as u16);
        for t in (0..=rounds + 2).chain([u16::MAX]) {
            let look = Look {
                register: &case.register,
                text: &case.text,
                step,
                t,
            };
            let before = buffers(random, case.scratch_length());
            if look.compare(random, tally, &before) == 0 {
                tally.count(moment(t, rounds));
                tally.count(&format!("rounds {rounds}"));
            }
        }
    }
}

#[test]
fn inspections_agree() {
    let mut random = Random::new(44);
    let mut tally = Tally::default();
    while tally.of(&refusal_name(0)) < SHOWN {
        let case = Case::small(&mut random);
        compare_case(&mut random, &mut tally, &case);
    }
    tally.print("inspections");
    tally.require(LEAST, &[17, 19].map(refusal_name));
    tally.require(
        LEAST,
        &[0, 2, 3, 4, 5].map(|rounds| format!("rounds {rounds}")),
    );
    for (t, rounds) in [(0, 2), (1, 2), (2, 2), (3, 2), (u16::MAX, 2)] {
        tally.require(LEAST, &[moment(t, rounds)]);
    }
    tally.require(
        SHOWN,
        &["places: a letter", "places: no letter", "places: left"],
    );
}

#[test]
fn inspections_of_large_registers_agree() {
    let mut random = Random::new(45);
    let mut tally = Tally::default();
    for _ in 0..12 {
        let sizes = registers::large_sizes(&mut random);
        let case = Case::new(&mut random, sizes);
        compare_case(&mut random, &mut tally, &case);
    }
    tally.print("inspections of 4,096 records");
    tally.require(50, &[refusal_name(0)]);
}

#[test]
fn damaged_registers_and_texts_come_first() {
    let mut random = Random::new(46);
    let mut tally = Tally::default();
    for _ in 0..8_000 {
        let trial = trials::damaged(&mut random);
        let look = Look {
            register: &trial.register,
            text: &trial.text,
            step: random.below(4) as u64,
            t: random.below(8) as u16,
        };
        look.compare(&mut random, &mut tally, &trial.buffers);
    }
    tally.print("inspections of damaged registers and texts");
    let refusals: Vec<String> = (1..=15).chain([17, 24, 25]).map(refusal_name).collect();
    tally.require(50, &refusals);
}
