//! One text by the library and by the reference. Everything lent to the library
//! is full of rubbish, so that what it must set and what it must leave shows.

use crate::common::{any_answer, refusal_name, refused};
use generate::on_failure::OnFailure;
use generate::random::Random;
use plot::lent::{self, Answer, CHAIN_BYTES, PlanBuffers};
use reference::plan::LineKind;
use reference::program::{Program, Step};
use reference::refusal::Refusal;
use reference::register::{Register, Sizes};
use reference::text;

/// Checks a text, and plans each step of one that passes; for one that is
/// refused a plan is refused as well. Gives the reference's program.
pub fn compare(random: &mut Random, register: &[u8], text: &[u8]) -> Result<Program, Refusal> {
    let program = check(random, register, text);
    match &program {
        Err(refusal) => {
            let step = random.pick(&[0, 1, 2, u64::MAX]);
            plan(random, register, text, step, Err(*refusal));
        }
        Ok(program) => {
            for (number, step) in (1..).zip(program.steps()) {
                plan(random, register, text, number, Ok(step));
            }
        }
    }
    program
}

/// The check by both.
fn check(random: &mut Random, register: &[u8], text: &[u8]) -> Result<Program, Refusal> {
    let _failing = OnFailure::new(register).bytes("text", text);
    let mut answer = any_answer(random);
    let number = lent::check(register, text, &mut answer);
    let program = text::check(register, text);
    let expected = match &program {
        Err(refusal) => refused(*refusal),
        Ok(program) => {
            let mut answer = Answer::default();
            answer[lent::STEPS] = program.steps().count() as u64;
            answer[lent::MOST_LINES] = program.most_lines() as u64;
            (0, answer)
        }
    };
    assert_eq!((number, answer), expected, "check");
    program
}

/// The plan of a step by the library, beside what it must be.
pub fn plan(
    random: &mut Random,
    register: &[u8],
    text: &[u8],
    step: u64,
    expected: Result<&Step, Refusal>,
) {
    let _failing = OnFailure::new(register)
        .bytes("text", text)
        .number("step", step);
    let rubbish = rubbish(random);
    let mut lines = rubbish.clone();
    let mut answer = any_answer(random);
    let number = lent::plan(register, text, step, &mut lines, &mut answer);
    let (expected, expected_lines) = match expected {
        Err(refusal) => (refused(refusal), rubbish),
        Ok(step) => {
            let sizes = Register::load(register).expect("its text passes").sizes;
            (planned(step), buffers(step, &sizes))
        }
    };
    assert_eq!((number, answer), expected, "plan");
    assert_eq!(lines, expected_lines, "lines of the plan");
}

fn planned(step: &Step) -> (u32, Answer) {
    let mut answer = Answer::default();
    answer[lent::LINES] = step.plan.lines().len() as u64;
    answer[lent::REMOTE] = u64::from(step.has_remote());
    (0, answer)
}

/// The lines of a step's plan, with 0 behind the last.
fn buffers(step: &Step, sizes: &Sizes) -> PlanBuffers {
    let mut buffers = PlanBuffers::default();
    for (i, line) in step.plan.lines().iter().enumerate() {
        buffers.kinds[i] = match line.kind {
            LineKind::Back => lent::BACK,
            LineKind::Read => lent::READ,
        };
        buffers.rounds[i] = line.round as u8;
        let letters = line.chain.letters(sizes);
        buffers.chains[CHAIN_BYTES * i..][..letters.len()].copy_from_slice(&letters);
    }
    buffers
}

fn rubbish(random: &mut Random) -> PlanBuffers {
    let mut buffers = PlanBuffers::default();
    random.fill(&mut buffers.kinds);
    random.fill(&mut buffers.chains);
    random.fill(&mut buffers.rounds);
    buffers
}

/// What a check came to, for counting.
pub fn outcome(program: &Result<Program, Refusal>) -> String {
    match program {
        Ok(_) => "accepted".to_owned(),
        Err(refusal) => refusal_name(refusal.reason.number()),
    }
}
