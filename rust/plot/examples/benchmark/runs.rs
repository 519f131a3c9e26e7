//! Runs by both machines.

use crate::cases::{self, Case};
use crate::timing::{self, Row, Work};
use plot::lent::{self, Answer, RunBuffers};
use reference::direct::run_direct;
use reference::messages::run_messages;
use reference::register::{MAX_RECORDS, Register};
use reference::run::{RunBy, Scratch, scratch_length};
use reference::text::read_text;
use std::hint::black_box;

/// A machine of the library and of the reference.
struct Machine {
    name: &'static str,
    library: lent::RunBy,
    reference: RunBy,
}

const MACHINES: [Machine; 2] = [
    Machine {
        name: "run",
        library: lent::run_direct,
        reference: run_direct,
    },
    Machine {
        name: "messages",
        library: lent::run_messages,
        reference: run_messages,
    },
];

/// Each case by each machine.
pub fn rows() -> Vec<Row> {
    let cases = cases::cases();
    let by = |machine| cases.iter().map(move |case| row(machine, case));
    MACHINES.iter().flat_map(by).collect()
}

fn row(machine: &Machine, case: &Case) -> Row {
    Row {
        name: format!("{}: {}", machine.name, case.name),
        at_most: case.at_most,
        library: by_library(machine.library, case),
        reference: by_reference(machine.reference, case),
    }
}

/// The length of the scratch buffers that a case asks for.
fn length(case: &Case) -> usize {
    let sizes = Register::load(&case.register).expect("it loads").sizes;
    let program = read_text(&case.text, &sizes).expect("it passes");
    scratch_length(&sizes, &program)
}

/// Buffers for a case.
fn buffers(case: &Case) -> RunBuffers {
    let length = length(case);
    RunBuffers {
        output: vec![0; case.register.len()],
        values: vec![0; length],
        marks: vec![0; length],
    }
}

/// The run by the library, over buffers that are made once.
fn by_library(run: lent::RunBy, case: &Case) -> Work {
    let mut buffers = buffers(case);
    let (register, text, budget) = (case.register.clone(), case.text.clone(), case.budget);
    Box::new(move || {
        let mut answer = Answer::default();
        let (register, text) = (black_box(&register), black_box(&text));
        let number = run(register, text, budget, &mut buffers, &mut answer);
        black_box((number, answer));
    })
}

/// The run by the reference, over an output that is made once.
fn by_reference(run: RunBy, case: &Case) -> Work {
    let scratch = Scratch::both(length(case));
    let mut output = vec![0; case.register.len()];
    let (register, text, budget) = (case.register.clone(), case.text.clone(), case.budget);
    Box::new(move || {
        let (register, text) = (black_box(&register), black_box(&text));
        let _ = black_box(run(register, text, budget, &mut output, scratch));
    })
}

/// Prints the library's message run over its direct run, and the messages.
pub fn print_messages_over_direct() {
    println!(
        "\n{:<40} {:>12} {:>12} {:>7} {:>12}",
        "the library's two machines", "messages", "direct", "ratio", "letters"
    );
    for case in cases::cases() {
        let mut messages = by_library(lent::run_messages, &case);
        let mut direct = by_library(lent::run_direct, &case);
        let compared = timing::compare(&mut messages, &mut direct);
        println!(
            "{} {:>12}",
            timing::columns(case.name, &compared),
            letters(&case)
        );
    }
}

/// The letters of a case's finished steps.
fn letters(case: &Case) -> u64 {
    let mut answer = Answer::default();
    let mut buffers = buffers(case);
    lent::run_messages(
        &case.register,
        &case.text,
        case.budget,
        &mut buffers,
        &mut answer,
    );
    answer[lent::LETTERS]
}

/// Prints the time of the direct run for each pair of a record and a rule: that
/// of a text, less that of the empty text, by its pairs.
pub fn print_pairs() {
    println!(
        "\n{:<40} {:>12}",
        "direct run, each (record, rule) pair", "library"
    );
    let texts = [
        ("1 rule in 1 step", 1, 1),
        ("8 rules in 1 step", 1, 8),
        ("32 rules in 1 step", 1, 32),
        ("256 rules in 8 steps", 8, 32),
    ];
    let mut empty = by_library(lent::run_direct, &cases::equal_rules("no text", 0, 0));
    for (name, steps, rules) in texts {
        let case = cases::equal_rules(name, steps, rules);
        let mut run = by_library(lent::run_direct, &case);
        let (run, empty) = timing::least(&mut run, &mut empty);
        let pairs = steps * rules * MAX_RECORDS;
        let time = 1e9 * (run.as_secs_f64() - empty.as_secs_f64());
        println!("{name:<40} {:>9.2} ns", time / pairs as f64);
    }
}
