//! On generated registers and texts the reference's two machines agree, and its
//! messages are the readings.

use generate::cases::Case;
use generate::on_failure::OnFailure;
use generate::random::Random;
use generate::tally::Tally;
use reference::direct::run_direct;
use reference::messages::{inspect, run_messages};
use reference::plan::Line;
use reference::reading::follow;
use reference::register::Register;
use reference::run::{Run, Scratch};

const RUNS: usize = 20_000;
const BUDGETS: [u16; 8] = [0, 1, 2, 3, 10, 40, 300, 1000];

/// Runs a case by both machines; gives the run by messages.
fn compare_runs(random: &mut Random, case: &Case) -> Run {
    let (register, text) = (&case.register, &case.text);
    let budget = random.pick(&BUDGETS);
    let _failing = OnFailure::new(register)
        .bytes("text", text)
        .number("budget", budget);
    let scratch = Scratch::both(case.scratch_length());
    let mut direct_output = vec![random.byte(); register.len()];
    let mut output = vec![random.byte(); register.len()];
    let direct = run_direct(register, text, budget, &mut direct_output, scratch).unwrap();
    let run = run_messages(register, text, budget, &mut output, scratch).unwrap();
    assert_eq!(output, direct_output);
    assert_eq!((run.finished, &run.end), (direct.finished, &direct.end));
    assert!(Register::load(&output).is_ok());
    run
}

#[test]
fn runs_agree() {
    let mut random = Random::new(4);
    let mut tally = Tally::default();
    for _ in 0..RUNS {
        let case = Case::small(&mut random);
        let run = compare_runs(&mut random, &case);
        tally.count(&format!("end {}", run.end.number()));
        tally.count(match run.counts.letters {
            0 => "no letters",
            _ => "letters",
        });
    }
    tally.print("runs of the reference's two machines");
    tally.require(500, &["end 0", "end 20", "end 21", "letters"]);
}

/// Value and mark at the place of a line and an origin, after round t.
fn message(cells: &Register, line: &Line, origin: usize, t: u16) -> (i64, u8) {
    let read = follow(&line.chain, origin, |record, field| {
        cells.cell(record, field)
    });
    match read {
        Some(value) if line.round <= usize::from(t) => (i64::from(value), 1),
        _ => (0, 0),
    }
}

/// Inspects a step of a case after some round, and counts its messages.
fn compare_messages(random: &mut Random, tally: &mut Tally, case: &Case, step: u64) {
    let (register, text) = (&case.register, &case.text);
    let t = random.between(0, 6) as u16;
    let _failing = OnFailure::new(register)
        .bytes("text", text)
        .number("step", step)
        .number("t", t);
    let length = case.scratch_length();
    let (mut values, mut marks) = (vec![-1; length], vec![7; length]);
    inspect(register, text, step, t, &mut values, &mut marks).unwrap();
    let cells = Register::load(register).unwrap();
    let lines = case.program.step(step).unwrap().plan.lines();
    let origins = |line| (0..case.sizes.records).map(move |origin| (line, origin));
    for (place, (line, origin)) in lines.iter().flat_map(origins).enumerate() {
        let expected = message(&cells, line, origin, t);
        assert_eq!((values[place], marks[place]), expected);
        tally.count(if expected.1 == 1 { "sent" } else { "not sent" });
    }
}

#[test]
fn messages_are_readings() {
    let mut random = Random::new(5);
    let mut tally = Tally::default();
    for _ in 0..2_000 {
        let case = Case::small(&mut random);
        for (step, _) in (1..).zip(case.program.steps()) {
            compare_messages(&mut random, &mut tally, &case, step);
        }
    }
    tally.require(1000, &["sent", "not sent"]);
}
