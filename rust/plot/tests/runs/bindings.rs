//! The bindings' Rust values for the printed run and the edges of document 01.

use plot::{End, Kind, Machine, Refusal, Register, Run, Text};
use reference::printed::{CELLS, SIZES, TEXT, register};
use reference::register::Cell::{self, Measured, WorkedOut};
use reference::register::{Sizes, encode};

const MACHINES: [Machine; 2] = [Machine::Direct, Machine::Messages];

fn loaded(bytes: Vec<u8>) -> Register {
    Register::from_bytes(bytes).expect("it loads")
}

fn printed() -> Register {
    loaded(register())
}

/// The register with every M missing or replaced.
fn printed_with(measures: [Cell; 3]) -> Register {
    let mut cells = CELLS;
    for (record, measure) in measures.into_iter().enumerate() {
        cells[2 * record + 1] = measure;
    }
    loaded(encode(SIZES, &cells))
}

/// What the printed run gives, with these counts of exchanges and messages.
fn printed_run(exchanges: u64, messages: u64) -> Result<Run, Refusal> {
    Ok(Run {
        register: printed_with([WorkedOut(180), Measured(0), Measured(180)]),
        finished: 1,
        exchanges,
        messages,
        end: End::Whole,
    })
}

/// Finished steps and end of a run by messages over the printed register.
fn ends(text: &[u8], budget: u16) -> (u64, End) {
    let run = printed().run(text, Machine::Messages, budget);
    let run = run.expect("it runs");
    (run.finished, run.end)
}

#[test]
fn printed_run_by_both_machines() {
    let register = printed();
    let counts = [printed_run(0, 0), printed_run(3, 4)];
    for (machine, expected) in MACHINES.into_iter().zip(counts) {
        assert_eq!(register.run(TEXT, machine, 1000), expected);
        let text = Text::check(&register, TEXT).expect("it passes");
        assert_eq!(Ok(text.run(machine, 1000)), expected);
    }
}

#[test]
fn no_records_still_make_their_exchanges() {
    let sizes = Sizes {
        records: 0,
        ..SIZES
    };
    let register = loaded(encode(sizes, &[]));
    let text = Text::check(&register, TEXT).expect("it passes");
    let run = text.run(Machine::Messages, 1000);
    assert_eq!((run.finished, run.exchanges, run.messages), (1, 3, 0));
    assert_eq!(text.inspect(1, 9), Ok(vec![vec![]; 3]));
}

#[test]
fn runs_end() {
    assert_eq!(ends(b"", 0), (0, End::Whole));
    assert_eq!(ends(b"step\nend\n", 0), (0, End::BudgetExhausted));
    assert_eq!(ends(b"step\nend\n", 1), (1, End::Whole));
    let range = End::OutOfRange {
        record: 0,
        field: 'M',
    };
    assert_eq!(
        ends(b"step\nend\nstep\nM[u] := 2147483647 + 1\nend\n", 2),
        (1, range)
    );
    assert_eq!(
        ends(b"step\nM[u] := 2147483647 + 0\nend\n", 1),
        (1, End::Whole)
    );
}

fn refused<T>(kind: Kind, line: u64) -> Result<T, Refusal> {
    Err(Refusal { kind, line })
}

#[test]
fn refusals_have_kind_and_line() {
    assert_eq!(Register::from_bytes([]), refused(Kind::FileLength, 0));
    let register = printed();
    for machine in MACHINES {
        let run = register.run("step\nx\n", machine, 1);
        assert_eq!(run, refused(Kind::Form, 2));
    }
    let unclosed = Text::check(&register, "step\n").map(|text| text.steps());
    assert_eq!(unclosed, refused(Kind::Place, 2));
    let text = Text::check(&register, TEXT).expect("it passes");
    assert_eq!(text.inspect(2, 1), refused(Kind::Step, 0));
}

#[test]
fn inspection_after_each_round() {
    let register = printed();
    let text = Text::check(&register, TEXT).expect("it passes");
    let nothing = vec![None; 3];
    let back = vec![Some(1), Some(2), None];
    let back_two = vec![Some(2), None, None];
    let read = vec![Some(180), None, None];
    let after = |t| text.inspect(1, t).expect("step 1 is there");
    assert_eq!(after(0), [&nothing, &nothing, &nothing].map(Vec::clone));
    assert_eq!(after(1), [&back, &nothing, &nothing].map(Vec::clone));
    assert_eq!(after(2), [&back, &back_two, &nothing].map(Vec::clone));
    assert_eq!(after(3), [&back, &back_two, &read].map(Vec::clone));
    assert_eq!(after(u16::MAX), after(3));
}
