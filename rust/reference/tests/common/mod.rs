//! Runs of both machines, which must agree.

use reference::direct::run_direct;
use reference::messages::run_messages;
use reference::register::{Cell, Register, Sizes, encode};
use reference::run::{Run, RunBy, Scratch};

/// Enough for every small register.
pub const AMPLE: Scratch = Scratch {
    values: 10_000,
    marks: 10_000,
};

/// What a run of the message machine leaves, the cells at the end, and what is
/// read of them.
pub struct Left {
    pub run: Run,
    pub cells: Vec<Cell>,
    pub values: Vec<Option<i32>>,
}

/// Cells with these values, all of them measured.
pub fn measured(values: &[Option<i32>]) -> Vec<Cell> {
    let cell = |value: &Option<i32>| value.map_or(Cell::Missing, Cell::Measured);
    values.iter().map(cell).collect()
}

/// Runs a text by both machines, checks that they agree, and gives what the
/// message machine answers.
pub fn run(sizes: Sizes, cells: &[Cell], text: &str, budget: u16) -> Left {
    let register = encode(sizes, cells);
    let (direct, direct_output) = output(run_direct, &register, text, budget);
    let (messages, message_output) = output(run_messages, &register, text, budget);
    assert_eq!(direct_output, message_output);
    assert_eq!(direct.finished, messages.finished);
    assert_eq!(direct.end, messages.end);
    assert_eq!((direct.counts.exchanges, direct.counts.letters), (0, 0));
    let cells = Register::load(&message_output).unwrap().cells();
    Left {
        run: messages,
        values: cells.iter().map(|cell| cell.value()).collect(),
        cells,
    }
}

/// A run with an output that holds rubbish at the start.
fn output(run_by: RunBy, register: &[u8], text: &str, budget: u16) -> (Run, Vec<u8>) {
    let mut output = vec![0xa5; register.len()];
    let run = run_by(register, text.as_bytes(), budget, &mut output, AMPLE).unwrap();
    (run, output)
}
