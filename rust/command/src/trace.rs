//! `plot run --trace`: a row for each finished step.

use crate::json;
use crate::style::Style;
use crate::table::Table;
use crate::walk::{Row, Walk};
use plot::{Machine, Register, Run};

/// The finished steps of a run, held against it.
pub fn rows(
    register: &Register,
    text: &[u8],
    machine: Machine,
    budget: u16,
    run: &Run,
) -> Vec<Row> {
    let walk = Walk::of(register, text, machine, budget);
    assert!(walk.is_of(run), "the steps one by one do not give the run");
    walk.rows
}

/// The rows as a table.
pub fn table(rows: &[Row], machine: Machine, style: Style) -> String {
    if rows.is_empty() {
        return String::new();
    }
    let mut table = Table::new([
        ">finished",
        ">step",
        ">pass",
        ">exchanges",
        ">messages",
        ">cells changed",
    ]);
    for (place, row) in rows.iter().enumerate() {
        let dash = |shown: Option<u64>| shown.map_or("-".to_owned(), |number| number.to_string());
        table.plain([
            (place + 1).to_string(),
            row.step.to_string(),
            dash(row.pass),
            dash(counted(machine, row.exchanges)),
            dash(counted(machine, row.messages)),
            row.changed.to_string(),
        ]);
    }
    table.print(style)
}

/// The rows for programs.
pub fn json(rows: &[Row], machine: Machine) -> String {
    json::list(rows.iter().map(|row| {
        json::object(&[
            ("step", row.step.to_string()),
            ("pass", json::option(row.pass)),
            ("exchanges", json::option(counted(machine, row.exchanges))),
            ("messages", json::option(counted(machine, row.messages))),
            ("changed", row.changed.to_string()),
        ])
    }))
}

/// A count that only the machine by messages has.
fn counted(machine: Machine, number: u64) -> Option<u64> {
    (machine == Machine::Messages).then_some(number)
}
