//! The unfilled cells of a register, as a grid.

use crate::json;
use crate::names::Names;
use crate::style::{Look, Style};
use plot::{Cell, Register};
use std::ops::Range;

/// The records that stand side by side in a grid.
const ACROSS: usize = 60;

/// The unfilled cells: record and field.
pub fn all(register: &Register) -> impl Iterator<Item = (usize, char)> {
    let records = 0..register.sizes().records;
    records.flat_map(move |record| {
        let fields = register.sizes().fields();
        let gaps = fields.filter(move |&field| is_gap(register, record, field));
        gaps.map(move |field| (record, field))
    })
}

/// Whether a cell is unfilled.
pub fn is_gap(register: &Register, record: usize, field: char) -> bool {
    register.cell(record, field) == Some(Cell::Unfilled)
}

/// What the signs of a grid mean.
const LEGEND: &str = ". measured  ~ worked out  # unfilled\n";

/// A grid of fields and records: a point where a cell is measured, ~ where it is worked
/// out, # where it is unfilled.
pub fn grid(register: &Register, names: &Names, style: Style) -> String {
    let records = register.sizes().records;
    let starts = (0..records).step_by(ACROSS);
    let grid = starts.map(|start| {
        let records = start..records.min(start + ACROSS);
        block(register, names, records, style)
    });
    let grid: String = grid.collect();
    grid + LEGEND
}

/// The part of the grid for these records.
fn block(register: &Register, names: &Names, records: Range<usize>, style: Style) -> String {
    let title = format!("records {} to {}", records.start, records.end - 1);
    let fields = || register.sizes().fields();
    let has_gap = |field| records.clone().any(|u| is_gap(register, u, field));
    if !fields().any(has_gap) {
        return format!("{title}: no gap\n");
    }
    let lines = fields().map(|field| {
        let line = line(register, field, records.clone(), style);
        let name = names
            .name(field)
            .map_or(String::new(), |name| format!("  {name}"));
        format!("  {field}  {line}{name}\n")
    });
    let lines: String = lines.collect();
    format!("{title}\n     {}\n{lines}", ruler(records.len()))
}

/// The cells of a field in these records, and the number of its gaps.
fn line(register: &Register, field: char, records: Range<usize>, style: Style) -> String {
    let mut line = String::new();
    for record in records.clone() {
        let place = record - records.start;
        if place > 0 && place.is_multiple_of(10) {
            line.push(' ');
        }
        line += &match register.cell(record, field) {
            Some(Cell::Unfilled) => style.paint(Look::Wrong, "#"),
            Some(Cell::WorkedOut(_)) => style.paint(Look::New, "~"),
            _ => ".".to_owned(),
        };
    }
    let gaps = records.filter(|&u| is_gap(register, u, field)).count();
    format!("{line}  {gaps}")
}

/// The last digits of the record numbers, ten by ten.
fn ruler(length: usize) -> String {
    let tens: Vec<String> = (0..length)
        .step_by(10)
        .map(|ten| "0123456789"[..10.min(length - ten)].to_owned())
        .collect();
    tens.join(" ")
}

/// The unfilled cells, for programs.
pub fn json(register: &Register, names: &Names) -> String {
    let gaps =
        all(register).map(|(record, field)| json::object(&names.cell_members(record, field)));
    json::object(&[("unfilled", json::list(gaps))]) + "\n"
}
