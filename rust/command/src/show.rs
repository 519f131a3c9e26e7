//! `plot show`: a register as a table.

use crate::arguments::{Arguments, Form};
use crate::commands::{Command, Outcome};
use crate::failure::Failure;
use crate::names::{Names, is_worked_out};
use crate::names_file::{self, NAMES, NO_NAMES};
use crate::selection::Selection;
use crate::style::{Look, Style};
use crate::table::Table;
use crate::{files, gaps, gaps_svg, json};
use plot::{Cell, Register, Sizes};
use std::io;

/// The command.
pub const COMMAND: Command = Command {
    name: "show",
    form: Form {
        operands: &["REGISTER"],
        flags: &["--gaps", "--json", NO_NAMES],
        valued: &["--svg", "--records", "--fields", NAMES],
    },
    help: include_str!("../help/show.txt"),
    run: show,
};

fn show(arguments: &Arguments) -> Result<Outcome, Failure> {
    let svg = arguments.output("--svg")?;
    if Selection::is_asked_for(arguments) && (svg.is_some() || arguments.has("--gaps")) {
        let told = "--records and --fields go with the table and with --json only";
        return Err(Failure::Usage(told.to_owned()));
    }
    let register = arguments.register()?;
    let names = names_file::of(arguments, &register)?;
    if let Some(name) = svg {
        let picture = gaps_svg::picture(&register, &names).into_bytes();
        return files::delivered_plainly(name, picture, arguments.has("--json"));
    }
    let style = Style::of(&io::stdout());
    let selection = Selection::of(arguments, &register)?;
    let asked_for = Selection::is_asked_for(arguments);
    let summary = summary(&register);
    let shown = match (arguments.has("--gaps"), arguments.has("--json")) {
        (false, false) => format!("{summary}\n{}", table(&selection, &names, style)),
        (false, true) => json(&selection, &names, asked_for),
        (true, false) => format!("{summary}\n{}", gaps::grid(&register, &names, style)),
        (true, true) => gaps::json(&register, &names),
    };
    Ok(shown.into())
}

/// A register in a sentence.
pub fn summary(register: &Register) -> String {
    let unfilled = gaps::all(register).count();
    let worked_out = records(register).flat_map(|(_, cells)| cells);
    let worked_out = match worked_out.filter(|&cell| is_worked_out(cell)).count() {
        0 => String::new(),
        worked_out => format!(", {worked_out} worked out"),
    };
    format!(
        "{}, {unfilled} of {} unfilled{worked_out}",
        sizes(register.sizes()),
        counted(register.sizes().cells(), "cell"),
    )
}

/// Sizes in words.
pub fn sizes(sizes: Sizes) -> String {
    format!(
        "{}, {}, {}",
        counted(sizes.records, "record"),
        counted(sizes.references, "reference field"),
        counted(sizes.measures, "measure field"),
    )
}

/// The same for programs.
pub fn summary_members(register: &Register) -> [(&'static str, String); 4] {
    let cells = records(register).flat_map(|(_, cells)| cells);
    [
        ("records", register.sizes().records.to_string()),
        ("fields", field_list(register.sizes().fields())),
        ("unfilled", gaps::all(register).count().to_string()),
        (
            "worked_out",
            cells
                .filter(|&cell| is_worked_out(cell))
                .count()
                .to_string(),
        ),
    ]
}

/// A number of things.
pub fn counted(number: usize, thing: &str) -> String {
    match number {
        1 => format!("1 {thing}"),
        number => format!("{number} {thing}s"),
    }
}

/// How a cell looks in a table.
pub fn look(cell: Cell) -> Look {
    match cell {
        Cell::Unfilled => Look::Gap,
        _ => Look::Plain,
    }
}

fn table(selection: &Selection<'_>, names: &Names, style: Style) -> String {
    let fields = || selection.fields.iter().copied();
    let headings = fields().map(|field| format!(">{}", names.field(field)));
    let mut table = Table::new(names.record_headings().into_iter().chain(headings));
    for (record, cells) in selection.rows() {
        let record = names.record_cells(record).into_iter();
        let record = record.map(|cell| (cell, Look::Plain));
        let cells = fields().zip(cells);
        let cells = cells.map(|(field, cell)| (names.cell(field, cell), look(cell)));
        table.row(record.chain(cells));
    }
    table.print(style)
}

/// Each record with its cells.
pub fn records(register: &Register) -> impl Iterator<Item = (usize, Vec<Cell>)> {
    let records = 0..register.sizes().records;
    records.filter_map(|record| Some((record, register.record(record)?)))
}

/// The cells that are selected, with the numbers of their records where some are
/// asked for, and their names.
fn json(selection: &Selection<'_>, names: &Names, asked_for: bool) -> String {
    let rows = |member: fn(Cell) -> String| {
        json::list(
            selection
                .rows()
                .map(|(_, cells)| json::list(cells.into_iter().map(member))),
        )
    };
    let mut members = vec![
        ("records", selection.records.len().to_string()),
        ("fields", field_list(selection.fields.iter().copied())),
        ("cells", rows(|cell| json::option(cell.value()))),
        ("worked_out", rows(|cell| is_worked_out(cell).to_string())),
    ];
    if asked_for {
        members.insert(1, ("shown", json::list(&selection.records)));
    }
    members.extend(name_members(selection, names));
    json::object(&members) + "\n"
}

fn field_list(fields: impl Iterator<Item = char>) -> String {
    json::list(fields.map(|field| json::string(&field.to_string())))
}

/// The labels of the records and the names of the fields in their order, if there are
/// any.
fn name_members(selection: &Selection<'_>, names: &Names) -> Vec<(&'static str, String)> {
    let string = |name: Option<&str>| json::option(name.map(json::string));
    let labels = selection.records.iter().map(|&u| string(names.label(u)));
    let fields = selection.fields.iter().map(|&f| string(names.name(f)));
    let labels = names.has_labels().then(|| ("labels", json::list(labels)));
    let named = names.has_fields().then(|| ("names", json::list(fields)));
    labels.into_iter().chain(named).collect()
}
