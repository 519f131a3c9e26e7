//! `plot set`: one cell of a register.

use crate::arguments::{Arguments, Form};
use crate::commands::{Command, Outcome};
use crate::failure::Failure;
use crate::files::{self, STANDARD};
use crate::names::Names;
use crate::names_file::{self, Destination, NAMES, NO_NAMES};
use crate::oneline::escaped;
use crate::{explain, json, records, run, selection, sheet, show};
use plot::{Cell, Register};

/// The command.
pub const COMMAND: Command = Command {
    name: "set",
    form: Form {
        operands: &["REGISTER", "RECORD", "FIELD", "VALUE"],
        flags: &["--in-place", "--json", NO_NAMES],
        valued: &["-o", NAMES],
    },
    help: include_str!("../help/set.txt"),
    run: set,
};

fn set(arguments: &Arguments) -> Result<Outcome, Failure> {
    let output = run::output(arguments)?;
    let missing = || Failure::Usage("-o OUT or --in-place is missing".to_owned());
    let output = output.ok_or_else(missing)?;
    let register = arguments.register()?;
    let names = names_file::of(arguments, &register)?;
    let destination = Destination::of_copy(arguments)?;
    let record = records::single(arguments.operand(1), &names)?;
    let field = arguments.operand(2);
    let field = names
        .field_called(field)
        .map_or(field.to_owned(), String::from);
    let (field, before) = cell(&register, record, &field)?;
    let after = value(&register, &names, field, arguments.operand(3))?;
    let changed = with(&register, record, field, after);
    let change = (record, field, before, after);
    let report = match arguments.has("--json") {
        true => json(output, &changed, &names, &change),
        false => told(output, &names, change),
    };
    let outcome = files::delivered(output, changed.as_bytes().to_vec(), report)?;
    destination.write(&names, register.sizes())?;
    Ok(outcome)
}

fn told(output: &str, names: &Names, (record, field, before, after): run::Change) -> String {
    let (output, place) = (escaped(output), names.record(record));
    let cell = |cell: Cell| names.cell(field, cell);
    let (before, after) = (cell(before), cell(after));
    let field = names.field(field);
    format!("wrote {output}: {field} of {place} was {before}, is {after}\n")
}

/// The field that a word names, and what it holds at a record: the library says
/// whether they are there.
fn cell(register: &Register, record: usize, word: &str) -> Result<(char, Cell), Failure> {
    let chain = format!("{word}[u]");
    register
        .read(&chain, record)
        .map_err(|refusal| explain::reading(register, &chain, record, refusal))?;
    let field = selection::field_of(register, word)?;
    let cell = register.cell(record, field);
    Ok((field, cell.expect("the library has read it")))
}

/// The cell that a word stands for in a field.
fn value(register: &Register, names: &Names, field: char, word: &str) -> Result<Cell, Failure> {
    let word = if word == STANDARD { "" } else { word };
    let value = sheet::cell_value(names, register.sizes().records, field, word);
    let value = value.map(|(cell, _)| cell);
    value.map_err(|wrong| Failure::Usage(format!("VALUE: {wrong}")))
}

/// The register with one cell set.
fn with(register: &Register, record: usize, field: char, cell: Cell) -> Register {
    let sizes = register.sizes();
    let column = sizes.fields().position(|name| name == field);
    let place = record * sizes.width() + column.expect("the field is there");
    let mut cells: Vec<Cell> = show::records(register)
        .flat_map(|(_, cells)| cells)
        .collect();
    cells[place] = cell;
    Register::from_cells(sizes, &cells).expect("the cell fits its field")
}

fn json(output: &str, changed: &Register, names: &Names, change: &run::Change) -> String {
    let wrote = files::wrote(output, changed.as_bytes());
    let change = (
        "changed",
        run::change_list(std::slice::from_ref(change), names),
    );
    json::object(&[&wrote[..], &[change]].concat()) + "\n"
}
