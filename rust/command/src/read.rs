//! `plot read` and `plot path`: a chain at records.

use crate::arguments::{Arguments, Form};
use crate::commands::{Command, Outcome};
use crate::failure::Failure;
use crate::names::{Names, is_worked_out};
use crate::names_file::{self, NAMES, NO_NAMES};
use crate::records::{self, ALL, Wanted};
use crate::style::{Look, Style};
use crate::table::Table;
use crate::{explain, json, show};
use plot::{Cell, Hop, Kind, Path, Refusal, Register};
use std::io;

const FORM: Form = Form {
    operands: &["REGISTER", "CHAIN", "[RECORD..]"],
    flags: &["--json", ALL, NO_NAMES],
    valued: &[NAMES],
};

/// The command `plot read`.
pub const READ: Command = Command {
    name: "read",
    form: FORM,
    help: include_str!("../help/read.txt"),
    run: read,
};

/// The command `plot path`.
pub const PATH: Command = Command {
    name: "path",
    form: FORM,
    help: include_str!("../help/path.txt"),
    run: path,
};

fn read(arguments: &Arguments) -> Result<Outcome, Failure> {
    let given = Given::of(arguments)?;
    let paths = given.paths()?;
    let shown = match (paths.as_slice(), arguments.has("--json")) {
        ([(_, path)], false) if given.wanted.alone => given.reading(path) + "\n",
        ([(_, path)], true) if given.wanted.alone => json::object(&reading_members(path)) + "\n",
        (paths, false) => given.readings_table(paths),
        (paths, true) => given.list_json("readings", paths, |_, path| reading_members(path)),
    };
    Ok(shown.into())
}

fn path(arguments: &Arguments) -> Result<Outcome, Failure> {
    let given = Given::of(arguments)?;
    let paths = given.paths()?;
    let shown = match (paths.as_slice(), arguments.has("--json")) {
        ([(_, path)], false) if given.wanted.alone => given.path_told(path),
        ([(_, path)], true) if given.wanted.alone => {
            json::object(&path_members(&given.names, path)) + "\n"
        }
        (paths, false) => given.paths_told(paths),
        (paths, true) => given.list_json("paths", paths, path_members),
    };
    Ok(shown.into())
}

/// A record and the path from it.
type Found = (usize, Path);

/// What both commands are given.
struct Given<'a> {
    register: Register,
    names: Names,
    chain: &'a str,
    wanted: Wanted,
}

impl Given<'_> {
    fn of(arguments: &Arguments) -> Result<Given<'_>, Failure> {
        let asked = records::asked(arguments, 2)?;
        let register = arguments.register()?;
        let names = names_file::of(arguments, &register)?;
        let wanted = asked.among(register.sizes().records, &names)?;
        Ok(Given {
            chain: arguments.operand(1),
            register,
            names,
            wanted,
        })
    }

    fn paths(&self) -> Result<Vec<Found>, Failure> {
        let paths = paths(&self.register, self.chain, &self.wanted.records);
        paths.map_err(|(record, refusal)| {
            explain::reading(&self.register, self.chain, record, refusal)
        })
    }

    /// What a path comes to.
    fn reading(&self, path: &Path) -> String {
        let field = path.hops.last().map_or('A', |hop| hop.field);
        self.names.cell(field, path.cell())
    }

    fn readings_table(&self, paths: &[Found]) -> String {
        let headings = self.names.record_headings();
        let mut table = Table::new(headings.into_iter().chain([">reading".to_owned()]));
        for (record, path) in paths {
            let record = self.names.record_cells(*record).into_iter();
            let record = record.map(|cell| (cell, Look::Plain));
            let reading = (self.reading(path), show::look(path.cell()));
            table.row(record.chain([reading]));
        }
        table.print(Style::of(&io::stdout()))
    }

    fn list_json(
        &self,
        name: &str,
        paths: &[Found],
        members: fn(&Names, &Path) -> Vec<(&'static str, String)>,
    ) -> String {
        let paths = paths.iter().map(|(record, path)| {
            let record = self.names.record_members(*record);
            json::object(&[record, members(&self.names, path)].concat())
        });
        json::object(&[(name, json::list(paths))]) + "\n"
    }

    fn paths_told(&self, paths: &[Found]) -> String {
        let told = paths.iter().map(|(record, path)| {
            let record = self.names.record(*record);
            format!("{record}:\n{}", self.path_told(path))
        });
        told.collect::<Vec<String>>().join("\n")
    }

    fn path_told(&self, path: &Path) -> String {
        let style = Style::of(&io::stdout());
        path_table(&self.names, path, style) + &self.reason(path) + "\n"
    }

    /// Why the path ends where it does.
    fn reason(&self, path: &Path) -> String {
        let Some(hop) = path.hops.last() else {
            let number = self.reading(path);
            return format!(
                "The chain is u: it has no hop, and its value is the record's own number, {number}."
            );
        };
        let (field, record) = (self.names.field(hop.field), self.names.record(hop.record));
        let reading = self.reading(path);
        match hop.cell {
            Cell::Unfilled => format!(
                "The reading is unfilled: {field} of {record} is a gap, at hop {}.",
                path.hops.len()
            ),
            Cell::WorkedOut(_) => format!(
                "The reading is filled: {field} of {record} is {reading}, which a rule has worked out."
            ),
            _ => format!("The reading is filled: {field} of {record} is {reading}."),
        }
    }
}

/// The path of a chain from each of these records, or the record at which it is
/// refused. The chain is looked at even where there is no record.
pub fn paths(
    register: &Register,
    chain: &str,
    records: &[usize],
) -> Result<Vec<Found>, (usize, Refusal)> {
    if let ([], Err(refusal)) = (records, register.path(chain, 0))
        && refusal.kind != Kind::Record
    {
        return Err((0, refusal));
    }
    let path = |&record: &usize| match register.path(chain, record) {
        Ok(path) => Ok((record, path)),
        Err(refusal) => Err((record, refusal)),
    };
    records.iter().map(path).collect()
}

/// The gap at which a path ends.
pub fn gap(path: &Path) -> Option<(usize, char)> {
    let last = path.hops.last().filter(|_| path.value.is_none());
    last.map(|hop| (hop.record, hop.field))
}

fn reading_members(path: &Path) -> Vec<(&'static str, String)> {
    vec![
        ("filled", path.value.is_some().to_string()),
        ("value", json::option(path.value)),
        ("worked_out", is_worked_out(path.cell()).to_string()),
    ]
}

fn path_members(names: &Names, path: &Path) -> Vec<(&'static str, String)> {
    let hop = |hop: &Hop| {
        let cell = [
            ("cell", json::option(hop.cell.value())),
            ("worked_out", is_worked_out(hop.cell).to_string()),
        ];
        json::object(&[names.cell_members(hop.record, hop.field), cell.to_vec()].concat())
    };
    let hops = ("hops", json::list(path.hops.iter().map(hop)));
    [vec![hops], reading_members(path)].concat()
}

fn path_table(names: &Names, path: &Path, style: Style) -> String {
    if path.hops.is_empty() {
        return String::new();
    }
    let headings = [">hop".to_owned()]
        .into_iter()
        .chain(names.record_headings());
    let mut table = Table::new(headings.chain(["field".to_owned(), ">cell".to_owned()]));
    for (place, hop) in (1..).zip(&path.hops) {
        let number = [format!("{place}")].into_iter();
        let record = names.record_cells(hop.record);
        let plain = number.chain(record).chain([names.field(hop.field)]);
        let cell = (names.cell(hop.field, hop.cell), show::look(hop.cell));
        table.row(plain.map(|text| (text, Look::Plain)).chain([cell]));
    }
    table.print(style)
}
