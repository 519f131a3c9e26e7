//! The file of names beside a register: `REGISTER.names`, rows of comma-separated
//! values under the header `of,name,as`.
//!
//! A row is of a field letter, of a record number, or of the sheet: `M,depth,metres`
//! names a field that the sheet has in metres, `0,North 1,` a record, and
//! `sheet,,semicolon` says what stands between the cells of the sheet.

use crate::arguments::Arguments;
use crate::csv::{self, DELIMITERS};
use crate::failure::Failure;
use crate::faults::{self, Fault};
use crate::files;
use crate::names::{Names, is_reference};
use crate::oneline::quoted;
use plot::{Register, Sizes};
use std::fs;
use std::path::Path;

/// The options that say which names are used.
pub const NAMES: &str = "--names";
/// The option for none.
pub const NO_NAMES: &str = "--no-names";

const HEADER: [&str; 3] = ["of", "name", "as"];
const METRES: &str = "metres";
const SHEET: &str = "sheet";
/// No file of names that a register can have is longer.
const MOST_BYTES: usize = 2 << 20;

/// The names to show with the register that the first operand names.
pub fn of(arguments: &Arguments, register: &Register) -> Result<Names, Failure> {
    match place(arguments, arguments.operand(0))? {
        Some(name) if arguments.has(NAMES) || Path::new(&name).is_file() => {
            read(&name, register.sizes())
        }
        _ => Ok(Names::default()),
    }
}

/// The file for the names of a register; none with `--no-names`, and none beside
/// standard input or output.
fn place(arguments: &Arguments, register: &str) -> Result<Option<String>, Failure> {
    match (arguments.value(NAMES), arguments.has(NO_NAMES)) {
        (Some(_), true) => Err(Failure::Usage(
            "--names and --no-names exclude each other".to_owned(),
        )),
        (Some(name), false) => Ok(Some(name.to_owned())),
        (None, true) => Ok(None),
        (None, false) => Ok((!files::is_standard_output(register)).then(|| beside(register))),
    }
}

/// The file of names beside a register.
fn beside(register: &str) -> String {
    format!("{register}.names")
}

fn read(name: &str, sizes: Sizes) -> Result<Names, Failure> {
    let bytes = files::read(name, MOST_BYTES)?;
    let faults = match parse(&bytes, sizes) {
        Ok(names) => return Ok(names),
        Err(faults) => faults,
    };
    let follows = "and these names do not fit the register: mend them, pack its sheet again, or \
                   use --no-names";
    Err(faults::refused(&files::shown(name), &faults, follows))
}

fn parse(bytes: &[u8], sizes: Sizes) -> Result<Names, Vec<Fault>> {
    if bytes.len() > MOST_BYTES {
        return Err(vec![Fault::of_row(1, "this is longer than names can be")]);
    }
    let text = faults::text(bytes).map_err(|fault| vec![fault])?;
    let mut rows = faults::lines(text);
    if rows.next() != Some(&HEADER.join(",")) {
        let wrong = format!("the first row is {}", HEADER.join(","));
        return Err(vec![Fault::of_row(1, wrong)]);
    }
    let mut names = Names::default();
    let numbered = (2..).zip(rows).filter(|(_, row)| !row.trim().is_empty());
    let wrong = numbered.filter_map(|(row, text)| {
        let wrong = add(&mut names, sizes, text).err()?;
        Some(Fault::of_row(row, wrong))
    });
    let faults: Vec<Fault> = wrong.collect();
    match faults.is_empty() {
        true => Ok(names),
        false => Err(faults),
    }
}

/// Adds what a row says.
fn add(names: &mut Names, sizes: Sizes, row: &str) -> Result<(), String> {
    let cells = csv::cells(row, ',', HEADER.len());
    let cells: Result<Vec<String>, &str> = cells.into_iter().collect();
    let [of, name, written] = <[String; 3]>::try_from(cells?)
        .map_err(|cells| format!("it has {} cells, and the header 3", cells.len()))?;
    let field = sizes.fields().find(|field| *of == field.to_string());
    match (of.as_str(), field, of.parse::<usize>()) {
        (SHEET, ..) => delimiter(&written).map(|delimiter| names.delimiter = Some(delimiter)),
        (_, Some(field), _) => {
            names.add_field(field, &name)?;
            add_metres(names, field, &written)
        }
        (_, _, Ok(record)) if record < sizes.records => names.add_label(record, &name),
        _ => Err(format!(
            "{} is no field and no record of the register",
            quoted(&of)
        )),
    }
}

fn add_metres(names: &mut Names, field: char, written: &str) -> Result<(), String> {
    match written {
        "" => Ok(()),
        METRES if !is_reference(field) => {
            names.metres.insert(field);
            Ok(())
        }
        other => Err(format!("{} is no way to write {field}", quoted(other))),
    }
}

/// A delimiter by its name or by itself.
pub fn delimiter(word: &str) -> Result<char, String> {
    let is_it = |(delimiter, name): &&(char, &str)| *name == word || delimiter.to_string() == word;
    let found = DELIMITERS.iter().find(is_it);
    let delimiter = found.map(|(delimiter, _)| *delimiter);
    delimiter.ok_or_else(|| {
        format!(
            "a delimiter is comma, semicolon or tab, not {}",
            quoted(word)
        )
    })
}

/// The file as it is written.
fn written(names: &Names, sizes: Sizes) -> String {
    let row = |cells: [&str; 3]| csv::row(cells.map(str::to_owned), ',');
    let mut text = row(HEADER);
    let is_it = |(delimiter, _): &&(char, &str)| Some(*delimiter) == names.delimiter;
    if let Some((_, name)) = DELIMITERS.iter().find(is_it) {
        text += &row([SHEET, "", name]);
    }
    for field in sizes.fields() {
        let metres = if names.metres.contains(&field) {
            METRES
        } else {
            ""
        };
        let name = names.name(field).unwrap_or("");
        if !(name.is_empty() && metres.is_empty()) {
            text += &row([&field.to_string(), name, metres]);
        }
    }
    for (record, label) in names.labels() {
        text += &row([&record.to_string(), label, ""]);
    }
    text
}

/// Where the names of a register go that is written to `output`.
pub struct Destination(Option<String>);

impl Destination {
    /// The file that `--names` tells, or the one beside the output, which is none of
    /// those that are read.
    pub fn told(arguments: &Arguments, output: &str) -> Result<Destination, Failure> {
        let place = place(arguments, output)?;
        match place.as_deref() == Some(output) {
            true => Err(Failure::Usage(
                "-o and --names are of one file, and need two".to_owned(),
            )),
            false => Destination::checked(arguments, place),
        }
    }

    /// The file beside what `-o` tells, wherever the names were read; none where the
    /// register is written over itself and keeps its names.
    pub fn of_copy(arguments: &Arguments) -> Result<Destination, Failure> {
        let output = arguments.value("-o").filter(|_| !arguments.has(NO_NAMES));
        let output = output.filter(|output| !files::is_standard_output(output));
        Destination::checked(arguments, output.map(beside))
    }

    fn checked(arguments: &Arguments, place: Option<String>) -> Result<Destination, Failure> {
        match &place {
            Some(name) if arguments.reads(name) => Err(Failure::Usage(format!(
                "{} is read here, and the names are not written over it",
                files::shown(name)
            ))),
            _ => Ok(Destination(place)),
        }
    }

    /// What is told where there are names and no place for them.
    pub fn lack(&self, arguments: &Arguments, names: &Names) -> String {
        let lost = self.0.is_none() && !arguments.has(NO_NAMES);
        match lost && (names.has_labels() || names.has_fields()) {
            true => "the names are left out: --names FILE tells where they go\n".to_owned(),
            false => String::new(),
        }
    }

    /// Writes the names once the register is written. Where there are none, those of
    /// the register that stood there before go. Tells what was done.
    pub fn write(&self, names: &Names, sizes: Sizes) -> Result<String, Failure> {
        let Some(name) = &self.0 else {
            return Ok(String::new());
        };
        let shown = files::shown(name);
        if !names.is_empty() {
            files::write(name, written(names, sizes).as_bytes())?;
            return Ok(format!(
                "wrote {shown}: the names, and how the sheet is written\n"
            ));
        }
        if !Path::new(name).is_file() {
            return Ok(String::new());
        }
        fs::remove_file(name).map_err(|error| Failure::file("remove", Path::new(name), &error))?;
        Ok(format!(
            "removed {shown}: names of what stood there before\n"
        ))
    }
}
