//! Sheets: a register as a clerk keeps it in a spreadsheet, a header row of fields and
//! a row for each record.

use crate::csv::{self, DELIMITERS, Written};
use crate::faults::{self, Fault};
use crate::names::{self, Names, is_reference};
use crate::oneline::{clipped, quoted};
use crate::show;
use plot::{Cell, Register, Sizes};
use std::cmp::Reverse;
use std::collections::{BTreeMap, BTreeSet};

/// No sheet that a register can have is longer, in bytes.
pub const MOST_BYTES: usize = 16 << 20;
/// The most records, and the letters that a header may have.
const MAX_RECORDS: usize = 4096;
const LETTERS: [&str; 2] = ["ABCDEFGH", "MNOPQRST"];
/// The most columns: a label and the fields.
const MAX_COLUMNS: usize = 17;
/// The header of the labels.
const LABELS: &str = "plot";
/// What stands in a diary for a cell that is to be surveyed.
const ASKED: &str = "?";

/// What a sheet holds: the sizes, the cells row by row, and the names.
#[derive(Debug)]
pub struct Sheet {
    /// How many records and fields it has.
    pub sizes: Sizes,
    /// The cells, row by row.
    pub cells: Vec<Cell>,
    /// The names of its records and fields.
    pub names: Names,
    /// For each field that has both units: the first row with centimetres.
    pub mixed: Vec<(char, usize)>,
}

/// The cells of a register: record and field.
pub type Places = BTreeSet<(usize, char)>;

/// The register as a sheet; an unfilled cell is empty, or `?` where it is asked for,
/// and a worked-out value has ~ behind it.
pub fn written(register: &Register, names: &Names, asked: &Places) -> String {
    let fields = || register.sizes().fields();
    let delimiter = names.delimiter.unwrap_or(',');
    let labelled = |label: &str| names.has_labels().then(|| label.to_owned()).into_iter();
    let header = labelled(LABELS).chain(fields().map(|field| names.field(field)));
    let mut sheet = csv::row(header, delimiter);
    for (record, cells) in show::records(register) {
        let cells = fields().zip(cells).map(|(field, cell)| match cell {
            Cell::Unfilled if asked.contains(&(record, field)) => ASKED.to_owned(),
            Cell::Unfilled => String::new(),
            cell => cell_written(names, field, cell),
        });
        let label = labelled(names.label(record).unwrap_or(""));
        sheet += &csv::row(label.chain(cells), delimiter);
    }
    sheet
}

/// A filled cell: a reference by its label, a measure in the unit of its field.
fn cell_written(names: &Names, field: char, cell: Cell) -> String {
    match cell.value() {
        Some(value) if names.metres.contains(&field) => {
            let mark = if names::is_worked_out(cell) { "~" } else { "" };
            metres(value.into()) + mark
        }
        _ => names.cell(field, cell),
    }
}

/// What a sheet holds, or everything that is wrong with it.
pub fn read(bytes: &[u8], delimiter: Option<char>) -> Result<Sheet, Vec<Fault>> {
    let one = |fault| vec![fault];
    let text = faults::text(bytes).map_err(one)?;
    let Some(first) = faults::lines(text).next() else {
        let wrong = "the header row is missing: the field letters, as A,B,M";
        return Err(one(Fault::of_row(1, wrong)));
    };
    let header = Header::of(first, delimiter).map_err(one)?;
    let body = text.split_once('\n').map_or("", |(_, body)| body);
    let rows = header.rows(body);
    if rows.len() > MAX_RECORDS {
        let wrong = format!("a register has at most {MAX_RECORDS} records");
        return Err(one(Fault::of_row(MAX_RECORDS + 2, wrong)));
    }
    Reading::of(header, rows.len()).read(&rows)
}

/// What the first row says.
struct Header {
    delimiter: char,
    /// Whether the first column has labels.
    labelled: bool,
    /// The letters of the fields, and their names.
    fields: Vec<(char, String)>,
}

impl Header {
    /// The header with this delimiter, or with the one that gives the most columns
    /// which are fields. What is wrong is told for the one that parts it most often.
    fn of(row: &str, delimiter: Option<char>) -> Result<Header, Fault> {
        let mut tried = delimiter.map_or_else(|| delimiters(row), |delimiter| vec![delimiter]);
        tried.sort_by_key(|&delimiter| Reverse(parts(row, delimiter)));
        let headers = tried.iter().map(|&delimiter| Header::by(row, delimiter));
        let (fitting, others): (Vec<_>, Vec<_>) = headers.partition(Result::is_ok);
        let fitting = fitting.into_iter().flatten();
        let mut faults = others.into_iter().filter_map(Result::err);
        let best = fitting.rev().max_by_key(Header::columns);
        best.ok_or_else(|| faults.next().expect("one delimiter is tried"))
    }

    fn by(row: &str, delimiter: char) -> Result<Header, Fault> {
        let cells = match row.trim().is_empty() {
            true => Vec::new(),
            false => csv::cells(row, delimiter, MAX_COLUMNS),
        };
        let is_label =
            |cell: &Written| matches!(cell, Ok(cell) if cell.eq_ignore_ascii_case(LABELS));
        let labelled = cells.first().is_some_and(is_label);
        let fields = fields(&cells, usize::from(labelled))?;
        Ok(Header {
            delimiter,
            labelled,
            fields,
        })
    }

    fn columns(&self) -> usize {
        usize::from(self.labelled) + self.fields.len()
    }

    /// The rows behind the header; blank last lines are left out where a record is
    /// no blank line.
    fn rows<'a>(&self, body: &'a str) -> Vec<&'a str> {
        let is_blank = |c: char| c.is_whitespace() && c != self.delimiter;
        let body = match self.columns() {
            0 | 1 => body,
            _ => body.trim_end_matches(is_blank),
        };
        faults::lines(body).take(MAX_RECORDS + 1).collect()
    }
}

/// The delimiters that part a header, or else the comma.
fn delimiters(row: &str) -> Vec<char> {
    let delimiters = DELIMITERS.iter().map(|(delimiter, _)| *delimiter);
    let parting: Vec<char> = delimiters.filter(|d| parts(row, *d) > 1).collect();
    match parting.is_empty() {
        true => vec![','],
        false => parting,
    }
}

fn parts(row: &str, delimiter: char) -> usize {
    csv::cells(row, delimiter, MAX_COLUMNS).len()
}

/// The letters and names of the fields, which stand behind so many columns.
fn fields(cells: &[Written], skipped: usize) -> Result<Vec<(char, String)>, Fault> {
    let mut fields: Vec<(char, String)> = Vec::new();
    for (column, cell) in (1..).zip(cells).skip(skipped) {
        let cell = cell
            .as_ref()
            .map_err(|wrong| Fault::of_cell(1, column, *wrong))?;
        let (letter, name) = cell.split_once(' ').unwrap_or((cell, ""));
        let letter = next_letters(&fields).find(|next| next.to_string() == letter);
        match letter {
            Some(letter) => fields.push((letter, name.trim().to_owned())),
            None => return Err(Fault::of_cell(1, column, no_field(cell))),
        }
    }
    Ok(fields)
}

/// The letters that may follow in a header: the next of the same kind, and M behind
/// the references.
fn next_letters(fields: &[(char, String)]) -> impl Iterator<Item = char> {
    let references = fields.iter().filter(|(letter, _)| is_reference(*letter));
    let references = references.count();
    let measures = fields.len() - references;
    let reference = LETTERS[0].chars().nth(references);
    let reference = reference.filter(|_| measures == 0);
    let measure = LETTERS[1].chars().nth(measures);
    reference.into_iter().chain(measure)
}

fn no_field(cell: &str) -> String {
    format!(
        "{} in the header: it has the letters A, B, .. of the reference fields and then M, N, .. \
         of the measure fields, in this order, each with a name behind it or without one (M depth); \
         {LABELS} may stand before them",
        quoted(cell)
    )
}

/// A sheet that is being read.
struct Reading {
    header: Header,
    sheet: Sheet,
    faults: Vec<Fault>,
    /// The fields with a measure in centimetres other than 0, and its first row.
    centimetres: BTreeMap<char, usize>,
}

impl Reading {
    fn of(header: Header, records: usize) -> Reading {
        let references = header.fields.iter().filter(|(f, _)| is_reference(*f));
        let references = references.count();
        let sizes = Sizes {
            records,
            references,
            measures: header.fields.len() - references,
        };
        let mut names = Names::default();
        names.delimiter = Some(header.delimiter).filter(|&delimiter| delimiter != ',');
        let cells = Vec::with_capacity(sizes.cells());
        Reading {
            header,
            sheet: Sheet {
                sizes,
                cells,
                names,
                mixed: Vec::new(),
            },
            faults: Vec::new(),
            centimetres: BTreeMap::new(),
        }
    }

    fn read(mut self, rows: &[&str]) -> Result<Sheet, Vec<Fault>> {
        self.name_fields();
        let rows: Vec<Vec<Written>> = rows.iter().map(|row| self.row_cells(row)).collect();
        // A reference may be the label of a later record.
        for (record, row) in rows.iter().enumerate() {
            self.label(record, row.first());
        }
        for (record, row) in rows.iter().enumerate() {
            self.row(record + 2, row);
        }
        let metres = &mut self.sheet.names.metres;
        let mixed = self
            .centimetres
            .iter()
            .filter(|(field, _)| metres.contains(field));
        self.sheet.mixed = mixed.map(|(field, row)| (*field, *row)).collect();
        metres.retain(|field| !self.centimetres.contains_key(field));
        self.faults.sort_by_key(|fault| (fault.row, fault.column));
        match self.faults.is_empty() {
            true => Ok(self.sheet),
            false => Err(self.faults),
        }
    }

    fn name_fields(&mut self) {
        let labelled = usize::from(self.header.labelled);
        for (column, (field, name)) in (labelled + 1..).zip(&self.header.fields) {
            if let Err(wrong) = self.sheet.names.add_field(*field, name) {
                self.faults.push(Fault::of_cell(1, column, wrong));
            }
        }
    }

    /// The cells of a row; a blank line is one empty cell where there is one column.
    fn row_cells(&self, row: &str) -> Vec<Written> {
        let columns = self.header.columns();
        let delimiter = self.header.delimiter;
        let blank = row.chars().all(|c| c.is_whitespace() && c != delimiter);
        match blank && columns != 1 {
            true => Vec::new(),
            false => csv::cells(row, delimiter, columns),
        }
    }

    fn label(&mut self, record: usize, cell: Option<&Written>) {
        if self.header.labelled
            && let Some(Ok(label)) = cell
            && let Err(wrong) = self.sheet.names.add_label(record, label)
        {
            self.faults.push(Fault::of_cell(record + 2, 1, wrong));
        }
    }

    fn row(&mut self, row: usize, cells: &[Written]) {
        let columns = self.header.columns();
        if cells.len() != columns {
            let has = show::counted(cells.len().min(columns), "cell");
            let wrong = match cells.len() > columns {
                true => format!("it has more than {has}, as many as the header has"),
                false => format!("it has {has}, and the header {columns}"),
            };
            return self.faults.push(Fault::of_row(row, wrong));
        }
        for (column, cell) in cells.iter().enumerate() {
            let field = column.checked_sub(usize::from(self.header.labelled));
            let read = match (cell, field) {
                (Err(wrong), _) => Err((*wrong).to_owned()),
                (Ok(_), None) => continue,
                (Ok(cell), Some(field)) => self.cell(row, self.header.fields[field].0, cell),
            };
            match read {
                Ok(cell) => self.sheet.cells.push(cell),
                Err(wrong) => self.faults.push(Fault::of_cell(row, column + 1, wrong)),
            }
        }
    }

    /// A cell as it is written, its unit kept.
    fn cell(&mut self, row: usize, field: char, cell: &str) -> Result<Cell, String> {
        let (names, records) = (&self.sheet.names, self.sheet.sizes.records);
        let (cell, unit) = cell_value(names, records, field, cell)?;
        match unit {
            Some(Unit::Metres) => drop(self.sheet.names.metres.insert(field)),
            Some(Unit::Centimetres) if cell.value() != Some(0) => {
                self.centimetres.entry(field).or_insert(row);
            }
            _ => {}
        }
        Ok(cell)
    }
}

/// A cell of a field as it is written, unfilled where it is empty or asked for, with
/// the unit of a measure. A reference is one of so many records.
pub fn cell_value(
    names: &Names,
    records: usize,
    field: char,
    cell: &str,
) -> Result<(Cell, Option<Unit>), String> {
    if cell.is_empty() || cell == ASKED {
        return Ok((Cell::Unfilled, None));
    }
    let (filled, bare): (fn(i32) -> Cell, &str) = match cell.strip_suffix('~') {
        Some(bare) => (Cell::WorkedOut, bare.trim_end()),
        None => (Cell::Measured, cell),
    };
    match is_reference(field) {
        true => Ok((filled(reference(names, records, bare, cell)?), None)),
        false => measure(bare, cell).map(|(value, unit)| (filled(value), Some(unit))),
    }
}

/// The record that a cell names by its label or its number.
fn reference(names: &Names, records: usize, bare: &str, cell: &str) -> Result<i32, String> {
    let number = match names.meant(bare) {
        names::Written::Label(record) => return Ok(record as i32),
        names::Written::NoLabel => return Err(no_label(bare)),
        names::Written::Number(number) => number,
    };
    match whole(number) {
        Some(record) if (0..records as i64).contains(&record) => Ok(record as i32),
        Some(_) => Err(format!(
            "{} is no record: there are {} here, counted from 0",
            clipped(number),
            show::counted(records, "record")
        )),
        None if names.has_labels() => {
            Err(format!("{} is no label and no record number", quoted(bare)))
        }
        None => {
            let meant = number.parse::<i64>().ok().map(|number| number.to_string());
            let none = || format!("{} is no whole number", quoted(bare));
            Err(not_written(cell, meant).unwrap_or_else(none))
        }
    }
}

/// What a measure is written in.
#[derive(Clone, Copy, Debug, PartialEq, Eq)]
pub enum Unit {
    /// Without a point.
    Centimetres,
    /// With a point and two decimals.
    Metres,
}

/// A measure in centimetres, or in metres with two decimals.
fn measure(bare: &str, cell: &str) -> Result<(i32, Unit), String> {
    let (value, unit) = match (whole(bare), in_metres(bare)) {
        (Some(value), _) => (value, Unit::Centimetres),
        (None, Some(value)) => (value, Unit::Metres),
        (None, None) => {
            let none = || {
                let cell = quoted(cell);
                format!("{cell} is no whole number of centimetres, and no metres as 1.80")
            };
            return Err(not_written(cell, meant(bare)).unwrap_or_else(none));
        }
    };
    let out_of_range = |_| {
        let range = "-2147483648 to 2147483647 centimetres";
        format!("{} is out of range: {range}", clipped(bare))
    };
    let value = i32::try_from(value).map_err(out_of_range)?;
    Ok((value, unit))
}

fn no_label(bare: &str) -> String {
    format!(
        "{} is no label here; where labels are numbers, write #3 for record 3",
        quoted(bare)
    )
}

/// A whole number in its one way of writing, so that it is written back the same.
fn whole(text: &str) -> Option<i64> {
    let value: i64 = text.parse().ok()?;
    (value.to_string() == text).then_some(value)
}

/// The centimetres of metres, in their one way of writing.
fn in_metres(text: &str) -> Option<i64> {
    let (whole, decimals) = text.split_once('.')?;
    let value: i64 = format!("{whole}{decimals}").parse().ok()?;
    (metres(value) == text).then_some(value)
}

/// Centimetres written as metres: 180 is 1.80.
fn metres(centimetres: i64) -> String {
    let sign = if centimetres < 0 { "-" } else { "" };
    let size = centimetres.unsigned_abs();
    format!("{sign}{}.{:02}", size / 100, size % 100)
}

/// The measure that was meant by a cell that is not written as one.
fn meant(text: &str) -> Option<String> {
    let text = text.replace(',', ".");
    let Some((whole, decimals)) = text.split_once('.') else {
        return text.parse::<i64>().ok().map(|value| value.to_string());
    };
    let digits = decimals.len() <= 2 && decimals.bytes().all(|byte| byte.is_ascii_digit());
    let value = format!("{whole}{decimals:0<2}").parse::<i64>().ok();
    value.filter(|_| digits).map(metres)
}

/// How to write a cell, where that can be told.
fn not_written(cell: &str, meant: Option<String>) -> Option<String> {
    let mark = if cell.ends_with('~') { "~" } else { "" };
    meant.map(|meant| format!("write {meant}{mark} instead of {}", quoted(cell)))
}
