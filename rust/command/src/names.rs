//! Names of records and fields: what they are, and how they are shown.

use crate::json;
use crate::oneline::{SHOWN, quoted};
use plot::Cell;
use std::collections::{BTreeMap, BTreeSet, HashMap};

/// The names of a register's records and fields, and how its sheet was written.
#[derive(Clone, Debug, Default, PartialEq, Eq)]
pub struct Names {
    labels: BTreeMap<usize, String>,
    labelled: HashMap<String, usize>,
    /// Whether some label is a number, so that a number is a label.
    numbered: bool,
    fields: BTreeMap<char, String>,
    /// The measure fields that the sheet has in metres.
    pub metres: BTreeSet<char>,
    /// What stands between the cells of the sheet, where that is no comma.
    pub delimiter: Option<char>,
}

/// A record as somebody wrote it.
#[derive(Clone, Copy, Debug, PartialEq, Eq)]
pub enum Written<'a> {
    /// The label of this record.
    Label(usize),
    /// What is to be a record number.
    Number(&'a str),
    /// A number that is no label, where numbers are labels.
    NoLabel,
}

impl Names {
    /// Whether there is nothing to keep.
    pub fn is_empty(&self) -> bool {
        *self == Names::default()
    }

    /// Whether a record has a label.
    pub fn has_labels(&self) -> bool {
        !self.labels.is_empty()
    }

    /// Whether a field has a name.
    pub fn has_fields(&self) -> bool {
        !self.fields.is_empty()
    }

    /// Gives a record its label; an empty one is none. What is wrong with it else.
    pub fn add_label(&mut self, record: usize, label: &str) -> Result<(), String> {
        if label.is_empty() {
            return Ok(());
        }
        if let Some(wrong) = wrong_name(label).or_else(|| wrong_label(label)) {
            return Err(wrong);
        }
        if let Some(other) = self.labelled.insert(label.to_owned(), record) {
            let label = quoted(label);
            return Err(format!(
                "{label} is the label of two records, {other} and {record}"
            ));
        }
        self.numbered |= label.parse::<u64>().is_ok();
        self.labels.insert(record, label.to_owned());
        Ok(())
    }

    /// Gives a field its name; an empty one is none. What is wrong with it else.
    pub fn add_field(&mut self, field: char, name: &str) -> Result<(), String> {
        match wrong_name(name) {
            Some(wrong) => return Err(wrong),
            None if name.is_empty() => {}
            None => drop(self.fields.insert(field, name.to_owned())),
        }
        Ok(())
    }

    /// The label of a record.
    pub fn label(&self, record: usize) -> Option<&str> {
        self.labels.get(&record).map(String::as_str)
    }

    /// The name of a field.
    pub fn name(&self, field: char) -> Option<&str> {
        self.fields.get(&field).map(String::as_str)
    }

    /// The field that has this name.
    pub fn field_called(&self, name: &str) -> Option<char> {
        let mut fields = self.fields.iter();
        fields.find(|(_, given)| *given == name).map(|(f, _)| *f)
    }

    /// The labels by record.
    pub fn labels(&self) -> impl Iterator<Item = (usize, &str)> {
        let labels = self.labels.iter();
        labels.map(|(record, label)| (*record, label.as_str()))
    }

    /// A field with its name: `M depth`.
    pub fn field(&self, field: char) -> String {
        match self.name(field) {
            Some(name) => format!("{field} {name}"),
            None => field.to_string(),
        }
    }

    /// The fields that have names, in a line; none where none has one.
    pub fn legend(&self) -> Option<String> {
        let fields = self.fields.keys().map(|field| self.field(*field));
        let fields: Vec<String> = fields.collect();
        (!fields.is_empty()).then(|| format!("fields: {}", fields.join(", ")))
    }

    /// A record in a sentence: `record 9`, `Mark A (record 9)`.
    pub fn record(&self, record: usize) -> String {
        match self.label(record) {
            Some(label) => format!("{label} (record {record})"),
            None => format!("record {record}"),
        }
    }

    /// A record in a cell or in a list: its label, or else its number in the way that
    /// is read back as one.
    pub fn reference(&self, record: usize) -> String {
        match (self.label(record), self.numbered) {
            (Some(label), _) => label.to_owned(),
            (None, true) => format!("#{record}"),
            (None, false) => record.to_string(),
        }
    }

    /// The headings of a table for a record: its number, and its label if there are any.
    pub fn record_headings(&self) -> Vec<String> {
        let label = self.has_labels().then_some("plot");
        [">record"]
            .into_iter()
            .chain(label)
            .map(String::from)
            .collect()
    }

    /// The cells of a table for a record.
    pub fn record_cells(&self, record: usize) -> Vec<String> {
        let label = self.label(record).unwrap_or("").to_owned();
        let label = self.has_labels().then_some(label);
        [record.to_string()].into_iter().chain(label).collect()
    }

    /// What a cell of a field holds: a reference by its label.
    pub fn cell(&self, field: char, cell: Cell) -> String {
        match cell.value() {
            Some(record) if is_reference(field) => {
                let mark = if is_worked_out(cell) { "~" } else { "" };
                self.reference(record as usize) + mark
            }
            _ => cell.to_string(),
        }
    }

    /// What somebody meant by a record.
    pub fn meant<'a>(&self, word: &'a str) -> Written<'a> {
        match (self.labelled.get(word), word.strip_prefix('#')) {
            (Some(record), _) => Written::Label(*record),
            (None, Some(number)) => Written::Number(number),
            (None, None) if self.numbered => Written::NoLabel,
            (None, None) => Written::Number(word),
        }
    }

    /// The members of an object that is about a record.
    pub fn record_members(&self, record: usize) -> Vec<(&'static str, String)> {
        let label = self.label(record);
        let label = label.map(|label| ("label", json::string(label)));
        [("record", record.to_string())]
            .into_iter()
            .chain(label)
            .collect()
    }

    /// The members of an object that is about a cell.
    pub fn cell_members(&self, record: usize, field: char) -> Vec<(&'static str, String)> {
        let name = self.name(field).map(|name| ("name", json::string(name)));
        let field = [("field", json::string(&field.to_string()))];
        let members = self.record_members(record).into_iter();
        members.chain(field).chain(name).collect()
    }
}

/// Whether a field holds references.
pub fn is_reference(field: char) -> bool {
    field < 'M'
}

/// Whether a rule has worked a cell's value out.
pub fn is_worked_out(cell: Cell) -> bool {
    matches!(cell, Cell::WorkedOut(_))
}

fn wrong_name(name: &str) -> Option<String> {
    if name.chars().count() > SHOWN {
        let name = quoted(name);
        return Some(format!(
            "{name} is too long: a name has at most {SHOWN} characters"
        ));
    }
    let control = name.chars().any(char::is_control);
    control.then(|| format!("{} has control characters in it", quoted(name)))
}

fn wrong_label(label: &str) -> Option<String> {
    let taken = ["?", "-"].contains(&label) || label.starts_with('#') || label.ends_with('~');
    taken.then(|| {
        format!(
            "{} is no label: ?, -, # in front and ~ behind have a meaning of their own",
            quoted(label)
        )
    })
}
