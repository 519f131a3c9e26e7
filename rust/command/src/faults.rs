//! What is wrong with a sheet or with a file of names, row by row.

use crate::failure::Failure;
use crate::json;
use crate::show::counted;

/// What is wrong, and where. Rows count from 1, the header's.
#[derive(Clone, Debug, PartialEq, Eq)]
pub struct Fault {
    /// The row.
    pub row: usize,
    /// The column, counted from 1, where it is one cell.
    pub column: Option<usize>,
    /// What is wrong.
    pub wrong: String,
}

impl Fault {
    /// A fault of a whole row.
    pub fn of_row(row: usize, wrong: impl Into<String>) -> Fault {
        let wrong = wrong.into();
        Fault {
            row,
            column: None,
            wrong,
        }
    }

    /// A fault of one cell.
    pub fn of_cell(row: usize, column: usize, wrong: impl Into<String>) -> Fault {
        Fault {
            column: Some(column),
            ..Fault::of_row(row, wrong)
        }
    }

    fn told(&self) -> String {
        let column = match self.column {
            Some(column) => format!(", column {column}"),
            None => String::new(),
        };
        format!("\n  row {}{column}: {}", self.row, self.wrong)
    }

    fn json(&self) -> String {
        json::object(&[
            ("row", self.row.to_string()),
            ("column", json::option(self.column)),
            ("wrong", json::string(&self.wrong)),
        ])
    }
}

/// A file that is refused: a line for each thing that is wrong, behind what follows
/// from it.
pub fn refused(name: &str, faults: &[Fault], follows: &str) -> Failure {
    let count = counted(faults.len(), "thing");
    let verb = if faults.len() == 1 { "is" } else { "are" };
    let lines: String = faults.iter().map(Fault::told).collect();
    Failure::Refused {
        told: format!("{name}: {count} {verb} wrong, {follows}{lines}"),
        json: json::object(&[("faults", json::list(faults.iter().map(Fault::json)))]),
    }
}

/// The text of a file, without a byte order mark.
pub fn text(bytes: &[u8]) -> Result<&str, Fault> {
    let text = str::from_utf8(bytes).map_err(|error| {
        let before = &bytes[..error.valid_up_to()];
        let row = 1 + before.iter().filter(|&&byte| byte == b'\n').count();
        Fault::of_row(
            row,
            "this is no text in UTF-8; save the sheet as CSV in UTF-8",
        )
    })?;
    Ok(text.strip_prefix('\u{feff}').unwrap_or(text))
}

/// The lines of a text, whether they end as on Windows or not.
pub fn lines(text: &str) -> impl Iterator<Item = &str> {
    let lines = text.split_terminator('\n');
    lines.map(|line| line.strip_suffix('\r').unwrap_or(line))
}
