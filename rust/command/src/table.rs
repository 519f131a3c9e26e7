//! Tables whose columns are aligned, numbers to the right.

use crate::style::{Look, Style};

/// A cell of a table: its text and its look.
type TableCell = (String, Look);

/// A table with a heading.
pub struct Table {
    /// For each column its heading, and whether it is aligned to the right.
    columns: Vec<(String, bool)>,
    rows: Vec<Vec<TableCell>>,
}

impl Table {
    /// A table with these columns; a heading that begins with `>` is of a column
    /// that is aligned to the right.
    pub fn new<S: AsRef<str>>(headings: impl IntoIterator<Item = S>) -> Table {
        let column = |heading: S| match heading.as_ref().strip_prefix('>') {
            Some(heading) => (heading.to_owned(), true),
            None => (heading.as_ref().to_owned(), false),
        };
        let columns = headings.into_iter().map(column).collect();
        let rows = Vec::new();
        Table { columns, rows }
    }

    /// Adds a row.
    pub fn row<S: ToString>(&mut self, cells: impl IntoIterator<Item = (S, Look)>) {
        let cells = cells.into_iter();
        let cells = cells.map(|(text, look)| (text.to_string(), look));
        self.rows.push(cells.collect());
    }

    /// Adds a row of plain cells.
    pub fn plain<S: ToString>(&mut self, cells: impl IntoIterator<Item = S>) {
        self.row(cells.into_iter().map(|text| (text, Look::Plain)));
    }

    /// The lines of the table.
    pub fn print(&self, style: Style) -> String {
        let heads = self.columns.iter().map(|(head, _)| head.clone());
        let heads: Vec<TableCell> = heads.map(|head| (head, Look::Head)).collect();
        let widths: Vec<usize> = (0..heads.len()).map(|column| self.width(column)).collect();
        let rows = std::iter::once(&heads).chain(&self.rows);
        rows.map(|row| self.line(row, &widths, style)).collect()
    }

    fn width(&self, column: usize) -> usize {
        let cells = self.rows.iter().map(|row| row[column].0.chars().count());
        let heading = self.columns[column].0.chars().count();
        cells.chain([heading]).max().unwrap_or(0)
    }

    fn line(&self, row: &[TableCell], widths: &[usize], style: Style) -> String {
        let mut line = String::new();
        for (((text, look), width), (_, right)) in row.iter().zip(widths).zip(&self.columns) {
            let space = " ".repeat(width - text.chars().count());
            let text = style.paint(*look, text);
            line += "  ";
            line += &match right {
                true => format!("{space}{text}"),
                false => format!("{text}{space}"),
            };
        }
        line.trim_end().to_owned() + "\n"
    }
}
