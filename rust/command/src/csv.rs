//! Rows of values that a delimiter separates, as spreadsheets write them.

/// The delimiters that a sheet may have, with their names.
pub const DELIMITERS: [(char, &str); 3] = [(',', "comma"), (';', "semicolon"), ('\t', "tab")];

/// A cell as it is written, without the spaces and quotes around it, or what is wrong
/// with it.
pub type Written = Result<String, &'static str>;

/// The cells of a row. One that has more than `most` ends behind the first beyond.
pub fn cells(row: &str, delimiter: char, most: usize) -> Vec<Written> {
    let mut cells = Vec::new();
    let mut rest = Some(row);
    while let Some(row) = rest.filter(|_| cells.len() <= most) {
        let (cell, behind) = cell(row, delimiter);
        cells.push(cell);
        rest = behind;
    }
    cells
}

/// The first cell of a row, and what stands behind its delimiter.
fn cell(row: &str, delimiter: char) -> (Written, Option<&str>) {
    let begun = row.trim_start_matches(|c: char| c.is_whitespace() && c != delimiter);
    match begun.strip_prefix('"') {
        Some(quoted) => quoted_cell(quoted, delimiter),
        None => {
            let (cell, behind) = parted(row, delimiter);
            (Ok(cell.trim().to_owned()), behind)
        }
    }
}

/// A cell in quotes, its first quote left out; two quotes in it stand for one.
fn quoted_cell(text: &str, delimiter: char) -> (Written, Option<&str>) {
    let mut cell = String::new();
    let mut rest = text;
    while let Some((part, behind)) = rest.split_once('"') {
        cell += part;
        match behind.strip_prefix('"') {
            Some(behind) => {
                cell.push('"');
                rest = behind;
            }
            None => return closed(cell, behind, delimiter),
        }
    }
    let (_, behind) = parted(text, delimiter);
    (Err("a quote is opened and not closed in this row"), behind)
}

/// A cell whose quotes are closed, and what stands behind it.
fn closed(cell: String, behind: &str, delimiter: char) -> (Written, Option<&str>) {
    let (between, behind) = parted(behind, delimiter);
    match between.trim().is_empty() {
        true => (Ok(cell.trim().to_owned()), behind),
        false => (Err("something stands behind the closing quote"), behind),
    }
}

fn parted(row: &str, delimiter: char) -> (&str, Option<&str>) {
    match row.split_once(delimiter) {
        Some((cell, behind)) => (cell, Some(behind)),
        None => (row, None),
    }
}

/// A row as it is written, with its line break.
pub fn row(cells: impl IntoIterator<Item = String>, delimiter: char) -> String {
    let written = |cell: String| match cell.contains([delimiter, '"']) {
        true => format!("\"{}\"", cell.replace('"', "\"\"")),
        false => cell,
    };
    let cells: Vec<String> = cells.into_iter().map(written).collect();
    cells.join(&delimiter.to_string()) + "\n"
}
