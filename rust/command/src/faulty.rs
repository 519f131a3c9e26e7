//! What is wrong with a register file, in numbers.

use plot::{Kind, Sizes};

/// The bytes in front of the cells, of a cell's value, and of value and mark.
const HEADER: usize = 12;
const VALUE_BYTES: usize = 4;
const CELL_BYTES: u64 = 5;
/// The bytes of the largest register file.
pub const MOST_BYTES: usize = HEADER + CELL_BYTES as usize * 4096 * 16;

/// What to do about a file that is refused, with the place where there is one.
pub fn told(kind: Kind, bytes: &[u8]) -> String {
    let said = match (kind, Sizes::in_header(bytes)) {
        (Kind::FileLength, None) => Some(format!("It has {}.", length_of(bytes))),
        (Kind::FileLength, Some(sizes)) => Some(length(sizes, bytes)),
        (Kind::Size, Some([n, r, m])) => Some(format!(
            "Its sizes say {n} records, {r} reference fields and {m} measure fields."
        )),
        (Kind::Mark | Kind::UnfilledValue | Kind::Reference, Some(sizes)) => cell(sizes, bytes),
        _ => None,
    };
    let said = said.map_or(String::new(), |said| said + " ");
    said + kind.advice()
}

fn length([n, r, m]: [u32; 3], bytes: &[u8]) -> String {
    let cells = u64::from(n) * (u64::from(r) + u64::from(m));
    let asked = HEADER as u64 + CELL_BYTES * cells;
    let has = length_of(bytes);
    format!("It has {has}, and its sizes (n {n}, r {r}, m {m}) ask for {asked}.")
}

/// How long a file is; one that is longer than a register can be is not read whole.
fn length_of(bytes: &[u8]) -> String {
    match bytes.len() > MOST_BYTES {
        true => format!("more than {MOST_BYTES} bytes"),
        false => format!("{} bytes", bytes.len()),
    }
}

/// The first cell that is wrong.
fn cell([n, r, m]: [u32; 3], bytes: &[u8]) -> Option<String> {
    let sizes = Sizes {
        records: n as usize,
        references: r as usize,
        measures: m as usize,
    };
    let (values, marks) = bytes[HEADER..].split_at_checked(VALUE_BYTES * sizes.cells())?;
    let values = values.chunks_exact(VALUE_BYTES);
    let values = values.map(|value| i32::from_le_bytes(value.try_into().expect("4 bytes")));
    let is_wrong = |(place, (value, mark)): &(usize, (i32, &u8))| match *mark {
        0 => *value != 0,
        1 | 2 => place % sizes.width() < sizes.references && !(0..n as i32).contains(value),
        _ => true,
    };
    let (place, (value, mark)) = values.zip(marks).enumerate().find(is_wrong)?;
    let record = place / sizes.width();
    let field = sizes.fields().nth(place % sizes.width())?;
    Some(format!(
        "Field {field} of record {record} has value {value} and mark {mark}."
    ))
}
