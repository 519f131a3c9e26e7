//! The path behind a reading (M-109 of document 02): each hop's record, field
//! and cell, stopping at the value or the first gap.

use crate::chain::Word;
use crate::reading::asked;
use crate::refusal::Refusal;
use crate::register::Cell;

/// A hop of a path.
#[derive(Clone, Copy, Debug, PartialEq, Eq)]
pub struct Hop {
    /// The record that it stands at.
    pub record: usize,
    /// Its field, counted from 0, reference fields first.
    pub field: usize,
    /// The cell of that record and field.
    pub cell: Cell,
}

/// The hops of a word from a record; the first missing cell is the last that is
/// listed.
fn hops(word: &Word, record: usize, cell: impl Fn(usize, usize) -> Cell) -> Vec<Hop> {
    let mut hops = Vec::with_capacity(word.fields().len());
    let mut record = record;
    for field in word.fields().iter().copied().map(usize::from) {
        let cell = cell(record, field);
        hops.push(Hop {
            record,
            field,
            cell,
        });
        match cell.value() {
            None => break,
            Some(value) => record = value as usize,
        }
    }
    hops
}

/// The path behind the reading of a chain at a record, refused as the reading is.
pub fn path(register: &[u8], chain: &[u8], record: u64) -> Result<Vec<Hop>, Refusal> {
    let (register, word, record) = asked(register, chain, record)?;
    Ok(hops(&word, record, |record, field| {
        register.cell(record, field)
    }))
}
