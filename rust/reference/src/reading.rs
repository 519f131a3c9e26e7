//! A chain's value at a record, and the single reading (demand 2).

use crate::chain::{Word, read_chain};
use crate::refusal::{Reason, Refusal};
use crate::register::{Cell, Register};

/// Follows a hop word from a record, hop by hop; the first missing cell makes
/// the whole reading missing. A reading has no mark, only a value or none.
pub fn follow(word: &Word, record: usize, cell: impl Fn(usize, usize) -> Cell) -> Option<i32> {
    let mut reached = record as i32;
    for &field in word.fields() {
        reached = cell(reached as usize, usize::from(field)).value()?;
    }
    Some(reached)
}

/// What a single reading is asked for: the register is looked at first, then the
/// chain, then 16.
pub(crate) fn asked<'a>(
    register: &'a [u8],
    chain: &[u8],
    record: u64,
) -> Result<(Register<'a>, Word, usize), Refusal> {
    let register = Register::load(register)?;
    let word = read_chain(chain, &register.sizes).map_err(|reason| reason.at(1))?;
    if record >= register.sizes.records as u64 {
        return Err(Reason::NoSuchRecord.into());
    }
    Ok((register, word, record as usize))
}

/// A single reading.
pub fn reading(register: &[u8], chain: &[u8], record: u64) -> Result<Option<i32>, Refusal> {
    let (register, word, record) = asked(register, chain, record)?;
    Ok(follow(&word, record, |record, field| {
        register.cell(record, field)
    }))
}
