//! Paths as Rust values.

use crate::Cell;
use crate::lent::{self, PathBuffers};

/// A hop of a path: the cell that it looks at.
#[derive(Clone, Copy, Debug, PartialEq, Eq)]
pub struct Hop {
    /// The record that it looks at.
    pub record: usize,
    /// The field's letter.
    pub field: char,
    /// What the cell holds.
    pub cell: Cell,
}

/// The path behind a reading. It is the whole reason: every register of the same
/// sizes that agrees on its cells, values and whether filled, has the same path, but
/// for measured against worked out, and the same reading.
#[derive(Clone, Debug, PartialEq, Eq)]
pub struct Path {
    /// The hops from the inside out, up to the value or the first gap. There are
    /// none for the chain `u`.
    pub hops: Vec<Hop>,
    /// What the reading comes to, `None` where it is unfilled.
    pub value: Option<i32>,
}

impl Path {
    /// The path from a record that a call has left in the buffers. The reading is
    /// the last cell, for the chain `u` the record's own number.
    pub(crate) fn taken_from(record: usize, buffers: &PathBuffers, answer: &lent::Answer) -> Path {
        let hop = |i: usize| {
            let value = buffers.values[i] as i32;
            Hop {
                record: buffers.records[i] as usize,
                field: char::from(buffers.fields[i]),
                cell: match buffers.marks[i] {
                    0 => Cell::Unfilled,
                    1 => Cell::Measured(value),
                    _ => Cell::WorkedOut(value),
                },
            }
        };
        let hops: Vec<Hop> = (0..answer[lent::HOPS] as usize).map(hop).collect();
        let last = hops.last();
        let value = last.map_or(Some(record as i32), |hop| hop.cell.value());
        Path { hops, value }
    }

    /// What the reading comes to, and where that comes from: the last cell. The
    /// number that `u` reads is given with the register, as a measured value is.
    pub fn cell(&self) -> Cell {
        self.hops.last().map_or(self.value.into(), |hop| hop.cell)
    }
}
