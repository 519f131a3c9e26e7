//! List ranking by pointer jumping (source 001, figure 2.6, in our rules).

use reference::register::{Cell, Sizes, encode};

/// The text: M becomes each record's distance from the first.
pub const TEXT: &[u8] = b"loop A\nstep\nM[u] := M[u] + M[A[u]]\nA[u] := A[A[u]]\nend\ndone\n";

/// A list: each record refers to the one before it and is 1 away from it; the
/// first refers to itself.
pub fn list(records: usize) -> Vec<u8> {
    let sizes = Sizes {
        records,
        references: 1,
        measures: 1,
    };
    let record =
        |u: usize| [u.saturating_sub(1), u.min(1)].map(|value| Cell::Measured(value as i32));
    let cells: Vec<Cell> = (0..records).flat_map(record).collect();
    encode(sizes, &cells)
}
