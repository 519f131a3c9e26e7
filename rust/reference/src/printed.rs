//! "A printed run": the paper's own register, rules text and output.

use crate::register::{Cell, Sizes, encode};

/// n 3, r 1, m 1
pub const SIZES: Sizes = Sizes {
    records: 3,
    references: 1,
    measures: 1,
};

/// A: 1, 2, missing. M: missing, 0, 180.
pub const CELLS: [Cell; 6] = [
    Cell::Measured(1),
    Cell::Missing,
    Cell::Measured(2),
    Cell::Measured(0),
    Cell::Missing,
    Cell::Measured(180),
];

/// The rules text.
pub const TEXT: &[u8] = b"step\nM[u] := M[A[A[u]]]\nend\n";

/// What the program prints.
pub const OUTPUT: &str = "\
3 records 1 steps 3 exchanges 4 letters
0 1 180~
1 2 0
2 - 180
";

/// The register file.
pub fn register() -> Vec<u8> {
    encode(SIZES, &CELLS)
}
