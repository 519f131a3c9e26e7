//! Registers: a file that the library has taken, its sizes and its cells.

use crate::lent::{self, Answer, PathBuffers};
use crate::refusal::passed;
use crate::{Path, Refusal};
use std::fmt;

/// The bytes of a register file in front of its cells.
const HEADER: usize = 12;
/// The bytes of a cell's value.
const VALUE_BYTES: usize = 4;
/// The letters of the reference fields and of the measure fields.
const REFERENCES: &str = "ABCDEFGH";
const MEASURES: &str = "MNOPQRST";

/// How many records and fields a register has.
#[derive(Clone, Copy, Debug, PartialEq, Eq)]
pub struct Sizes {
    /// Records, 0 to 4096.
    pub records: usize,
    /// Reference fields, 0 to 8: A, B, .. H.
    pub references: usize,
    /// Measure fields, 0 to 8: M, N, .. T.
    pub measures: usize,
}

impl Sizes {
    /// The letters of the fields in the order of the file, references first.
    pub fn fields(self) -> impl Iterator<Item = char> {
        let references = REFERENCES.chars().take(self.references);
        references.chain(MEASURES.chars().take(self.measures))
    }

    /// The fields of a record.
    pub fn width(self) -> usize {
        self.references + self.measures
    }

    /// The cells of all records.
    pub fn cells(self) -> usize {
        self.records * self.width()
    }

    /// The three sizes as a file has them; none where it is too short.
    pub fn in_header(bytes: &[u8]) -> Option<[u32; 3]> {
        let size = |place: usize| {
            let bytes = bytes.get(4 * place..)?.first_chunk()?;
            Some(u32::from_le_bytes(*bytes))
        };
        Some([size(0)?, size(1)?, size(2)?])
    }
}

/// What a cell holds.
#[derive(Clone, Copy, Debug, PartialEq, Eq)]
#[non_exhaustive]
pub enum Cell {
    /// Nobody has filled it. It has no value, not even 0.
    Unfilled,
    /// A value that somebody measured or wrote down: a record number in a reference
    /// field, centimetres in a measure field.
    Measured(i32),
    /// A value that a rule has worked out.
    WorkedOut(i32),
}

impl Cell {
    /// The value, where there is one.
    pub fn value(self) -> Option<i32> {
        match self {
            Cell::Unfilled => None,
            Cell::Measured(value) | Cell::WorkedOut(value) => Some(value),
        }
    }

    /// The mark in a register file: 0 unfilled, 1 measured, 2 worked out.
    pub fn mark(self) -> u8 {
        match self {
            Cell::Unfilled => 0,
            Cell::Measured(_) => 1,
            Cell::WorkedOut(_) => 2,
        }
    }
}

impl From<Option<i32>> for Cell {
    /// A value is one that was measured.
    fn from(value: Option<i32>) -> Cell {
        value.map_or(Cell::Unfilled, Cell::Measured)
    }
}

impl fmt::Display for Cell {
    /// The value, with `~` behind it where it is worked out; `-` where the cell is
    /// unfilled.
    fn fmt(&self, f: &mut fmt::Formatter<'_>) -> fmt::Result {
        match self {
            Cell::Unfilled => f.pad("-"),
            Cell::Measured(value) => value.fmt(f),
            Cell::WorkedOut(value) => f.pad(&format!("{value}~")),
        }
    }
}

/// A register file that the library has looked at and taken.
///
/// ```
/// use plot::{Cell, Register, Sizes};
///
/// // Three plots: the first is measured from the second, that from the third.
/// let sizes = Sizes { records: 3, references: 1, measures: 1 };
/// let cells = [Some(1), None, Some(2), Some(0), None, Some(180)];
/// let register = Register::from_cells(sizes, &cells)?;
/// assert_eq!(register.sizes(), sizes);
/// assert_eq!(register.cell(0, 'A'), Some(Cell::Measured(1)));
/// assert_eq!(register.cell(0, 'M'), Some(Cell::Unfilled));
/// assert_eq!(register.cell(0, 'B'), None);
/// assert_eq!(register.as_bytes().len(), 12 + 5 * 6);
/// # Ok::<(), plot::Refusal>(())
/// ```
#[derive(Clone, Debug, PartialEq, Eq)]
pub struct Register {
    bytes: Vec<u8>,
    sizes: Sizes,
}

impl Register {
    /// The register of a file's bytes, or refusal 1 to 5.
    pub fn from_bytes(bytes: impl Into<Vec<u8>>) -> Result<Register, Refusal> {
        let bytes = bytes.into();
        let mut answer = Answer::default();
        // The empty text passes over every register that loads.
        passed(lent::check(&bytes, b"", &mut answer), &answer)?;
        Ok(Register::loaded(bytes))
    }

    /// The register with these cells, record by record, references first; of plain
    /// values `None` is unfilled and the others are measured. Refusal 1 to 5, 1 where
    /// the number of cells is not the one that the sizes say.
    pub fn from_cells<C>(sizes: Sizes, cells: &[C]) -> Result<Register, Refusal>
    where
        C: Copy + Into<Cell>,
    {
        let cells: Vec<Cell> = cells.iter().map(|&cell| cell.into()).collect();
        let sizes = [sizes.records, sizes.references, sizes.measures];
        let size = |size: usize| u32::try_from(size).unwrap_or(u32::MAX).to_le_bytes();
        let values = cells
            .iter()
            .map(|cell| cell.value().unwrap_or(0).to_le_bytes());
        let mut bytes: Vec<u8> = sizes.into_iter().flat_map(size).collect();
        bytes.extend(values.flatten());
        bytes.extend(cells.iter().map(|cell| cell.mark()));
        Register::from_bytes(bytes)
    }

    /// The register of bytes that are known to load.
    pub(crate) fn loaded(bytes: Vec<u8>) -> Register {
        let sizes = Sizes::in_header(&bytes).expect("it loads");
        let [records, references, measures] = sizes.map(|size| size as usize);
        let sizes = Sizes {
            records,
            references,
            measures,
        };
        Register { bytes, sizes }
    }

    /// The register file.
    pub fn as_bytes(&self) -> &[u8] {
        &self.bytes
    }

    /// How many records and fields it has.
    pub fn sizes(&self) -> Sizes {
        self.sizes
    }

    /// The cell of a record, counted from 0, in the field with this letter; none
    /// where there is no such record or field.
    pub fn cell(&self, record: usize, field: char) -> Option<Cell> {
        let column = self.sizes.fields().position(|letter| letter == field)?;
        (record < self.sizes.records).then(|| self.cell_at(record * self.sizes.width() + column))
    }

    /// The cells of a record in the order of [`Sizes::fields`]; none where there
    /// is no such record.
    pub fn record(&self, record: usize) -> Option<Vec<Cell>> {
        let width = self.sizes.width();
        let cells = record * width..(record + 1) * width;
        (record < self.sizes.records).then(|| cells.map(|place| self.cell_at(place)).collect())
    }

    fn cell_at(&self, place: usize) -> Cell {
        let value = &self.bytes[HEADER + VALUE_BYTES * place..];
        let marks = HEADER + VALUE_BYTES * self.sizes.cells();
        let value = i32::from_le_bytes(*value.first_chunk().expect("it loads"));
        match self.bytes[marks + place] {
            0 => Cell::Unfilled,
            1 => Cell::Measured(value),
            _ => Cell::WorkedOut(value),
        }
    }

    /// Reads a chain at a record: the value found by following the references hop
    /// by hop, `None` where a cell on the way is unfilled. Refusal 7, 9, 10 or 11
    /// for the chain, 16 for the record.
    ///
    /// ```
    /// # use plot::{Register, Sizes};
    /// # let sizes = Sizes { records: 3, references: 1, measures: 1 };
    /// # let cells = [Some(1), None, Some(2), Some(0), None, Some(180)];
    /// # let register = Register::from_cells(sizes, &cells)?;
    /// assert_eq!(register.read("M[A[A[u]]]", 0)?, Some(180));
    /// assert_eq!(register.read("M[u]", 1)?, Some(0));
    /// assert_eq!(register.read("M[u]", 0)?, None);
    /// # Ok::<(), plot::Refusal>(())
    /// ```
    pub fn read(&self, chain: impl AsRef<[u8]>, record: usize) -> Result<Option<i32>, Refusal> {
        let mut value = 0;
        let mut answer = Answer::default();
        let record = record as u64;
        let number = lent::read(&self.bytes, chain.as_ref(), record, &mut value, &mut answer);
        passed(number, &answer)?;
        Ok((answer[lent::FILLED] == 1).then_some(value as i32))
    }

    /// The path behind a reading: each hop's record, field and cell, up to the
    /// value or the first gap, which is the whole reason for what is read. Refused
    /// as [`Register::read`] is.
    ///
    /// ```
    /// # use plot::{Register, Sizes};
    /// # let sizes = Sizes { records: 3, references: 1, measures: 1 };
    /// # let cells = [Some(1), None, Some(2), Some(0), None, Some(180)];
    /// # let register = Register::from_cells(sizes, &cells)?;
    /// let path = register.path("M[A[A[u]]]", 1)?;
    /// assert_eq!(path.hops.len(), 2);
    /// assert_eq!((path.hops[1].record, path.hops[1].field), (2, 'A'));
    /// assert_eq!(path.value, None);
    /// # Ok::<(), plot::Refusal>(())
    /// ```
    pub fn path(&self, chain: impl AsRef<[u8]>, record: usize) -> Result<Path, Refusal> {
        let mut buffers = PathBuffers::default();
        let mut answer = Answer::default();
        let chain = chain.as_ref();
        let number = lent::path(&self.bytes, chain, record as u64, &mut buffers, &mut answer);
        passed(number, &answer)?;
        Ok(Path::taken_from(record, &buffers, &answer))
    }

    /// Places enough for each working array of any text: n × (64 + r + m + 1).
    pub(crate) fn most_places(&self) -> usize {
        self.places(lent::MAX_LINES)
    }

    /// The places that a text whose steps have at most this many lines asks for.
    pub(crate) fn places(&self, lines: usize) -> usize {
        self.sizes.records * (lines + self.sizes.width() + 1)
    }
}
