//! "Turned back by the input" and "Turned back by the state": the refusals that
//! come before anything is written. 20 and 21 end a run and stand with the runs.

/// Why an input is refused; each reason's number is the paper's.
#[derive(Clone, Copy, Debug, PartialEq, Eq, PartialOrd, Ord)]
pub enum Reason {
    /// The register file does not have the length that its sizes ask for.
    Length = 1,
    /// More records or fields than a register may have.
    SizeOverLimit = 2,
    /// A mark that is none of 0, 1 and 2.
    MarkAboveTwo = 3,
    /// A missing cell whose value is not 0.
    MissingWithValue = 4,
    /// A reference that is not the number of a record.
    ReferenceOutside = 5,
    /// A rules text of more than 8,192 bytes.
    TextTooLong = 6,
    /// A line that has none of the forms, or a last line without byte 10.
    NoSuchLine = 7,
    /// A line where it may not stand, an empty loop, or an unclosed step or loop.
    OutOfPlace = 8,
    /// A capital letter that names no field of this register.
    NoSuchField = 9,
    /// A reference where a measure must stand, or a measure where a reference must.
    WrongKind = 10,
    /// A chain of more than 16 hops.
    TooManyHops = 11,
    /// A number outside the range of sums.
    NumberOutOfRange = 12,
    /// A 33rd step, or a 33rd rule in a step.
    TooManyStepsOrRules = 13,
    /// Two sorts of remote write to one field in one step.
    TwoRemoteSorts = 14,
    /// A step whose plan has more than 64 lines.
    TooManyPlanLines = 15,
    /// A record number that is not below n.
    NoSuchRecord = 16,
    /// A plan or an inspection of a step that is not there.
    NoSuchStep = 17,
    /// An output that is not as long as the register file.
    OutputLength = 18,
    /// A scratch buffer that is too short.
    ScratchTooShort = 19,
    /// Groups more than 8 deep.
    GroupsTooDeep = 24,
    /// More than 64 operators in one expression.
    TooManyOperators = 25,
}

/// A refusal: its reason, and the line for reasons 6 to 15, 24 and 25, else 0.
#[derive(Clone, Copy, Debug, PartialEq, Eq)]
pub struct Refusal {
    /// Why.
    pub reason: Reason,
    /// The line counted from 1; 0 where there is none.
    pub line: usize,
}

impl Reason {
    /// The paper's number.
    pub fn number(self) -> u32 {
        self as u32
    }

    /// The refusal for this reason at a line.
    pub fn at(self, line: usize) -> Refusal {
        Refusal { reason: self, line }
    }
}

impl From<Reason> for Refusal {
    fn from(reason: Reason) -> Refusal {
        reason.at(0)
    }
}
