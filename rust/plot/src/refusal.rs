//! Refusals: what the library says where it gives no result.

use crate::lent;
use std::error::Error;
use std::fmt;

/// What a refusal is about. Each kind has a number, which is the library's.
///
/// ```
/// use plot::Kind;
/// assert_eq!(Kind::Form.number(), 7);
/// assert_eq!(Kind::of(14), Kind::RemoteSorts);
/// assert_eq!(Kind::Hops.meaning(), "a chain has more than 16 hops");
/// ```
#[derive(Clone, Copy, Debug, PartialEq, Eq, Hash)]
#[non_exhaustive]
pub enum Kind {
    /// 1: the register file has the wrong length.
    FileLength,
    /// 2: a size of the register is over its limit.
    Size,
    /// 3: a mark is none of 0, 1 and 2.
    Mark,
    /// 4: an unfilled cell has a value other than 0.
    UnfilledValue,
    /// 5: a filled reference leads to no record.
    Reference,
    /// 6: the rules text is too long.
    TextLength,
    /// 7: a line has none of the forms; a chain is no chain.
    Form,
    /// 8: a line stands where it may not, or a step or loop is not closed.
    Place,
    /// 9: a letter names no field of this register.
    Field,
    /// 10: references and measures are mixed.
    FieldKind,
    /// 11: a chain has more than 16 hops.
    Hops,
    /// 12: a number is out of range.
    Number,
    /// 13: too many steps or rules.
    Count,
    /// 14: two sorts of remote write to one field in a step.
    RemoteSorts,
    /// 15: a step's plan has too many lines.
    PlanLines,
    /// 16: there is no such record.
    Record,
    /// 17: there is no such step.
    Step,
    /// 18: the output is not as long as the register file.
    Output,
    /// 19: a working array is too short.
    Scratch,
    /// 20: the budget is spent.
    Budget,
    /// 21: a sum or total is out of range.
    Range,
    /// 24: groups stand more than 8 deep.
    Groups,
    /// 25: an expression has more than 64 operators.
    Operators,
    /// A number that this crate does not know.
    Other(u32),
}

/// A kind, what it means, and what to do.
type Row = (Kind, &'static str, &'static str);

/// The kinds in the order of their numbers, which [`NUMBERS`] has.
#[rustfmt::skip]
const KINDS: [Row; 23] = [
    (Kind::FileLength, "the register file has the wrong length",
     "A register file has 12 bytes of sizes and 5 for each cell. Was it cut short, or is it another file?"),
    (Kind::Size, "a size of the register is over its limit",
     "A register has at most 4096 records, 8 reference fields and 8 measure fields."),
    (Kind::Mark, "a mark is none of 0, 1 and 2",
     "The mark of a cell is 0 where it is unfilled, 1 where it is measured, 2 where a rule worked it out."),
    (Kind::UnfilledValue, "an unfilled cell has a value other than 0",
     "Store the value 0 there, or mark the cell as filled."),
    (Kind::Reference, "a reference leads to no record",
     "A filled reference is the number of a record, counted from 0."),
    (Kind::TextLength, "the rules text is too long",
     "A rules text has at most 8192 bytes."),
    (Kind::Form, "this does not have the right form",
     "Lines are step, end, loop F, done, and rules: F[u] := X, remote F[C] <?= X, remote F[C] += X, or if X < Y: before one."),
    (Kind::Place, "a line is out of place, or the text ends too early",
     "Rules stand between step and end, steps may stand between loop and done, and a loop holds at least one step."),
    (Kind::Field, "a letter names no field of this register",
     "Use the letters of the fields that the register has."),
    (Kind::FieldKind, "references and measures are mixed",
     "Both sides are references or both measures, a number is a measure, and sums take measures only. \
      In a chain every field but the outermost is a reference."),
    (Kind::Hops, "a chain has more than 16 hops",
     "Store a shorter chain in a field in one step, and go on from there in the next."),
    (Kind::Number, "a number is out of range",
     "Numbers go from -2147483648 to 2147483647 centimetres, in metres from -21474836.48 to 21474836.47."),
    (Kind::Count, "there are too many steps or rules",
     "A text has at most 32 steps, and a step at most 32 rules."),
    (Kind::RemoteSorts, "a field takes two sorts of remote write in one step",
     "Use <?= or += for the field in this step, and the other one in another step."),
    (Kind::PlanLines, "the plan of this step has more than 64 lines",
     "Read fewer or shorter chains in this step, and the rest in another."),
    (Kind::Record, "there is no such record",
     "Records count from 0."),
    (Kind::Step, "there is no such step",
     "Steps count from 1, from the top of the text."),
    (Kind::Output, "the output is not as long as the register file",
     "Lend an output of exactly that length."),
    (Kind::Scratch, "a working array is too short",
     "Lend n x (L + r + m + 1) places, L being the most plan lines of any step."),
    (Kind::Budget, "the budget is spent, and there is a step to do",
     "Give a larger budget, at most 65535 steps; a loop whose field never settles does not end."),
    (Kind::Range, "a sum or total is out of range",
     "Sums and totals go from -2147483648 to 2147483647."),
    (Kind::Groups, "groups stand more than 8 deep",
     "Leave out brackets that change nothing, or store a part in a field in one step and go on from there in the next."),
    (Kind::Operators, "an expression has more than 64 operators",
     "Store a part in a field in one step, and go on from there in the next."),
];

/// The number of each kind: 22 and 23 are not given.
const NUMBERS: [u32; 23] = [
    1, 2, 3, 4, 5, 6, 7, 8, 9, 10, 11, 12, 13, 14, 15, 16, 17, 18, 19, 20, 21, 24, 25,
];

impl Kind {
    /// The kind with this number.
    pub fn of(number: u32) -> Kind {
        match NUMBERS.iter().position(|&given| given == number) {
            Some(place) => KINDS[place].0,
            None => Kind::Other(number),
        }
    }

    /// Every kind that has a number of its own, in the order of the numbers.
    pub fn all() -> impl Iterator<Item = Kind> {
        KINDS.iter().map(|(kind, ..)| *kind)
    }

    /// The library's number for it.
    pub fn number(self) -> u32 {
        if let Kind::Other(number) = self {
            return number;
        }
        let place = KINDS.iter().position(|(kind, ..)| *kind == self);
        NUMBERS[place.expect("every kind has a row")]
    }

    /// What it means, in a few words.
    pub fn meaning(self) -> &'static str {
        self.row().1
    }

    /// What to do about it, in a sentence or two.
    pub fn advice(self) -> &'static str {
        self.row().2
    }

    fn row(self) -> Row {
        let known = KINDS.iter().find(|(kind, ..)| *kind == self);
        known
            .copied()
            .unwrap_or((self, "a refusal that this program does not know", ""))
    }
}

/// A refusal: its kind, and the line of the rules text where there is one.
///
/// ```
/// use plot::{Kind, Register};
/// let refusal = Register::from_bytes(b"short").unwrap_err();
/// assert_eq!(refusal.kind, Kind::FileLength);
/// assert_eq!(refusal.to_string(), "refused 1: the register file has the wrong length");
/// ```
#[derive(Clone, Copy, Debug, PartialEq, Eq)]
pub struct Refusal {
    /// What it is about.
    pub kind: Kind,
    /// The line, counted from 1, for the numbers 7 to 15, 24 and 25; else 0.
    /// Where a text ends too early it is one past the last line.
    pub line: u64,
}

impl Refusal {
    /// The library's number for it.
    pub fn number(&self) -> u32 {
        self.kind.number()
    }
}

impl fmt::Display for Refusal {
    fn fmt(&self, f: &mut fmt::Formatter<'_>) -> fmt::Result {
        write!(f, "refused {}", self.number())?;
        if self.line > 0 {
            write!(f, " at line {}", self.line)?;
        }
        write!(f, ": {}", self.kind.meaning())
    }
}

impl Error for Refusal {}

/// The refusal of a call that answers this number, if it is one.
pub(crate) fn passed(number: u32, answer: &lent::Answer) -> Result<(), Refusal> {
    match number {
        0 => Ok(()),
        number => Err(Refusal {
            kind: Kind::of(number),
            line: answer[lent::LINE],
        }),
    }
}
