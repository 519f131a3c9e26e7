//! Runs as Rust values.

use crate::lent::{self, Answer, RunBuffers};
use crate::refusal::passed;
use crate::{Kind, Refusal, Register};

/// The machine that runs a text. Both give the same register, finished steps and
/// end.
#[derive(Clone, Copy, Debug, PartialEq, Eq)]
pub enum Machine {
    /// Follows references.
    Direct,
    /// Has the records send each other messages, and counts them.
    Messages,
}

/// How a run ended.
#[derive(Clone, Copy, Debug, PartialEq, Eq)]
pub enum End {
    /// Every step is finished.
    Whole,
    /// 20: the finished steps equal the budget and there is a step to do.
    BudgetExhausted,
    /// 21: a sum or total is out of range. Of several the first: at the lowest
    /// record a sum, of the earliest rule that forms one out of range, and of the
    /// field that the rule writes; only where no record has one, a remote total, at
    /// the lowest record and in it the first field.
    OutOfRange {
        /// The record's number.
        record: usize,
        /// The field's letter.
        field: char,
    },
}

impl End {
    /// The kind of refusal that it is, if it is one.
    pub fn refusal(self) -> Option<Kind> {
        match self {
            End::Whole => None,
            End::BudgetExhausted => Some(Kind::Budget),
            End::OutOfRange { .. } => Some(Kind::Range),
        }
    }
}

/// What a run gives.
#[derive(Clone, Debug, PartialEq, Eq)]
pub struct Run {
    /// The register at the end; the one that was given where the run did not end whole.
    pub register: Register,
    /// The finished steps.
    pub finished: u64,
    /// Exchanges of the finished steps, 0 in the direct run.
    pub exchanges: u64,
    /// Messages of the finished steps, 0 in the direct run.
    pub messages: u64,
    /// How it ended.
    pub end: End,
}

impl Register {
    /// Checks a text and runs it over this register, at most `budget` steps.
    /// Refusal 6 to 15, 24 or 25; how the run ended is told in the [`Run`].
    ///
    /// This looks at the text once: the working arrays are long enough for every
    /// text. [`Text::run`](crate::Text::run) lends shorter ones.
    ///
    /// ```
    /// use plot::{End, Machine, Register, Sizes};
    /// let sizes = Sizes { records: 1, references: 0, measures: 1 };
    /// let register = Register::from_cells(sizes, &[Some(5)])?;
    /// let text = "loop M\nstep\nM[u] := M[u] + 1\nend\ndone\n";
    /// let run = register.run(text, Machine::Direct, 100)?;
    /// assert_eq!((run.finished, run.end), (100, End::BudgetExhausted));
    /// assert_eq!(run.register, register);
    /// # Ok::<(), plot::Refusal>(())
    /// ```
    pub fn run(
        &self,
        text: impl AsRef<[u8]>,
        machine: Machine,
        budget: u16,
    ) -> Result<Run, Refusal> {
        run(self, text.as_ref(), machine, budget, self.most_places())
    }
}

/// A run with working arrays of this many places.
pub(crate) fn run(
    register: &Register,
    text: &[u8],
    machine: Machine,
    budget: u16,
    places: usize,
) -> Result<Run, Refusal> {
    let mut buffers = RunBuffers {
        output: vec![0; register.as_bytes().len()],
        values: vec![0; places],
        marks: vec![0; places],
    };
    let run_by = match machine {
        Machine::Direct => lent::run_direct,
        Machine::Messages => lent::run_messages,
    };
    let mut answer = Answer::default();
    let number = run_by(register.as_bytes(), text, budget, &mut buffers, &mut answer);
    let end = end_of(register, number, &answer)?;
    Ok(Run {
        register: Register::loaded(buffers.output),
        finished: answer[lent::FINISHED],
        exchanges: answer[lent::EXCHANGES],
        messages: answer[lent::LETTERS],
        end,
    })
}

/// How a run ended that answers this number.
fn end_of(register: &Register, number: u32, answer: &Answer) -> Result<End, Refusal> {
    match Kind::of(number) {
        Kind::Budget => Ok(End::BudgetExhausted),
        Kind::Range => {
            let mut fields = register.sizes().fields();
            let field = fields.nth(answer[lent::FIELD] as usize);
            Ok(End::OutOfRange {
                record: answer[lent::RECORD] as usize,
                field: field.expect("21 names a field of the register"),
            })
        }
        _ => passed(number, answer).map(|()| End::Whole),
    }
}
