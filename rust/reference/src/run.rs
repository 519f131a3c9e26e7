//! Runs of a rules text: steps in sequence and in loops, the budget, and what a
//! run gives. Both machines run alike; they differ in how a step is done.

use crate::apply::{OutOfRange, Work};
use crate::marks::{Transition, Transitions};
use crate::program::{Part, Program, Step};
use crate::refusal::{Reason, Refusal};
use crate::register::{Cell, Register, Sizes, encode_into};
use crate::text::read_text;

/// The lengths of the scratch buffers, the paper's working arrays; what they
/// hold does not matter.
#[derive(Clone, Copy, Debug, PartialEq, Eq)]
pub struct Scratch {
    /// Places of the values.
    pub values: usize,
    /// Places of the marks.
    pub marks: usize,
}

impl Scratch {
    /// Both buffers of one length.
    pub fn both(length: usize) -> Scratch {
        Scratch {
            values: length,
            marks: length,
        }
    }
}

/// A run by one of the machines: register, text, budget, output, scratch.
pub type RunBy = fn(&[u8], &[u8], u16, &mut [u8], Scratch) -> Result<Run, Refusal>;

/// How a run ended.
#[derive(Clone, Debug, PartialEq, Eq)]
pub enum End {
    /// Every step is finished.
    Whole,
    /// 20: the finished steps equal the budget and there is a step to do.
    BudgetExhausted,
    /// 21: a sum or a total is out of range, at each of these places, of which it
    /// names the first.
    OutOfRange(OutOfRange),
}

impl End {
    /// The paper's number, 0 for none.
    pub fn number(&self) -> u32 {
        match self {
            End::Whole => 0,
            End::BudgetExhausted => 20,
            End::OutOfRange(_) => 21,
        }
    }
}

/// Exchanges and letters.
#[derive(Clone, Copy, Debug, Default, PartialEq, Eq)]
pub struct Counts {
    /// Exchanges.
    pub exchanges: u64,
    /// Letters.
    pub letters: u64,
}

/// What a run answers beside its output; the counts are summed over the finished
/// steps, and are 0 for the direct machine.
#[derive(Clone, Debug, PartialEq, Eq)]
pub struct Run {
    /// The finished steps.
    pub finished: u16,
    /// Exchanges and letters.
    pub counts: Counts,
    /// How often a gap left what an earlier rule of its step had stored.
    pub kept: u64,
    /// What rules made of cells and their marks.
    pub transitions: Transitions,
    /// How it ended.
    pub end: End,
}

/// A machine that does single steps.
pub trait Machine {
    /// The machine for a register of these sizes and a program.
    fn new(sizes: Sizes, program: &Program) -> Self;

    /// Does a step over the cells before it, and leaves the cells after it in the work.
    fn step(&mut self, step: &Step, before: &[Cell], work: &mut Work)
    -> Result<Counts, OutOfRange>;
}

/// n × (L + r + m + 1), the least length of a scratch buffer.
pub fn scratch_length(sizes: &Sizes, program: &Program) -> usize {
    sizes.records * (program.most_lines() + sizes.fields() + 1)
}

/// 19: a scratch buffer is too short.
pub(crate) fn check_scratch(
    sizes: &Sizes,
    program: &Program,
    scratch: Scratch,
) -> Result<(), Reason> {
    let least = scratch_length(sizes, program);
    match scratch.values >= least && scratch.marks >= least {
        true => Ok(()),
        false => Err(Reason::ScratchTooShort),
    }
}

/// Runs a text by a machine. The output becomes the register file of the cells
/// at the end; after 20 or 21 a copy of the register.
pub fn run<M: Machine>(
    register: &[u8],
    text: &[u8],
    budget: u16,
    output: &mut [u8],
    scratch: Scratch,
) -> Result<Run, Refusal> {
    let loaded = Register::load(register)?;
    let program = read_text(text, &loaded.sizes)?;
    if output.len() != register.len() {
        return Err(Reason::OutputLength.into());
    }
    check_scratch(&loaded.sizes, &program, scratch)?;
    let mut runner: Runner<M> = Runner::new(&loaded, &program, budget);
    let end = runner.program(&program).err().unwrap_or(End::Whole);
    match end {
        End::Whole => encode_into(loaded.sizes, &runner.cells, output),
        End::BudgetExhausted | End::OutOfRange(_) => output.copy_from_slice(register),
    }
    Ok(Run {
        finished: runner.finished,
        counts: runner.counts,
        kept: runner.work.kept,
        transitions: runner.work.transitions,
        end,
    })
}

/// A run in progress: the cells, and the count of finished steps.
struct Runner<M> {
    fields: usize,
    machine: M,
    cells: Vec<Cell>,
    work: Work,
    budget: u16,
    finished: u16,
    counts: Counts,
}

impl<M: Machine> Runner<M> {
    fn new(register: &Register<'_>, program: &Program, budget: u16) -> Runner<M> {
        Runner {
            fields: register.sizes.fields(),
            machine: M::new(register.sizes, program),
            cells: register.cells(),
            work: Work::new(register.sizes),
            budget,
            finished: 0,
            counts: Counts::default(),
        }
    }

    fn program(&mut self, program: &Program) -> Result<(), End> {
        for part in &program.parts {
            match part {
                Part::Step(step) => self.step(step)?,
                Part::Loop(field, steps) => self.repeat(*field, steps)?,
            }
        }
        Ok(())
    }

    /// Runs the steps of a loop once and again until its field is the same, values
    /// and whether filled, before and after a pass; 1 and 2 are not told apart.
    fn repeat(&mut self, field: usize, steps: &[Step]) -> Result<(), End> {
        let mut before = Vec::new();
        loop {
            before.clear();
            before.extend(self.column(field));
            for step in steps {
                self.step(step)?;
            }
            let values = before.iter().copied().map(Cell::value);
            if self.column(field).map(Cell::value).eq(values) {
                if self.column(field).ne(before) {
                    self.work.transitions.count(Transition::AtRest);
                }
                return Ok(());
            }
        }
    }

    fn column(&self, field: usize) -> impl Iterator<Item = Cell> {
        self.cells.iter().skip(field).step_by(self.fields).copied()
    }

    fn step(&mut self, step: &Step) -> Result<(), End> {
        if self.finished == self.budget {
            return Err(End::BudgetExhausted);
        }
        let done = self.machine.step(step, &self.cells, &mut self.work);
        let counts = done.map_err(End::OutOfRange)?;
        std::mem::swap(&mut self.cells, &mut self.work.cells);
        self.finished += 1;
        self.counts.exchanges += counts.exchanges;
        self.counts.letters += counts.letters;
        Ok(())
    }
}
