//! "The machine by letters": a step's plan is done round by round, and every
//! reading that has a line is taken from its messages alone.

use crate::apply::{Knowledge, OutOfRange, Work};
use crate::plan::{Line, Plan, Source, Writer};
use crate::program::{Program, Reading, Step};
use crate::refusal::{Reason, Refusal};
use crate::register::{Cell, Register, Sizes};
use crate::run::{Counts, Machine, Run, Scratch, check_scratch, run};
use crate::text::read_text;

/// Runs a text by the message machine.
pub fn run_messages(
    register: &[u8],
    text: &[u8],
    budget: u16,
    output: &mut [u8],
    scratch: Scratch,
) -> Result<Run, Refusal> {
    run::<Messages>(register, text, budget, output, scratch)
}

/// Inspects a step, the paper's look: over the register as loaded, after round t.
/// Line i and origin u have place i × n + u. Gives the step's number of lines.
pub fn inspect(
    register: &[u8],
    text: &[u8],
    step: u64,
    t: u16,
    values: &mut [i64],
    marks: &mut [u8],
) -> Result<usize, Refusal> {
    let loaded = Register::load(register)?;
    let program = read_text(text, &loaded.sizes)?;
    let plan = &program.step(step).ok_or(Reason::NoSuchStep)?.plan;
    let scratch = Scratch {
        values: values.len(),
        marks: marks.len(),
    };
    check_scratch(&loaded.sizes, &program, scratch)?;
    let mut messages = Messages::new(loaded.sizes, &program);
    messages.exchange_up_to(usize::from(t), plan, &loaded.cells());
    let shown = plan.lines().len() * loaded.sizes.records;
    let places = values.iter_mut().zip(marks).zip(&messages.places);
    for ((value, mark), message) in places.take(shown) {
        (*value, *mark) = match message {
            None => (0, 0),
            Some(z) => (i64::from(*z), 1),
        };
    }
    Ok(plan.lines().len())
}

/// The messages of a step. The place of line i and origin u is i × n + u: the
/// value read (Read) or the addressee (Back), missing where none was sent.
struct Messages {
    sizes: Sizes,
    places: Vec<Option<i32>>,
}

impl Machine for Messages {
    fn new(sizes: Sizes, program: &Program) -> Messages {
        let places = vec![None; sizes.records * program.most_lines()];
        Messages { sizes, places }
    }

    fn step(
        &mut self,
        step: &Step,
        before: &[Cell],
        work: &mut Work,
    ) -> Result<Counts, OutOfRange> {
        let letters = self.exchange_up_to(step.plan.rounds(), &step.plan, before);
        let known = Told {
            messages: self,
            cells: before,
        };
        let remote_letters = work.apply(step, before, &known)?;
        Ok(Counts {
            exchanges: step.exchanges() as u64,
            letters: letters + remote_letters,
        })
    }
}

impl Messages {
    /// The exchanges of rounds 1 to t; gives the number of letters.
    fn exchange_up_to(&mut self, t: usize, plan: &Plan, cells: &[Cell]) -> u64 {
        let rounds = 1..=t.min(plan.rounds());
        rounds.map(|round| self.exchange(round, plan, cells)).sum()
    }

    /// One exchange: for each line of that round and each origin, one letter if
    /// both needed facts are there and filled.
    fn exchange(&mut self, round: usize, plan: &Plan, cells: &[Cell]) -> u64 {
        let mut letters = 0;
        for (number, line) in plan.lines().iter().enumerate() {
            if line.round != round {
                continue;
            }
            for origin in 0..self.sizes.records {
                let message = self.message(line, origin, cells);
                letters += u64::from(message.is_some());
                self.places[number * self.sizes.records + origin] = message;
            }
        }
        letters
    }

    /// What the writer knows of the rest of the chain, if it knows the origin.
    fn message(&self, line: &Line, origin: usize, cells: &[Cell]) -> Option<i32> {
        let writer = match line.writer {
            Writer::Origin => origin,
            Writer::ToldBy(back) => self.place(back, origin)? as usize,
        };
        self.known(line.knows, writer, cells)
    }

    /// What a record knows: its own number, its own cells, and what it was told.
    fn known(&self, source: Source, record: usize, cells: &[Cell]) -> Option<i32> {
        match source {
            Source::OwnNumber => Some(record as i32),
            Source::OwnCell(field) => {
                cells[record * self.sizes.fields() + usize::from(field)].value()
            }
            Source::Line(read) => self.place(usize::from(read), record),
        }
    }

    fn place(&self, line: usize, origin: usize) -> Option<i32> {
        self.places[line * self.sizes.records + origin]
    }
}

/// Knowledge by messages and own cells.
struct Told<'a> {
    messages: &'a Messages,
    cells: &'a [Cell],
}

impl Knowledge for Told<'_> {
    fn read(&self, reading: &Reading, record: usize) -> Option<i32> {
        self.messages.known(reading.source, record, self.cells)
    }
}
