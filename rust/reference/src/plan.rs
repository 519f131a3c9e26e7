//! "Knowing, and the plan": the fixed plan of a step's readings.
//!
//! A fact is Read(c), "u knows c", or Back(c), "the record at c knows u". Each
//! line of a plan brings one fact about, by one message for each origin u.

use crate::chain::Word;

/// The most lines of a plan.
pub const MAX_LINES: usize = 64;

/// The two kinds of line.
#[derive(Clone, Copy, Debug, PartialEq, Eq)]
pub enum LineKind {
    /// Back(c): afterwards the record at c knows u.
    Back,
    /// Read(c): afterwards u knows c.
    Read,
}

/// How a record comes to know a chain from itself.
#[derive(Clone, Copy, Debug, PartialEq, Eq)]
pub enum Source {
    /// `u`: its own number.
    OwnNumber,
    /// One hop: its own cell of this field.
    OwnCell(u8),
    /// Two hops or more: the messages of this Read line.
    Line(u8),
}

/// The record that writes a line's message.
#[derive(Clone, Copy, Debug, PartialEq, Eq)]
pub enum Writer {
    /// The origin u itself.
    Origin,
    /// The record at a, which knows u by this Back line.
    ToldBy(usize),
}

/// A line of a plan, and the two facts it needs: its writer knows u, and its
/// writer knows the rest of the chain from where it stands.
#[derive(Clone, Copy, Debug, PartialEq, Eq)]
pub struct Line {
    /// Back or Read.
    pub kind: LineKind,
    /// The chain c of the fact.
    pub chain: Word,
    /// The round in which it is done, from 1.
    pub round: usize,
    /// Who writes: Back(a).
    pub writer: Writer,
    /// What the writer knows: Read(b).
    pub knows: Source,
}

/// The plan would have more than 64 lines.
#[derive(Clone, Copy, Debug, PartialEq, Eq)]
pub struct TooManyLines;

/// The lines of a plan, in order.
#[derive(Clone, Debug, Default, PartialEq, Eq)]
pub struct Plan {
    lines: Vec<Line>,
}

impl Plan {
    /// The plan of these readings, added one after the other.
    pub fn of(readings: &[Word]) -> Result<Plan, TooManyLines> {
        let mut plan = Plan::default();
        for reading in readings {
            plan.add_reading(reading.fields())?;
        }
        Ok(plan)
    }

    /// The lines in order.
    pub fn lines(&self) -> &[Line] {
        &self.lines
    }

    /// The last round that any line has; 0 without lines.
    pub fn rounds(&self) -> usize {
        self.lines.iter().map(|line| line.round).max().unwrap_or(0)
    }

    /// The round from which on a reading is known; 0 where it has no line.
    pub fn round_of(&self, reading: Source) -> usize {
        match reading {
            Source::OwnNumber | Source::OwnCell(_) => 0,
            Source::Line(line) => self.lines[usize::from(line)].round,
        }
    }

    /// Read(c), with the facts it needs first.
    pub fn add_reading(&mut self, chain: &[u8]) -> Result<Source, TooManyLines> {
        match chain {
            [] => Ok(Source::OwnNumber),
            [field] => Ok(Source::OwnCell(*field)),
            _ => {
                let line = self.add_fact(LineKind::Read, chain)?;
                Ok(Source::Line(line as u8))
            }
        }
    }

    /// The line of a fact: the one that lists it, or a new one behind its needs.
    fn add_fact(&mut self, kind: LineKind, chain: &[u8]) -> Result<usize, TooManyLines> {
        let word = Word::new(chain);
        if let Some(line) = self.find(kind, &word) {
            return Ok(line);
        }
        let (start, rest) = chain.split_at(first_part(chain.len()));
        let writer = match start {
            [] => Writer::Origin,
            _ => Writer::ToldBy(self.add_fact(LineKind::Back, start)?),
        };
        let knows = self.add_reading(rest)?;
        let round = 1 + self.round_of_writer(writer).max(self.round_of(knows));
        self.push(Line {
            kind,
            chain: word,
            round,
            writer,
            knows,
        })
    }

    /// A line's whole word and kind are compared at once, without a branch between
    /// them: of the many comparisons all but the last one fail, anywhere.
    fn find(&self, kind: LineKind, chain: &Word) -> Option<usize> {
        let listed = |line: &Line| (line.chain == *chain) & (line.kind == kind);
        self.lines.iter().position(listed)
    }

    fn round_of_writer(&self, writer: Writer) -> usize {
        match writer {
            Writer::Origin => 0,
            Writer::ToldBy(back) => self.lines[back].round,
        }
    }

    fn push(&mut self, line: Line) -> Result<usize, TooManyLines> {
        if self.lines.len() == MAX_LINES {
            return Err(TooManyLines);
        }
        self.lines.push(line);
        Ok(self.lines.len() - 1)
    }
}

/// h, the largest power of two below the length k; 0 for the one hop of a Back
/// that the origin writes itself.
fn first_part(length: usize) -> usize {
    match length {
        0 | 1 => 0,
        _ => length.next_power_of_two() / 2,
    }
}
