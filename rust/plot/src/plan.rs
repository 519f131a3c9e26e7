//! Plans as Rust values.

use crate::lent::{self, CHAIN_BYTES, PlanBuffers};
use std::fmt;

/// The two kinds of plan line.
#[derive(Clone, Copy, Debug, PartialEq, Eq)]
pub enum LineKind {
    /// Back(c): afterwards the record at c knows u.
    Back,
    /// Read(c): afterwards u knows c.
    Read,
}

impl fmt::Display for LineKind {
    fn fmt(&self, f: &mut fmt::Formatter<'_>) -> fmt::Result {
        f.pad(match self {
            LineKind::Back => "Back",
            LineKind::Read => "Read",
        })
    }
}

/// A line of a plan.
#[derive(Clone, Debug, PartialEq, Eq)]
pub struct Line {
    /// Back or Read.
    pub kind: LineKind,
    /// The hop letters of its chain from the inside out, as `AAM` for `M[A[A[u]]]`.
    pub letters: String,
    /// The round in which it is done, from 1.
    pub round: u8,
}

impl Line {
    /// Its chain as a text has it.
    pub fn chain(&self) -> String {
        chain_of(&self.letters.chars().collect::<Vec<char>>())
    }

    /// The hops of its chain that lead to the record which writes the message:
    /// the largest power of two below its length, 0 for a single hop.
    pub fn writer_hops(&self) -> usize {
        match self.letters.len() {
            0 | 1 => 0,
            length => length.next_power_of_two() / 2,
        }
    }

    /// The chain to the record which writes the message.
    pub fn writer(&self) -> String {
        let hops: Vec<char> = self.letters.chars().take(self.writer_hops()).collect();
        chain_of(&hops)
    }

    /// The chain to the record which gets the message.
    pub fn addressee(&self) -> String {
        match self.kind {
            LineKind::Back => self.chain(),
            LineKind::Read => "u".to_owned(),
        }
    }
}

/// The plan of a step.
///
/// ```
/// use plot::{LineKind, Register, Sizes, Text};
/// let sizes = Sizes { records: 0, references: 1, measures: 1 };
/// let register = Register::from_cells::<Option<i32>>(sizes, &[])?;
/// let text = Text::check(&register, "step\nM[u] := M[A[A[u]]]\nend\n")?;
/// let plan = text.plan(1)?;
/// assert_eq!(plan.lines.len(), 3);
/// assert_eq!(plan.lines[2].kind, LineKind::Read);
/// assert_eq!(plan.lines[2].chain(), "M[A[A[u]]]");
/// assert_eq!((plan.rounds(), plan.exchanges()), (3, 3));
/// # Ok::<(), plot::Refusal>(())
/// ```
#[derive(Clone, Debug, PartialEq, Eq)]
pub struct Plan {
    /// The lines in order.
    pub lines: Vec<Line>,
    /// Whether a remote exchange follows.
    pub remote: bool,
}

impl Plan {
    /// The last round of its lines, 0 where it has none.
    pub fn rounds(&self) -> u8 {
        self.lines.iter().map(|line| line.round).max().unwrap_or(0)
    }

    /// The exchanges of the step: its rounds, and one more for remote writes.
    pub fn exchanges(&self) -> u8 {
        self.rounds() + u8::from(self.remote)
    }

    /// The plan that a call has left in the buffers.
    pub(crate) fn taken_from(buffers: &PlanBuffers, answer: &lent::Answer) -> Plan {
        let count = answer[lent::LINES] as usize;
        let chains = buffers.chains.chunks_exact(CHAIN_BYTES);
        let places = buffers.kinds.iter().zip(chains).zip(buffers.rounds);
        let lines = places.take(count).map(|((kind, chain), round)| Line {
            kind: match *kind {
                lent::BACK => LineKind::Back,
                _ => LineKind::Read,
            },
            letters: letters(chain),
            round,
        });
        Plan {
            lines: lines.collect(),
            remote: answer[lent::REMOTE] == 1,
        }
    }
}

/// The letters of a chain, which has 0 behind its last.
fn letters(chain: &[u8]) -> String {
    let present = chain.iter().take_while(|&&letter| letter != 0);
    present.map(|&letter| char::from(letter)).collect()
}

/// The chain with these hops, as `M[A[A[u]]]` for `AAM`.
fn chain_of(letters: &[char]) -> String {
    let opened: String = letters.iter().rev().flat_map(|&c| [c, '[']).collect();
    format!("{opened}u{}", "]".repeat(letters.len()))
}
