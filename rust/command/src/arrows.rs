//! The messages behind a reading, as arrows between the records of its chain: u, and
//! then r1, r2, .. hop by hop.

use plot::{Line, LineKind, Plan};

/// A message on its way between two records of a chain, which count from 0.
#[derive(Clone, Debug, PartialEq, Eq)]
pub struct Arrow {
    round: u8,
    /// The record that writes.
    pub from: usize,
    /// The record that gets it.
    pub to: usize,
    /// What it carries.
    pub text: String,
}

/// The messages of a round that stand on one level of a picture: none meets another.
type Level = Vec<Arrow>;

/// A round, and the levels of its messages.
pub type Round = (u8, Vec<Level>);

/// The Read lines that no other line needs.
pub fn readings(plan: &Plan) -> impl Iterator<Item = &Line> {
    let is_read = |line: &&Line| line.kind == LineKind::Read;
    plan.lines.iter().filter(is_read).filter(|line| {
        let needs = |other: &Line| {
            other.letters.len() > 1 && other.letters[other.writer_hops()..] == line.letters
        };
        !plan.lines.iter().any(needs)
    })
}

/// The messages behind a reading, round by round.
pub fn rounds(plan: &Plan, reading: &Line) -> Vec<Round> {
    let mut arrows = Vec::new();
    let whole = (0, reading.letters.len());
    collect(plan, &reading.letters, LineKind::Read, whole, &mut arrows);
    arrows.sort_by_key(|arrow| (arrow.round, arrow.from.min(arrow.to)));
    let rounds = arrows.chunk_by(|one, other| one.round == other.round);
    let rounds = rounds.map(|round| (round[0].round, levels(round)));
    rounds.collect()
}

/// Adds the message of a line for the hops from `start` on, before `end`, after
/// those that it needs.
fn collect(
    plan: &Plan,
    letters: &str,
    kind: LineKind,
    (start, end): (usize, usize),
    arrows: &mut Vec<Arrow>,
) {
    let hops = &letters[start..end];
    let is_it = |line: &&Line| line.kind == kind && line.letters == hops;
    let Some(line) = plan.lines.iter().find(is_it) else {
        return;
    };
    let writer = start + line.writer_hops();
    collect(plan, letters, LineKind::Back, (start, writer), arrows);
    if hops.len() > 1 {
        collect(plan, letters, LineKind::Read, (writer, end), arrows);
    }
    let (to, text) = match kind {
        LineKind::Back => (end, format!("number of {}", name(start))),
        LineKind::Read => {
            let field = &letters[end - 1..end];
            (start, format!("{field} of {}", name(end - 1)))
        }
    };
    arrows.push(Arrow {
        round: line.round,
        from: writer,
        to,
        text,
    });
}

/// The name of a record of a chain.
pub fn name(place: usize) -> String {
    match place {
        0 => "u".to_owned(),
        place => format!("r{place}"),
    }
}

/// The messages of a round, each on the first level that is free.
fn levels(round: &[Arrow]) -> Vec<Level> {
    let mut levels: Vec<Level> = Vec::new();
    for arrow in round {
        let is_free = |level: &&mut Level| !level.iter().any(|other| arrow.meets(other));
        match levels.iter_mut().find(is_free) {
            Some(level) => level.push(arrow.clone()),
            None => levels.push(vec![arrow.clone()]),
        }
    }
    levels
}

impl Arrow {
    /// Whether the two touch or cross on one level.
    fn meets(&self, other: &Arrow) -> bool {
        let ends = |arrow: &Arrow| (arrow.from.min(arrow.to), arrow.from.max(arrow.to));
        let ((left, right), (other_left, other_right)) = (ends(self), ends(other));
        left <= other_right && other_left <= right
    }
}
