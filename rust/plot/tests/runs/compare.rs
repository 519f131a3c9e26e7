//! One trial by the library and by the reference, with both machines: output
//! bytes, every number, and for 21 the place.

use crate::common::{any_answer, refused};
use crate::planned;
use crate::trials::Trial;
use generate::random::Random;
use plot::lent::{self, Answer, RunBuffers};
use reference::apply::OutOfRange;
use reference::direct::run_direct;
use reference::marks::Transitions;
use reference::messages::run_messages;
use reference::run::{End, Run, RunBy};

/// A machine by both.
struct Machine {
    name: &'static str,
    library: lent::RunBy,
    reference: RunBy,
}

const DIRECT: Machine = Machine {
    name: "direct",
    library: lent::run_direct,
    reference: run_direct,
};

const MESSAGES: Machine = Machine {
    name: "by messages",
    library: lent::run_messages,
    reference: run_messages,
};

/// What the library left of a trial.
pub struct Left {
    pub number: u32,
    pub answer: Answer,
    /// How often a gap left what an earlier rule of its step had stored.
    pub kept: u64,
    /// What rules made of cells and their marks.
    pub transitions: Transitions,
    /// The places that are out of range where it ended in 21.
    pub outside: OutOfRange,
    buffers: RunBuffers,
}

impl Left {
    /// What both machines must agree in: refusal, line, finished steps, the place
    /// that 21 names, output.
    pub fn in_common(&self) -> (u32, [u64; 4], &[u8]) {
        let places = [lent::LINE, lent::FINISHED, lent::RECORD, lent::FIELD];
        let numbers = places.map(|place| self.answer[place]);
        (self.number, numbers, &self.buffers.output)
    }
}

/// Runs a trial by both machines, which must agree with each other, and in
/// exchanges with the plans. Gives what the message machine left.
pub fn compare(random: &mut Random, trial: &Trial) -> Left {
    let _failing = trial.on_failure();
    let direct = DIRECT.compare(random, trial);
    let messages = MESSAGES.compare(random, trial);
    let exchanges = messages.answer[lent::EXCHANGES];
    assert_eq!(messages.in_common(), direct.in_common(), "both machines");
    assert_eq!(exchanges, planned::exchanges(trial), "exchanges");
    messages
}

impl Machine {
    /// Runs a trial by the library and by the reference.
    fn compare(&self, random: &mut Random, trial: &Trial) -> Left {
        let mut left = self.by_library(random, trial);
        let mut output = trial.buffers.output.clone();
        let (register, text) = (&trial.register, &trial.text);
        let run = (self.reference)(register, text, trial.budget, &mut output, trial.scratch());
        let expected = match &run {
            Err(refusal) => {
                assert_eq!(left.buffers, trial.buffers, "{}", self.name);
                refused(*refusal)
            }
            Ok(run) => {
                left.kept = run.kept;
                left.transitions = run.transitions;
                if let End::OutOfRange(outside) = &run.end {
                    left.outside = outside.clone();
                }
                answered(run)
            }
        };
        assert_eq!((left.number, left.answer), expected, "{}", self.name);
        assert_eq!(left.buffers.output, output, "{}", self.name);
        left
    }

    fn by_library(&self, random: &mut Random, trial: &Trial) -> Left {
        let mut answer = any_answer(random);
        let mut buffers = trial.buffers.clone();
        let (register, text) = (&trial.register, &trial.text);
        let number = (self.library)(register, text, trial.budget, &mut buffers, &mut answer);
        Left {
            number,
            answer,
            kept: 0,
            transitions: Transitions::default(),
            outside: OutOfRange::default(),
            buffers,
        }
    }
}

/// The number and the answer array of a run.
fn answered(run: &Run) -> (u32, Answer) {
    let mut answer = Answer::default();
    answer[lent::FINISHED] = u64::from(run.finished);
    answer[lent::EXCHANGES] = run.counts.exchanges;
    answer[lent::LETTERS] = run.counts.letters;
    if let End::OutOfRange(outside) = &run.end {
        let place = outside.named().expect("21 has a place");
        answer[lent::RECORD] = place.record as u64;
        answer[lent::FIELD] = place.field as u64;
    }
    (run.end.number(), answer)
}
