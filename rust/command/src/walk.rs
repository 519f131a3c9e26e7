//! A run step by step: each step is run by the library as a text of its own, over the
//! register that the steps before have left. The loops are followed here; whoever asks
//! for a whole run holds the counts and the register against the library's own run.

use crate::run;
use crate::steps::{self, Part, Step};
use plot::{End, Machine, Register, Run, Text};

/// A finished step.
#[derive(Clone, Copy, Debug, PartialEq, Eq)]
pub struct Row {
    /// Its number in the text.
    pub step: usize,
    /// The pass of its loop, counted from 1; none outside loops.
    pub pass: Option<u64>,
    /// Its exchanges and messages, both 0 in the direct run.
    pub exchanges: u64,
    /// See `exchanges`.
    pub messages: u64,
    /// The cells that it has changed.
    pub changed: usize,
}

/// A run, step by step.
#[derive(Debug)]
pub struct Walk {
    machine: Machine,
    budget: usize,
    /// The finished steps.
    pub rows: Vec<Row>,
    /// The register as they have left it.
    pub register: Register,
    /// How it ended.
    pub end: End,
}

impl Walk {
    /// Runs a text that has passed for a register, at most `budget` steps.
    pub fn of(register: &Register, text: &[u8], machine: Machine, budget: u16) -> Walk {
        let mut walk = Walk {
            machine,
            budget: budget.into(),
            rows: Vec::new(),
            register: register.clone(),
            end: End::Whole,
        };
        let parts = steps::parts(text);
        if let Err(end) = parts.iter().try_for_each(|part| walk.part(part)) {
            walk.end = end;
        }
        walk
    }

    /// Whether this is what the library's run of the whole text gives.
    pub fn is_of(&self, run: &Run) -> bool {
        let sum = |count: fn(&Row) -> u64| self.rows.iter().map(count).sum::<u64>();
        let counts = (sum(|row| row.exchanges), sum(|row| row.messages));
        (self.rows.len() as u64, self.end) == (run.finished, run.end)
            && counts == (run.exchanges, run.messages)
            && (run.end != End::Whole || self.register == run.register)
    }

    fn part(&mut self, part: &Part) -> Result<(), End> {
        let Some(field) = part.field else {
            return part.steps.iter().try_for_each(|step| self.step(step, None));
        };
        for pass in 1.. {
            let before = self.column(field);
            part.steps
                .iter()
                .try_for_each(|step| self.step(step, Some(pass)))?;
            if self.column(field) == before {
                break;
            }
        }
        Ok(())
    }

    /// The values of a field, record by record.
    fn column(&self, field: char) -> Vec<Option<i32>> {
        let records = 0..self.register.sizes().records;
        let cells = records.filter_map(|record| self.register.cell(record, field));
        cells.map(|cell| cell.value()).collect()
    }

    fn step(&mut self, step: &Step, pass: Option<u64>) -> Result<(), End> {
        if self.rows.len() == self.budget {
            return Err(End::BudgetExhausted);
        }
        let text = Text::check(&self.register, step.text());
        let run = text
            .expect("it is of a text that has passed")
            .run(self.machine, 1);
        if run.end != End::Whole {
            return Err(run.end);
        }
        self.rows.push(Row {
            step: step.number,
            pass,
            exchanges: run.exchanges,
            messages: run.messages,
            changed: run::changes(&self.register, &run.register).len(),
        });
        self.register = run.register;
        Ok(())
    }
}
