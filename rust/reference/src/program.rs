//! A rules text that has passed: its steps, in sequence or in loops.

use crate::chain::Word;
use crate::plan::{Plan, Source, TooManyLines};
use crate::rule::{Rule, Sort};

/// A chain of a rule, and how the plan lets the record u know it.
#[derive(Clone, Copy, Debug, PartialEq, Eq)]
pub struct Reading {
    /// The chain's hop word.
    pub word: Word,
    /// Where the message machine has it from.
    pub source: Source,
}

/// A rule of a program.
pub type PlannedRule = Rule<Reading, usize>;

/// A step: its rules, and the plan of its readings.
#[derive(Clone, Debug, PartialEq, Eq)]
pub struct Step {
    /// The rules from the top.
    pub rules: Vec<PlannedRule>,
    /// The lines that bring the readings about.
    pub plan: Plan,
}

/// A part of a program.
#[derive(Clone, Debug, PartialEq, Eq)]
pub enum Part {
    /// A step by itself.
    Step(Step),
    /// A loop on a field: its steps, at least one.
    Loop(usize, Vec<Step>),
}

/// A program: its parts in order.
#[derive(Clone, Debug, Default, PartialEq, Eq)]
pub struct Program {
    /// The parts.
    pub parts: Vec<Part>,
}

impl Step {
    /// The step of these rules: the plan walks them from the top, in a rule the
    /// chains from left to right.
    pub fn of(rules: &[Rule<Word, usize>]) -> Result<Step, TooManyLines> {
        let mut plan = Plan::default();
        let mut reading = |word: &Word| {
            let source = plan.add_reading(word.fields())?;
            Ok(Reading {
                word: *word,
                source,
            })
        };
        let planned = rules
            .iter()
            .map(|rule| rule.try_map(rule.field, &mut reading));
        let rules = planned.collect::<Result<_, _>>()?;
        Ok(Step { rules, plan })
    }

    /// Whether it holds a remote rule, so that a remote exchange follows.
    pub fn has_remote(&self) -> bool {
        self.rules.iter().any(|rule| rule.remote_sort().is_some())
    }

    /// Whether it holds a `+=`.
    pub fn has_additions(&self) -> bool {
        let add = Some(Sort::Add);
        self.rules.iter().any(|rule| rule.remote_sort() == add)
    }

    /// The exchanges that it makes: the rounds of its plan, and the remote one.
    pub fn exchanges(&self) -> usize {
        self.plan.rounds() + usize::from(self.has_remote())
    }
}

impl Program {
    /// The steps in the order of the text.
    pub fn steps(&self) -> impl Iterator<Item = &Step> {
        self.parts.iter().flat_map(|part| match part {
            Part::Step(step) => std::slice::from_ref(step),
            Part::Loop(_, steps) => steps,
        })
    }

    /// The step of this number, which counts from 1.
    pub fn step(&self, number: u64) -> Option<&Step> {
        let before = usize::try_from(number).ok()?.checked_sub(1)?;
        self.steps().nth(before)
    }

    /// L, the most lines of any step.
    pub fn most_lines(&self) -> usize {
        self.steps()
            .map(|step| step.plan.lines().len())
            .max()
            .unwrap_or(0)
    }
}
