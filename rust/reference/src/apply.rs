//! What a step does with its readings: local rules, then remote writes. Both
//! machines do it alike; they differ in how a record comes to know a reading.

use crate::evaluate::{Evaluated, evaluate};
use crate::marks::{Transition, Transitions};
use crate::program::{PlannedRule, Reading, Step};
use crate::register::{Cell, Sizes};
use crate::rule::{Action, Comparison, Expression, Sort, Test};

/// What the records know of the cells as they stood before a step.
pub trait Knowledge {
    /// A reading at a record.
    fn read(&self, reading: &Reading, record: usize) -> Option<i32>;
}

/// A record and a field.
#[derive(Clone, Copy, Debug, PartialEq, Eq)]
pub struct Place {
    /// The record's number.
    pub record: usize,
    /// The field, counted from 0, references first.
    pub field: usize,
}

/// All places where a sum or a total is out of range.
#[derive(Clone, Debug, Default, PartialEq, Eq)]
pub struct OutOfRange {
    /// The sums that rules form, also in tests and in remote amounts, in each record
    /// from the top: the record that reads, and the field that the rule writes.
    pub sums: Vec<Place>,
    /// The totals, of cells without such a sum.
    pub totals: Vec<Place>,
}

impl OutOfRange {
    /// What 21 names: the lowest record with such a sum and, in it, the field
    /// that the earliest such rule writes; only where there is no such sum, the
    /// lowest record, then first field, with such a total.
    pub fn named(&self) -> Option<Place> {
        let sum = self.sums.iter().min_by_key(|place| place.record);
        let total = || {
            let order = |place: &&Place| (place.record, place.field);
            self.totals.iter().min_by_key(order)
        };
        sum.or_else(total).copied()
    }
}

/// A step in work: the cells that it leaves, and the amounts added to them.
#[derive(Clone, Debug)]
pub struct Work {
    sizes: Sizes,
    /// The cells, which stand as the step leaves them once it has been applied.
    pub cells: Vec<Cell>,
    /// For each cell the amounts of the `+=` letters that reached it.
    amounts: Vec<Option<i64>>,
    /// How often a gap has left what an earlier rule of its step had stored.
    pub kept: u64,
    /// What rules made of cells and their marks.
    pub transitions: Transitions,
}

impl Work {
    /// Room for the steps of a register.
    pub fn new(sizes: Sizes) -> Work {
        Work {
            sizes,
            cells: vec![Cell::Missing; sizes.cells()],
            amounts: vec![None; sizes.cells()],
            kept: 0,
            transitions: Transitions::default(),
        }
    }

    /// Applies a step to the cells before it; gives the number of remote letters.
    pub fn apply(
        &mut self,
        step: &Step,
        before: &[Cell],
        known: &impl Knowledge,
    ) -> Result<u64, OutOfRange> {
        self.cells.copy_from_slice(before);
        let sums = self.local_writes(step, known);
        let letters = self.remote_writes(step, known);
        let mut totals = Vec::new();
        if step.has_additions() {
            totals = self.add_amounts();
            totals.retain(|place| !sums.contains(place));
        }
        match sums.is_empty() && totals.is_empty() {
            true => Ok(letters),
            false => Err(OutOfRange { sums, totals }),
        }
    }

    fn place(&self, record: usize, field: usize) -> usize {
        record * self.sizes.fields() + field
    }

    /// For each record, each local rule in order; later ones overwrite earlier
    /// ones, but a sum out of range stops the run even where overwritten. A rule
    /// that reads nothing leaves the cell as earlier rules left it. Gives the
    /// places of sums out of range, those of remote rules among them.
    fn local_writes(&mut self, step: &Step, known: &impl Knowledge) -> Vec<Place> {
        let mut outside = Vec::new();
        for record in 0..self.sizes.records {
            for (index, rule) in step.rules.iter().enumerate() {
                let field = rule.field;
                match written(rule, record, known) {
                    None => {}
                    Some(Evaluated::Missing) => {
                        let earlier = &step.rules[..index];
                        self.kept += u64::from(is_stored(earlier, field, record, known));
                    }
                    Some(Evaluated::Value(value)) => {
                        let place = self.place(record, field);
                        self.assign(place, value);
                    }
                    Some(Evaluated::OutOfRange) => outside.push(Place { record, field }),
                }
            }
        }
        outside
    }

    /// One letter for each remote write whose test, if any, holds and whose C
    /// and X are filled.
    fn remote_writes(&mut self, step: &Step, known: &impl Knowledge) -> u64 {
        let mut letters = 0;
        for record in 0..self.sizes.records {
            for rule in &step.rules {
                let Action::Remote(sort, target, x) = &rule.action else {
                    continue;
                };
                if tested(&rule.test, record, known) != Tested::Holds {
                    continue;
                }
                let (target, x) = (known.read(target, record), evaluate(x, record, known));
                if let (Some(target), Evaluated::Value(x)) = (target, x) {
                    self.deliver(*sort, self.place(target as usize, rule.field), x);
                    letters += 1;
                }
            }
        }
        letters
    }

    /// `:=` leaves mark 2, whatever was there and whatever was read.
    fn assign(&mut self, place: usize, value: i32) {
        let cell = &mut self.cells[place];
        self.transitions.count(match *cell {
            Cell::Missing => Transition::AssignedUnfilled,
            Cell::Measured(same) if same == value => Transition::AssignedSame,
            Cell::Measured(_) => Transition::AssignedMeasured,
            Cell::WorkedOut(_) => Transition::AssignedWorkedOut,
        });
        *cell = Cell::WorkedOut(value);
    }

    fn deliver(&mut self, sort: Sort, place: usize, x: i32) {
        match sort {
            Sort::Least => self.keep_least(place, x),
            Sort::Add => *self.amounts[place].get_or_insert(0) += i64::from(x),
        }
    }

    /// `<?=` keeps the smaller, and fills a missing cell; it leaves mark 2 where it
    /// does one or the other, and the cell as it is where it is not smaller.
    fn keep_least(&mut self, place: usize, x: i32) {
        let cell = &mut self.cells[place];
        let (transition, left) = match *cell {
            Cell::Missing => (Transition::LeastFills, Cell::WorkedOut(x)),
            Cell::Measured(value) if x < value => (Transition::LeastChanges, Cell::WorkedOut(x)),
            Cell::WorkedOut(value) if x < value => (Transition::LeastAgain, Cell::WorkedOut(x)),
            Cell::Measured(_) => (Transition::LeastLeavesMeasured, *cell),
            Cell::WorkedOut(_) => (Transition::LeastLeavesWorkedOut, *cell),
        };
        self.transitions.count(transition);
        *cell = left;
    }

    /// All amounts go to their cells as one whole number; only this total must be
    /// in range. A filled cell that one of them reached is left with mark 2, also
    /// where they come to 0. A missing cell stays missing and has no total. Gives
    /// the places of totals out of range.
    fn add_amounts(&mut self) -> Vec<Place> {
        let fields = self.sizes.fields();
        let mut outside = Vec::new();
        for (place, (cell, amount)) in self.cells.iter_mut().zip(&mut self.amounts).enumerate() {
            let Some(amount) = amount.take() else {
                continue;
            };
            self.transitions.count(match *cell {
                Cell::Missing => Transition::AddedUnfilled,
                Cell::Measured(_) if amount == 0 => Transition::AddedNothing,
                Cell::Measured(_) => Transition::AddedMeasured,
                Cell::WorkedOut(_) => Transition::AddedWorkedOut,
            });
            if let Some(value) = cell.value() {
                match i32::try_from(i64::from(value) + amount) {
                    Ok(total) => *cell = Cell::WorkedOut(total),
                    Err(_) => outside.push(Place {
                        record: place / fields,
                        field: place % fields,
                    }),
                }
            }
        }
        outside
    }
}

/// What comes of a rule's test.
#[derive(Clone, Copy, PartialEq, Eq)]
enum Tested {
    /// There is none, or it holds: the rule is done.
    Holds,
    /// It does not hold. So does one with a missing side, `!=` included.
    Fails,
    /// A sum of it is out of range. Both sides are formed, whatever the other is.
    OutOfRange,
}

fn tested(test: &Option<Test<Reading>>, record: usize, known: &impl Knowledge) -> Tested {
    match test {
        None => Tested::Holds,
        Some(test) => compared(test, record, known),
    }
}

fn compared(test: &Test<Reading>, record: usize, known: &impl Knowledge) -> Tested {
    let left = evaluate(&test.left, record, known);
    let right = evaluate(&test.right, record, known);
    let holds = match (left, right) {
        (Evaluated::Value(left), Evaluated::Value(right)) => match test.comparison {
            Comparison::Less => left < right,
            Comparison::Equal => left == right,
            Comparison::NotEqual => left != right,
        },
        (Evaluated::OutOfRange, _) | (_, Evaluated::OutOfRange) => return Tested::OutOfRange,
        _ => false,
    };
    match holds {
        true => Tested::Holds,
        false => Tested::Fails,
    }
}

/// What comes of a rule in its own record: what it stores there, out of range where a
/// sum of its test is, or where the test holds one of what it writes. None if it is
/// not done, or is remote.
fn written(rule: &PlannedRule, record: usize, known: &impl Knowledge) -> Option<Evaluated> {
    let x = match &rule.action {
        Action::Local(x) => x,
        Action::Remote(_, _, x) if forms_any(rule) => x,
        Action::Remote(..) => return None,
    };
    let written = match tested(&rule.test, record, known) {
        Tested::Holds => evaluate(x, record, known),
        Tested::Fails => return None,
        Tested::OutOfRange => Evaluated::OutOfRange,
    };
    match (&rule.action, written) {
        (Action::Remote(..), Evaluated::Missing | Evaluated::Value(_)) => None,
        _ => Some(written),
    }
}

/// Whether a rule may form a sum: it does not where all it has are terms.
#[inline]
fn forms_any(rule: &PlannedRule) -> bool {
    let is_term = |expression: &Expression<Reading>| matches!(expression, Expression::Term(_));
    let test = rule.test.as_ref();
    let tests_terms = test.is_none_or(|test| is_term(&test.left) && is_term(&test.right));
    !(tests_terms && is_term(rule.action.expression()))
}

/// Whether one of these rules stores a value in a field of a record.
fn is_stored(rules: &[PlannedRule], field: usize, record: usize, known: &impl Knowledge) -> bool {
    rules.iter().any(|rule| {
        rule.field == field && matches!(written(rule, record, known), Some(Evaluated::Value(_)))
    })
}
