//! The remote writes of a step, and the messages of its last exchange. What a message
//! carries, whether it is sent and to whom comes from runs of the library: over the
//! same register with all values taken as measured, a step `F[u] := X` with the rule's
//! test works a cell out exactly where the rule sends X, and a step `A[u] := C` where
//! there is a record to send it to.

use crate::scan::{PartSort, Scan};
use crate::show;
use crate::steps::{self, Step};
use plot::{Cell, End, Machine, Register};

/// A remote rule, in the words of its text.
#[derive(Clone, Debug, PartialEq, Eq)]
pub struct Write {
    /// `if X < Y: `, or nothing.
    pub test: String,
    /// The field that it writes.
    pub field: char,
    /// The chain to the record that it writes to.
    pub target: String,
    /// `<?=` or `+=`.
    pub sign: &'static str,
    /// What it writes.
    pub amount: String,
}

/// A message of a remote write.
#[derive(Clone, Copy, Debug, PartialEq, Eq)]
pub struct Sent {
    /// Which of the remote rules sends it, counted from 0.
    pub write: usize,
    /// The record that sends it.
    pub from: usize,
    /// The record that it goes to.
    pub to: i32,
    /// What it carries.
    pub carried: i32,
}

/// The remote rules of a step.
pub fn writes(step: &Step) -> Vec<Write> {
    step.rules.iter().filter_map(|rule| write(rule)).collect()
}

fn write(rule: &str) -> Option<Write> {
    let scan = Scan::line(rule.as_bytes()).ok()?;
    let of = |sort| scan.parts.iter().find(|part| part.sort == sort);
    let (written, target) = (of(PartSort::Written)?, of(PartSort::Target)?);
    let test = rule[..written.start].trim_end().strip_suffix("remote")?;
    let rest = rule[target.end..].trim_start().strip_prefix(']')?;
    let rest = rest.trim_start();
    let sign = ["<?=", "+="]
        .into_iter()
        .find(|sign| rest.starts_with(sign))?;
    Some(Write {
        test: test.to_owned(),
        field: rule[written.start..].chars().next()?,
        target: rule[target.start..target.end].replace(' ', ""),
        sign,
        amount: rest[sign.len()..].trim_start().to_owned(),
    })
}

impl Write {
    /// The cell that it writes, as a chain.
    pub fn chain(&self) -> String {
        format!("{}[{}]", self.field, self.target)
    }

    /// The letters of that chain from the inside out.
    pub fn letters(&self) -> String {
        let letters = self.chain();
        let letters = letters.chars().filter(char::is_ascii_uppercase);
        letters.rev().collect()
    }

    /// The rule without its test.
    pub fn action(&self) -> String {
        format!("remote {} {} {}", self.chain(), self.sign, self.amount)
    }
}

/// The messages of the last exchange of a step over a register, rule by rule; how the
/// step ends where it does not finish.
pub fn sent(register: &Register, step: &Step) -> Result<Vec<Sent>, End> {
    let run = register.run(step.text(), Machine::Direct, 1);
    match run.map_or(End::Whole, |run| run.end) {
        End::Whole => {}
        end => return Err(end),
    }
    let measured = measured(register);
    let mut messages = Vec::new();
    for (write, rule) in writes(step).iter().enumerate() {
        let amounts = worked_out(&measured, &rule.test, rule.field, &rule.amount)?;
        let targets = match rule.target.as_str() {
            "u" => (0..amounts.len())
                .map(|record| Some(record as i32))
                .collect(),
            // Where a chain leads to a record, the first field is a reference.
            target => worked_out(&measured, "", 'A', target)?,
        };
        let both = amounts.into_iter().zip(targets).enumerate();
        messages.extend(both.filter_map(|(from, (carried, to))| {
            let (carried, to) = (carried?, to?);
            Some(Sent {
                write,
                from,
                to,
                carried,
            })
        }));
    }
    Ok(messages)
}

/// The register with every value taken as measured.
fn measured(register: &Register) -> Register {
    let cells = show::records(register).flat_map(|(_, cells)| cells);
    let values: Vec<Option<i32>> = cells.map(|cell| cell.value()).collect();
    Register::from_cells(register.sizes(), &values).expect("only marks have changed")
}

/// What a rule `F[u] := X` stores at each record, none where it stores nothing.
fn worked_out(
    register: &Register,
    test: &str,
    field: char,
    expression: &str,
) -> Result<Vec<Option<i32>>, End> {
    let rule = format!("{test}{field}[u] := {expression}");
    let run = register.run(steps::text_of(&[rule]), Machine::Direct, 1);
    let run = run.expect("its parts have passed");
    if run.end != End::Whole {
        return Err(run.end);
    }
    let records = 0..register.sizes().records;
    let stored = |record| match run.register.cell(record, field) {
        Some(Cell::WorkedOut(value)) => Some(value),
        _ => None,
    };
    Ok(records.map(stored).collect())
}
