//! `plot inspect`: the messages of a step up to a round, and those of its remote writes.

use crate::arguments::{self, Arguments, Form};
use crate::check::checked;
use crate::commands::{Command, Outcome};
use crate::failure::Failure;
use crate::names::{Names, is_reference};
use crate::names_file::{self, NAMES, NO_NAMES};
use crate::remote::{self, Write};
use crate::show::counted;
use crate::steps;
use crate::stopping::place;
use crate::style::Style;
use crate::table::Table;
use crate::walk::Walk;
use crate::{explain, json, run};
use plot::{End, Line, LineKind, Machine, Messages, Plan, Register};
use std::io;

/// The command.
pub const COMMAND: Command = Command {
    name: "inspect",
    form: Form {
        operands: &["REGISTER", "RULES", "STEP", "ROUND"],
        flags: &["--json", NO_NAMES],
        valued: &["--after", NAMES],
    },
    help: include_str!("../help/inspect.txt"),
    run: inspect,
};

fn inspect(arguments: &Arguments) -> Result<Outcome, Failure> {
    let step = arguments.number(2, "STEP")?.expect("it is there");
    let round = arguments.number(3, "ROUND")?.expect("it is there");
    let register = arguments.register()?;
    let names = names_file::of(arguments, &register)?;
    let (name, bytes) = arguments.rules()?;
    checked(&register, &name, &bytes)?;
    let (register, finished) = match arguments.value("--after") {
        Some(word) => after(
            &register,
            &names,
            (&name, &bytes),
            arguments::number("--after", word)?,
        )?,
        None => (register, 0),
    };
    let shown = Shown::of(&register, &name, &bytes, (step, round), finished)?;
    Ok(match arguments.has("--json") {
        true => shown.json(),
        false => shown.told(&names),
    }
    .into())
}

/// The register as it stands after so many finished steps.
fn after(
    register: &Register,
    names: &Names,
    (name, text): (&str, &[u8]),
    steps: u16,
) -> Result<(Register, usize), Failure> {
    let walk = Walk::of(register, text, Machine::Direct, steps);
    let finished = walk.rows.len();
    let counted = counted(finished, "step");
    match walk.end {
        End::OutOfRange { record, field } => {
            let place = place(names, (record, field));
            let advice = format!("Field {place}. {counted} finished.");
            Err(run::refused(name, walk.end, finished as u64, &advice, None))
        }
        _ if finished < usize::from(steps) => Err(Failure::Usage(format!(
            "--after {steps}: the run has only {counted}"
        ))),
        _ => Ok((walk.register, finished)),
    }
}

/// What is shown of a step.
struct Shown {
    step: usize,
    round: u16,
    finished: usize,
    plan: Plan,
    messages: Vec<Message>,
    writes: Vec<Write>,
    /// The messages of the remote writes, or how the step is stopped before them.
    sent: Result<Vec<remote::Sent>, End>,
}

/// A message of a plan line.
struct Message {
    line: usize,
    origin: i32,
    from: i32,
    to: i32,
    carried: i32,
}

impl Shown {
    fn of(
        register: &Register,
        name: &str,
        bytes: &[u8],
        (step, round): (usize, u16),
        finished: usize,
    ) -> Result<Shown, Failure> {
        let text = checked(register, name, bytes)?;
        let refused = |refusal| explain::step(step, text.steps(), refusal);
        let plan = text.plan(step).map_err(refused)?;
        let sent = text.inspect(step, round).map_err(refused)?;
        let messages = messages(&plan, &sent);
        let of_text = &steps::steps(bytes)[step - 1];
        let is_remote = plan.remote && round >= u16::from(plan.exchanges());
        let sent = match is_remote {
            true => remote::sent(register, of_text),
            false => Ok(Vec::new()),
        };
        let writes = remote::writes(of_text);
        Ok(Shown {
            step,
            round,
            finished,
            plan,
            messages,
            writes,
            sent,
        })
    }

    fn told(&self, names: &Names) -> String {
        let sent = self.sent.as_deref().unwrap_or(&[]);
        let remote = match sent.len() {
            0 => String::new(),
            remote => format!(", {remote} of remote writes"),
        };
        let count = counted(self.messages.len() + sent.len(), "message");
        let after = match self.finished {
            0 => String::new(),
            finished => format!(", {} finished before", counted(finished, "step")),
        };
        let (step, round, exchanges) = (self.step, self.round, self.plan.exchanges());
        let told =
            format!("step {step} after round {round} of {exchanges}{after}: {count}{remote}\n");
        told + &self.table(names) + &self.stopped(names)
    }

    fn table(&self, names: &Names) -> String {
        let sent = self.sent.as_deref().unwrap_or(&[]);
        if self.messages.is_empty() && sent.is_empty() {
            return String::new();
        }
        let mut table = Table::new([
            ">line", "kind", "chain", ">round", ">origin", ">from", ">to", ">carries",
        ]);
        for message in &self.messages {
            let line = &self.plan.lines[message.line];
            table.plain([
                message.line.to_string(),
                line.kind.to_string(),
                line.chain(),
                line.round.to_string(),
                names.reference(message.origin as usize),
                names.reference(message.from as usize),
                names.reference(message.to as usize),
                carried(line, names, message),
            ]);
        }
        for message in sent {
            let write = &self.writes[message.write];
            table.plain([
                "-".to_owned(),
                "remote".to_owned(),
                format!("{} {}", write.chain(), write.sign),
                self.plan.exchanges().to_string(),
                names.reference(message.from),
                names.reference(message.from),
                names.reference(message.to as usize),
                value(names, Some(write.field), message.carried),
            ]);
        }
        table.print(Style::of(&io::stdout()))
    }

    /// Why there are no remote writes where the step does not finish.
    fn stopped(&self, names: &Names) -> String {
        match self.sent {
            Err(End::OutOfRange { record, field }) => format!(
                "The remote writes are not sent: the step is stopped at field {} of {}, \
                 where a sum or total is out of range (21).\n",
                names.field(field),
                names.record(record)
            ),
            _ => String::new(),
        }
    }

    fn json(&self) -> String {
        let line = |message: &Message| {
            let line = &self.plan.lines[message.line];
            json::object(&[
                ("line", message.line.to_string()),
                ("kind", json::string(&line.kind.to_string())),
                ("chain", json::string(&line.chain())),
                ("round", line.round.to_string()),
                ("origin", message.origin.to_string()),
                ("from", message.from.to_string()),
                ("to", message.to.to_string()),
                ("carries", message.carried.to_string()),
            ])
        };
        let write = |message: &remote::Sent| {
            let write = &self.writes[message.write];
            json::object(&[
                ("line", json::option(None::<usize>)),
                ("kind", json::string("remote")),
                ("chain", json::string(&write.chain())),
                ("sign", json::string(write.sign)),
                ("round", self.plan.exchanges().to_string()),
                ("origin", message.from.to_string()),
                ("from", message.from.to_string()),
                ("to", message.to.to_string()),
                ("carries", message.carried.to_string()),
            ])
        };
        let sent = self.sent.as_deref().unwrap_or(&[]);
        let messages = self.messages.iter().map(line).chain(sent.iter().map(write));
        json::object(&[
            ("step", self.step.to_string()),
            ("round", self.round.to_string()),
            ("exchanges", self.plan.exchanges().to_string()),
            ("after", self.finished.to_string()),
            ("messages", json::list(messages)),
        ]) + "\n"
    }
}

/// The messages in the order of their lines and origins.
fn messages(plan: &Plan, sent: &[Messages]) -> Vec<Message> {
    let lines = 0..plan.lines.len();
    let messages = lines.flat_map(|line| {
        let origins = 0..sent[line].len();
        origins.filter_map(move |origin| message(plan, sent, line, origin))
    });
    messages.collect()
}

fn message(plan: &Plan, sent: &[Messages], line: usize, origin: usize) -> Option<Message> {
    let held = sent[line][origin]?;
    let from = writer(plan, sent, line, origin)?;
    let origin = origin as i32;
    let (to, carried) = match plan.lines[line].kind {
        LineKind::Back => (held, origin),
        LineKind::Read => (origin, held),
    };
    Some(Message {
        line,
        origin,
        from,
        to,
        carried,
    })
}

/// The record that writes a message: the one that has been told of the origin.
fn writer(plan: &Plan, sent: &[Messages], line: usize, origin: usize) -> Option<i32> {
    let line = &plan.lines[line];
    let letters = &line.letters[..line.writer_hops()];
    if letters.is_empty() {
        return Some(origin as i32);
    }
    let told = |line: &Line| line.kind == LineKind::Back && line.letters == letters;
    let place = plan.lines.iter().position(told)?;
    sent[place][origin]
}

/// What a message carries: a record, or the value of the chain.
fn carried(line: &Line, names: &Names, message: &Message) -> String {
    let read = line.kind == LineKind::Read;
    let letter = line.letters.chars().last().filter(|_| read);
    value(names, letter, message.carried)
}

/// A value of a field, or a record number.
fn value(names: &Names, field: Option<char>, value: i32) -> String {
    match field.is_none_or(is_reference) {
        true => names.reference(value as usize),
        false => value.to_string(),
    }
}
