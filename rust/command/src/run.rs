//! `plot run`: a rules text over a register.

use crate::arguments::{self, Arguments, Form};
use crate::commands::{Command, Outcome};
use crate::failure::Failure;
use crate::files::{self, STANDARD};
use crate::names::{Names, is_worked_out};
use crate::names_file::{self, Destination, NAMES, NO_NAMES};
use crate::show::{self, counted};
use crate::style::{Look, Style};
use crate::table::Table;
use crate::walk::Row;
use crate::{explain, json, trace};
use plot::{Cell, End, Kind, Machine, Register, Run};
use std::io;

/// The command.
pub const COMMAND: Command = Command {
    name: "run",
    form: Form {
        operands: &["REGISTER", "RULES"],
        flags: &["--direct", "--in-place", "--trace", "--json", NO_NAMES],
        valued: &["-o", "--budget", NAMES],
    },
    help: include_str!("../help/run.txt"),
    run,
};

/// The steps of a run for which no budget is given.
const BUDGET: u16 = 1000;

fn run(arguments: &Arguments) -> Result<Outcome, Failure> {
    let output = output(arguments)?;
    let budget = budget(arguments)?;
    let machine = match arguments.has("--direct") {
        true => Machine::Direct,
        false => Machine::Messages,
    };
    let register = arguments.register()?;
    let names = names_file::of(arguments, &register)?;
    let destination = Destination::of_copy(arguments)?;
    let (name, text) = arguments.rules()?;
    let run = register.run(&text, machine, budget);
    let run = run.map_err(|refusal| explain::rules(&name, register.sizes(), &text, refusal))?;
    let rows = arguments
        .has("--trace")
        .then(|| trace::rows(&register, &text, machine, budget, &run));
    if run.end != End::Whole {
        return stopped(&name, machine, budget, &names, &run, rows.as_deref());
    }
    let report = match arguments.has("--json") {
        true => json(&register, machine, &names, &run, rows.as_deref()),
        false => told(&register, machine, &names, &run, rows.as_deref(), output),
    };
    let Some(output) = output else {
        return Ok(report.into());
    };
    let outcome = files::delivered(output, run.register.as_bytes().to_vec(), report)?;
    // The names go with the register.
    destination.write(&names, register.sizes())?;
    Ok(outcome)
}

/// The most steps of a run.
pub fn budget(arguments: &Arguments) -> Result<u16, Failure> {
    let budget = arguments.value("--budget");
    budget.map_or(Ok(BUDGET), |word| arguments::number("--budget", word))
}

/// The file to write, if one is asked for.
pub fn output(arguments: &Arguments) -> Result<Option<&str>, Failure> {
    let output = arguments.output("-o")?;
    match (arguments.has("--in-place"), output, arguments.operand(0)) {
        (false, output, _) => Ok(output),
        (true, Some(_), _) => Err(Failure::Usage(
            "-o and --in-place exclude each other".to_owned(),
        )),
        (true, None, STANDARD) => Err(Failure::Usage(
            "--in-place needs a file, and the register is standard input".to_owned(),
        )),
        (true, None, register) => Ok(Some(register)),
    }
}

/// What a run took.
pub fn counts(machine: Machine, run: &Run) -> String {
    let steps = counted(run.finished as usize, "step");
    match machine {
        Machine::Direct => format!("{steps} finished"),
        Machine::Messages => format!(
            "{steps} finished, {}, {}",
            counted(run.exchanges as usize, "exchange"),
            counted(run.messages as usize, "message")
        ),
    }
}

/// A run that is stopped, with the steps that it has finished where they are asked for.
pub fn stopped(
    name: &str,
    machine: Machine,
    budget: u16,
    names: &Names,
    run: &Run,
    rows: Option<&[Row]>,
) -> Result<Outcome, Failure> {
    let advice = match (run.end, budget) {
        (End::BudgetExhausted, u16::MAX) => {
            "No budget is larger. Does a loop write its field anew in each pass? Then it does not end."
        }
        (end, _) => end.refusal().map_or("", Kind::advice),
    };
    let place = match run.end {
        End::OutOfRange { record, field } => {
            let (field, record) = (names.field(field), names.record(record));
            format!("Field {field} of {record}. ")
        }
        _ => format!("The budget is {budget}. "),
    };
    let counts = counts(machine, run);
    let advice = format!("{place}{counts}. Nothing is written.\n  {advice}");
    let trace = rows.map(|rows| ("trace", trace::json(rows, machine)));
    let failure = refused(name, run.end, run.finished, &advice, trace);
    let Some(rows) = rows else {
        return Err(failure);
    };
    let table = trace::table(rows, machine, Style::of(&io::stdout()));
    Ok(Outcome {
        failure: Some(failure),
        ..table.into()
    })
}

/// The refusal of a run that was stopped, with what more programs are told.
pub fn refused(
    name: &str,
    end: End,
    finished: u64,
    advice: &str,
    further: Option<(&'static str, String)>,
) -> Failure {
    let (record, field) = match end {
        End::OutOfRange { record, field } => (Some(record), Some(json::string(&field.to_string()))),
        _ => (None, None),
    };
    let mut members = vec![
        ("finished", finished.to_string()),
        ("record", json::option(record)),
        ("field", json::option(field)),
    ];
    members.extend(further);
    let kind = end.refusal().expect("the run is stopped");
    explain::stopped(name, kind, advice, &members)
}

/// A cell that is not as it was.
pub type Change = (usize, char, Cell, Cell);

/// The cells that are not as they were.
pub fn changes(before: &Register, after: &Register) -> Vec<Change> {
    let rows = show::records(before).zip(show::records(after));
    let changes = rows.flat_map(|((record, old), (_, new))| {
        let cells = before.sizes().fields().zip(old.into_iter().zip(new));
        cells
            .filter(|(_, (old, new))| old != new)
            .map(move |(field, (old, new))| (record, field, old, new))
    });
    changes.collect()
}

fn told(
    register: &Register,
    machine: Machine,
    names: &Names,
    run: &Run,
    rows: Option<&[Row]>,
    output: Option<&str>,
) -> String {
    let style = match output {
        Some(name) if files::is_standard_output(name) => Style::of(&io::stderr()),
        _ => Style::of(&io::stdout()),
    };
    let changes = changes(register, &run.register);
    let counts = counts(machine, run);
    let changed = counted(changes.len(), "cell");
    let table = change_table(&changes, names, style);
    let rows = rows.map_or(String::new(), |rows| trace::table(rows, machine, style));
    format!("{counts}\n{rows}{changed} changed\n{table}")
}

/// Changes as a table; nothing where there are none.
pub fn change_table(changes: &[Change], names: &Names, style: Style) -> String {
    if changes.is_empty() {
        return String::new();
    }
    let headings = ["field", ">before", ">after"].map(str::to_owned);
    let mut table = Table::new(names.record_headings().into_iter().chain(headings));
    for (record, field, before, after) in changes {
        let after_look = match after {
            Cell::Unfilled => Look::Gap,
            _ => Look::New,
        };
        let place = names.record_cells(*record).into_iter();
        let place = place.chain([names.field(*field)]);
        table.row(place.map(|cell| (cell, Look::Plain)).chain([
            (names.cell(*field, *before), show::look(*before)),
            (names.cell(*field, *after), after_look),
        ]));
    }
    table.print(style)
}

/// Changes for programs.
pub fn change_list(changes: &[Change], names: &Names) -> String {
    json::list(changes.iter().map(|(record, field, before, after)| {
        let cells = [
            ("before", json::option(before.value())),
            ("before_worked_out", is_worked_out(*before).to_string()),
            ("after", json::option(after.value())),
            ("after_worked_out", is_worked_out(*after).to_string()),
        ];
        json::object(&[names.cell_members(*record, *field), cells.to_vec()].concat())
    }))
}

fn json(
    register: &Register,
    machine: Machine,
    names: &Names,
    run: &Run,
    rows: Option<&[Row]>,
) -> String {
    let counted = |number: u64| match machine {
        Machine::Direct => json::option(None::<u64>),
        Machine::Messages => number.to_string(),
    };
    let changed = change_list(&changes(register, &run.register), names);
    let mut members = vec![
        ("finished", run.finished.to_string()),
        ("exchanges", counted(run.exchanges)),
        ("messages", counted(run.messages)),
        ("changed", changed),
    ];
    members.extend(rows.map(|rows| ("trace", trace::json(rows, machine))));
    json::object(&members) + "\n"
}
