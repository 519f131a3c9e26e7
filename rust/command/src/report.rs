//! `plot report`: a page to look at, of a register and of what rules do to it.

use crate::arguments::{Arguments, Form};
use crate::check::checked;
use crate::commands::{Command, Outcome};
use crate::failure::Failure;
use crate::names::Names;
use crate::names_file::{self, NAMES, NO_NAMES};
use crate::oneline::escaped;
use crate::page::{self, Page, Ran};
use crate::stopping::place;
use crate::{files, json, plan, run, show, trace};
use plot::{End, Machine, Register};

/// The command.
pub const COMMAND: Command = Command {
    name: "report",
    form: Form {
        operands: &["REGISTER", "[RULES]"],
        flags: &["--json", NO_NAMES],
        valued: &["-o", "--budget", NAMES],
    },
    help: include_str!("../help/report.txt"),
    run: report,
};

fn report(arguments: &Arguments) -> Result<Outcome, Failure> {
    let missing = || Failure::Usage("-o REPORT.html is missing".to_owned());
    let output = arguments.output("-o")?.ok_or_else(missing)?;
    let budget = run::budget(arguments)?;
    let register = arguments.register()?;
    let names = names_file::of(arguments, &register)?;
    let name = files::shown(arguments.operand(0));
    let ran = match arguments.given(1) {
        Some(_) => Some(ran(arguments, &register, budget)?),
        None => None,
    };
    let html = page::html(&Page {
        name: &name,
        register: &register,
        names: &names,
        ran: ran.as_ref(),
    });
    let failure = ran.as_ref().and_then(|ran| stopped(ran, &names, budget));
    let report = match arguments.has("--json") {
        true => json::object(&files::wrote(output, html.as_bytes())) + "\n",
        false => format!("wrote {}: {}\n", escaped(output), show::summary(&register)),
    };
    let outcome = files::delivered(output, html.into_bytes(), report)?;
    Ok(Outcome { failure, ..outcome })
}

/// What the rules do.
fn ran(arguments: &Arguments, register: &Register, budget: u16) -> Result<Ran, Failure> {
    let (name, bytes) = arguments.rules()?;
    let text = checked(register, &name, &bytes)?;
    let run = text.run(Machine::Messages, budget);
    let rows = trace::rows(register, &bytes, Machine::Messages, budget, &run);
    let plans = plan::all(&text, &bytes);
    Ok(Ran {
        name,
        text: bytes,
        run,
        rows,
        plans,
    })
}

/// The refusal of a run that was stopped; the page tells of it too.
fn stopped(ran: &Ran, names: &Names, budget: u16) -> Option<Failure> {
    let advice = match ran.run.end {
        End::Whole => return None,
        End::OutOfRange { record, field } => format!("Field {}.", place(names, (record, field))),
        End::BudgetExhausted => format!("The budget is {budget}."),
    };
    let advice = format!("{advice} The page shows the register as it was.");
    Some(run::refused(
        &ran.name,
        ran.run.end,
        ran.run.finished,
        &advice,
        None,
    ))
}

/// Why a run was stopped, in words; nothing where it was not.
pub fn stopped_words(ran: &Ran, names: &Names) -> Option<String> {
    let kind = ran.run.end.refusal()?;
    let at = match ran.run.end {
        End::OutOfRange { record, field } => {
            format!(", at field {}", place(names, (record, field)))
        }
        _ => String::new(),
    };
    let number = kind.number();
    Some(format!(
        "The run was stopped ({number}): {}{at}.",
        kind.meaning()
    ))
}
