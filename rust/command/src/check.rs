//! `plot check`: whether a rules text passes for a register.

use crate::arguments::{Arguments, Form};
use crate::commands::{Command, Outcome};
use crate::failure::Failure;
use crate::show::counted;
use crate::style::{Look, Style};
use crate::table::Table;
use crate::{explain, further, json};
use plot::{Plan, Register, Text};
use std::io;

/// The command.
pub const COMMAND: Command = Command {
    name: "check",
    form: Form {
        operands: &["REGISTER", "RULES"],
        flags: &["--json"],
        valued: &[],
    },
    help: include_str!("../help/check.txt"),
    run: check,
};

fn check(arguments: &Arguments) -> Result<Outcome, Failure> {
    let register = arguments.register()?;
    let (name, text) = arguments.rules()?;
    let text = Text::check(&register, text.as_slice())
        .map_err(|refusal| further::all(&register, &name, &text, refusal))?;
    let plans = plans(&text);
    let shown = match arguments.has("--json") {
        true => json(&plans),
        false => told(&name, &plans, Style::of(&io::stdout())),
    };
    Ok(shown.into())
}

/// The text where it passes, else the refusal for people.
pub fn checked<'a>(register: &'a Register, name: &str, text: &[u8]) -> Result<Text<'a>, Failure> {
    Text::check(register, text)
        .map_err(|refusal| explain::rules(name, register.sizes(), text, refusal))
}

/// The plan of each step.
pub fn plans(text: &Text<'_>) -> Vec<Plan> {
    let plan = |step| text.plan(step).expect("the step is there");
    (1..=text.steps()).map(plan).collect()
}

/// Whether remote writes follow.
pub fn yes_or_no(remote: bool) -> &'static str {
    if remote { "yes" } else { "no" }
}

fn told(name: &str, plans: &[Plan], style: Style) -> String {
    let passes = style.paint(Look::New, "passes");
    let told = format!("{name} {passes}: {}\n", counted(plans.len(), "step"));
    if plans.is_empty() {
        return told;
    }
    let mut table = Table::new([">step", ">lines", ">exchanges", "remote writes"]);
    for (place, plan) in plans.iter().enumerate() {
        table.plain([
            (place + 1).to_string(),
            plan.lines.len().to_string(),
            plan.exchanges().to_string(),
            yes_or_no(plan.remote).to_owned(),
        ]);
    }
    told + &table.print(style)
}

fn json(plans: &[Plan]) -> String {
    let steps = plans.iter().map(|plan| {
        json::object(&[
            ("lines", plan.lines.len().to_string()),
            ("exchanges", plan.exchanges().to_string()),
            ("remote", plan.remote.to_string()),
        ])
    });
    json::object(&[("steps", json::list(steps))]) + "\n"
}
