//! `plot plan`: the lines and rounds of a step.

use crate::arguments::{Arguments, Form};
use crate::check::{checked, plans};
use crate::commands::{Command, Outcome};
use crate::failure::Failure;
use crate::names_file::{self, NAMES, NO_NAMES};
use crate::remote::{self, Write};
use crate::show::counted;
use crate::style::Style;
use crate::table::Table;
use crate::{explain, files, json, plan_svg, steps};
use plot::{Line, LineKind, Plan, Text};
use std::io;

/// The command.
pub const COMMAND: Command = Command {
    name: "plan",
    form: Form {
        operands: &["REGISTER", "RULES", "[STEP]"],
        flags: &["--json", NO_NAMES],
        valued: &["--svg", NAMES],
    },
    help: include_str!("../help/plan.txt"),
    run: plan,
};

/// A step's number, its plan and its remote writes.
pub struct Planned {
    /// The number, from 1.
    pub step: usize,
    /// The plan.
    pub plan: Plan,
    /// The remote rules, whose messages are the last exchange.
    pub writes: Vec<Write>,
}

fn plan(arguments: &Arguments) -> Result<Outcome, Failure> {
    let svg = arguments.output("--svg")?;
    let step = arguments.number(2, "STEP")?;
    let register = arguments.register()?;
    let legend = names_file::of(arguments, &register)?.legend();
    let (name, bytes) = arguments.rules()?;
    let text = checked(&register, &name, &bytes)?;
    let plans = wanted(&text, &bytes, step)?;
    if let Some(name) = svg {
        let picture = plan_svg::picture(&plans, legend.as_deref()).into_bytes();
        return files::delivered_plainly(name, picture, arguments.has("--json"));
    }
    let style = Style::of(&io::stdout());
    let legend = legend.map(|legend| legend + "\n");
    let shown = match arguments.has("--json") {
        true => json(&plans),
        false => {
            let plans = plans.iter().map(|planned| told(planned, style));
            plans.chain(legend).collect()
        }
    };
    Ok(shown.into())
}

/// The plans of all steps, or of the one that is asked for.
fn wanted(text: &Text<'_>, bytes: &[u8], step: Option<usize>) -> Result<Vec<Planned>, Failure> {
    let Some(step) = step else {
        return Ok(all(text, bytes));
    };
    let plan = text.plan(step);
    let plan = plan.map_err(|refusal| explain::step(step, text.steps(), refusal))?;
    let writes = remote::writes(&steps::steps(bytes)[step - 1]);
    Ok(vec![Planned { step, plan, writes }])
}

/// The plans of all steps of a text, whose bytes these are.
pub fn all(text: &Text<'_>, bytes: &[u8]) -> Vec<Planned> {
    let steps = steps::steps(bytes);
    let planned = plans(text)
        .into_iter()
        .zip(&steps)
        .map(|(plan, step)| Planned {
            step: step.number,
            plan,
            writes: remote::writes(step),
        });
    planned.collect()
}

/// A step in a sentence.
pub fn summary(step: usize, plan: &Plan) -> String {
    let remote = if plan.remote {
        ", the last for remote writes"
    } else {
        ""
    };
    format!(
        "step {step}: {}, {}{remote}",
        counted(plan.lines.len(), "line"),
        counted(plan.exchanges().into(), "exchange"),
    )
}

fn told(planned: &Planned, style: Style) -> String {
    let Planned { step, plan, writes } = planned;
    let told = summary(*step, plan) + "\n";
    if plan.lines.is_empty() && writes.is_empty() {
        return told;
    }
    let mut table = Table::new([">line", "kind", "chain", ">round", "from", "to", "carries"]);
    for (place, line) in plan.lines.iter().enumerate() {
        table.plain([
            place.to_string(),
            line.kind.to_string(),
            line.chain(),
            line.round.to_string(),
            line.writer(),
            line.addressee(),
            carried(line),
        ]);
    }
    for write in writes {
        table.plain([
            "-".to_owned(),
            "remote".to_owned(),
            format!("{} {}", write.chain(), write.sign),
            plan.exchanges().to_string(),
            "u".to_owned(),
            write.target.clone(),
            write.amount.clone(),
        ]);
    }
    told + &table.print(style)
}

/// What a message of a line carries.
fn carried(line: &Line) -> String {
    match line.kind {
        LineKind::Back => "the number of u".to_owned(),
        LineKind::Read => line.chain(),
    }
}

fn json(plans: &[Planned]) -> String {
    let steps = plans.iter().map(|Planned { step, plan, writes }| {
        let round = plan.exchanges();
        let writes = writes.iter().map(|write| write_json(write, round));
        json::object(&[
            ("step", step.to_string()),
            ("lines", json::list(plan.lines.iter().map(line_json))),
            ("exchanges", plan.exchanges().to_string()),
            ("remote", plan.remote.to_string()),
            ("writes", json::list(writes)),
        ])
    });
    json::object(&[("steps", json::list(steps))]) + "\n"
}

fn line_json(line: &Line) -> String {
    json::object(&[
        ("kind", json::string(&line.kind.to_string())),
        ("chain", json::string(&line.chain())),
        ("round", line.round.to_string()),
        ("from", json::string(&line.writer())),
        ("to", json::string(&line.addressee())),
    ])
}

fn write_json(write: &Write, round: u8) -> String {
    json::object(&[
        ("chain", json::string(&write.chain())),
        ("sign", json::string(write.sign)),
        ("round", round.to_string()),
        ("from", json::string("u")),
        ("to", json::string(&write.target)),
        ("carries", json::string(&write.amount)),
        ("test", json::string(write.test.trim_end())),
    ])
}
