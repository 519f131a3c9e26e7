//! `plot why`: which gaps keep readings, or a field after a run, unfilled.

use crate::arguments::{Arguments, Form};
use crate::commands::{Command, Outcome};
use crate::failure::Failure;
use crate::files;
use crate::names::Names;
use crate::names_file::{self, NAMES, NO_NAMES};
use crate::oneline::escaped;
use crate::sheet::{self, Places};
use crate::show::counted;
use crate::stopping::{self, Stop};
use crate::{explain, json, read, why_rules};
use plot::{Kind, Register};
use std::path::Path;

/// The command.
pub const COMMAND: Command = Command {
    name: "why",
    form: Form {
        operands: &["REGISTER", "CHAIN or RULES", "[FIELD]"],
        flags: &["--csv", "--json", NO_NAMES],
        valued: &["-o", "--budget", NAMES],
    },
    help: include_str!("../help/why.txt"),
    run: why,
};

/// What is told.
pub struct Answer {
    /// How much is unfilled.
    pub summary: String,
    /// What a gap stops.
    pub thing: &'static str,
    /// The gaps, and what each stops.
    pub stops: Vec<Stop>,
    /// What is told behind them.
    pub behind: String,
    /// What programs are told before them.
    pub members: Vec<(&'static str, String)>,
}

fn why(arguments: &Arguments) -> Result<Outcome, Failure> {
    if arguments.has("--csv") && arguments.has("--json") {
        return Err(Failure::Usage(
            "--csv and --json exclude each other".to_owned(),
        ));
    }
    let output = arguments.output("-o")?;
    let register = arguments.register()?;
    let names = names_file::of(arguments, &register)?;
    let answer = match arguments.rest(2) {
        [] => of_chain(arguments, &register, &names)?,
        [field, ..] => why_rules::answer(arguments, &register, &names, field)?,
    };
    let asked: Places = answer.stops.iter().map(|stop| stop.gap).collect();
    let told = match (arguments.has("--csv"), arguments.has("--json")) {
        (true, _) => stopping::csv(&answer.stops, &names),
        (_, true) => answer.json(&names),
        _ => answer.told(&names) + &diary_told(output, asked.len()),
    };
    match output {
        None => Ok(told.into()),
        Some(name) => {
            let diary = sheet::written(&register, &names, &asked).into_bytes();
            files::delivered(name, diary, told)
        }
    }
}

/// What is told of the diary.
fn diary_told(output: Option<&str>, asked: usize) -> String {
    let cells = counted(asked, "cell");
    match output {
        None => String::new(),
        Some(name) if files::is_standard_output(name) => String::new(),
        Some(name) => format!("wrote {}: ? in {cells} to fill in\n", escaped(name)),
    }
}

impl Answer {
    fn told(&self, names: &Names) -> String {
        let stops = stopping::told(&self.stops, names, self.thing);
        format!("{}\n{stops}{}", self.summary, self.behind)
    }

    fn json(&self, names: &Names) -> String {
        let gaps = ("gaps", stopping::json(&self.stops, names));
        json::object(&[self.members.clone(), vec![gaps]].concat()) + "\n"
    }
}

/// The gaps behind the readings of a chain.
fn of_chain(arguments: &Arguments, register: &Register, names: &Names) -> Result<Answer, Failure> {
    let chain = arguments.operand(1);
    if arguments.has("--budget") {
        return Err(Failure::Usage("--budget goes with RULES only".to_owned()));
    }
    let records: Vec<usize> = (0..register.sizes().records).collect();
    let paths = read::paths(register, chain, &records).map_err(|(record, refusal)| {
        match refusal.kind == Kind::Form && Path::new(chain).is_file() {
            true => Failure::Usage("FIELD is missing behind RULES".to_owned()),
            false => explain::reading(register, chain, record, refusal),
        }
    })?;
    let ends = paths
        .iter()
        .filter_map(|(u, path)| Some((read::gap(path)?, *u)));
    let stops = stopping::grouped(ends);
    let unfilled = paths
        .iter()
        .filter(|(_, path)| path.value.is_none())
        .count();
    let of = counted(records.len(), "reading");
    let named = chain_named(chain, names);
    Ok(Answer {
        summary: match unfilled {
            0 => format!(
                "every reading of {named} is filled, at {}",
                counted(records.len(), "record")
            ),
            _ => format!(
                "{unfilled} of {of} of {named} are unfilled{}",
                behind(&stops)
            ),
        },
        thing: "reading",
        stops,
        behind: String::new(),
        members: vec![
            ("chain", json::string(chain)),
            ("records", records.len().to_string()),
            ("unfilled", unfilled.to_string()),
        ],
    })
}

/// How many gaps are behind what is unfilled.
pub fn behind(stops: &[Stop]) -> String {
    match stops.len() {
        1 => ": 1 gap stops them".to_owned(),
        gaps => format!(": {gaps} gaps stop them"),
    }
}

/// A chain with the name of its outermost field.
fn chain_named(chain: &str, names: &Names) -> String {
    let name = chain.chars().next().and_then(|field| names.name(field));
    name.map_or(chain.to_owned(), |name| format!("{chain} ({name})"))
}
