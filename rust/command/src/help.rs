//! `plot help`: what the commands are, and the help of each.

use crate::arguments::{Arguments, Form};
use crate::commands::{self, COMMANDS, Command, Outcome};
use crate::failure::Failure;
use crate::{completion, man};

/// The command.
pub const COMMAND: Command = Command {
    name: "help",
    form: Form {
        operands: &["[COMMAND]"],
        flags: &["--man"],
        valued: &["--completion"],
    },
    help: include_str!("../help/help.txt"),
    run: help,
};

/// The help of the whole; the line that begins with `commands:` stands for the
/// usages.
const OVERVIEW: &str = include_str!("../help/plot.txt");
/// How that line begins; `bash plot` takes the names from it.
const MARK: &str = "commands:";

fn help(arguments: &Arguments) -> Result<Outcome, Failure> {
    let shown = match (arguments.value("--completion"), arguments.given(0)) {
        (Some(shell), _) => completion::script(shell)?,
        (None, _) if arguments.has("--man") => man::page(),
        (None, Some(name)) => commands::named(name)?.help.to_owned(),
        (None, None) => overview(),
    };
    Ok(shown.into())
}

/// The line of usage of each command.
pub fn usages() -> String {
    let usages = COMMANDS.iter().map(|command| command.usage());
    usages.map(|usage| format!("  {usage}\n")).collect()
}

/// The help of the whole.
pub fn overview() -> String {
    let (before, behind) = around_usages();
    format!("{before}{}{behind}", usages())
}

/// What stands before and behind the usages.
pub fn around_usages() -> (&'static str, &'static str) {
    let (before, rest) = OVERVIEW.split_once(MARK).expect("it has the mark");
    let (_, behind) = rest.split_once('\n').expect("the mark has a line");
    (before, behind)
}

/// The version, in a line.
pub fn version() -> String {
    format!("plot {}\n", env!("CARGO_PKG_VERSION"))
}
