//! The commands: what each takes, and its help.

use crate::arguments::{Arguments, Form};
use crate::failure::Failure;
use crate::{
    check, diff, help, inspect, meaning, nearest, pack, plan, read, report, run, set, show, why,
};

/// What a command has to say.
#[derive(Debug, Default)]
pub struct Outcome {
    /// For standard output.
    pub out: Vec<u8>,
    /// For standard error.
    pub note: String,
    /// A refusal that comes with a result.
    pub failure: Option<Failure>,
    /// The exit status where there is no refusal.
    pub status: u8,
}

impl From<String> for Outcome {
    fn from(out: String) -> Outcome {
        Outcome {
            out: out.into_bytes(),
            ..Outcome::default()
        }
    }
}

/// A command.
pub struct Command {
    /// Its name.
    pub name: &'static str,
    /// What it takes.
    pub form: Form,
    /// Its help: a line of usage, and what it does.
    pub help: &'static str,
    /// What it does.
    pub run: fn(&Arguments) -> Result<Outcome, Failure>,
}

/// All commands.
pub const COMMANDS: [Command; 15] = [
    show::COMMAND,
    read::READ,
    read::PATH,
    why::COMMAND,
    check::COMMAND,
    plan::COMMAND,
    inspect::COMMAND,
    run::COMMAND,
    diff::COMMAND,
    set::COMMAND,
    pack::PACK,
    pack::UNPACK,
    report::COMMAND,
    meaning::COMMAND,
    help::COMMAND,
];

/// Does what the words say.
pub fn done(given: &[String]) -> Result<Outcome, Failure> {
    let Some((name, rest)) = given.split_first() else {
        let told = format!("a command is missing\n{}", help::usages().trim_end());
        return Err(Failure::Usage(told));
    };
    match name.as_str() {
        "--help" | "-h" => return Ok(help::overview().into()),
        "--version" | "-V" => return Ok(help::version().into()),
        _ => {}
    }
    let command = named(name)?;
    if rest.iter().any(|word| word == "--help" || word == "-h") {
        return Ok(command.help.to_owned().into());
    }
    command.done(rest)
}

/// The command with this name.
pub fn named(name: &str) -> Result<&'static Command, Failure> {
    let command = COMMANDS.iter().find(|command| command.name == name);
    command.ok_or_else(|| {
        let meant = nearest::asked(name, &COMMANDS.map(|command| command.name));
        let usages = help::usages();
        let usages = usages.trim_end();
        Failure::Usage(format!("there is no command {name:?}{meant}\n{usages}"))
    })
}

impl Command {
    /// The first line of its help.
    pub fn usage(&self) -> &'static str {
        self.help.lines().next().unwrap_or("")
    }

    fn done(&self, given: &[String]) -> Result<Outcome, Failure> {
        let arguments = Arguments::parse(&self.form, given);
        let done = arguments.and_then(|arguments| {
            let done = (self.run)(&arguments);
            match done {
                Err(Failure::Refused { told, json })
                | Ok(Outcome {
                    failure: Some(Failure::Refused { told, json }),
                    ..
                }) if arguments.has("--json") => Ok(Outcome::refused(told, json)),
                done => done,
            }
        });
        done.map_err(|failure| match failure {
            Failure::Usage(told) => Failure::Usage(format!("{told}\nusage: {}", self.usage())),
            other => other,
        })
    }
}

impl Outcome {
    /// A refusal that a program reads along.
    fn refused(told: String, json: String) -> Outcome {
        Outcome {
            out: format!("{json}\n").into_bytes(),
            failure: Some(Failure::Refused { told, json }),
            ..Outcome::default()
        }
    }
}
