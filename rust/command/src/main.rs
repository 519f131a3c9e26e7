//! The command `plot`: registers and rules texts from the terminal, over the
//! proved library.

mod arguments;
mod arrows;
mod caret;
mod causes;
mod check;
mod commands;
mod completion;
mod csv;
mod diff;
mod draft;
mod explain;
mod failure;
mod faults;
mod faulty;
mod files;
mod further;
mod gaps;
mod gaps_svg;
mod help;
mod inspect;
mod json;
mod leftovers;
mod man;
mod meaning;
mod misfit;
mod names;
mod names_file;
mod nearest;
mod oneline;
mod pack;
mod page;
mod page_run;
mod plan;
mod plan_svg;
mod pointer;
mod read;
mod readings;
mod records;
mod remote;
mod report;
mod run;
mod scan;
mod selection;
mod set;
mod sheet;
mod show;
mod steps;
mod stopping;
mod stops;
mod style;
mod svg;
mod table;
mod trace;
mod walk;
mod why;
mod why_rules;

use commands::Outcome;
use failure::Failure;
use std::env;
use std::io::{self, ErrorKind, Write};
use std::path::Path;
use std::process::ExitCode;
use std::thread::{self, JoinHandle};

/// The stack of the thread that works, whatever the shell allows the first one: a
/// call of the library needs up to about 750 KB.
const STACK: usize = 8 << 20;

fn main() -> ExitCode {
    let worker = thread::Builder::new().stack_size(STACK).spawn(work);
    match worker.map(JoinHandle::join) {
        Ok(Ok(status)) => status,
        // What went wrong inside has been told.
        Ok(Err(_)) => ExitCode::from(2),
        Err(error) => {
            let _ = writeln!(io::stderr(), "plot: cannot begin: {error}");
            ExitCode::from(2)
        }
    }
}

fn work() -> ExitCode {
    let given: Result<Vec<String>, _> = env::args_os().skip(1).map(|a| a.into_string()).collect();
    let done = match given {
        Ok(given) => commands::done(&given),
        Err(word) => Err(Failure::Usage(format!("{word:?} is not valid UTF-8"))),
    };
    match done.and_then(told) {
        Ok(status) => ExitCode::from(status),
        Err(failure) => {
            let _ = writeln!(io::stderr(), "plot: {failure}");
            ExitCode::from(failure.status())
        }
    }
}

/// Writes what a command has to say: the exit status.
fn told(outcome: Outcome) -> Result<u8, Failure> {
    let _ = io::stderr().write_all(outcome.note.as_bytes());
    let mut out = io::stdout().lock();
    match out.write_all(&outcome.out).and_then(|()| out.flush()) {
        // Who reads has had enough.
        Err(error) if error.kind() == ErrorKind::BrokenPipe => Ok(outcome.status),
        Err(error) => Err(Failure::file("write", Path::new("standard output"), &error)),
        Ok(()) => outcome.failure.map_or(Ok(outcome.status), Err),
    }
}
