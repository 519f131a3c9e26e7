//! The sessions of the manual and of the README show what comes out.
//!
//! A block ` ```session ` has lines `$ COMMAND`, each followed by what it prints. A
//! block ` ```file NAME ` is written as that file first. All blocks of a document run
//! in one folder, in their order, beside a copy of `examples`. With the environment
//! variable UPDATE_SESSIONS the document is written anew with what came out.

use crate::folder::{Folder, PLOT, root};
use std::env;
use std::fs;
use std::path::Path;
use std::process::Command;

/// What a command prints, standard error too.
fn printed(folder: &Folder, command: &str) -> String {
    let programs = Path::new(PLOT).parent().expect("it has a folder");
    let path = env::var("PATH").unwrap_or_default();
    let path = format!("{}:{path}", programs.display());
    let line = format!("{{ {command}\n}} 2>&1");
    let mut shell = Command::new("bash");
    let said = folder.run(shell.args(["-c", &line]).env("PATH", path), b"");
    said.out
}

/// The block with what its commands print now.
fn run_session(folder: &Folder, block: &[&str]) -> String {
    let commands = block.iter().filter_map(|line| line.strip_prefix("$ "));
    let run = commands.map(|command| format!("$ {command}\n{}", printed(folder, command)));
    run.collect()
}

/// The document with what comes out now, and the number of its commands.
fn run_document(folder: &Folder, document: &str) -> (String, usize) {
    let mut now = String::new();
    let mut commands = 0;
    let mut lines = document.lines();
    while let Some(line) = lines.next() {
        now += &format!("{line}\n");
        let Some(sort) = line.strip_prefix("```").filter(|sort| !sort.is_empty()) else {
            continue;
        };
        let block: Vec<&str> = lines.by_ref().take_while(|line| *line != "```").collect();
        let text: String = block.iter().map(|line| format!("{line}\n")).collect();
        now += &match sort.split_once(' ') {
            Some(("file", name)) => {
                folder.write(name, &text);
                text
            }
            _ if sort == "session" => {
                commands += block.iter().filter(|line| line.starts_with("$ ")).count();
                run_session(folder, &block)
            }
            _ => text,
        };
        now += "```\n";
    }
    (now, commands)
}

/// A copy of the examples, as the sessions have them.
fn copy_examples(folder: &Folder) {
    let copied = Command::new("cp")
        .args(["-r"])
        .arg(root().join("examples"))
        .arg(folder.at("examples"))
        .status();
    assert!(copied.expect("cp can be started").success());
}

fn compare(name: &str, document: &str, least: usize) {
    let folder = Folder::new(name);
    copy_examples(&folder);
    let path = root().join(document);
    let before = fs::read_to_string(&path).expect("the document is there");
    let (now, commands) = run_document(&folder, &before);
    assert!(commands >= least, "{document} has only {commands} commands");
    if env::var_os("UPDATE_SESSIONS").is_some() {
        fs::write(&path, &now).expect("the document can be written");
        return;
    }
    for (number, (before, now)) in (1..).zip(before.lines().zip(now.lines())) {
        assert_eq!(before, now, "{document}, line {number}");
    }
    assert_eq!(before, now, "{document}");
}

#[test]
fn the_manual_shows_what_comes_out() {
    compare("manual", "docs/MANUAL.md", 20);
}

#[test]
fn the_readme_shows_what_comes_out() {
    compare("readme", "README.md", 3);
}
