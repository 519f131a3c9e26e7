//! Help, and words that are no command.

use crate::folder::Folder;

const COMMANDS: [&str; 14] = [
    "show", "read", "path", "why", "check", "plan", "inspect", "run", "diff", "set", "pack",
    "unpack", "report", "explain",
];

#[test]
fn help_tells_every_command() {
    let folder = Folder::new("help");
    for word in ["--help", "-h", "help"] {
        let said = folder.plot(&[word]);
        assert_eq!((said.status, said.err.as_str()), (0, ""));
        for command in COMMANDS {
            let usage = format!("  plot {command} ");
            assert!(
                said.out.contains(&usage),
                "{command} is not in\n{}",
                said.out
            );
        }
    }
}

#[test]
fn each_command_has_help() {
    let folder = Folder::new("help-of-each");
    for command in COMMANDS {
        let usage = format!("plot {command} ");
        let said = folder.plot(&[command, "--help"]);
        assert!(said.out.starts_with(&usage), "{}", said.out);
        let widest = said.out.lines().map(|line| line.chars().count()).max();
        assert!(widest <= Some(90), "{command}: {widest:?}");
        assert_eq!(folder.plot(&[command, "x", "-h"]), said);
    }
}

#[test]
fn each_command_asks_for_its_operands() {
    let folder = Folder::new("operands");
    for command in COMMANDS {
        let said = folder.plot(&[command]).fails(2, " is missing");
        assert!(said.err.contains(&format!("usage: plot {command} ")));
    }
    folder
        .plot(&["read", "r", "u"])
        .fails(2, "RECORD is missing");
    folder.plot(&["check", "r"]).fails(2, "RULES is missing");
    folder
        .plot(&["pack", "s.csv"])
        .fails(2, "-o REGISTER is missing");
}

#[test]
fn words_that_fit_nowhere() {
    let folder = Folder::with_cemetery("words");
    folder.plot(&[]).fails(2, "a command is missing");
    folder
        .plot(&["shwo"])
        .fails(2, "there is no command \"shwo\"");
    let show = |word| folder.plot(&["show", "full.register", word]);
    show("x").fails(2, "there is no place for \"x\"");
    show("--direct").fails(2, "there is no option --direct");
    show("--gaps=1").fails(2, "there is no option --gaps=1");
    show("--svg").fails(2, "--svg needs a value");
    let twice = ["show", "full.register", "--gaps", "--gaps"];
    folder.plot(&twice).fails(2, "--gaps is given twice");
    folder
        .plot(&["check", "-", "-"])
        .fails(2, "standard input can be read once");
}

#[test]
fn numbers_that_are_none() {
    let folder = Folder::with_cemetery("numbers");
    for number in ["x", "-1", "+1", "", "1.0", "99999999999999999999999"] {
        let said = folder.plot(&["read", "full.register", "u", "--", number]);
        said.fails(2, "RECORD is a number from 0 on");
    }
    let budget = |number| {
        let rules = "depths.rules";
        folder.plot(&["run", "full.register", rules, "--budget", number])
    };
    budget("65536").fails(2, "--budget is a number from 0");
    budget("0").fails(1, "refused 20");
    let inspect = ["inspect", "full.register", "depths.rules", "1", "65536"];
    folder.plot(&inspect).fails(2, "ROUND is a number from 0");
}

#[test]
fn behind_two_dashes_all_are_operands() {
    let folder = Folder::with_cemetery("dashes");
    folder.write("-x", folder.read("full.register"));
    folder.plot(&["read", "--", "-x", "M[u]", "4"]).is("210\n");
}
