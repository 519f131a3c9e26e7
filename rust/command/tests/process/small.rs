//! The small commands: diff, set, a part of a register, explain, help.

use crate::folder::{Folder, PLOT, Said, root};
use plot::Kind;
use std::env;
use std::fs;
use std::path::Path;
use std::process::Command;

#[test]
fn registers_that_differ() {
    let folder = Folder::with_cemetery("diff");
    let diff = |old, new| folder.plot(&["diff", old, new]);
    diff("full.register", "full.register").is("0 cells differ\n");
    let said = diff("full.register", "sparse.register");
    assert_eq!((said.status, said.err.as_str()), (1, ""));
    assert_eq!(
        said.out,
        "4 cells differ
  record  field  before  after
       1  M         175      -
       5  A          10      -
       6  M         200      -
      11  N          55      -
"
    );
    folder.plot(&["set", "full.register", "0", "M", "180~", "-o", "worked"]);
    let said = diff("full.register", "worked");
    assert_eq!(said.status, 1);
    assert!(said.out.contains("1 cell differs\n") && said.out.contains("180   180~\n"));
    let said = folder.plot(&["diff", "full.register", "worked", "--json"]);
    assert_eq!(said.status, 1);
    assert!(
        said.out
            .contains("\"changed\":[{\"record\":0,\"field\":\"M\","),
        "{}",
        said.out
    );
    diff("full.register", "nothing").fails(2, "cannot read nothing");
    diff("full.register", "full.csv").fails(1, "full.csv: refused");
    diff("-", "-").fails(2, "standard input can be read once");
}

#[test]
fn registers_of_other_sizes() {
    let folder = Folder::with_cemetery("diff-sizes");
    folder.write("small.csv", "A,M\n9~,180\n1,7\n");
    folder
        .plot(&["pack", "small.csv", "-o", "small"])
        .fails(1, "9 is no record");
    folder.write("small.csv", "A,M\n1,180\n1,7\n");
    folder
        .plot(&["pack", "small.csv", "-o", "small"])
        .has("wrote");
    let said = folder.plot(&["diff", "full.register", "small"]);
    assert_eq!(said.status, 1);
    let sizes = "The sizes differ: 12 records, 4 reference fields, 3 measure fields; \
                 2 records, 1 reference field, 1 measure field.\n3 cells differ\n";
    assert!(said.out.starts_with(sizes), "{}", said.out);
}

#[test]
fn a_cell_is_set() {
    let folder = Folder::with_cemetery("set");
    let set = |words: &[&str]| folder.plot(&[&["set", "full.register"], words].concat());
    set(&["9", "M", "-5", "-o", "out"]).is("wrote out: M of record 9 was -, is -5\n");
    folder.plot(&["read", "out", "M[u]", "9"]).is("-5\n");
    set(&["0", "A", "-", "-o", "out"]).is("wrote out: A of record 0 was 9, is -\n");
    set(&["0", "A", "11~", "-o", "out"]).is("wrote out: A of record 0 was 9, is 11~\n");
    set(&["0", "M", "0", "-o", "out", "--json"])
        .has("{\"wrote\":\"out\",\"bytes\":432,\"changed\":[{\"record\":0,\"field\":\"M\"");
    set(&["0", "M", "7", "--in-place"]).has("wrote full.register: M of record 0 was 180, is 7\n");
    folder
        .plot(&["read", "full.register", "M[u]", "0"])
        .is("7\n");
    let input = folder.read("full.register");
    let words = ["set", "-", "0", "M", "-", "-o", "out"];
    folder.plot_with(&words, &input).has("was 7, is -\n");
}

#[test]
fn cells_that_cannot_be_set() {
    let folder = Folder::with_cemetery("set-refused");
    let before = (folder.names(), folder.read("full.register"));
    let set = |record, field, value| {
        folder.plot(&["set", "full.register", record, field, value, "-o", "out"])
    };
    set("12", "M", "1").fails(1, "record 12: refused 16");
    set("0", "Z", "1")
        .fails(1, "refused 9")
        .fails(1, "has the fields A, B, C, D, M, N, O.");
    set("0", "m", "1").fails(1, "refused 7");
    set("0", "", "1").fails(1, "refused 7");
    set("0", "N[A", "1").fails(1, "refused 7");
    set("0", "A", "12").fails(2, "12 is no record: there are 12 records here");
    set("0", "M", "x").fails(2, "VALUE: \"x\" is no whole number");
    set("0", "M", "2147483648").fails(2, "is out of range");
    set("x", "M", "1").fails(2, "RECORD is a number from 0 on");
    let words = ["set", "full.register", "0", "M", "1"];
    folder
        .plot(&words)
        .fails(2, "-o OUT or --in-place is missing");
    let over = ["set", "full.register", "0", "M", "1", "-o", "full.register"];
    folder.plot(&over).fails(2, "is read here");
    assert_eq!((folder.names(), folder.read("full.register")), before);
}

#[test]
fn a_part_of_a_register() {
    let folder = Folder::with_cemetery("part");
    let show = |words: &[&str]| folder.plot(&[&["show", "full.register"], words].concat());
    show(&["--records", "9-10,3", "--fields", "M,A"]).is(
        "12 records, 4 reference fields, 3 measure fields, 56 of 84 cells unfilled
  record   M  A
       9   -  -
      10  25  9
       3   0  9
",
    );
    show(&["--records=3", "--json"]).has("{\"records\":1,\"shown\":[3],\"fields\":[\"A\",");
    show(&["--records", "12"]).fails(1, "record 12: refused 16");
    show(&["--records", "5-3"]).fails(2, "5-3 goes backwards");
    show(&["--records", "5-"]).fails(2, "--records is a number");
    show(&["--records", ""]).fails(2, "--records is a number");
    show(&["--fields", "A,Z"]).fails(1, "refused 9");
    show(&["--fields", "AM"]).fails(1, "refused 7");
    show(&["--gaps", "--fields", "A"]).fails(2, "go with the table and with --json only");
    show(&["--svg", "x.svg", "--records", "1"]).fails(2, "go with the table");
    folder.write("none.csv", "A\n");
    folder.plot(&["pack", "none.csv", "-o", "none"]);
    folder
        .plot(&["show", "none", "--fields", "A"])
        .has("  record  A\n");
    folder
        .plot(&["show", "none", "--records", "0"])
        .fails(1, "refused 16");
}

/// A line in bash, with the command on the path.
fn in_bash(folder: &Folder, line: &str) -> Said {
    let programs = Path::new(PLOT).parent().expect("it has a folder");
    let path = env::var("PATH").unwrap_or_default();
    let path = format!("{}:{path}", programs.display());
    folder.run(
        Command::new("bash").args(["-c", line]).env("PATH", path),
        b"",
    )
}

/// The example of each number, run as it stands, is refused with it.
#[test]
fn examples_get_their_numbers() {
    let folder = Folder::new("explain");
    let register = r"printf 'A,M\n1,\n2,0\n,180\n' | plot pack - -o three.register";
    folder.plot(&["explain", "--help"]).has(register);
    in_bash(&folder, register).has("wrote");
    let (mut numbers, mut examples) = (0, 0);
    for number in 0..=40 {
        let said = folder.plot(&["explain", &number.to_string()]);
        if said.status != 0 {
            said.fails(2, "the numbers are 1, 2, 3");
            continue;
        }
        numbers += 1;
        let lines: Vec<&str> = said
            .out
            .lines()
            .filter_map(|l| l.strip_prefix("  $ "))
            .collect();
        for (place, line) in lines.iter().enumerate() {
            let answer = in_bash(&folder, line);
            let last = place + 1 == lines.len();
            assert_eq!(answer.status, i32::from(last), "{line}: {}", answer.err);
            let refused = answer.err.contains(&format!("refused {number}"));
            assert_eq!(refused, last, "{line}: {}", answer.err);
        }
        examples += usize::from(!lines.is_empty());
    }
    let all = Kind::all().count();
    assert_eq!((numbers, examples), (all, all - 2), "18 and 19 have none");
    folder
        .plot(&["explain", "14", "--json"])
        .has("{\"number\":14,\"meaning\":\"a field takes two");
    folder
        .plot(&["explain", "x"])
        .fails(2, "NUMBER is a number");
}

#[test]
fn words_that_were_meant() {
    let folder = Folder::with_cemetery("meant");
    for (word, meant) in [
        ("shwo", "show"),
        ("Show", "show"),
        ("cheek", "check"),
        ("insepct", "inspect"),
        ("unpak", "unpack"),
        ("differ", "diff"),
    ] {
        let told = format!("there is no command {word:?}; did you mean {meant}?\n");
        folder.plot(&[word]).fails(2, &told);
        folder.plot(&["help", word]).fails(2, &told);
    }
    let far = folder.plot(&["tomatoes"]).fails(2, "there is no command");
    assert!(!far.err.contains("did you mean"), "{}", far.err);
    let run = |option| folder.plot(&["run", "full.register", "depths.rules", option]);
    run("--buget=3").fails(2, "there is no option --buget=3; did you mean --budget?");
    run("--inplace").fails(2, "did you mean --in-place?");
    run("--helo").fails(2, "did you mean --help?");
    assert!(!run("--tomatoes").err.contains("did you mean"));
}

#[test]
fn help_of_a_command_and_the_version() {
    let folder = Folder::new("help-of");
    for command in ["show", "diff", "help"] {
        let help = folder.plot(&[command, "--help"]);
        assert_eq!(folder.plot(&["help", command]), help);
    }
    assert_eq!(folder.plot(&["help"]), folder.plot(&["--help"]));
    folder.plot(&["--version"]).has("plot 0.");
    folder
        .plot(&["help", "show", "x"])
        .fails(2, "there is no place for \"x\"");
}

/// Every option of a command stands in the first line of its help, which `bash plot`
/// reads, and every command in the overview.
#[test]
fn pages_and_completions_have_every_command() {
    let folder = Folder::new("completions");
    let man = folder.plot(&["help", "--man"]).has(".TH PLOT 1").out;
    let bash = folder
        .plot(&["help", "--completion", "bash"])
        .has("complete -o default -F _plot plot")
        .out;
    let zsh = folder
        .plot(&["help", "--completion", "zsh"])
        .has("#compdef plot\n")
        .out;
    let fish = folder
        .plot(&["help", "--completion", "fish"])
        .has("complete -c plot")
        .out;
    let overview = folder.plot(&["--help"]).out;
    let names: Vec<&str> = overview
        .lines()
        .filter_map(|line| line.strip_prefix("  plot "))
        .collect();
    let names: Vec<&str> = names
        .iter()
        .filter_map(|line| line.split(' ').next())
        .collect();
    let order = fs::read_to_string(root().join("rust/command/help/plot.txt")).expect("it is there");
    let order = order
        .lines()
        .find_map(|line| line.strip_prefix("commands: "));
    assert_eq!(order.expect("it has the line"), names.join(" "));
    for name in names {
        assert!(man.contains(&format!("\n.SS {name}\n")), "{name}");
        let options = bash
            .lines()
            .find_map(|line| line.trim().strip_prefix(&format!("{name}) options='")));
        let options = options
            .and_then(|line| line.strip_suffix("' ;;"))
            .expect(name);
        let help = folder.plot(&[name, "--help"]).out;
        for option in options.split(' ').filter(|option| *option != "--help") {
            let mut words = help.split([' ', '[', ']', '(', ')', '|', '\n']);
            assert!(
                words.any(|word| word == option),
                "{option} is not in {help}"
            );
        }
        assert!(
            zsh.contains(&format!("    {name}) compadd -- {options} ;;\n")),
            "{name}"
        );
        assert!(fish.contains(&format!("-f -a {name} -d '")), "{name}");
    }
    folder
        .plot(&["help", "--completion", "sh"])
        .fails(2, "bash, zsh or fish");
    folder.write("plot.bash", &bash);
    let line = "source plot.bash; COMP_WORDS=(plot ru); COMP_CWORD=1; _plot; echo \"${COMPREPLY[@]}\"; \
                COMP_WORDS=(plot run --b); COMP_CWORD=2; _plot; echo \"${COMPREPLY[@]}\"";
    in_bash(&folder, line).is("run\n--budget\n");
}
