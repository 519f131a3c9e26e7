//! Where results and reports go, what programs are told, and what killed runs leave.

use crate::folder::{Folder, PLOT, Said, root};
use std::fs;
use std::process::{Command, Stdio};
use std::{thread, time::Duration};

/// A line in bash, with standard output going to a file.
fn in_bash(folder: &Folder, words: &str) -> Said {
    let line = format!("exec {PLOT} {words}");
    folder.run(Command::new("bash").args(["-c", &line]), b"")
}

/// The keys of a line of JSON.
fn keys(json: &str) -> impl Iterator<Item = &str> {
    let ends = json.match_indices("\":").map(|(end, _)| &json[..end]);
    ends.filter_map(|before| before.rsplit('"').next())
}

#[test]
fn a_line_for_programs_from_every_command() {
    let folder = Folder::with_cemetery("lines");
    let manual = fs::read_to_string(root().join("docs/MANUAL.md")).expect("it is there");
    for words in [
        &["show", "full.register"][..],
        &["show", "full.register", "--gaps"],
        &["show", "full.register", "--svg", "show.svg"],
        &["read", "full.register", "u", "0"],
        &["path", "full.register", "u", "0"],
        &["check", "full.register", "depths.rules"],
        &["plan", "full.register", "depths.rules"],
        &["plan", "full.register", "depths.rules", "--svg", "plan.svg"],
        &["inspect", "full.register", "depths.rules", "1", "1"],
        &["run", "full.register", "depths.rules"],
        &["run", "full.register", "depths.rules", "-o", "out"],
        &["diff", "full.register", "full.register"],
        &["set", "full.register", "0", "M", "1", "-o", "set"],
        &["pack", "full.csv", "-o", "packed"],
        &["unpack", "full.register", "-o", "sheet.csv"],
        &[
            "report",
            "full.register",
            "depths.rules",
            "-o",
            "report.html",
        ],
        &["explain", "7"],
    ] {
        let said = folder.plot(&[words, &["--json"]].concat());
        assert_eq!((said.status, said.err.as_str()), (0, ""), "{words:?}");
        let whole = said.out.starts_with('{') && said.out.ends_with("}\n");
        for key in keys(&said.out) {
            assert!(
                manual.contains(&format!("`{key}`")),
                "{key} of {words:?} is not in the manual"
            );
        }
        assert!(
            whole && said.out.lines().count() == 1,
            "{words:?}: {}",
            said.out
        );
    }
    folder.plot(&["pack", "full.csv", "-o", "packed", "--json"]).is(
        "{\"wrote\":\"packed\",\"bytes\":432,\"records\":12,\
         \"fields\":[\"A\",\"B\",\"C\",\"D\",\"M\",\"N\",\"O\"],\"unfilled\":56,\"worked_out\":0}\n",
    );
    let sheet = folder.read("full.csv").len();
    folder
        .plot(&["unpack", "full.register", "-o", "sheet.csv", "--json"])
        .is(&format!("{{\"wrote\":\"sheet.csv\",\"bytes\":{sheet}}}\n"));
}

/// Where the result goes to standard output, all that is told goes to standard error,
/// by whichever name standard output is called.
#[test]
fn standard_output_has_the_result_alone() {
    let folder = Folder::with_cemetery("standard-output");
    folder.plot(&["run", "full.register", "depths.rules", "-o", "depths"]);
    for output in ["-", "/dev/stdout", "/dev/fd/1"] {
        for (words, result, told) in [
            ("pack full.csv", "full.register", "12 records"),
            ("pack full.csv --json", "full.register", "{\"wrote\":"),
            (
                "run full.register depths.rules",
                "depths",
                "10 cells changed",
            ),
            (
                "run full.register depths.rules --json",
                "depths",
                "{\"finished\":3",
            ),
            ("unpack full.register --json", "full.csv", "{\"wrote\":"),
            (
                "set full.register 0 M 180",
                "full.register",
                "M of record 0 was 180",
            ),
        ] {
            let said = in_bash(&folder, &format!("{words} -o {output} >result"));
            assert_eq!(said.status, 0, "{words}: {}", said.err);
            assert!(said.err.contains(told), "{words}: {}", said.err);
            assert_eq!(
                folder.read("result"),
                folder.read(result),
                "{words} -o {output}"
            );
        }
        let said = in_bash(
            &folder,
            &format!("show full.register --json --svg {output}"),
        );
        assert!(said.out.starts_with("<svg") && said.err.starts_with("{\"wrote\":"));
    }
    in_bash(&folder, "unpack full.register -o /dev/stdout")
        .is(&String::from_utf8(folder.read("full.csv")).expect("it is text"));
}

#[test]
fn what_killed_runs_have_left_is_removed() {
    let folder = Folder::with_cemetery("leftovers");
    // No process has this number: they end below it.
    folder.write(".out.4194399.part", "half");
    folder.write(".other.4194399.part", "half");
    folder.write(".out.x.part", "mine");
    let words = ["run", "full.register", "depths.rules", "-o", "out"];
    let said = folder.plot(&words);
    assert_eq!(said.status, 0);
    assert_eq!(
        said.err,
        "plot: removed .out.4194399.part, which a run that was killed had left\n"
    );
    assert!(said.out.contains("10 cells changed"));
    assert!(!folder.at(".out.4194399.part").exists());
    assert!(folder.at(".other.4194399.part").exists() && folder.at(".out.x.part").exists());
    folder.plot(&words).has("10 cells changed");
}

/// What another process is at stays, until it is gone.
#[test]
fn what_others_write_stays() {
    let folder = Folder::with_cemetery("not-left");
    let mut other = Command::new("sleep");
    let mut other = other
        .arg("60")
        .stdin(Stdio::null())
        .spawn()
        .expect("it starts");
    let beside = format!(".out.{}.part", other.id());
    folder.write(&beside, "half");
    let words = ["run", "full.register", "depths.rules", "-o", "out"];
    folder.plot(&words).has("10 cells changed");
    assert!(folder.at(&beside).exists());
    other.kill().expect("it is ours");
    other.wait().expect("it ends");
    let locked = std::fs::File::open(folder.at(&beside)).expect("it is there");
    locked.lock().expect("it can be locked");
    folder.plot(&words).has("10 cells changed");
    assert!(folder.at(&beside).exists());
    drop(locked);
    assert!(folder.plot(&words).err.contains("plot: removed "));
    assert!(!folder.at(&beside).exists());
}

#[test]
fn many_writers_at_once_leave_nothing() {
    let folder = Folder::with_cemetery("writers");
    folder.write(".out.4194399.part", "half");
    let names = |folder: &Folder| {
        folder
            .names()
            .into_iter()
            .filter(|name| name.ends_with(".part"))
    };
    thread::scope(|scope| {
        for _ in 0..4 {
            scope.spawn(|| {
                for _ in 0..10 {
                    let said = folder.plot(&["run", "full.register", "depths.rules", "-o", "out"]);
                    assert_eq!(said.status, 0, "{}", said.err);
                    thread::sleep(Duration::from_millis(1));
                }
            });
        }
    });
    assert_eq!(names(&folder).count(), 0);
    folder.plot(&["read", "out", "N[u]", "4"]).is("275~\n");
}

#[test]
fn limits_are_named() {
    let folder = Folder::with_cemetery("limits");
    let run = |budget, text: &[u8]| {
        folder.plot_with(&["run", "full.register", "-", "--budget", budget], text)
    };
    run("65536", b"").fails(2, "--budget is a number from 0 to 65535, not \"65536\"");
    let inspect = ["inspect", "full.register", "depths.rules", "1", "65536"];
    folder
        .plot(&inspect)
        .fails(2, "ROUND is a number from 0 to 65535");
    let endless = b"loop N\nstep\nN[u] := N[u] + 1\nN[u] := N[u] - 1\nend\ndone\n";
    run("65535", endless).fails(1, "No budget is larger.");
    run("7", endless).fails(1, "Give a larger budget, at most 65535 steps");
}
