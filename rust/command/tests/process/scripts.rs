//! The scripts beside the command: the header's check, and the line that counts.

use crate::folder::{Folder, Said, root};
use std::env;
use std::fs;
use std::os::unix::fs::PermissionsExt;
use std::process::Command;

fn check_header(folder: &Folder, header: &str) -> Said {
    folder.write("plot.h", header);
    let mut script = Command::new(root().join("scripts/check_header"));
    folder.run(script.arg(folder.at("plot.h")), b"")
}

#[test]
fn a_header_that_differs_is_found() {
    let folder = Folder::new("header");
    let header = fs::read_to_string(root().join("include/plot.h")).expect("it is there");
    check_header(&folder, &header).has("functions as in crates/c_api");
    for (old, new) in [
        ("uint8_t rounds[64]", "uint8_t rounds[32]"),
        ("uint64_t u,", "uint32_t u,"),
        (
            "uint16_t t, int64_t *values",
            "uint16_t t, const int64_t *values",
        ),
        ("uint32_t plot_check", "uint64_t plot_check"),
        ("plot_check(", "plot_checks("),
        (
            "uint8_t kinds[64], uint8_t chains[1024]",
            "uint8_t chains[1024], uint8_t kinds[64]",
        ),
        ("uint64_t step,\n                   uint8_t", "uint8_t"),
    ] {
        assert!(header.contains(old), "{old}");
        let said = check_header(&folder, &header.replacen(old, new, 1));
        assert_eq!(said.status, 1, "{new} is not found");
        assert!(said.err.contains("differs from"));
    }
}

/// The script in a copy of the project that has two crates, over an `rt` that says
/// this and ends so.
fn proving(folder: &Folder, says: &str) -> Said {
    for name in ["scripts", "bin"] {
        let _ = fs::create_dir(folder.at(name));
    }
    for name in ["scripts/proving", "scripts/environment"] {
        folder.write(name, fs::read(root().join(name)).expect("it is there"));
    }
    folder.write("crates.txt", "# room\none:\ntwo: one io\nother: two\n");
    folder.write("bin/rt", format!("#!/bin/sh\n{says}\n"));
    fs::set_permissions(folder.at("bin/rt"), PermissionsExt::from_mode(0o755)).expect("it is ours");
    let path = env::var("PATH").unwrap_or_default();
    let path = format!("{}:{path}", folder.at("bin").display());
    let mut bash = Command::new("bash");
    let bash = bash.args(["scripts/proving", "two", "rt", "check", "two"]);
    folder.run(bash.env("PATH", path).env("PROVING_EVERY", "1"), b"")
}

#[test]
fn a_line_counts_the_crates() {
    let folder = Folder::new("proving");
    let said = proving(
        &folder,
        "echo 'rt: one proved (1 s)'; echo 'rt: two proved (2 s)' >&2",
    );
    assert_eq!((said.status, said.out.as_str()), (0, ""));
    assert!(
        said.err.starts_with("proving: 0 of 2 crates, 0 s\n"),
        "{}",
        said.err
    );
    assert!(said.err.ends_with(" s, two done\n"), "{}", said.err);
    assert_eq!(said.err.lines().count(), 2);
}

#[test]
fn where_there_is_no_terminal_a_line_comes_now_and_then() {
    let folder = Folder::new("proving-slowly");
    let said = proving(
        &folder,
        "echo \"rt: one proved ($RT_JOBS jobs)\"; sleep 3; echo 'rt: two proved (3 s)'",
    );
    assert_eq!((said.status, said.out.as_str()), (0, ""));
    let lines = said.err.lines().count();
    assert!((4..=6).contains(&lines), "{}", said.err);
    assert!(
        said.err.contains("proving: 1 of 2 crates, 1 s, one done\n"),
        "{}",
        said.err
    );
    assert!(said.err.ends_with(" s, two done\n"), "{}", said.err);
    let log = String::from_utf8(folder.read("target/proving.log")).expect("it is text");
    assert!(log.starts_with("rt: one proved (4 jobs)\n"), "{log}");
}

#[test]
fn a_failure_names_the_log() {
    let folder = Folder::new("proving-failed");
    let said = proving(
        &folder,
        "echo much; echo 'rt: one NOT PROVED (exit 1)'; exit 1",
    );
    assert_eq!((said.status, said.out.as_str()), (1, ""));
    assert!(
        said.err.contains("rt: one NOT PROVED (exit 1)\n"),
        "{}",
        said.err
    );
    assert!(said.err.contains("The log is "), "{}", said.err);
    assert!(!said.err.contains("much"));
    assert_eq!(
        folder.read("target/proving.log"),
        b"much\nrt: one NOT PROVED (exit 1)\n"
    );
}

/// `bash run` over a program that prints this.
fn run_script(folder: &Folder, prints: &str, words: &[&str]) -> Said {
    for name in ["crates/one/src", "crates/plotprint/data", "target/bin"] {
        fs::create_dir_all(folder.at(name)).expect("it can be made");
    }
    folder.write("run", fs::read(root().join("run")).expect("it is there"));
    folder.write(
        "target/bin/plotprint",
        format!("#!/bin/sh\nprintf '{prints}'\n"),
    );
    let program = folder.at("target/bin/plotprint");
    fs::set_permissions(program, PermissionsExt::from_mode(0o755)).expect("it is ours");
    let mut bash = Command::new("bash");
    folder.run(bash.arg("run").args(words), b"")
}

#[test]
fn the_printing_program_by_its_script() {
    let folder = Folder::new("run-script");
    let page = "3 records 1 steps 3 exchanges 4 letters\n0 1 180~\n";
    run_script(&folder, page, &[]).is(page);
    for page in ["refused 7 at 2\n", "too large\n"] {
        let said = run_script(&folder, page, &["."]);
        assert_eq!(
            (said.status, said.out.as_str(), said.err.as_str()),
            (1, page, "")
        );
    }
    run_script(&folder, page, &["--help"]).has("bash run [FOLDER]\n");
    for words in [&["--x"][..], &["nothing"], &[".", "."]] {
        let said = run_script(&folder, page, words);
        assert_eq!((said.status, said.out.as_str()), (2, ""), "{words:?}");
        assert!(
            said.err.ends_with("usage: bash run [FOLDER]\n"),
            "{}",
            said.err
        );
    }
}
