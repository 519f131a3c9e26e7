//! Files that cannot be read or written, and disks that are full.

use crate::folder::{Folder, PLOT};
use std::process::Command;

/// A command that has no room to write anything: as on a full disk, each write to a
/// file fails.
fn without_room(folder: &Folder, words: &str) -> crate::folder::Said {
    let line = format!("trap '' XFSZ; ulimit -f 0; exec {PLOT} {words}");
    folder.run(Command::new("bash").args(["-c", &line]), b"")
}

#[test]
fn files_that_cannot_be_read() {
    let folder = Folder::with_cemetery("unread");
    std::fs::create_dir(folder.at("folder")).expect("it can be made");
    for words in [
        &["show", "nothing"][..],
        &["read", "nothing", "u", "0"],
        &["path", "nothing", "u", "0"],
        &["check", "nothing", "depths.rules"],
        &["check", "full.register", "nothing"],
        &["plan", "full.register", "nothing"],
        &["inspect", "full.register", "nothing", "1", "1"],
        &["run", "full.register", "nothing"],
        &["pack", "nothing", "-o", "out"],
        &["unpack", "nothing"],
    ] {
        let said = folder
            .plot(words)
            .fails(2, "cannot read nothing: there is no such file");
        assert_eq!(said.err.lines().count(), 1, "{}", said.err);
    }
    folder
        .plot(&["show", "folder"])
        .fails(2, "cannot read folder: it is a folder");
    assert!(!folder.at("out").exists());
}

#[test]
fn files_that_cannot_be_written() {
    let folder = Folder::with_cemetery("unwritten");
    std::fs::create_dir(folder.at("folder")).expect("it can be made");
    let names = folder.names();
    for output in ["no/such/place", "folder", "/dev/full", ".."] {
        let cannot = format!("cannot write {output}");
        for words in [
            &["run", "full.register", "depths.rules", "-o"][..],
            &["pack", "full.csv", "-o"],
            &["unpack", "full.register", "-o"],
            &["show", "full.register", "--svg"],
            &["plan", "full.register", "depths.rules", "--svg"],
        ] {
            folder.plot(&[words, &[output]].concat()).fails(2, &cannot);
        }
    }
    let full = ["pack", "full.csv", "-o", "/dev/full"];
    folder.plot(&full).fails(2, "the disk is full");
    assert_eq!(folder.names(), names);
}

#[test]
fn standard_output_that_cannot_be_written() {
    let folder = Folder::with_cemetery("full-output");
    for words in ["show full.register", "unpack full.register", "--help"] {
        let line = format!("exec {PLOT} {words} >/dev/full");
        let said = folder.run(Command::new("bash").args(["-c", &line]), b"");
        said.fails(2, "cannot write standard output: the disk is full");
    }
}

#[test]
fn a_reader_that_has_had_enough() {
    let folder = Folder::with_cemetery("pipe");
    let line = format!("set -o pipefail; {PLOT} show full.register | head -n 1");
    let said = folder.run(Command::new("bash").args(["-c", &line]), b"");
    said.has("12 records");
}

#[test]
fn a_full_disk_loses_nothing() {
    let folder = Folder::with_cemetery("no-room");
    let before: Vec<Vec<u8>> = folder
        .names()
        .iter()
        .map(|name| folder.read(name))
        .collect();
    let names = folder.names();
    for words in [
        "run full.register depths.rules --in-place",
        "run full.register depths.rules -o sparse.register",
        "run full.register depths.rules -o new",
        "pack full.csv -o sparse.register",
        "unpack full.register -o sparse.csv",
        "show full.register --svg sparse.csv",
    ] {
        without_room(&folder, words).fails(2, "cannot write");
        assert_eq!(folder.names(), names, "{words}");
        let after: Vec<Vec<u8>> = names.iter().map(|name| folder.read(name)).collect();
        assert_eq!(after, before, "{words}");
    }
}
