//! The printing program, run in folders of its own, prints what the reference does.

mod folders;
mod generated;

use folders::Folder;
use generate::on_failure::OnFailure;
use generate::tally::Tally;
use reference::print::print;
use std::fs;
use std::path::{Path, PathBuf};
use std::process::Command;

/// The program as the toolchain builds it.
fn program() -> PathBuf {
    let program = Path::new(env!("CARGO_MANIFEST_DIR")).join("../../target/bin/plotprint");
    assert!(
        program.is_file(),
        "{} is not there: `scripts/printing_program` makes it",
        program.display()
    );
    program
}

/// What the program prints in a new folder with these files.
fn printed(program: &Path, place: &Path, folder: &Folder) -> String {
    fs::create_dir(place).expect("each folder has a name of its own");
    let files = [
        ("register.bin", &folder.register),
        ("rules.txt", &folder.text),
    ];
    for (name, bytes) in files {
        if let Some(bytes) = bytes {
            fs::write(place.join(name), bytes).expect("the file can be written");
        }
    }
    let ran = Command::new(program).current_dir(place).output();
    let ran = ran.expect("the program can be started");
    assert!(ran.status.code().is_some(), "{}", ran.status);
    String::from_utf8(ran.stdout).expect("it prints plain text")
}

/// What was printed, for counting.
fn outcome(printed: &str) -> &str {
    match printed.split_once(" at ") {
        Some((refusal, _)) => refusal,
        None if printed == "too large\n" => "too large",
        None => "a listing",
    }
}

#[test]
fn program_prints_what_the_reference_does() {
    let program = program();
    let place = Path::new(env!("CARGO_TARGET_TMPDIR")).join("program");
    let _ = fs::remove_dir_all(&place);
    fs::create_dir_all(&place).expect("the place for the folders can be made");
    let mut tally = Tally::default();
    for folder in folders::folders().into_iter().chain(generated::folders()) {
        let [register, text] = folder.inputs();
        let _failing = OnFailure::new(register).bytes("text", text);
        let printed = printed(&program, &place.join(&folder.name), &folder);
        assert_eq!(printed, print(register, text), "{}", folder.name);
        assert!(
            printed.starts_with(&folder.begins),
            "{}: {printed}",
            folder.name
        );
        tally.count("folders");
        tally.count(outcome(&printed));
    }
    tally.print("folders of the printing program");
    tally.require(30, &["folders"]);
    let refusals: Vec<String> = (1..=15)
        .chain([20, 21, 24, 25])
        .map(|number| format!("refused {number}"))
        .collect();
    tally.require(1, &refusals);
    tally.require(1, &["a listing", "too large"]);
    fs::remove_dir_all(&place).expect("the folders can be removed");
}
