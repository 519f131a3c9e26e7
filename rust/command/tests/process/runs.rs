//! `plot run`.

use crate::folder::Folder;
use generate::cases::Case;
use generate::random::Random;
use plot::{End, Machine, Register};
use std::os::unix::fs::{PermissionsExt, symlink};
use std::process::Command;

#[test]
fn what_changed_is_told_and_nothing_is_written() {
    let folder = Folder::with_cemetery("run");
    let before = (folder.names(), folder.read("sparse.register"));
    folder.plot(&["run", "sparse.register", "depths.rules"]).is(
        "3 steps finished, 6 exchanges, 48 messages
6 cells changed
  record  field  before  after
       0  N           -   220~
       2  N           -   230~
       3  N           -    40~
       4  N           -   275~
       7  N           -   260~
      10  N           -    65~
",
    );
    let direct = folder.plot(&["run", "sparse.register", "depths.rules", "--direct"]);
    direct.has("3 steps finished\n6 cells changed\n");
    assert_eq!((folder.names(), folder.read("sparse.register")), before);
}

#[test]
fn the_register_at_the_end_is_written() {
    let folder = Folder::with_cemetery("run-output");
    let register = folder.read("full.register");
    let run = |words: &[&str]| {
        let words = [&["run", "full.register", "depths.rules"], words].concat();
        folder.plot(&words)
    };
    run(&["-o", "out"]).has("10 cells changed\n");
    assert_eq!(folder.read("full.register"), register);
    folder.plot(&["read", "out", "N[u]", "4"]).is("275~\n");
    run(&["--direct", "-o", "direct"]).has("10 cells changed\n");
    assert_eq!(folder.read("direct"), folder.read("out"));
    run(&["-o", "out"]).has("10 cells changed\n");
    let mut command = Command::new(crate::folder::PLOT);
    let command = command.args(["run", "-", "depths.rules", "-o", "-"]);
    let output = folder.output(command, &register);
    assert_eq!(output.stdout, folder.read("out"));
    assert!(String::from_utf8_lossy(&output.stderr).contains("10 cells changed"));
    run(&["--in-place"]).has("10 cells changed\n");
    assert_eq!(folder.read("full.register"), folder.read("out"));
    run(&[]).has("0 cells changed\n");
}

#[test]
fn what_is_read_is_not_written_over() {
    let folder = Folder::with_cemetery("run-over");
    let register = folder.read("full.register");
    symlink("full.register", folder.at("link")).expect("a link can be made");
    std::fs::hard_link(folder.at("full.register"), folder.at("twin")).expect("a link can be made");
    for output in [
        "full.register",
        "./full.register",
        "link",
        "twin",
        "depths.rules",
    ] {
        let run = folder.plot(&["run", "full.register", "depths.rules", "-o", output]);
        run.fails(2, "is read here");
    }
    let run = |words: &[&str]| folder.plot(&[&["run"], words].concat());
    run(&["full.register", "depths.rules", "-o", "x", "--in-place"]).fails(2, "exclude each other");
    run(&["-", "depths.rules", "--in-place"]).fails(2, "--in-place needs a file");
    assert_eq!(folder.read("full.register"), register);
    run(&["link", "depths.rules", "--in-place"]).has("10 cells changed\n");
    let link = folder.at("link").symlink_metadata().expect("it is there");
    assert!(link.is_symlink());
    assert_ne!(folder.read("full.register"), register);
}

#[test]
fn a_file_that_is_replaced_keeps_its_permissions() {
    let folder = Folder::with_cemetery("run-permissions");
    let path = folder.at("full.register");
    let mode = || path.metadata().expect("it is there").permissions().mode() & 0o777;
    std::fs::set_permissions(&path, PermissionsExt::from_mode(0o640)).expect("it is ours");
    folder
        .plot(&["run", "full.register", "depths.rules", "--in-place"])
        .has("changed");
    assert_eq!(mode(), 0o640);
}

#[test]
fn a_run_that_is_stopped_writes_nothing() {
    let folder = Folder::with_cemetery("run-stopped");
    let before = (folder.names(), folder.read("full.register"));
    let run = |words: &[&str]| folder.plot(&[&["run", "full.register"], words].concat());
    let spent = run(&["depths.rules", "--budget", "2", "-o", "out"]).fails(1, "refused 20");
    assert!(
        spent
            .err
            .contains("The budget is 2. 2 steps finished, 4 exchanges, 36 messages.")
    );
    let range = b"step\nend\nstep\nN[u] := N[u] + 2147483647\nend\n";
    let words = ["run", "full.register", "-", "--in-place"];
    let stopped = folder.plot_with(&words, range).fails(1, "refused 21");
    assert!(stopped.err.contains("Field N of record 9. 1 step finished"));
    let json = folder.plot_with(&["run", "full.register", "-", "--json"], range);
    assert!(
        json.out
            .starts_with("{\"refused\":21,\"finished\":1,\"record\":9,\"field\":\"N\"")
    );
    let loops = b"loop N\nstep\nN[u] := N[u] + 1\nend\ndone\n";
    let words = ["run", "full.register", "-"];
    folder
        .plot_with(&words, loops)
        .fails(1, "The budget is 1000. 1000 steps finished");
    run(&["nothing.rules"]).fails(2, "cannot read nothing.rules");
    assert_eq!((folder.names(), folder.read("full.register")), before);
}

#[test]
fn a_shell_with_little_stack() {
    let folder = Folder::with_cemetery("run-stack");
    let plot = crate::folder::PLOT;
    let line = format!("ulimit -s 200; exec {plot} run full.register depths.rules");
    let said = folder.run(Command::new("bash").args(["-c", &line]), b"");
    said.has("10 cells changed\n");
}

/// What is written is what the library gives, by either machine.
#[test]
fn generated_runs() {
    let folder = Folder::new("run-generated");
    let mut random = Random::new(34);
    let mut whole = 0;
    for _ in 0..120 {
        let case = Case::small(&mut random);
        folder.write("register", &case.register);
        folder.write("rules", &case.text);
        let register = Register::from_bytes(case.register.as_slice()).expect("it loads");
        let expected = register
            .run(&case.text, Machine::Messages, 50)
            .expect("it passes");
        for machine in [&["--direct"][..], &[]] {
            let _ = std::fs::remove_file(folder.at("out"));
            let words = ["run", "register", "rules", "--budget", "50", "-o", "out"];
            let said = folder.plot(&[&words[..], machine].concat());
            assert_eq!(
                said.status,
                i32::from(expected.end != End::Whole),
                "{}",
                said.err
            );
            match expected.end {
                End::Whole => assert_eq!(folder.read("out"), expected.register.as_bytes()),
                _ => assert!(!folder.at("out").exists()),
            }
        }
        whole += usize::from(expected.end == End::Whole);
    }
    assert!(whole >= 20, "only {whole} runs end whole");
}
