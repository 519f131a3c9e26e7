//! `plot check`, `plot plan` and `plot inspect`.

use crate::folder::Folder;
use generate::cases::Case;
use generate::random::Random;

#[test]
fn a_text_that_passes() {
    let folder = Folder::with_cemetery("check");
    folder
        .plot(&["check", "full.register", "components.rules"])
        .is("components.rules passes: 3 steps
  step  lines  exchanges  remote writes
     1      0          0  no
     2      2          3  yes
     3      2          2  no
");
    let said = folder.plot_with(&["check", "full.register", "-"], b"");
    said.is("standard input passes: 0 steps\n");
}

#[test]
fn a_text_that_does_not_pass() {
    let folder = Folder::with_cemetery("check-refused");
    let check = |text: &str| folder.plot_with(&["check", "full.register", "-"], text.as_bytes());
    let told =
        check("step\nM[u] := M[E[u]]\nend\n").fails(1, "standard input: refused 9 at line 2");
    assert!(
        told.err
            .contains("  2 | M[u] := M[E[u]]\n    |           ^\n")
    );
    assert!(
        told.err
            .contains("The register has the fields A, B, C, D, M, N, O.")
    );
    check("step\n")
        .fails(1, "refused 8 at line 2")
        .fails(1, "The text ends here");
    check("step\r\nend\r\n")
        .fails(1, "refused 7 at line 1")
        .fails(1, "as on Windows");
    check("step\nend")
        .fails(1, "refused 7 at line 2")
        .fails(1, "a line break has to stand");
    check("\n").fails(1, "  1 | \n    | ^\n");
    check(&"x".repeat(9000)).fails(1, "refused 6: the rules text is too long");
    check(&format!("{}\n", "x".repeat(8000))).fails(1, "refused 7 at line 1");
}

#[test]
fn what_to_do_about_mixed_kinds() {
    let folder = Folder::with_cemetery("check-kinds");
    for (line, advice) in [
        (
            "M[u] := A[M[u]]",
            "What stands in square brackets leads to a record",
        ),
        (
            "remote M[M[u]] += 1",
            "What stands in square brackets leads to a record",
        ),
        ("A[u] := A[u] + B[u]", "Sums take measures only"),
        ("remote A[u] += u", "Sums take measures only"),
        (
            "A[u] := -5",
            "Both sides are references, or both are measures",
        ),
        (
            "if A[u] == 5: M[u] := 1",
            "Both sides are references, or both are measures",
        ),
    ] {
        let text = format!("step\n{line}\nend\n");
        let said = folder.plot_with(&["check", "full.register", "-"], text.as_bytes());
        said.fails(1, "refused 10 at line 2").fails(1, advice);
    }
}

#[test]
fn numbers_that_are_none() {
    let folder = Folder::with_cemetery("check-numbers");
    let check = |number: &str| {
        let text = format!("step\nif M[u] < {number}: N[u] := {number} - 0.05\nend\n");
        folder.plot_with(&["check", "full.register", "-"], text.as_bytes())
    };
    for number in ["180", "1.80", "-0.05", "0.00", "-21474836.48"] {
        assert_eq!(check(number).status, 0, "{number}");
    }
    for number in ["1.8", "1.", "1.800", "1,80", ".80", "007", "-0", "-0.00"] {
        let said = check(number).fails(1, "refused 7 at line 2");
        said.fails(1, "metres with two decimals");
    }
    for number in ["2147483648", "21474836.48", "-21474836.49"] {
        let said = check(number).fails(1, "refused 12 at line 2");
        said.fails(1, "in metres from -21474836.48 to 21474836.47");
    }
}

#[test]
fn what_to_do_about_lines_without_a_form() {
    let folder = Folder::with_cemetery("check-forms");
    for (line, advice) in [
        ("M[u] := (1", "A round bracket is not closed."),
        ("M[u] := (1 + 2))", "This bracket closes none."),
        ("M[u] := A[u]]", "This bracket closes none."),
        ("M[u] := (1 2)", "or a bracket that closes the group"),
        ("M[u] := 5x", "or the line ends"),
        ("M[u] := 5 * 5", "or the line ends"),
        ("M[u] := 1 <?= 2", "or the line ends"),
        ("M[u] := 5 + ", "Here has to stand a chain"),
        ("M[u] := ()", "Here has to stand a chain"),
        ("M[u] := [1]", "Here has to stand a chain"),
        ("M[u] := M[u] --", "the digits straight after it"),
        ("M[u] := - 5", "the digits straight after it"),
        ("M[u] := 1 + -(5)", "the digits straight after it"),
        ("M[u] := M[A[u] + 1", "Here a ] is missing"),
        ("M[u] := M[A[]]", "A chain is u, or"),
        ("remote M[(u)] += 1", "A chain is u, or"),
        ("if(1) < 2: M[u] := 1", "keep a space behind them"),
        ("if 1 < 2: remoteM[u] += 1", "keep a space behind them"),
        ("loopM", "keep a space behind them"),
        ("if 1 < 2 M[u] := 1", "A test is if X < Y:"),
        ("if 1 = 2: M[u] := 1", "A test is if X < Y:"),
        ("if 1 =< 2: M[u] := 1", "write X < Y + 1 instead"),
        ("if 1 <= 2: M[u] := 1", "write X < Y + 1 instead"),
        ("if 1 >= 2: M[u] := 1", "write Y < X + 1 instead"),
        ("if 1 => 2: M[u] := 1", "write Y < X + 1 instead"),
        ("if 1 > 2: M[u] := 1", "Write Y < X instead of X > Y."),
        ("if 1 <> 2: M[u] := 1", "Write != instead."),
        ("M[u := 1", "Here a ] is missing"),
        ("remote M[A[u] += 1", "Here a ] is missing"),
        ("M[U] := 1", "a small u"),
        ("M[u] := M[A[U]]", "a small u"),
        ("m[u] := 1", "The letters of fields are capitals"),
        ("M[u] := M[a[u]]", "The letters of fields are capitals"),
        ("STEP", "Did you mean step?"),
        ("IF 1 < 2: M[u] := 1", "Did you mean if?"),
        ("Remote M[u] += 1", "Did you mean remote?"),
        ("edn", "Did you mean end?"),
        ("step 2", "Behind step the line ends."),
        ("\u{feff}M[u] := 1", "byte order mark"),
        ("M[u] := 1 ", "No space stands at the ends of a line."),
        (" M[u] := 1", "No space stands at the ends of a line."),
        ("end ", "No space stands at the ends of a line."),
        (" ", "No space stands at the ends of a line."),
        ("M[u] := 1\t+ 1", "plain spaces, or none"),
        ("", "There are no empty lines."),
        ("M[u] = 1", "Lines are step, end, loop F, done, and rules"),
        ("# depths", "Lines are step, end, loop F, done, and rules"),
    ] {
        let text = format!("step\n{line}\nend\n");
        let said = folder.plot_with(&["check", "full.register", "-"], text.as_bytes());
        said.fails(1, "refused 7 at line 2").fails(1, advice);
    }
}

#[test]
fn what_to_do_about_deep_and_long_expressions() {
    let folder = Folder::with_cemetery("check-expressions");
    let check = |expression: String| {
        let text = format!("step\nM[u] := {expression}\nend\n");
        folder.plot_with(&["check", "full.register", "-"], text.as_bytes())
    };
    let grouped = |groups| format!("{}1{}", "(".repeat(groups), ")".repeat(groups));
    let summed = |operators| format!("1{}", " + 1".repeat(operators));
    check(grouped(8)).has("passes: 1 step");
    check(grouped(9))
        .fails(1, "refused 24 at line 2: groups stand more than 8 deep")
        .fails(1, "Leave out brackets that change nothing");
    check(summed(64)).has("passes: 1 step");
    check(summed(65))
        .fails(
            1,
            "refused 25 at line 2: an expression has more than 64 operators",
        )
        .fails(1, "Store a part in a field in one step");
}

#[test]
fn lines_that_are_long_or_no_text() {
    let folder = Folder::with_cemetery("check-long");
    let check = |text: &[u8]| folder.plot_with(&["check", "full.register", "-"], text);
    let chain = format!("{}u{}", "A[".repeat(500), "]".repeat(499));
    let said = check(format!("step\nA[u] := {chain}\n").as_bytes()).fails(1, "refused 7 at line 2");
    assert!(said.err.contains(" | ..."), "{}", said.err);
    let widest = said.err.lines().map(str::len).max();
    assert!(widest <= Some(120), "{}", said.err);
    check(b"step\n\xff\xfe\x00\x1b[31m\n").fails(1, "refused 7 at line 2");
    check("step\nM[u] – 1\n".as_bytes()).fails(1, "  2 | M[u] – 1\n    |      ^\n");
}

#[test]
fn a_plan_as_a_table() {
    let folder = Folder::with_cemetery("plan");
    folder
        .plot(&["plan", "full.register", "components.rules", "3"])
        .is("step 3: 2 lines, 2 exchanges
  line  kind  chain    round  from  to    carries
     0  Back  D[u]         1  u     D[u]  the number of u
     1  Read  D[D[u]]      2  D[u]  u     D[D[u]]
");
    let said = folder.plot(&["plan", "full.register", "components.rules"]);
    said.has("step 1: 0 lines, 0 exchanges\n")
        .has("step 2: 2 lines, 3 exchanges, the last for remote writes\n")
        .has("step 3: ");
    let step = |step| folder.plot(&["plan", "full.register", "components.rules", step]);
    step("4")
        .fails(1, "step 4: refused 17")
        .fails(1, "The text has the steps 1 to 3.");
    step("0").fails(1, "step 0: refused 17");
}

#[test]
fn messages_after_a_round() {
    let folder = Folder::new("inspect");
    folder.write("three.csv", "A,M\n1,\n2,0\n,180\n");
    folder.plot(&["pack", "three.csv", "-o", "three"]);
    folder.write("two.rules", "step\nM[u] := M[A[A[u]]]\nend\n");
    let inspect = |round| folder.plot(&["inspect", "three", "two.rules", "1", round]);
    inspect("0").is("step 1 after round 0 of 3: 0 messages\n");
    inspect("3").is("step 1 after round 3 of 3: 4 messages
  line  kind  chain       round  origin  from  to  carries
     0  Back  A[u]            1       0     0   1        0
     0  Back  A[u]            1       1     1   2        1
     1  Back  A[A[u]]         2       0     1   2        0
     2  Read  M[A[A[u]]]      3       0     2   0      180
");
    inspect("65535").has("step 1 after round 65535 of 3: 4 messages\n");
    folder
        .plot(&["inspect", "three", "two.rules", "2", "1"])
        .fails(1, "refused 17");
    folder
        .plot(&["inspect", "three", "two.rules", "1", "1", "--json"])
        .is(
            "{\"step\":1,\"round\":1,\"exchanges\":3,\"after\":0,\"messages\":[\
         {\"line\":0,\"kind\":\"Back\",\"chain\":\"A[u]\",\"round\":1,\"origin\":0,\"from\":0,\"to\":1,\
         \"carries\":0},{\"line\":0,\"kind\":\"Back\",\"chain\":\"A[u]\",\"round\":1,\"origin\":1,\
         \"from\":1,\"to\":2,\"carries\":1}]}\n",
        );
}

/// The steps of generated texts are the reference's, and the messages of all rounds
/// of a text of one step and no remote rule are as many as its run counts.
#[test]
fn generated_texts() {
    let folder = Folder::new("check-generated");
    let mut random = Random::new(33);
    let mut counted = 0;
    for _ in 0..120 {
        let case = Case::small(&mut random);
        folder.write("register", &case.register);
        folder.write("rules", &case.text);
        let steps: Vec<String> = case.program.steps().map(step_json).collect();
        let said = folder.plot(&["check", "register", "rules", "--json"]);
        said.is(&format!("{{\"steps\":[{}]}}\n", steps.join(",")));
        let is_looped = case.text.starts_with(b"loop");
        let remote = case.program.steps().any(|step| step.has_remote());
        if steps.len() == 1 && !is_looped && !remote {
            counted += usize::from(messages_are_counted(&folder));
        }
    }
    assert!(
        counted >= 5,
        "only {counted} texts are of one step that runs"
    );
}

fn step_json(step: &reference::program::Step) -> String {
    format!(
        "{{\"lines\":{},\"exchanges\":{},\"remote\":{}}}",
        step.plan.lines().len(),
        step.exchanges(),
        step.has_remote()
    )
}

/// Whether the run ends whole; then its messages are those that are shown.
fn messages_are_counted(folder: &Folder) -> bool {
    let run = folder.plot(&["run", "register", "rules"]);
    if run.status != 0 {
        return false;
    }
    let shown = folder.plot(&["inspect", "register", "rules", "1", "9"]);
    let shown = shown.out.lines().count().saturating_sub(2);
    let messages = if shown == 1 {
        "1 message\n"
    } else {
        &format!("{shown} messages\n")
    };
    run.has(messages);
    true
}
