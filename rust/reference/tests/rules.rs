//! "The rules text": refusals 6 to 15 and 17, each beside its nearest neighbour
//! that passes. The register here has A and B, M and N.

use reference::plan::Line;
use reference::printed;
use reference::program::Part;
use reference::register::Sizes;
use reference::text::{check, check_step, read_text};

const SIZES: Sizes = Sizes {
    records: 3,
    references: 2,
    measures: 2,
};

const PASSES: (u32, usize) = (0, 0);

/// The refusal of a text and its line, both 0 for a text that passes.
fn refusal(text: &str) -> (u32, usize) {
    match read_text(text.as_bytes(), &SIZES) {
        Ok(_) => PASSES,
        Err(refusal) => (refusal.reason.number(), refusal.line),
    }
}

/// The refusal of a line in a step of its own, where it is line 2.
fn in_step(line: &str) -> u32 {
    match refusal(&format!("step\n{line}\nend\n")) {
        PASSES => 0,
        (number, 2) => number,
        other => panic!("{line}: {other:?}"),
    }
}

/// A chain of these letters, the outermost first.
fn chain(letters: &str) -> String {
    let opening: String = letters.chars().flat_map(|letter| [letter, '[']).collect();
    format!("{opening}u{}", "]".repeat(letters.len()))
}

#[test]
fn empty_text_passes() {
    assert!(read_text(b"", &SIZES).unwrap().parts.is_empty());
}

#[test]
fn every_form_passes() {
    let actions = [
        "M[u] := N[u]",
        "M[u] := -5",
        "M[u] := 0",
        "A[u] := u",
        "A[u] := B[A[u]]",
        "M[u] := M[u] + 1",
        "M[u] := 3 - -5",
        "M[u] := M[A[u]] - N[B[u]]",
        "remote M[u] += 1",
        "remote M[A[u]] += N[u]",
        "remote N[A[B[u]]] <?= M[A[u]]",
        "remote A[B[u]] <?= u",
    ];
    let tests = [
        "",
        "if M[u] < 3: ",
        "if 1 == 2: ",
        "if A[u] != u: ",
        "if A[u] < B[u]: ",
        "if -1 != M[A[A[u]]]: ",
    ];
    for action in actions {
        for test in tests {
            assert_eq!(in_step(&format!("{test}{action}")), 0, "{test}{action}");
        }
    }
}

#[test]
fn forms_are_exact() {
    let lines = [
        "",
        " ",
        "Step",
        "step ",
        " step",
        "end.",
        "M[u] : = 1",
        "M[u] := 1 ",
        "M[u] = 1",
        "M[u] := ",
        "M[u] := 1 +",
        "M[u] := 1 + ",
        "M[u] := 1 * 1",
        "m[u] := 1",
        "u := 1",
        "M[A[u]] := 1",
        "M := 1",
        "M[u] := M",
        "M[u] := M[u",
        "M[u] := M[u]]",
        "M[u] += 1",
        "M[u] <?= 1",
        "remote M[u] := 1",
        "remote u += 1",
        "remote M += 1",
        "remote M[u] -= 1",
        "remote M[u] <= 1",
        "remote M[u] += ",
        "Remote M[u] += 1",
        "remote M[3] += 1",
        "if M[u] < 1: ",
        "if M[u] < 1:",
        "if M[u] < 1 M[u] := 1",
        "if M[u] <= 1: M[u] := 1",
        "if M[u] > 1: M[u] := 1",
        "if M[u]: M[u] := 1",
        "if 1 = 1: M[u] := 1",
        "if 1 < 2: if 1 < 2: M[u] := 1",
        "if 1 < 2: step",
        "remote if 1 < 2: M[u] += 1",
        "loop",
        "loop ",
        "loop a",
        "loop A ",
        "loop AB",
        "loop A[u]",
        "M[u] := 1\r",
    ];
    for line in lines {
        assert_eq!(in_step(line), 7, "{line:?}");
    }
}

#[test]
fn numbers_have_one_form() {
    for number in ["0", "7", "-7", "10", "-10", "2147483647", "-2147483648"] {
        assert_eq!(in_step(&format!("M[u] := {number}")), 0, "{number}");
    }
    for number in [
        "-0", "00", "01", "-01", "+1", "--1", "-", "1.0", "1e3", "٣", "1 ",
    ] {
        assert_eq!(in_step(&format!("M[u] := {number}")), 7, "{number}");
    }
}

#[test]
fn metres_are_centimetres() {
    let program = |number: &str| {
        let text = format!("step\nif {number} < M[u]: M[u] := N[u] - {number}\nend\n");
        read_text(text.as_bytes(), &SIZES).unwrap()
    };
    for (metres, centimetres) in [
        ("1.80", "180"),
        ("1.00", "100"),
        ("-0.05", "-5"),
        ("0.05", "5"),
        ("0.00", "0"),
        ("-12.34", "-1234"),
        ("21474836.47", "2147483647"),
        ("-21474836.48", "-2147483648"),
    ] {
        assert_eq!(program(metres), program(centimetres), "{metres}");
    }
    assert_ne!(program("1"), program("1.00"));
    assert_ne!(program("-0.05"), program("0.05"));
}

#[test]
fn too_long_is_6() {
    let full = format!("step\n{}end\n", "M[u] := 1000000000\n".repeat(32));
    let last = format!("step\n{}end\n", "M[u] := 100000000\n".repeat(9));
    let text = full.repeat(13) + &last;
    assert_eq!(text.len(), 8192);
    assert_eq!(refusal(&text), PASSES);
    assert_eq!(refusal(&(text + "\n")), (6, 0));
    assert_eq!(refusal(&"\n".repeat(8193)), (6, 0));
    assert_eq!(refusal(&"\n".repeat(8192)), (7, 1));
}

#[test]
fn last_line_without_byte_10_is_7() {
    assert_eq!(refusal("step\nend\n"), PASSES);
    assert_eq!(refusal("step\nend"), (7, 2));
    assert_eq!(refusal("step"), (7, 1));
    assert_eq!(refusal("end\nx"), (8, 1));
    assert_eq!(refusal("step\nend\n\n"), (7, 3));
}

#[test]
fn out_of_place_is_8() {
    assert_eq!(refusal("M[u] := 1\n"), (8, 1));
    assert_eq!(refusal("end\n"), (8, 1));
    assert_eq!(refusal("done\n"), (8, 1));
    assert_eq!(refusal("step\nstep\n"), (8, 2));
    assert_eq!(refusal("step\nloop A\n"), (8, 2));
    assert_eq!(refusal("step\ndone\n"), (8, 2));
    assert_eq!(refusal("loop A\nstep\nend\nM[u] := 1\n"), (8, 4));
    assert_eq!(refusal("loop A\nend\n"), (8, 2));
    assert_eq!(refusal("loop A\nstep\ndone\n"), (8, 3));
}

#[test]
fn loop_holds_steps_and_no_loop() {
    assert_eq!(refusal("loop A\nstep\nend\nstep\nend\ndone\n"), PASSES);
    assert_eq!(
        refusal("loop A\nstep\nend\ndone\nloop M\nstep\nend\ndone\n"),
        PASSES
    );
    assert_eq!(refusal("loop A\ndone\n"), (8, 2));
    assert_eq!(refusal("loop A\nloop B\n"), (8, 2));
    assert_eq!(refusal("loop A\nstep\nend\nloop B\n"), (8, 4));
}

#[test]
fn unclosed_is_8_one_past_the_last_line() {
    assert_eq!(refusal("step\n"), (8, 2));
    assert_eq!(refusal("step\nM[u] := 1\n"), (8, 3));
    assert_eq!(refusal("loop A\n"), (8, 2));
    assert_eq!(refusal("loop A\nstep\nend\n"), (8, 4));
    assert_eq!(refusal("loop A\nstep\n"), (8, 3));
}

#[test]
fn no_such_field_is_9() {
    for line in [
        "C[u] := 1",
        "O[u] := 1",
        "M[u] := O[u]",
        "M[u] := 1 - M[C[u]]",
        "remote O[u] += 1",
        "remote M[C[u]] += 1",
        "if Z[u] < 1: M[u] := 1",
        "if 1 < I[u]: M[u] := 1",
    ] {
        assert_eq!(in_step(line), 9, "{line}");
    }
    assert_eq!(refusal("loop C\nstep\nend\ndone\n"), (9, 1));
    assert_eq!(refusal("loop L\nstep\nend\ndone\n"), (9, 1));
    assert_eq!(refusal("loop N\nstep\nend\ndone\n"), PASSES);
}

#[test]
fn kind_is_10() {
    for line in [
        "M[u] := A[u]",
        "M[u] := u",
        "A[u] := M[u]",
        "A[u] := 1",
        "M[u] := M[u] + A[u]",
        "M[u] := u - 1",
        "A[u] := A[u] + B[u]",
        "A[u] := 1 + 1",
        "M[u] := M[M[u]]",
        "M[u] := A[M[u]]",
        "remote M[M[u]] += 1",
        "remote A[u] += 1",
        "remote A[u] += B[u]",
        "remote M[u] += A[u]",
        "remote M[u] <?= A[u]",
        "remote A[u] <?= 1",
        "if A[u] < M[u]: M[u] := 1",
        "if u == 0: M[u] := 1",
        "if M[u] != u: M[u] := 1",
        "if A[N[u]] == u: M[u] := 1",
    ] {
        assert_eq!(in_step(line), 10, "{line}");
    }
}

#[test]
fn seventeen_hops_are_11() {
    let longest = chain(&"A".repeat(16));
    let longer = chain(&"A".repeat(17));
    assert_eq!(in_step(&format!("A[u] := {longest}")), 0);
    assert_eq!(in_step(&format!("A[u] := {longer}")), 11);
    assert_eq!(in_step(&format!("remote M[{longest}] += 1")), 0);
    assert_eq!(in_step(&format!("remote M[{longer}] += 1")), 11);
    assert_eq!(in_step(&format!("if {longer} == u: M[u] := 1")), 11);
    assert_eq!(
        in_step(&format!("A[u] := {}", chain(&"A".repeat(2700)))),
        11
    );
}

#[test]
fn number_out_of_range_is_12() {
    assert_eq!(in_step("M[u] := 2147483648"), 12);
    assert_eq!(in_step("M[u] := -2147483649"), 12);
    assert_eq!(in_step("M[u] := 1 + 4294967296"), 12);
    assert_eq!(in_step("if 18446744073709551616 < 1: M[u] := 1"), 12);
    assert_eq!(in_step("remote M[u] += 9223372036854775808"), 12);
    assert_eq!(in_step(&format!("M[u] := {}", "9".repeat(8000))), 12);
    assert_eq!(in_step(&format!("M[u] := -1{}", "0".repeat(8000))), 12);
}

#[test]
fn too_many_steps_or_rules_is_13() {
    assert_eq!(refusal(&"step\nend\n".repeat(32)), PASSES);
    assert_eq!(refusal(&"step\nend\n".repeat(33)), (13, 65));
    let looped = format!("loop A\n{}done\n", "step\nend\n".repeat(32));
    assert_eq!(refusal(&looped), PASSES);
    assert_eq!(refusal(&(looped + "step\nend\n")), (13, 67));
    let rules = |count: usize| format!("step\n{}end\n", "M[u] := 1\n".repeat(count));
    assert_eq!(refusal(&rules(32)), PASSES);
    assert_eq!(refusal(&rules(33)), (13, 34));
    assert_eq!(refusal(&(rules(32) + &rules(32))), PASSES);
}

#[test]
fn two_sorts_of_remote_write_are_14() {
    let both =
        |one: &str, other: &str| refusal(&format!("step\nremote {one}\nremote {other}\nend\n"));
    assert_eq!(both("M[u] += 1", "M[u] <?= 1"), (14, 3));
    assert_eq!(both("M[u] <?= 1", "M[A[u]] += 1"), (14, 3));
    assert_eq!(both("M[u] += 1", "N[u] <?= 1"), PASSES);
    assert_eq!(both("M[u] += 1", "M[A[u]] += 2"), PASSES);
    assert_eq!(refusal("step\nM[u] := 1\nremote M[u] += 1\nend\n"), PASSES);
    let two_steps = "step\nremote M[u] += 1\nend\nstep\nremote M[u] <?= 1\nend\n";
    assert_eq!(refusal(two_steps), PASSES);
}

/// A step of 28 rules that read 56 chains of two hops, 8 for each of the inner
/// letters A to G, so that its plan has 7 × (1 + 8) lines; then some more rules.
fn wide_step(more: &str) -> String {
    let inner = "ABCDEFG".chars();
    let chains: Vec<String> = inner
        .flat_map(|inner| {
            "ABCDEFGH"
                .chars()
                .map(move |outer| chain(&format!("{outer}{inner}")))
        })
        .collect();
    let rule = |pair: &[String]| format!("if {} == {}: A[u] := u\n", pair[0], pair[1]);
    let rules: String = chains.chunks(2).map(rule).collect();
    format!("step\n{rules}{more}end\n")
}

#[test]
fn too_many_plan_lines_are_15_at_the_end() {
    let wide = Sizes {
        records: 1,
        references: 8,
        measures: 2,
    };
    let refusal = |text: &str| match read_text(text.as_bytes(), &wide) {
        Ok(program) => (0, program.most_lines()),
        Err(refusal) => (refusal.reason.number(), refusal.line),
    };
    assert_eq!(refusal(&wide_step("")), (0, 63));
    let fits = "M[u] := M[A[u]]\n";
    assert_eq!(refusal(&wide_step(fits)), (0, 64));
    assert_eq!(
        refusal(&wide_step(&format!("{fits}{fits}A[u] := H[G[u]]\n"))),
        (0, 64)
    );
    let beyond = wide_step(&format!("{fits}M[u] := N[A[u]]\n"));
    assert_eq!(refusal(&beyond), (15, 32));
    assert_eq!(refusal(&format!("{beyond}x\n")), (15, 32));
    assert_eq!(
        refusal(&wide_step(&format!("{fits}M[u] := N[A[u]]\nx\n"))),
        (7, 32)
    );
    // Back(H) and the Read that needs it would be lines 64 and 65.
    assert_eq!(refusal(&wide_step("A[u] := A[H[u]]\n")), (15, 31));
}

#[test]
fn lowest_number_first() {
    let longer = chain(&"A".repeat(17));
    assert_eq!(refusal("M[C[u]] := 1\n"), (7, 1));
    assert_eq!(refusal("M[u] := C[u]\n"), (8, 1));
    assert_eq!(refusal("step\nloop Z\n"), (8, 2));
    assert_eq!(in_step("A[u] := M[C[u]]"), 9);
    assert_eq!(in_step("A[u] := 2147483648"), 10);
    assert_eq!(in_step(&format!("M[u] := {longer}")), 10);
    assert_eq!(in_step(&format!("if 2147483648 < 1: A[u] := {longer}")), 11);
    let full = |rule: &str| {
        refusal(&format!(
            "step\n{}{rule}\n",
            "remote M[u] += 1\n".repeat(32)
        ))
        .0
    };
    assert_eq!(full("M[u] := 2147483648"), 12);
    assert_eq!(full("remote M[u] <?= 1"), 13);
}

#[test]
fn earlier_line_first() {
    assert_eq!(refusal("step\nM[u] := 2147483648\nx\n"), (12, 2));
    assert_eq!(refusal("end\n\n"), (8, 1));
    assert_eq!(refusal("step\nC[u] := 1\nM[u] := u\nend\n"), (9, 2));
}

#[test]
fn program_of_a_text() {
    let text =
        b"step\nend\nloop N\nstep\nM[u] := M[A[A[u]]]\nend\nstep\nremote M[u] += 1\nend\ndone\n";
    let program = read_text(text, &SIZES).unwrap();
    assert!(
        matches!(&program.parts[..], [Part::Step(_), Part::Loop(3, steps)] if steps.len() == 2)
    );
    assert_eq!(program.steps().count(), 3);
    assert_eq!(program.most_lines(), 3);
    let exchanges: Vec<usize> = program.steps().map(|step| step.exchanges()).collect();
    assert_eq!(exchanges, [0, 3, 1]);
}

#[test]
fn plan_walks_rules_from_the_top_and_chains_from_left_to_right() {
    let text = "step\n\
        if A[A[u]] == B[B[u]]: remote M[A[B[u]]] += M[B[A[u]]]\n\
        M[u] := N[A[u]] - N[B[u]]\n\
        end\n";
    let program = read_text(text.as_bytes(), &SIZES).unwrap();
    let step = program.step(1).unwrap();
    let line_text = |line: &Line| {
        let letters = String::from_utf8(line.chain.letters(&SIZES)).unwrap();
        format!("{:?}({letters}) {}", line.kind, line.round)
    };
    let lines: Vec<String> = step.plan.lines().iter().map(line_text).collect();
    let test = ["Back(A) 1", "Read(AA) 2", "Back(B) 1", "Read(BB) 2"];
    let remote = ["Read(BA) 2", "Back(AB) 2", "Read(ABM) 3"];
    let difference = ["Read(AN) 2", "Read(BN) 2"];
    assert_eq!(lines, [&test[..], &remote, &difference].concat());
    assert!(step.has_remote());
}

#[test]
fn step_that_is_not_there_is_17() {
    let register = printed::register();
    let step = |number| check_step(&register, printed::TEXT, number).map_err(|r| r.reason.number());
    assert_eq!(step(1).unwrap().plan.lines().len(), 3);
    assert_eq!(step(0), Err(17));
    assert_eq!(step(2), Err(17));
    assert_eq!(step(u64::MAX), Err(17));
    assert_eq!(
        check_step(&register, b"x", 0).map_err(|r| r.reason.number()),
        Err(7)
    );
    assert_eq!(
        check_step(&[], b"x", 0).map_err(|r| r.reason.number()),
        Err(1)
    );
}

#[test]
fn register_comes_first() {
    assert_eq!(check(&[], b"x").map_err(|r| r.reason.number()), Err(1));
    assert!(check(&printed::register(), printed::TEXT).is_ok());
}
