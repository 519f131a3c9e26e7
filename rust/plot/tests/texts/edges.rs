//! The edges of document 01 by their own numbers. The register has all fields
//! that there are, A to H and M to T, and one record.

use crate::compare::compare;
use generate::chains;
use generate::random::Random;
use reference::register::{Cell, MAX_FIELDS, Sizes, encode};

const SIZES: Sizes = Sizes {
    records: 1,
    references: MAX_FIELDS,
    measures: MAX_FIELDS,
};

const PASSES: (u32, usize) = (0, 0);

/// The refusal of a text and its line, both 0 for a text that passes, by the
/// library and by the reference.
fn refusal(text: &str) -> (u32, usize) {
    let register = encode(SIZES, &[Cell::Missing; 2 * MAX_FIELDS]);
    match compare(&mut Random::new(17), &register, text.as_bytes()) {
        Ok(_) => PASSES,
        Err(refusal) => (refusal.reason.number(), refusal.line),
    }
}

/// The refusal number of a line in a step of its own, where it is line 2.
pub fn in_step(line: &str) -> u32 {
    match refusal(&format!("step\n{line}\nend\n")) {
        PASSES => 0,
        (number, 2) => number,
        other => panic!("{line}: {other:?}"),
    }
}

/// A chain of so many hops A.
fn chain(hops: usize) -> String {
    String::from_utf8(chains::text(&vec![b'A'; hops])).unwrap()
}

/// A step that reads 8 chains of two hops from each of the inner letters A to G:
/// 7 × (1 + 8) = 63 lines. Then come some more rules.
fn step_of_63_lines(more: &str) -> String {
    let mut step = "step\n".to_owned();
    for inner in 'A'..='G' {
        for [x, y] in [['A', 'B'], ['C', 'D'], ['E', 'F'], ['G', 'H']] {
            step += &format!("if {x}[{inner}[u]] < {y}[{inner}[u]]: A[u] := u\n");
        }
    }
    format!("{step}{more}end\n")
}

#[test]
fn hops() {
    assert_eq!(in_step(&format!("A[u] := {}", chain(16))), 0);
    assert_eq!(in_step(&format!("A[u] := {}", chain(17))), 11);
    assert_eq!(in_step(&format!("remote M[{}] += 1", chain(16))), 0);
    assert_eq!(in_step(&format!("remote M[{}] += 1", chain(17))), 11);
    assert_eq!(in_step(&format!("A[u] := {}", chain(2700))), 11);
}

#[test]
fn numbers() {
    assert_eq!(in_step("M[u] := 2147483647 + -2147483648"), 0);
    assert_eq!(in_step("M[u] := 2147483648"), 12);
    assert_eq!(in_step("M[u] := -2147483649"), 12);
    assert_eq!(in_step(&format!("M[u] := {}", "9".repeat(8000))), 12);
    assert_eq!(in_step(&format!("M[u] := -1{}", "0".repeat(7999))), 12);
    assert_eq!(in_step(&format!("M[u] := {}", "0".repeat(8000))), 7);
}

#[test]
fn steps_and_rules() {
    assert_eq!(refusal(&"step\nend\n".repeat(32)), PASSES);
    assert_eq!(refusal(&"step\nend\n".repeat(33)), (13, 65));
    assert_eq!(refusal(&"loop A\nstep\nend\ndone\n".repeat(33)), (13, 130));
    let rules = |count| format!("step\n{}end\n", "M[u] := 1\n".repeat(count));
    assert_eq!(refusal(&rules(32).repeat(24)), PASSES);
    assert_eq!(refusal(&rules(33)), (13, 34));
}

#[test]
fn length() {
    assert_eq!(refusal(""), PASSES);
    let full = format!("step\n{}end\n", "M[u] := 1000000000\n".repeat(32));
    let last = format!("step\n{}end\n", "M[u] := 100000000\n".repeat(9));
    let longest = full.repeat(13) + &last;
    assert_eq!(longest.len(), 8192);
    assert_eq!(refusal(&longest), PASSES);
    assert_eq!(
        refusal(&longest.replacen("100000000\nend", "1000000000\nend", 1)),
        (6, 0)
    );
    assert_eq!(refusal(&"\n".repeat(8192)), (7, 1));
    assert_eq!(refusal(&"\n".repeat(8193)), (6, 0));
    assert_eq!(refusal(&"x".repeat(1 << 20)), (6, 0));
}

#[test]
fn ends_of_lines() {
    for line in ["step", "end", "loop A", "M[u] := 1", "x"] {
        assert_eq!(refusal(line), (7, 1), "{line}");
    }
    assert_eq!(refusal("step\nend"), (7, 2));
    assert_eq!(refusal("\n"), (7, 1));
    assert_eq!(refusal("step\r\nend\r\n"), (7, 1));
}

#[test]
fn unclosed() {
    assert_eq!(refusal("step\n"), (8, 2));
    assert_eq!(refusal("step\nM[u] := 1\n"), (8, 3));
    assert_eq!(refusal("loop M\n"), (8, 2));
    assert_eq!(refusal("loop M\nstep\n"), (8, 3));
    assert_eq!(refusal("loop M\nstep\nend\n"), (8, 4));
    assert_eq!(refusal("loop M\nstep\nend\ndone\n"), PASSES);
    assert_eq!(refusal("loop M\ndone\n"), (8, 2));
}

#[test]
fn plan_lines() {
    let fits = "M[u] := M[A[u]]\n";
    let beyond = "M[u] := N[A[u]]\n";
    assert_eq!(refusal(&step_of_63_lines(fits)), PASSES);
    assert_eq!(refusal(&step_of_63_lines(&[fits, fits].concat())), PASSES);
    let too_many = step_of_63_lines(&[fits, beyond].concat());
    assert_eq!(refusal(&too_many), (15, 32));
    // Two lines are needed and one is left.
    assert_eq!(refusal(&step_of_63_lines("A[u] := A[H[u]]\n")), (15, 31));
    // An earlier line comes first: 15 before a later 7, and 7 before a later `end`.
    assert_eq!(refusal(&format!("{too_many}x\n")), (15, 32));
    assert_eq!(refusal(&format!("loop A\n{too_many}x\n")), (15, 33));
    assert_eq!(
        refusal(&step_of_63_lines(&[fits, beyond, "x\n"].concat())),
        (7, 32)
    );
    // A step that is not closed has no `end` for 15 to stand at.
    assert_eq!(refusal(too_many.strip_suffix("end\n").unwrap()), (8, 32));
}

#[test]
fn lowest_number_of_a_line() {
    let long = chain(17);
    assert_eq!(refusal("I[x] := 1\n"), (7, 1));
    assert_eq!(refusal("end"), (7, 1));
    assert_eq!(refusal("I[u] := 1\n"), (8, 1));
    assert_eq!(refusal("step\nloop I\n"), (8, 2));
    assert_eq!(in_step("A[u] := M[I[u]]"), 9);
    assert_eq!(in_step(&format!("M[u] := {long} + 2147483648")), 10);
    assert_eq!(in_step(&format!("if {long} < u: M[u] := 2147483648")), 11);
    let behind = |lines: &str, rule: &str| {
        let count = 2 + lines.matches('\n').count();
        let (number, line) = refusal(&format!("step\n{lines}{rule}\nend\n"));
        assert_eq!(line, count);
        number
    };
    let full = "remote M[u] += 1\n".repeat(32);
    assert_eq!(behind(&full, "remote M[u] <?= 2147483648"), 12);
    assert_eq!(behind(&full, "remote M[u] <?= 1"), 13);
    assert_eq!(behind("remote M[u] += 1\n", "remote M[u] <?= 1"), 14);
    assert_eq!(
        refusal(&format!("{}step\nstep\n", "step\nend\n".repeat(31))),
        (8, 64)
    );
    assert_eq!(refusal(&format!("step\n{full}M[u] := 1\nend\n")), (13, 34));
}

#[test]
fn earlier_line_first() {
    assert_eq!(refusal("step\nM[u] := 2147483648\nx\n"), (12, 2));
    assert_eq!(refusal("end\nx"), (8, 1));
    assert_eq!(refusal("loop I\nend\n"), (9, 1));
    let two_sorts = "remote M[u] += 1\nremote M[u] <?= 1\n";
    assert_eq!(
        refusal(&format!("step\n{two_sorts}I[u] := 1\nend\n")),
        (14, 3)
    );
}
