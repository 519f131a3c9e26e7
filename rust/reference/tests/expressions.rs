//! M-105 of document 02, "Sums with brackets": tokens, forms, trees and the refusals
//! 24 and 25. The register here has A and B, M and N.

use reference::plan::Line;
use reference::program::Program;
use reference::refusal::Refusal;
use reference::register::Sizes;
use reference::text::read_text;

const SIZES: Sizes = Sizes {
    records: 3,
    references: 2,
    measures: 2,
};

/// The program of a line in a step of its own.
fn read(line: &str) -> Result<Program, Refusal> {
    read_text(format!("step\n{line}\nend\n").as_bytes(), &SIZES)
}

/// The refusal of a line, 0 if it passes.
fn refusal(line: &str) -> u32 {
    match read(line) {
        Ok(_) => 0,
        Err(refusal) => {
            assert_eq!(refusal.line, 2, "{line}");
            refusal.reason.number()
        }
    }
}

/// The refusal of an expression of measures, the same wherever one may stand.
fn of(expression: &str) -> u32 {
    let lines = [
        format!("M[u] := {expression}"),
        format!("remote M[A[u]] += {expression}"),
        format!("remote M[u] <?= {expression}"),
        format!("if {expression} < N[u]: M[u] := 1"),
        format!("if 1 == {expression}: A[u] := u"),
        format!("if M[u] != {expression}: remote N[A[u]] += 5"),
    ];
    let refusals = lines.each_ref().map(|line| refusal(line));
    assert_eq!(refusals, [refusals[0]; 6], "{expression}");
    refusals[0]
}

/// Both expressions have one tree.
fn alike(one: &str, other: &str) {
    let program = |x: &str| read(&format!("if {x} < 1: M[u] := {x}")).unwrap();
    assert_eq!(program(one), program(other), "{one} and {other}");
}

/// The expressions have two trees.
fn unlike(one: &str, other: &str) {
    let program = |x: &str| read(&format!("M[u] := {x}")).unwrap();
    assert_ne!(program(one), program(other), "{one} and {other}");
}

fn nested(groups: usize, inside: &str) -> String {
    format!("{}{inside}{}", "(".repeat(groups), ")".repeat(groups))
}

/// So many operators of one sort between ones.
fn row(operators: usize) -> String {
    format!("1{}", " + 1".repeat(operators))
}

#[test]
fn expressions_stand_wherever_one_term_stood() {
    for expression in [
        "1 + 1 + 1",
        "M[u] - N[u] <? 3",
        "(1)",
        "((M[A[u]]))",
        "(1 + 2) - (3 <? (4 - 5))",
        "M[u] <? N[u] <? 1.80",
        "1 - -1",
    ] {
        assert_eq!(of(expression), 0, "{expression}");
    }
}

#[test]
fn minus_belongs_to_the_digits_straight_after_it_where_an_operand_begins() {
    for expression in [
        "1--1", "1 - -1", "1-1", "(-1)", "-1", "3 -5", "3-5", "3-0", "3--5", "1 + -1", "1<?-1",
        "-1-1", "( -1 )", "-0.05", "1--0.05", "3 - 0.00", "3-0.00", "1 -1 -1", "(1)-1", "M[u]-1",
        "M[u]--1",
    ] {
        assert_eq!(of(expression), 0, "{expression}");
    }
    for expression in [
        "- 1",
        "1 - - 1",
        "-(1)",
        "--1",
        "1 - -0",
        "- 5",
        "3--0",
        "-",
        "1 -",
        "---1",
        "1---1",
        "-M[u]",
        "- M[u]",
        "-u",
        "1 + - 1",
        "(- 1)",
        "(-)",
        "-0",
        "-0.00",
        "1 - -0.00",
        "+1",
        "1 ++1",
        "1 + +1",
        "-01",
        "1 - 01",
        "1-.80",
    ] {
        assert_eq!(of(expression), 7, "{expression}");
    }
    alike("1--1", "1 - -1");
    alike("3-5", "3 -5");
    alike("3-5", "3 - 5");
    unlike("3-5", "3 - -5");
    unlike("3-5", "3 + -5");
}

#[test]
fn longest_token_is_taken_first() {
    for line in [
        "M[u] := 1 <?= 2",
        "M[u] := 1<?=2",
        "if 1 <?= 2: M[u] := 1",
        "M[u] := 1 + = 2",
        "M[u] := 1 += 2",
        "M[u] := 1 < ? 2",
        "M[u] : = 1",
        "if 1 = = 1: M[u] := 1",
        "if 1 ! = 1: M[u] := 1",
        "if 1 < = 2: M[u] := 1",
        "remote M[u] + = 1",
        "remote M[u] < ?= 1",
        "remote M[u] <? = 1",
        "remote M[u] <? 1",
        "remote M[u] + 1",
        "if 1 < 2:= M[u] := 1",
        "if 1 < 2:=M[u]",
    ] {
        assert_eq!(refusal(line), 7, "{line}");
    }
    for line in [
        "M[u]:=1<?2",
        "M[u]:=-1",
        "remote M[u]+=-1",
        "remote M[u]<?=-1",
        "if 1<-2:M[u]:=1",
        "if 1==-2:M[u]:=1",
        "if 1!=2:remote M[u]+=1",
        "if 1 <? 2 < 3 <? 4: M[u] := 1",
    ] {
        assert_eq!(refusal(line), 0, "{line}");
    }
}

#[test]
fn spaces_are_free_between_tokens() {
    let same = |lines: &[&str]| {
        let first = read(lines[0]);
        assert!(first.is_ok(), "{}", lines[0]);
        for line in lines {
            assert_eq!(read(line), first, "{line}");
        }
    };
    same(&[
        "M[u] := M[A[u]] + 1",
        "M[u]:=M[A[u]]+1",
        "M [ u ] := M [ A [ u ] ] + 1",
        "M  [u]:=  M[A[ u]]   +1",
        "M[u] := M[A[u] ] +    1",
    ]);
    same(&[
        "if A[u] == u: remote M[A[u]] <?= (1 + N[u])",
        "if A[u]==u:remote M[A[u]]<?=(1+N[u])",
        "if   A [u] == u : remote   M[ A[u]] <?= ( 1 + N [ u ] )",
        "if A[u]== u :remote M [A [u]]<?=1+N[u]",
    ]);
    same(&[
        "M[u] := -1.80 <? 5",
        "M[u]:=-1.80<?5",
        "M[u] := (-180)<?(5)",
    ]);
}

#[test]
fn no_other_blank_and_none_inside_a_token() {
    for line in [
        "M[u] :=\t1",
        "M[u] := 1\r",
        "M[u] :=\u{a0}1",
        "M[u] := 1 0",
        "M[u] := 1. 80",
        "M[u] := 1 .80",
        "M[u] := 1.8 0",
        "st ep",
        "i f 1 < 2: M[u] := 1",
        "re mote M[u] += 1",
        "M[u] := - 1",
    ] {
        assert_eq!(refusal(line), 7, "{line}");
    }
}

#[test]
fn no_space_at_the_ends_of_a_line() {
    for line in [
        " M[u] := 1",
        "M[u] := 1 ",
        "M[u] := (1) ",
        " step",
        "step ",
        "end ",
        " end",
        "",
        " ",
        "   ",
    ] {
        assert_eq!(refusal(line), 7, "{line:?}");
    }
    let text = |text: &str| match read_text(text.as_bytes(), &SIZES) {
        Ok(_) => (0, 0),
        Err(refusal) => (refusal.reason.number(), refusal.line),
    };
    assert_eq!(text("loop A\nstep\nend\ndone\n"), (0, 0));
    assert_eq!(text("loop    A\nstep\nend\ndone\n"), (0, 0));
    assert_eq!(text("loopA\nstep\nend\ndone\n"), (7, 1));
    assert_eq!(text(" loop A\nstep\nend\ndone\n"), (7, 1));
    assert_eq!(text("loop A \nstep\nend\ndone\n"), (7, 1));
    assert_eq!(text("loop A\nstep\nend\ndone \n"), (7, 4));
    assert_eq!(text("loop  \nstep\nend\ndone\n"), (7, 1));
    assert_eq!(text("loop A[u]\nstep\nend\ndone\n"), (7, 1));
}

#[test]
fn words_keep_a_space_behind_them() {
    for (line, number) in [
        ("if(1) < 2: M[u] := 1", 7),
        ("if (1) < 2: M[u] := 1", 0),
        ("if  (1) < 2: M[u] := 1", 0),
        ("if1 < 2: M[u] := 1", 7),
        ("ifM[u] < 2: M[u] := 1", 7),
        ("remoteM[u] += 1", 7),
        ("remote   M[u] += 1", 0),
        ("if 1 < 2:remote M[u] += 1", 0),
        ("if 1 < 2:remoteM[u] += 1", 7),
        ("if 1 < 2:M[u] := 1", 0),
        ("remote", 7),
        ("if", 7),
        ("if 1 < 2: if 1 < 2: M[u] := 1", 7),
        ("if 1 < 2: step", 7),
    ] {
        assert_eq!(refusal(line), number, "{line}");
    }
}

#[test]
fn what_has_no_form_is_7() {
    for expression in [
        "",
        "()",
        "(1",
        "1)",
        "(1))",
        "((1)",
        ")1(",
        "(1 +)",
        "(+ 1)",
        "1 (2)",
        "(1)(2)",
        "1 2",
        "1 + (2",
        "1 + 2)",
        "[1]",
        "(M[u]",
        "M[(u)]",
        "(M)[u]",
        "M[u + 1]",
        "M[1]",
        "1 < 2",
        "1 == 2",
        "1 := 2",
        "1 : 2",
        "1 * 2",
        "1 <? <? 2",
        "<? 1",
        "1 <?",
        "1 + * 2",
        "(1 < 2)",
        "1 + 2 +",
    ] {
        assert_eq!(of(expression), 7, "{expression}");
    }
    for line in [
        "remote M[(u)] += 1",
        "remote (M[u]) += 1",
        "remote M[u <? u] += 1",
        "(M[u]) := 1",
        "M[(u)] := 1",
        "if (1 < 2): M[u] := 1",
        "if 1 < 2 < 3: M[u] := 1",
        "if 1 < 2 == 3: M[u] := 1",
        "if 1 + 2: M[u] := 1",
        "(if 1 < 2): M[u] := 1",
        "remote M[u] += 1: M[u] := 1",
    ] {
        assert_eq!(refusal(line), 7, "{line}");
    }
}

#[test]
fn smaller_binds_tighter_and_equal_ranks_go_from_left_to_right() {
    alike("1 - 2 - 3", "(1 - 2) - 3");
    unlike("1 - 2 - 3", "1 - (2 - 3)");
    alike("1 + 2 <? 3", "1 + (2 <? 3)");
    unlike("1 + 2 <? 3", "(1 + 2) <? 3");
    alike("1 <? 2 + 3", "(1 <? 2) + 3");
    alike("1 <? 2 <? 3", "(1 <? 2) <? 3");
    unlike("1 <? 2 <? 3", "1 <? (2 <? 3)");
    alike("1 - 2 + 3", "(1 - 2) + 3");
    alike("1 + 2 - 3 <? 4 - 5", "((1 + 2) - (3 <? 4)) - 5");
    unlike("1 + (2 + 3)", "1 + 2 + 3");
    alike(
        "1 - 2 <? 3 <? 4 + 5 <? 6 - 7",
        "((1 - ((2 <? 3) <? 4)) + (5 <? 6)) - 7",
    );
}

#[test]
fn spare_brackets_and_spellings_of_numbers_leave_no_trace() {
    alike("1", "((1))");
    alike("1 + 2", "((1) + (2))");
    alike("1 + 2", "(1) + 2");
    alike("1 + 2 + 3", "(((1 + 2)) + (3))");
    alike("1.80 + M[u]", "(180 + (M[u]))");
    alike("M[A[u]]", "(M[A[u]])");
}

#[test]
fn all_terms_of_an_expression_have_one_kind() {
    for line in [
        "A[u] := A[u] <? B[u]",
        "A[u] := (u <? A[u]) <? B[A[u]]",
        "A[u] := (u)",
        "remote A[u] <?= u <? A[u]",
        "if u <? A[u] < B[u]: M[u] := 1",
        "if (u) == u: M[u] := 1",
        "M[u] := M[u] <? 3",
    ] {
        assert_eq!(refusal(line), 0, "{line}");
    }
    for line in [
        "A[u] := A[u] + B[u]",
        "A[u] := u - u",
        "A[u] := (u + A[u]) <? u",
        "A[u] := u <? 1",
        "A[u] := 1 <? 2",
        "A[u] := 1 + 1",
        "M[u] := u <? A[u]",
        "M[u] := M[u] <? u",
        "M[u] := 1 + 2 + u",
        "M[u] := (1 + (2 <? A[u]))",
        "if u + u == u: M[u] := 1",
        "if u == u - u: M[u] := 1",
        "if u <? 1 == u: M[u] := 1",
        "if 1 <? 2 == u: M[u] := 1",
        "if u == u <? 1: M[u] := 1",
        "remote A[u] += u <? u",
        "remote A[u] <?= u + u",
        "remote M[u] += u <? u",
        "remote M[u] <?= u <? u",
        "M[u] := 1 + M[M[u]]",
    ] {
        assert_eq!(refusal(line), 10, "{line}");
    }
}

#[test]
fn nine_groups_deep_are_24() {
    assert_eq!(of(&nested(8, "1")), 0);
    assert_eq!(of(&nested(9, "1")), 24);
    assert_eq!(of(&nested(12, "M[u]")), 24);
    assert_eq!(of(&format!("1 + {}", nested(8, "1 + 1"))), 0);
    assert_eq!(of(&format!("1 + {}", nested(9, "1 + 1"))), 24);
    assert_eq!(of(&format!("{} + {}", nested(8, "1"), nested(8, "1"))), 0);
    assert_eq!(
        of(&format!("({} + {})", nested(7, "1"), nested(8, "1"))),
        24
    );
    assert_eq!(
        refusal(&format!("if 1 < {}: M[u] := 1", nested(9, "1"))),
        24
    );
    assert_eq!(
        refusal(&format!("if {} < 1: M[u] := 1", nested(9, "1"))),
        24
    );
    assert_eq!(refusal(&format!("A[u] := {}", nested(8, "u"))), 0);
    assert_eq!(refusal(&format!("A[u] := {}", nested(9, "u"))), 24);
}

#[test]
fn more_than_64_operators_are_25() {
    assert_eq!(of(&row(64)), 0);
    assert_eq!(of(&row(65)), 25);
    assert_eq!(of(&format!("({}) - ({})", row(32), row(31))), 0);
    assert_eq!(of(&format!("({}) - ({})", row(32), row(32))), 25);
    assert_eq!(of(&format!("1{}", " <? 1".repeat(65))), 25);
    let tested = format!("if {} < {}: M[u] := {}", row(64), row(64), row(64));
    assert_eq!(refusal(&tested), 0);
    assert_eq!(refusal(&tested.replace("< 1", "< 1 + 1")), 25);
    assert_eq!(refusal(&format!("A[u] := u{}", " <? u".repeat(64))), 0);
    assert_eq!(refusal(&format!("A[u] := u{}", " <? u".repeat(65))), 25);
}

#[test]
fn any_depth_and_any_number_of_operators_have_a_form() {
    assert_eq!(refusal(&format!("M[u] := {}", nested(4000, "1"))), 24);
    assert_eq!(refusal(&format!("M[u] := {}1", "(".repeat(8000))), 7);
    assert_eq!(refusal(&format!("M[u] := 1{}", "+1".repeat(4000))), 25);
    assert_eq!(
        refusal(&format!(
            "M[u] := {}1{}",
            "(1+".repeat(2000),
            ")".repeat(2000)
        )),
        24
    );
    assert_eq!(refusal(&format!("M[u] := {}", nested(4000, "O[u]"))), 9);
}

#[test]
fn numbers_come_in_the_decided_order() {
    let long = format!("M[{}u{}]", "A[".repeat(16), "]".repeat(16));
    let deep = |inside: &str| refusal(&format!("M[u] := {}", nested(9, inside)));
    assert_eq!(deep("O[u]"), 9);
    assert_eq!(deep("u"), 10);
    assert_eq!(deep(&long), 11);
    assert_eq!(deep("2147483648"), 12);
    assert_eq!(deep("1"), 24);
    assert_eq!(deep(&row(65)), 24);
    assert_eq!(
        refusal(&format!("M[u] := {}", nested(9, "1")).replace("1)", "1")),
        7
    );
    let wide = |more: &str| refusal(&format!("M[u] := {}{more}", row(65)));
    assert_eq!(wide(" + O[u]"), 9);
    assert_eq!(wide(" + u"), 10);
    assert_eq!(wide(&format!(" + {long}")), 11);
    assert_eq!(wide(" + 2147483648"), 12);
    assert_eq!(wide(&format!(" + {}", nested(9, "1"))), 24);
    assert_eq!(wide(""), 25);
    // 24 in one expression comes before 25 in another, on either side of it.
    let (deep, wide) = (nested(9, "1"), row(65));
    assert_eq!(refusal(&format!("if {wide} < 1: M[u] := {deep}")), 24);
    assert_eq!(refusal(&format!("if {deep} < 1: M[u] := {wide}")), 24);
    // 8 comes before, 13 and 14 come behind.
    let text = |text: String| read_text(text.as_bytes(), &SIZES).unwrap_err();
    let outside = text(format!("M[u] := {deep}\n"));
    assert_eq!((outside.reason.number(), outside.line), (8, 1));
    let full = "remote M[u] += 1\n".repeat(32);
    for (rule, number) in [
        (format!("remote M[u] <?= {deep}"), 24),
        (format!("remote M[u] <?= {wide}"), 25),
        (format!("remote M[u] <?= {}", nested(8, "1")), 13),
    ] {
        let refusal = text(format!("step\n{full}{rule}\nend\n"));
        assert_eq!(
            (refusal.reason.number(), refusal.line),
            (number, 34),
            "{rule}"
        );
    }
    for (rule, number) in [
        (format!("remote M[u] <?= {deep}"), 24),
        (format!("remote M[u] <?= {wide}"), 25),
        (format!("remote M[u] <?= {}", row(64)), 14),
    ] {
        let refusal = text(format!("step\nremote M[u] += 1\n{rule}\nend\n"));
        assert_eq!(
            (refusal.reason.number(), refusal.line),
            (number, 3),
            "{rule}"
        );
    }
}

#[test]
fn every_chain_of_an_expression_is_checked() {
    let long = format!("M[{}u{}]", "A[".repeat(16), "]".repeat(16));
    assert_eq!(of("1 + (2 - Z[u])"), 9);
    assert_eq!(of("M[Z[u]] <? 1 + 2"), 9);
    assert_eq!(of("1 + (2 - M[M[u]])"), 10);
    assert_eq!(of(&format!("1 - (2 <? {long})")), 11);
    assert_eq!(of("1 <? (3 + 2147483648)"), 12);
    assert_eq!(of("1 - 2147483648"), 12);
    assert_eq!(of("1--2147483648"), 0);
    assert_eq!(of("1--2147483649"), 12);
    assert_eq!(refusal("M[u] := 1 + M [ C [ u ] ]"), 9);
}

#[test]
fn plan_walks_each_expression_from_left_to_right() {
    let line = "if (M[A[u]] + 1) <? N[A[u]] < 1 - (M[B[u]] <? N[B[u]]): \
                remote M[A[B[u]]] += (M[B[A[u]]] - 1) + N[B[A[u]]]";
    let program = read(line).unwrap();
    let line_text = |line: &Line| {
        let letters = String::from_utf8(line.chain.letters(&SIZES)).unwrap();
        format!("{:?}({letters})", line.kind)
    };
    let step = program.step(1).unwrap();
    let lines: Vec<String> = step.plan.lines().iter().map(line_text).collect();
    let left = ["Back(A)", "Read(AM)", "Read(AN)"];
    let right = ["Back(B)", "Read(BM)", "Read(BN)"];
    let amount = ["Read(BA)", "Back(AB)", "Read(ABM)", "Read(ABN)"];
    assert_eq!(lines, [&left[..], &right, &amount].concat());
}

#[test]
fn single_chain_stays_without_spaces() {
    use reference::chain::read_chain;
    assert!(read_chain(b"M[A[u]]", &SIZES).is_ok());
    for chain in [
        "M [A[u]]", "M[ A[u]]", "M[A[u] ]", "M[A[u]] ", " u", "(u)", "u ",
    ] {
        let refusal = read_chain(chain.as_bytes(), &SIZES).map_err(|reason| reason.number());
        assert_eq!(refusal, Err(7), "{chain}");
    }
}
