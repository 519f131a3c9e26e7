//! M-105 of document 02, "Sums with brackets": what an expression comes to, and
//! where a sum of it stops the run. Every run is done by both machines.

mod common;

use common::{measured, run};
use reference::apply::{OutOfRange, Place};
use reference::register::{Cell, Sizes};
use reference::run::End;

const MAX: i32 = i32::MAX;
const MIN: i32 = i32::MIN;

/// One record with A, M, N and O.
const SIZES: Sizes = Sizes {
    records: 1,
    references: 1,
    measures: 3,
};

/// The values after a step of these rules over A, M, N and O of one record, or the
/// field that 21 names.
fn step(values: [Option<i32>; 4], rules: &str) -> Result<Vec<Option<i32>>, usize> {
    let cells = measured(&values);
    let left = run(SIZES, &cells, &format!("step\n{rules}\nend\n"), 9);
    match left.run.end {
        End::Whole => Ok(left.values),
        End::OutOfRange(outside) => {
            let named = outside.named().expect("21 has a place");
            assert_eq!(named.record, 0);
            assert_eq!(left.cells, cells);
            Err(named.field)
        }
        End::BudgetExhausted => unreachable!("a step has a budget of 9"),
    }
}

/// What `M[u] := X` leaves in M where M is unfilled, N is 5 and O is 7.
fn stored(expression: &str) -> Result<Option<i32>, usize> {
    let values = [Some(0), None, Some(5), Some(7)];
    step(values, &format!("M[u] := {expression}")).map(|values| values[1])
}

#[test]
fn values_by_rank_and_from_left_to_right() {
    for (expression, value) in [
        ("1 - 2 - 3", -4),
        ("1 - (2 - 3)", 2),
        ("1 + 9 <? 3", 4),
        ("(1 + 9) <? 3", 3),
        ("9 <? 3 + 1", 4),
        ("9 <? (3 + 1)", 4),
        ("N[u] + O[u] - 1", 11),
        ("N[u] <? O[u]", 5),
        ("O[u] <? N[u] <? 4", 4),
        ("N[u] - (O[u] <? 4) - 1", 0),
        ("1.80 + 0.05 - -5", 190),
        ("((((((((N[u]))))))))", 5),
        ("10 - 1 <? 2 <? 3 - 4", 5),
        ("3--5", 8),
        ("3-5", -2),
    ] {
        assert_eq!(stored(expression), Ok(Some(value)), "{expression}");
    }
}

#[test]
fn rows_of_64_operators_and_all_waiting_operands() {
    assert_eq!(stored(&format!("1{}", " + 1".repeat(64))), Ok(Some(65)));
    assert_eq!(stored(&format!("1{}", " - 1".repeat(64))), Ok(Some(-63)));
    let groups = "1 + 9 <? (".repeat(8) + "1 + 9 <? 9" + &")".repeat(8);
    assert_eq!(stored(&groups), Ok(Some(10)));
    let minus = "1 - (".repeat(8) + "1 - 2" + &")".repeat(8);
    assert_eq!(stored(&minus), Ok(Some(-1)));
}

#[test]
fn any_unfilled_operand_makes_the_whole_unfilled() {
    for expression in [
        "M[u] + 1",
        "M[u] <? 1",
        "1 <? M[u]",
        "1 + 2 <? M[u]",
        "(M[u])",
        "N[u] - (O[u] + (M[u] - 3))",
        "(1 <? 2) <? (3 <? M[u])",
        "M[u] - M[u]",
    ] {
        assert_eq!(stored(expression), Ok(None), "{expression}");
    }
    let values = [Some(0), Some(3), None, Some(7)];
    assert_eq!(step(values, "M[u] := 1 <? N[u]"), Ok(values.to_vec()));
}

#[test]
fn inner_sum_is_checked_when_its_own_operands_are_filled() {
    for (expression, expected) in [
        ("2147483647 + 1 + M[u]", Err(1)),
        ("2147483647 + (1 + M[u])", Ok(None)),
        ("M[u] + 2147483647 + 1", Ok(None)),
        ("M[u] + (2147483647 + 1)", Err(1)),
        ("2147483647 + 1 <? M[u]", Ok(None)),
        ("(2147483647 + 1) <? M[u]", Err(1)),
        ("M[u] <? (-2147483648 - 1)", Err(1)),
        ("M[u] - (0 - -2147483648)", Err(1)),
    ] {
        assert_eq!(stored(expression), expected, "{expression}");
    }
}

#[test]
fn sum_brought_back_into_range_stops() {
    for (expression, expected) in [
        ("2147483647 + (1 - 1)", Ok(Some(MAX))),
        ("2147483647 + 1 - 1", Err(1)),
        ("-2147483648 - 1 + 1", Err(1)),
        ("-2147483648 + (1 - 1)", Ok(Some(MIN))),
        ("(2147483647 + 1) <? 0", Err(1)),
        ("0 <? (2147483647 + 1)", Err(1)),
        ("(2147483647 + 0) <? 0", Ok(Some(0))),
        ("2147483647 <? 0 + 1", Ok(Some(1))),
        ("0 - (2147483647 + 1)", Err(1)),
        ("2147483647 <? -2147483648", Ok(Some(MIN))),
        ("N[u] + 2147483642", Ok(Some(MAX))),
        ("N[u] + 2147483643", Err(1)),
    ] {
        assert_eq!(stored(expression), expected, "{expression}");
    }
}

#[test]
fn sums_of_a_test_stop_whether_or_not_it_holds() {
    let values = [Some(0), None, Some(5), Some(7)];
    for test in [
        "0 < 2147483647 + 1",
        "2147483647 + 1 < 0",
        "2147483647 + 1 == M[u]",
        "M[u] != 2147483647 + 1",
        "M[u] + (2147483647 + 1) < 0",
        "(2147483647 + 1) - 1 == 2147483647",
        "0 <? (2147483647 + 1) == 1",
        "0 <? (2147483647 + 1) == 0",
    ] {
        for (rule, field) in [
            ("N[u] := 1", 2),
            ("A[u] := u", 0),
            ("remote O[A[u]] += 1", 3),
            ("remote A[u] <?= u", 0),
        ] {
            let rules = format!("if {test}: {rule}");
            assert_eq!(step(values, &rules), Err(field), "{rules}");
        }
    }
    assert_eq!(
        step(values, "if M[u] < 2147483647 + (1 + M[u]): N[u] := 1"),
        Ok(values.to_vec())
    );
}

#[test]
fn body_is_formed_only_where_the_test_holds() {
    let values = [Some(0), None, Some(5), Some(7)];
    for test in ["1 < 0", "M[u] == M[u]", "N[u] + 1 < N[u] - 1"] {
        for rule in ["N[u] := 2147483647 + 1", "remote N[u] += 2147483647 + 1"] {
            let rules = format!("if {test}: {rule}");
            assert_eq!(step(values, &rules), Ok(values.to_vec()), "{rules}");
        }
    }
}

#[test]
fn sum_of_a_remote_amount_stops_whether_or_not_c_is_filled() {
    for reference in [Some(0), None] {
        let values = [reference, None, Some(5), Some(7)];
        for (rule, expected) in [
            ("remote N[A[u]] += 2147483647 + 1", Err(2)),
            ("remote N[A[u]] <?= 2147483647 + 1", Err(2)),
            ("remote O[A[u]] += 2147483647 + 1 + M[u]", Err(3)),
            ("remote O[A[u]] <?= (2147483647 + 1) <? 0", Err(3)),
            ("if 0 < 1: remote O[A[u]] += 2147483647 + 1 - 1", Err(3)),
            (
                "remote M[A[u]] += 2147483647 + (1 + M[u])",
                Ok(values.to_vec()),
            ),
        ] {
            assert_eq!(step(values, rule), expected, "{rule}");
        }
    }
}

#[test]
fn remote_amounts_are_expressions() {
    let values = [Some(0), None, Some(5), Some(7)];
    assert_eq!(
        step(values, "remote N[A[u]] += N[u] + O[u] <? 1").unwrap()[2],
        Some(11)
    );
    assert_eq!(
        step(values, "remote N[A[u]] <?= (N[u] <? O[u]) - 10").unwrap()[2],
        Some(-5)
    );
    assert_eq!(
        step(values, "remote A[u] <?= u <? A[u]").unwrap()[0],
        Some(0)
    );
}

/// All places that are out of range.
fn outside(values: &[[Option<i32>; 4]], rules: &str) -> OutOfRange {
    let sizes = Sizes {
        records: values.len(),
        ..SIZES
    };
    let text = format!("step\n{rules}\nend\n");
    match run(sizes, &measured(&values.concat()), &text, 9).run.end {
        End::OutOfRange(outside) => outside,
        end => panic!("{end:?}"),
    }
}

#[test]
fn sums_of_remote_amounts_and_tests_come_before_every_total() {
    let values = [
        [Some(0), Some(MAX), Some(0), Some(0)],
        [None, Some(1), Some(MAX), Some(1)],
    ];
    // The total of M at record 0 offends too, but is no sum that a rule forms.
    for (rules, sums, totals) in [
        (
            "remote M[u] += 1\nremote O[A[u]] += N[u] + 1",
            &[(1, 3)][..],
            &[(0, 1)][..],
        ),
        (
            "remote M[u] += 1\nif N[u] + 1 == 7: A[u] := u",
            &[(1, 0)],
            &[(0, 1)],
        ),
        (
            "if N[u] + 1 == 7: A[u] := u\nN[u] := M[u] + 1\nremote O[u] += N[u] + O[u]",
            &[(0, 2), (1, 0), (1, 3)],
            &[],
        ),
        ("remote M[u] += 1", &[], &[(0, 1)]),
    ] {
        let places = |pairs: &[(usize, usize)]| -> Vec<Place> {
            let place = |&(record, field)| Place { record, field };
            pairs.iter().map(place).collect()
        };
        let found = outside(&values, rules);
        assert_eq!(found.sums, places(sums), "{rules}");
        assert_eq!(found.totals, places(totals), "{rules}");
        let first = places(&[sums, totals].concat())[0];
        assert_eq!(found.named(), Some(first), "{rules}");
    }
}

/// The earliest rule is named whether it is local or remote, at the record that reads.
#[test]
fn remote_and_local_sums_come_in_the_order_of_the_rules() {
    let values = [
        [Some(1), Some(1), Some(2), Some(3)],
        [Some(0), Some(1), Some(MAX), Some(1)],
    ];
    let (local, remote) = ("M[u] := N[u] + 1", "remote O[A[u]] += N[u] + 1");
    let tested = "if N[u] + 1 < 0: remote O[A[u]] += 1";
    for (rules, field) in [
        ([local, remote], 1),
        ([remote, local], 3),
        ([local, tested], 1),
        ([tested, local], 3),
    ] {
        let found = outside(&values, &rules.join("\n"));
        assert_eq!(found.named(), Some(Place { record: 1, field }), "{rules:?}");
    }
}

/// Each rule with the field that it leaves worked out and the value there; none where
/// it leaves all cells as they are.
#[test]
fn value_of_an_expression_is_worked_out() {
    let cells = measured(&[Some(0), None, Some(5), Some(7)]);
    for (rule, worked_out) in [
        ("N[u] := (N[u])", Some((2, 5))),
        ("N[u] := N[u] <? O[u]", Some((2, 5))),
        ("N[u] := 1 <? M[u]", None),
        ("if N[u] < O[u] - 1: M[u] := 3 - 3 + 1", Some((1, 1))),
        ("remote O[A[u]] <?= O[u] <? 9", None),
        ("remote O[A[u]] <?= O[u] - 1 <? 9", Some((3, 6))),
        ("remote O[A[u]] += N[u] - 2 - 3", Some((3, 7))),
        ("remote O[A[u]] += N[u] - (2 + M[u])", None),
    ] {
        let mut expected = cells.clone();
        if let Some((field, value)) = worked_out {
            expected[field] = Cell::WorkedOut(value);
        }
        let text = format!("step\n{rule}\nend\n");
        assert_eq!(run(SIZES, &cells, &text, 9).cells, expected, "{rule}");
    }
}

#[test]
fn references_are_compared_by_record_number() {
    let sizes = Sizes {
        records: 3,
        references: 2,
        measures: 0,
    };
    let values = [Some(2), Some(1), Some(0), None, Some(1), Some(1)];
    let text = "step\nA[u] := A[u] <? B[u] <? u\nend\n";
    let left = run(sizes, &measured(&values), text, 9);
    let column: Vec<Option<i32>> = left.values.into_iter().step_by(2).collect();
    assert_eq!(column, [Some(0), Some(0), Some(1)]);
}

#[test]
fn readings_of_expressions_come_by_messages() {
    let sizes = Sizes {
        records: 3,
        references: 1,
        measures: 1,
    };
    let values = [Some(1), Some(10), Some(2), Some(20), Some(0), Some(40)];
    let text = "step\nM[u] := M[A[A[u]]] - (M[A[u]] <? M[u]) + 1\nend\n";
    let left = run(sizes, &measured(&values), text, 9);
    let column: Vec<Option<i32>> = left.values.into_iter().skip(1).step_by(2).collect();
    assert_eq!(column, [Some(31), Some(-9), Some(11)]);
    // Back(A), Back(AA), Read(AAM), Read(AM), three letters each.
    assert_eq!(
        (left.run.counts.exchanges, left.run.counts.letters),
        (3, 12)
    );
}
