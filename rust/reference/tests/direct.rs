//! "The straight machine" and "Edges": local rules, tests, remote writes, loops,
//! the budget. Every run is done by both machines.

mod common;

use common::{AMPLE, Left, measured, run};
use reference::apply::{OutOfRange, Place};
use reference::direct::run_direct;
use reference::messages::run_messages;
use reference::printed;
use reference::register::{Cell, Sizes};
use reference::run::{End, Scratch};

const MAX: i32 = i32::MAX;

/// A run over the printed register.
fn printed_run(text: &str, budget: u16) -> Left {
    run(printed::SIZES, &printed::CELLS, text, budget)
}

/// A step of these rules over the printed register.
fn step(rules: &str) -> Left {
    printed_run(&format!("step\n{rules}\nend\n"), 1)
}

/// The record and field that 21 names, where a run ends so.
fn named(left: &Left) -> Option<(usize, usize)> {
    let End::OutOfRange(outside) = &left.run.end else {
        return None;
    };
    outside.named().map(|place| (place.record, place.field))
}

/// The field of every record after a step over the printed register.
fn column(field: usize, rules: &str) -> Vec<Option<i32>> {
    let left = step(rules);
    assert_eq!(left.run.end, End::Whole);
    left.values.into_iter().skip(field).step_by(2).collect()
}

/// A step over two records with one measure each.
fn two(values: [Option<i32>; 2], rules: &str) -> Left {
    let sizes = Sizes {
        records: 2,
        references: 0,
        measures: 1,
    };
    run(
        sizes,
        &measured(&values),
        &format!("step\n{rules}\nend\n"),
        9,
    )
}

#[test]
fn printed_values() {
    assert_eq!(
        column(1, "M[u] := M[A[A[u]]]"),
        [Some(180), Some(0), Some(180)]
    );
    assert_eq!(column(0, "M[u] := M[A[A[u]]]"), [Some(1), Some(2), None]);
}

#[test]
fn own_number_fills_everywhere() {
    assert_eq!(column(0, "A[u] := u"), [Some(0), Some(1), Some(2)]);
}

#[test]
fn missing_reading_leaves_the_cell() {
    assert_eq!(
        column(1, "M[u] := M[A[u]]"),
        [Some(0), Some(180), Some(180)]
    );
    assert_eq!(column(0, "A[u] := A[A[u]]"), [Some(2), Some(2), None]);
    assert_eq!(column(1, "M[u] := M[u] + 1"), [None, Some(1), Some(181)]);
    assert_eq!(column(1, "M[u] := 1 - M[u]"), [None, Some(1), Some(-179)]);
}

#[test]
fn step_reads_the_cells_before_it() {
    assert_eq!(
        column(1, "A[u] := u\nM[u] := M[A[u]]"),
        [Some(0), Some(180), Some(180)]
    );
    assert_eq!(
        column(1, "A[u] := u\nremote M[A[u]] += 5"),
        [None, Some(5), Some(185)]
    );
}

#[test]
fn gap_leaves_what_an_earlier_rule_of_the_step_stored() {
    let rules = "M[u] := 7\nM[u] := M[A[u]]";
    assert_eq!(column(1, rules), [Some(0), Some(180), Some(7)]);
    assert_eq!(printed_run(&format!("step\n{rules}\nend\n"), 9).run.kept, 1);
    let sum = "M[u] := 7\nM[u] := M[A[u]] + 1";
    assert_eq!(column(1, sum), [Some(1), Some(181), Some(7)]);
}

#[test]
fn later_local_rules_overwrite_earlier_ones() {
    assert_eq!(column(1, "M[u] := 1\nM[u] := 2"), [Some(2); 3]);
    assert_eq!(
        column(1, "M[u] := 1\nif M[u] == 0: M[u] := 2"),
        [Some(1), Some(2), Some(1)]
    );
}

#[test]
fn test_with_a_missing_side_does_not_hold() {
    for comparison in ["<", "==", "!="] {
        let kept = column(1, &format!("if M[u] {comparison} M[A[u]]: M[u] := 9"));
        assert_eq!([kept[0], kept[2]], [None, Some(180)], "{comparison}");
    }
    assert_eq!(
        column(1, "if M[u] != 0: M[u] := 9"),
        [None, Some(0), Some(9)]
    );
    assert_eq!(
        column(1, "if M[u] < 180: M[u] := 9"),
        [None, Some(9), Some(180)]
    );
    assert_eq!(
        column(0, "if A[u] == A[u]: A[u] := u"),
        [Some(0), Some(1), None]
    );
    assert_eq!(
        column(1, "if u != A[u]: M[u] := 4"),
        [Some(4), Some(4), Some(180)]
    );
}

#[test]
fn sum_out_of_range_stops() {
    let left = step("M[u] := 2147483647 + 1");
    let sums: Vec<Place> = (0..3).map(|record| Place { record, field: 1 }).collect();
    let outside = OutOfRange {
        sums,
        totals: Vec::new(),
    };
    assert_eq!(left.run.end, End::OutOfRange(outside));
    assert_eq!(named(&left), Some((0, 1)));
    assert_eq!(left.run.finished, 0);
    assert_eq!(left.cells, printed::CELLS);
    assert_eq!(column(1, "M[u] := 2147483647 + 0"), [Some(MAX); 3]);
    assert_eq!(column(1, "M[u] := -2147483648 + 0"), [Some(i32::MIN); 3]);
    assert_eq!(step("M[u] := -2147483648 - 1").run.end.number(), 21);
    assert_eq!(step("M[u] := 0 - -2147483648").run.end.number(), 21);
}

#[test]
fn overwritten_sum_stops_and_undone_sum_does_not() {
    assert_eq!(
        step("M[u] := 2147483647 + 1\nM[u] := 0").run.end.number(),
        21
    );
    assert_eq!(
        column(1, "if 1 < 0: M[u] := 2147483647 + 1"),
        [None, Some(0), Some(180)]
    );
    let left = step("M[u] := 2147483647 + M[u]");
    assert_eq!(named(&left), Some((2, 1)));
    assert_eq!(
        column(1, "if M[u] == 0: M[u] := 2147483647 + M[u]"),
        [None, Some(MAX), Some(180)]
    );
}

/// A step over two records, a reference and two measures, all filled.
fn full(cells: [i32; 6], rules: &str) -> Left {
    let sizes = Sizes {
        records: 2,
        references: 1,
        measures: 2,
    };
    run(
        sizes,
        &cells.map(Cell::Measured),
        &format!("step\n{rules}\nend\n"),
        9,
    )
}

/// M-101: the lowest record with a sum, and the field of the earliest rule; only
/// where there is none, the lowest record, then first field, with a total.
#[test]
fn the_first_overflow_is_named() {
    let (sum, high) = ("2147483647 + 1", [0, MAX, MAX, 1, MAX, MAX]);
    let at = |cells, rules: &str| named(&full(cells, rules));
    let both = format!("N[u] := {sum}\nM[u] := {sum}\nN[u] := 0");
    assert_eq!(at(high, &both), Some((0, 2)), "the earliest rule");
    let done = format!("if A[u] != u: M[u] := {sum}");
    assert_eq!(at([0; 6], &done), Some((1, 1)), "a rule that is done");
    let later = "remote M[u] += 1\nN[u] := N[u] + 1";
    let cells = [0, MAX, 0, 1, 0, MAX];
    assert_eq!(at(cells, later), Some((1, 2)), "a sum before totals");
    let totals = "remote M[u] += 1\nremote N[u] += 1";
    assert_eq!(at(high, totals), Some((0, 1)), "the first field");
    assert_eq!(
        at([0, 0, MAX, 1, MAX, 0], totals),
        Some((0, 2)),
        "the lowest record"
    );
    let crossed = "remote M[A[u]] += 1";
    assert_eq!(
        at([1, 0, 0, 0, MAX, 0], crossed),
        Some((1, 1)),
        "the target of a total"
    );
}

#[test]
fn remote_least_keeps_the_smaller_and_fills() {
    assert_eq!(column(1, "remote M[A[u]] <?= 7"), [None, Some(0), Some(7)]);
    assert_eq!(
        column(1, "remote M[u] <?= -7"),
        [Some(-7), Some(-7), Some(-7)]
    );
    assert_eq!(column(0, "remote A[u] <?= u"), [Some(0), Some(1), Some(2)]);
    assert_eq!(
        two([None, Some(5)], "remote M[u] <?= M[u]").values,
        [None, Some(5)]
    );
}

#[test]
fn remote_add_leaves_a_missing_cell_missing() {
    assert_eq!(column(1, "remote M[u] += 7"), [None, Some(7), Some(187)]);
    assert_eq!(
        column(1, "remote M[u] += M[A[u]]"),
        [None, Some(180), Some(180)]
    );
    let amount = "remote M[u] += 2147483647\nremote M[u] += 2147483647";
    assert_eq!(two([None; 2], amount).values, [None; 2]);
}

#[test]
fn remote_writes_come_after_local_ones() {
    assert_eq!(column(1, "remote M[u] += 1\nM[u] := 10"), [Some(11); 3]);
    assert_eq!(column(1, "remote M[u] <?= 3\nM[u] := 10"), [Some(3); 3]);
    assert_eq!(
        column(1, "M[u] := M[A[A[u]]]\nremote M[u] += 1"),
        [Some(181), Some(1), Some(181)]
    );
}

#[test]
fn amounts_are_added_in_their_own_step() {
    let sizes = Sizes {
        records: 2,
        references: 0,
        measures: 1,
    };
    let text = "step\nremote M[u] += 5\nend\n".repeat(3);
    let left = run(sizes, &measured(&[Some(1), None]), &text, 9);
    assert_eq!(left.values, [Some(16), None]);
}

#[test]
fn only_the_final_total_must_be_in_range() {
    let rules = "remote M[u] += 1\nremote M[u] += -1";
    assert_eq!(
        two([Some(MAX), Some(i32::MIN)], rules).values,
        [Some(MAX), Some(i32::MIN)]
    );
    let left = two([Some(MAX), Some(0)], "remote M[u] += 1");
    assert_eq!(named(&left), Some((0, 0)));
    assert_eq!(left.values, [Some(MAX), Some(0)]);
    let left = two([Some(i32::MIN), Some(0)], "remote M[u] += -1");
    assert_eq!(named(&left), Some((0, 0)));
}

#[test]
fn budget_is_looked_at_before_each_step() {
    let left = printed_run("", 0);
    assert_eq!((left.run.finished, left.run.end), (0, End::Whole));
    let left = printed_run("step\nend\n", 0);
    assert_eq!((left.run.finished, left.run.end), (0, End::BudgetExhausted));
    let text = "step\nM[u] := 1\nend\nstep\nM[u] := 2\nend\n";
    let left = printed_run(text, 1);
    assert_eq!((left.run.finished, left.run.end), (1, End::BudgetExhausted));
    assert_eq!(left.cells, printed::CELLS);
    let left = printed_run(text, 2);
    assert_eq!((left.run.finished, left.run.end), (2, End::Whole));
    assert_eq!(left.values[1], Some(2));
}

#[test]
fn loop_runs_until_its_field_is_the_same() {
    let text = "loop M\nstep\nif M[u] < 182: M[u] := M[u] + 1\nend\ndone\n";
    let left = printed_run(text, 1000);
    assert_eq!((left.run.finished, left.run.end), (183, End::Whole));
    assert_eq!(
        left.values[1..]
            .iter()
            .step_by(2)
            .copied()
            .collect::<Vec<_>>(),
        [None, Some(182), Some(182)]
    );
    let left = printed_run(text, 182);
    assert_eq!(
        (left.run.finished, left.run.end),
        (182, End::BudgetExhausted)
    );
    let left = printed_run(text, 183);
    assert_eq!((left.run.finished, left.run.end), (183, End::Whole));
}

#[test]
fn loop_compares_whether_filled_as_well() {
    // M goes from missing to a filled 0: the same values, one of them filled now.
    let sizes = Sizes {
        records: 1,
        references: 0,
        measures: 1,
    };
    let text = "loop M\nstep\nM[u] := 0\nend\ndone\n";
    let left = run(sizes, &measured(&[None]), text, 9);
    assert_eq!((left.run.finished, left.values), (2, vec![Some(0)]));
}

#[test]
fn loop_looks_at_whole_passes_and_its_own_field() {
    let back_and_forth = "loop M\nstep\nM[u] := 1\nend\nstep\nM[u] := 0\nend\ndone\n";
    let sizes = Sizes {
        records: 2,
        references: 0,
        measures: 2,
    };
    let left = run(sizes, &measured(&[Some(0); 4]), back_and_forth, 9);
    assert_eq!((left.run.finished, left.run.end), (2, End::Whole));
    let other = "loop N\nstep\nM[u] := M[u] + 1\nend\ndone\n";
    assert_eq!(
        run(sizes, &measured(&[Some(0); 4]), other, 9).run.finished,
        1
    );
}

#[test]
fn endless_loop_exhausts_the_budget() {
    let text = "loop M\nstep\nM[u] := 1 - M[u]\nend\ndone\n";
    let left = printed_run(text, u16::MAX);
    assert_eq!(
        (left.run.finished, left.run.end),
        (u16::MAX, End::BudgetExhausted)
    );
    assert_eq!(left.cells, printed::CELLS);
}

#[test]
fn list_ranking_by_pointer_jumping() {
    // Source 001, figure 2.6: record 0 is the head and points at itself.
    let sizes = Sizes {
        records: 9,
        references: 1,
        measures: 1,
    };
    let values: Vec<Option<i32>> = (0..9)
        .flat_map(|u: i32| [Some((u - 1).max(0)), Some(i32::from(u > 0))])
        .collect();
    let text =
        "loop A\nstep\nif A[A[u]] != A[u]: M[u] := M[u] + M[A[u]]\nA[u] := A[A[u]]\nend\ndone\n";
    let left = run(sizes, &measured(&values), text, 1000);
    let ranks: Vec<Option<i32>> = left.values.iter().skip(1).step_by(2).copied().collect();
    assert_eq!(ranks, (0..9).map(Some).collect::<Vec<_>>());
    assert_eq!((left.run.finished, left.run.counts.exchanges), (4, 8));
}

#[test]
fn finished_steps_before_a_sum_out_of_range_count() {
    let left = printed_run(
        "step\nend\nloop M\nstep\nM[u] := M[u] + M[u]\nend\ndone\n",
        1000,
    );
    // 180 × 2^23 is the last that fits; the next sum is out of range.
    assert_eq!(left.run.finished, 24);
    assert_eq!(named(&left), Some((2, 1)));
    assert_eq!(left.cells, printed::CELLS);
}

/// The refusal of both machines for an output and scratch buffers of these lengths.
fn lent(text: &[u8], output: usize, values: usize, marks: usize) -> u32 {
    let register = printed::register();
    let scratch = Scratch { values, marks };
    let mut out = vec![7; output];
    let direct = run_direct(&register, text, 9, &mut out, scratch).map_err(|r| r.reason.number());
    if direct.is_err() {
        assert_eq!(out, vec![7; output]);
    }
    let messages =
        run_messages(&register, text, 9, &mut out, scratch).map_err(|r| r.reason.number());
    assert_eq!(direct.is_ok(), messages.is_ok());
    messages.err().unwrap_or(0)
}

#[test]
fn output_length_is_18_and_short_scratch_is_19() {
    // n × (L + r + m + 1) = 3 × (3 + 1 + 1 + 1)
    assert_eq!(lent(printed::TEXT, 42, 18, 18), 0);
    assert_eq!(lent(printed::TEXT, 41, 18, 18), 18);
    assert_eq!(lent(printed::TEXT, 43, 18, 18), 18);
    assert_eq!(lent(printed::TEXT, 42, 17, 18), 19);
    assert_eq!(lent(printed::TEXT, 42, 18, 17), 19);
    assert_eq!(lent(printed::TEXT, 0, 0, 0), 18);
    assert_eq!(lent(b"x", 0, 0, 0), 7);
    assert_eq!(lent(b"", 42, 9, 9), 0);
    assert_eq!(lent(b"", 42, 8, 9), 19);
    assert_eq!(lent(b"", 42, AMPLE.values, AMPLE.marks), 0);
}
