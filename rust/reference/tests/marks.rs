//! Worked-out cells, M-107 of document 02: what each rule makes of a mark. Every run
//! is done by both machines.

mod common;

use common::{Left, measured, run};
use reference::marks::Transition;
use reference::printed;
use reference::register::Cell::{self, Measured, Missing, WorkedOut};
use reference::register::Sizes;

/// Three records with a reference A to the next and a measure M.
const SIZES: Sizes = Sizes {
    records: 3,
    references: 1,
    measures: 1,
};

/// A text over records that refer to one another in turn, with these measures.
fn left(measures: [Cell; 3], text: &str) -> Left {
    let references = measured(&[Some(1), Some(2), Some(0)]);
    let cells: Vec<Cell> = references
        .into_iter()
        .zip(measures)
        .flat_map(|(a, m)| [a, m])
        .collect();
    run(SIZES, &cells, text, 100)
}

/// The measures behind a step of these rules, and how often a transition happened.
fn step(measures: [Cell; 3], rules: &str, transition: Transition) -> ([Cell; 3], u64) {
    let left = left(measures, &format!("step\n{rules}\nend\n"));
    let cells = [1, 3, 5].map(|place| left.cells[place]);
    (cells, left.run.transitions.of(transition))
}

#[test]
fn assigned_is_worked_out() {
    let before = [Measured(5), WorkedOut(5), Missing];
    let five = [WorkedOut(5); 3];
    assert_eq!(
        step(before, "M[u] := 5", Transition::AssignedSame),
        (five, 1)
    );
    assert_eq!(
        step(before, "M[u] := 5", Transition::AssignedWorkedOut),
        (five, 1)
    );
    assert_eq!(
        step(before, "M[u] := 5", Transition::AssignedUnfilled),
        (five, 1)
    );
    assert_eq!(
        step(before, "M[u] := 6", Transition::AssignedMeasured),
        ([WorkedOut(6); 3], 1)
    );
    assert_eq!(step(before, "M[u] := 6", Transition::AssignedSame).1, 0);
}

#[test]
fn a_mark_does_not_travel_with_a_reading() {
    let before = [Measured(1), WorkedOut(2), Missing];
    let behind = [WorkedOut(2), WorkedOut(2), WorkedOut(1)];
    assert_eq!(
        step(before, "M[u] := M[A[u]]", Transition::AssignedMeasured),
        (behind, 1)
    );
    let left = run(
        printed::SIZES,
        &printed::CELLS,
        "step\nA[u] := A[u]\nend\n",
        1,
    );
    assert_eq!(left.cells[..2], [WorkedOut(1), Missing]);
}

#[test]
fn a_gap_leaves_value_and_mark() {
    let before = [Measured(1), Measured(2), Missing];
    let behind = [WorkedOut(2), Measured(2), WorkedOut(1)];
    assert_eq!(
        step(before, "M[u] := M[A[u]]", Transition::AssignedMeasured).0,
        behind
    );
    assert_eq!(
        step(before, "if 1 < 0: M[u] := 3", Transition::AssignedMeasured).0,
        before
    );
}

#[test]
fn added_is_worked_out_where_it_reaches_a_filled_cell() {
    let before = [Measured(5), WorkedOut(5), Missing];
    let add = |rules: &str, transition| step(before, rules, transition);
    let six = [WorkedOut(6), WorkedOut(6), Missing];
    assert_eq!(add("remote M[u] += 1", Transition::AddedMeasured), (six, 1));
    assert_eq!(add("remote M[u] += 1", Transition::AddedUnfilled), (six, 1));
    let five = [WorkedOut(5), WorkedOut(5), Missing];
    assert_eq!(add("remote M[u] += 0", Transition::AddedNothing), (five, 1));
    let cancelling = "remote M[u] += 3\nremote M[u] += -3";
    assert_eq!(add(cancelling, Transition::AddedNothing), (five, 1));
    let elsewhere = "if M[u] == 5: remote M[A[u]] += 0";
    assert_eq!(add(elsewhere, Transition::AddedWorkedOut).0, before);
}

#[test]
fn least_is_worked_out_where_it_changes_or_fills() {
    let before = [Measured(5), WorkedOut(5), Missing];
    let least = |rules: &str, transition| step(before, rules, transition);
    let four = [WorkedOut(4); 3];
    assert_eq!(
        least("remote M[u] <?= 4", Transition::LeastChanges),
        (four, 1)
    );
    assert_eq!(
        least("remote M[u] <?= 4", Transition::LeastFills),
        (four, 1)
    );
    for amount in [5, 6] {
        let behind = [Measured(5), WorkedOut(5), WorkedOut(amount)];
        let rules = format!("remote M[u] <?= {amount}");
        assert_eq!(least(&rules, Transition::LeastLeavesMeasured), (behind, 1));
    }
}

#[test]
fn remote_writes_meet_what_the_local_rules_leave() {
    let before = [Measured(5), Measured(9), Missing];
    let rules = "if M[u] == 9: M[u] := 5\nremote M[u] <?= 5";
    let behind = [Measured(5), WorkedOut(5), WorkedOut(5)];
    assert_eq!(
        step(before, rules, Transition::LeastLeavesWorkedOut),
        (behind, 1)
    );
}

#[test]
fn a_loop_that_only_marks_is_at_rest() {
    let text = "loop M\nstep\nM[u] := 5\nend\ndone\n";
    let rest = left([Measured(5); 3], text);
    assert_eq!(
        (
            rest.run.finished,
            rest.run.transitions.of(Transition::AtRest)
        ),
        (1, 1)
    );
    assert_eq!((rest.cells[1], rest.values[1]), (WorkedOut(5), Some(5)));
    let fills = left([Measured(5), Measured(5), Missing], text);
    assert_eq!(
        (
            fills.run.finished,
            fills.run.transitions.of(Transition::AtRest)
        ),
        (2, 0)
    );
}

#[test]
fn after_20_and_21_marks_are_as_loaded() {
    let before = [Measured(5), WorkedOut(5), Missing];
    for text in [
        "step\nM[u] := 1\nend\nstep\nM[u] := 2147483647 + 1\nend\n",
        "step\nM[u] := 1\nend\nloop M\nstep\nM[u] := 1 - M[u]\nend\ndone\n",
    ] {
        let left = left(before, text);
        assert_ne!(left.run.end.number(), 0);
        assert_eq!([1, 3, 5].map(|place| left.cells[place]), before);
    }
}
