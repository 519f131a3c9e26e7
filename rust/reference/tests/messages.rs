//! "The machine by letters", the look, and "A printed run".

mod common;

use common::{measured, run};
use reference::messages::inspect;
use reference::print::print;
use reference::printed;
use reference::register::{Cell, Sizes, encode};

/// Exchanges and letters of a step of these rules over the printed register.
fn counts(rules: &str) -> (u64, u64) {
    let text = format!("step\n{rules}\nend\n");
    let counts = run(printed::SIZES, &printed::CELLS, &text, 9).run.counts;
    (counts.exchanges, counts.letters)
}

#[test]
fn printed_run() {
    assert_eq!(print(&printed::register(), printed::TEXT), printed::OUTPUT);
}

#[test]
fn no_records_still_make_their_exchanges() {
    let sizes = Sizes {
        records: 0,
        ..printed::SIZES
    };
    let text = std::str::from_utf8(printed::TEXT).unwrap();
    let left = run(sizes, &[], text, 9);
    assert_eq!((left.run.counts.exchanges, left.run.counts.letters), (3, 0));
    let output = print(&encode(sizes, &[]), printed::TEXT);
    assert_eq!(output, "0 records 1 steps 3 exchanges 0 letters\n");
}

#[test]
fn exchanges_are_the_most_rounds_and_one_for_remote_rules() {
    assert_eq!(counts("M[u] := 1"), (0, 0));
    assert_eq!(counts("M[u] := M[u]"), (0, 0));
    assert_eq!(counts("M[u] := M[A[u]]"), (2, 4));
    assert_eq!(counts("M[u] := M[A[A[A[u]]]]").0, 3);
    assert_eq!(counts("M[u] := M[A[u]]\nM[u] := M[A[A[u]]]").0, 3);
    assert_eq!(counts("remote M[A[u]] += 1"), (1, 2));
    assert_eq!(counts("remote M[A[A[u]]] += 1"), (3, 4));
    assert_eq!(counts("if 1 < 0: remote M[u] += 1"), (1, 0));
}

#[test]
fn letters_to_oneself_and_to_missing_cells_count() {
    assert_eq!(counts("remote M[u] += 1"), (1, 3));
    assert_eq!(counts("remote M[u] += M[u]"), (1, 2));
    assert_eq!(counts("if M[u] != 0: remote M[u] <?= 1"), (1, 1));
    let sizes = Sizes {
        records: 1,
        references: 1,
        measures: 0,
    };
    let left = run(
        sizes,
        &measured(&[Some(0)]),
        "step\nA[u] := A[A[u]]\nend\n",
        9,
    );
    assert_eq!((left.run.counts.exchanges, left.run.counts.letters), (2, 2));
    assert_eq!(left.values, [Some(0)]);
}

#[test]
fn counts_are_summed_over_the_finished_steps() {
    let text = "step\nM[u] := M[A[u]]\nend\n".repeat(2)
        + "step\nM[u] := 2147483647 + 1\nremote M[u] += 1\nend\n";
    let left = run(printed::SIZES, &printed::CELLS, &text, 9);
    assert_eq!((left.run.finished, left.run.end.number()), (2, 21));
    assert_eq!(left.cells, printed::CELLS);
    assert_eq!((left.run.counts.exchanges, left.run.counts.letters), (4, 8));
}

/// The places of the printed step after round t, with rubbish behind the last line.
fn look(t: u16) -> Vec<Option<i32>> {
    let (mut values, mut marks) = ([77; 20], [9; 20]);
    let lines = inspect(
        &printed::register(),
        printed::TEXT,
        1,
        t,
        &mut values,
        &mut marks,
    );
    assert_eq!(lines, Ok(3));
    assert_eq!((&values[9..], &marks[9..]), (&[77; 11][..], &[9; 11][..]));
    let cell = |(value, mark): (&i64, &u8)| match mark {
        0 => {
            assert_eq!(*value, 0);
            None
        }
        _ => Some(i32::try_from(*value).unwrap()),
    };
    values.iter().zip(&marks).take(9).map(cell).collect()
}

#[test]
fn look_after_each_round() {
    let nothing = [None; 3];
    let back = [Some(1), Some(2), None];
    let back_two = [Some(2), None, None];
    let read = [Some(180), None, None];
    assert_eq!(look(0), [nothing, nothing, nothing].concat());
    assert_eq!(look(1), [back, nothing, nothing].concat());
    assert_eq!(look(2), [back, back_two, nothing].concat());
    assert_eq!(look(3), [back, back_two, read].concat());
    assert_eq!(look(u16::MAX), look(3));
}

#[test]
fn look_leaves_places_behind_the_last_line() {
    let text = [b"step\nA[u] := A[A[u]]\nend\n", printed::TEXT].concat();
    let (mut values, mut marks) = ([77; 18], [9; 18]);
    let lines = inspect(&printed::register(), &text, 1, 9, &mut values, &mut marks);
    assert_eq!(lines, Ok(2));
    assert_eq!(values[..6], [1, 2, 0, 2, 0, 0]);
    assert_eq!(marks[..6], [1, 1, 0, 1, 0, 0]);
    assert_eq!((&values[6..], &marks[6..]), (&[77; 12][..], &[9; 12][..]));
}

#[test]
fn look_is_refused_in_order() {
    let refusal = |text: &[u8], step, length: usize| {
        let (mut values, mut marks) = (vec![5; length], vec![5; length]);
        let answer = inspect(&printed::register(), text, step, 9, &mut values, &mut marks);
        let number = answer.map_or_else(|refusal| refusal.reason.number(), |_| 0);
        assert!(number == 0 || (values == vec![5; length] && marks == vec![5; length]));
        number
    };
    assert_eq!(refusal(printed::TEXT, 1, 18), 0);
    assert_eq!(refusal(printed::TEXT, 1, 17), 19);
    assert_eq!(refusal(printed::TEXT, 0, 17), 17);
    assert_eq!(refusal(printed::TEXT, 2, 18), 17);
    assert_eq!(refusal(b"x", 2, 0), 7);
    let longer_elsewhere = [b"step\nend\n", printed::TEXT].concat();
    assert_eq!(refusal(&longer_elsewhere, 1, 17), 19);
    assert_eq!(refusal(&longer_elsewhere, 1, 18), 0);
}

#[test]
fn program_prints_refusals() {
    let register = printed::register();
    assert_eq!(print(&[], printed::TEXT), "refused 1 at 0\n");
    assert_eq!(print(&register, b"step\nx\n"), "refused 7 at 2\n");
    assert_eq!(print(&register, &[b'\n'; 8193]), "refused 6 at 0\n");
    assert_eq!(print(&register, b"step\n"), "refused 8 at 2\n");
    assert_eq!(
        print(&register, b"step\nend\nstep\nM[u] := 2147483647 + 1\nend\n"),
        "refused 21 at 1\n"
    );
    let endless = b"loop M\nstep\nM[u] := 1 - M[u]\nend\ndone\n";
    assert_eq!(print(&register, endless), "refused 20 at 1000\n");
    assert_eq!(
        print(&register, b""),
        "3 records 0 steps 0 exchanges 0 letters\n0 1 -\n1 2 0\n2 - 180\n"
    );
}

#[test]
fn program_takes_512_bytes() {
    let sizes = Sizes {
        records: 100,
        references: 0,
        measures: 1,
    };
    let largest = encode(sizes, &[Cell::Missing; 100]);
    assert_eq!(largest.len(), 512);
    assert!(print(&largest, b"").starts_with("100 records 0 steps"));
    let mut larger = largest;
    larger.push(0);
    assert_eq!(print(&larger, &[b'x'; 9000]), "too large\n");
}
