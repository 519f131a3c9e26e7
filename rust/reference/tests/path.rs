//! The path behind a reading, M-109 of document 02.

use reference::path::{Hop, path};
use reference::printed;
use reference::register::{Cell, Sizes, encode};

fn listed(chain: &str, record: u64) -> Vec<Hop> {
    path(&printed::register(), chain.as_bytes(), record).expect("it is not refused")
}

fn hop(record: usize, field: usize, cell: Cell) -> Hop {
    Hop {
        record,
        field,
        cell,
    }
}

#[test]
fn each_hop_up_to_the_value() {
    let depth = [
        hop(0, 0, Cell::Measured(1)),
        hop(1, 0, Cell::Measured(2)),
        hop(2, 1, Cell::Measured(180)),
    ];
    assert_eq!(listed("M[A[A[u]]]", 0), depth);
    assert_eq!(listed("M[u]", 1), [hop(1, 1, Cell::Measured(0))]);
}

#[test]
fn the_first_gap_is_the_last_hop() {
    let gap = [hop(1, 0, Cell::Measured(2)), hop(2, 0, Cell::Missing)];
    assert_eq!(listed("M[A[A[u]]]", 1), gap);
    assert_eq!(listed("A[A[A[A[u]]]]", 1), gap);
    assert_eq!(listed("M[A[u]]", 2), [hop(2, 0, Cell::Missing)]);
    assert_eq!(listed("M[u]", 0), [hop(0, 1, Cell::Missing)]);
}

#[test]
fn at_u_alone_the_list_is_empty() {
    assert_eq!(listed("u", 2), []);
}

#[test]
fn a_cell_may_be_listed_twice() {
    let sizes = Sizes {
        records: 2,
        references: 1,
        measures: 0,
    };
    let file = encode(sizes, &[1, 0].map(Cell::Measured));
    let [to, back] = [hop(0, 0, Cell::Measured(1)), hop(1, 0, Cell::Measured(0))];
    assert_eq!(path(&file, b"A[A[A[u]]]", 0), Ok(vec![to, back, to]));
}

#[test]
fn refused_as_the_reading_is() {
    let number = |chain: &str, record| {
        let refusal = path(&printed::register(), chain.as_bytes(), record).unwrap_err();
        (refusal.reason.number(), refusal.line)
    };
    assert_eq!(number("M[u", 3), (7, 1));
    assert_eq!(number("B[u]", 3), (9, 1));
    assert_eq!(number("A[M[u]]", 3), (10, 1));
    assert_eq!(number("M[u]", 3), (16, 0));
    assert_eq!(path(&[], b"", 0).unwrap_err().reason.number(), 1);
}
