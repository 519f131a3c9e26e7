//! "Chains", refusals 7, 9, 10, 11, and single readings (demand 2).

use reference::printed;
use reference::reading::reading;
use reference::register::{Cell, Sizes, encode};

fn read(chain: &str, record: u64) -> Result<Option<i32>, (u32, usize)> {
    refuse(reading(&printed::register(), chain.as_bytes(), record))
}

fn refuse(
    answer: Result<Option<i32>, reference::refusal::Refusal>,
) -> Result<Option<i32>, (u32, usize)> {
    answer.map_err(|refusal| (refusal.reason.number(), refusal.line))
}

/// A chain of these letters, the outermost first.
fn chain(letters: &str) -> String {
    let opening: String = letters.chars().flat_map(|letter| [letter, '[']).collect();
    format!("{opening}u{}", "]".repeat(letters.len()))
}

#[test]
fn readings_of_the_printed_register() {
    assert_eq!(read("M[u]", 0), Ok(None));
    assert_eq!(read("M[u]", 1), Ok(Some(0)));
    assert_eq!(read("M[u]", 2), Ok(Some(180)));
    assert_eq!(read("u", 2), Ok(Some(2)));
    assert_eq!(read("A[A[u]]", 0), Ok(Some(2)));
    assert_eq!(read("A[A[u]]", 1), Ok(None));
    assert_eq!(read("M[A[A[u]]]", 0), Ok(Some(180)));
    assert_eq!(read("M[A[A[u]]]", 1), Ok(None));
    assert_eq!(read("M[A[u]]", 0), Ok(Some(0)));
    assert_eq!(read("M[A[u]]", 2), Ok(None));
}

#[test]
fn hops_go_from_the_inside_out() {
    let sizes = Sizes {
        records: 3,
        references: 2,
        measures: 0,
    };
    let cells = [1, 0, 0, 2, 0, 0].map(Cell::Measured);
    let file = encode(sizes, &cells);
    assert_eq!(refuse(reading(&file, b"B[A[u]]", 0)), Ok(Some(2)));
    assert_eq!(refuse(reading(&file, b"A[B[u]]", 0)), Ok(Some(1)));
}

#[test]
fn no_such_line_is_7() {
    let texts = [
        "", "v", "U", "uu", " u", "u ", "u\n", "M", "M[u", "M[u]]", "M[]", "[u]", "M[u]]]", "m[u]",
        "M(u)", "A[M[u]", "A[ u]", "3", "M[3]", "É[u]", "M[u]\n", "@[u]", "[[u]",
    ];
    for text in texts {
        assert_eq!(read(text, 0), Err((7, 1)), "{text:?}");
    }
}

#[test]
fn no_such_field_is_9() {
    for text in [
        "B[u]", "N[u]", "I[u]", "L[u]", "U[u]", "Z[u]", "M[B[u]]", "B[M[u]]",
    ] {
        assert_eq!(read(text, 0), Err((9, 1)), "{text}");
    }
}

#[test]
fn measure_inside_is_10() {
    assert_eq!(read("A[M[u]]", 0), Err((10, 1)));
    assert_eq!(read("M[M[u]]", 0), Err((10, 1)));
    assert_eq!(read("M[A[M[A[u]]]]", 0), Err((10, 1)));
}

#[test]
fn sixteen_hops_pass_and_seventeen_are_11() {
    assert_eq!(read(&chain(&"A".repeat(16)), 0), Ok(None));
    assert_eq!(read(&chain(&"A".repeat(17)), 0), Err((11, 1)));
    assert_eq!(read(&chain(&"A".repeat(100_000)), 0), Err((11, 1)));
    let sizes = Sizes {
        records: 2,
        references: 1,
        measures: 0,
    };
    let file = encode(sizes, &[1, 0].map(Cell::Measured));
    let turns = |hops| refuse(reading(&file, chain(&"A".repeat(hops)).as_bytes(), 0));
    assert_eq!(turns(15), Ok(Some(1)));
    assert_eq!(turns(16), Ok(Some(0)));
}

#[test]
fn lowest_number_first() {
    let long = "A".repeat(17);
    assert_eq!(read(&chain(&long), 3), Err((11, 1)));
    assert_eq!(read(&chain(&format!("{long}M")), 3), Err((10, 1)));
    assert_eq!(read(&chain(&format!("{long}MB")), 3), Err((9, 1)));
    assert_eq!(
        read(&format!("{}]", chain(&format!("{long}MB"))), 3),
        Err((7, 1))
    );
}

#[test]
fn record_not_below_n_is_16() {
    assert_eq!(read("u", 2), Ok(Some(2)));
    assert_eq!(read("u", 3), Err((16, 0)));
    assert_eq!(read("M[u]", u64::MAX), Err((16, 0)));
    assert_eq!(read("M[u]", 1 << 32), Err((16, 0)));
    let empty = encode(
        Sizes {
            records: 0,
            references: 1,
            measures: 1,
        },
        &[],
    );
    assert_eq!(refuse(reading(&empty, b"u", 0)), Err((16, 0)));
}

#[test]
fn register_comes_first_then_the_chain() {
    let mut file = printed::register();
    file[36] = 3;
    assert_eq!(refuse(reading(&file, b"", 3)), Err((3, 0)));
    assert_eq!(read("", 3), Err((7, 1)));
}
