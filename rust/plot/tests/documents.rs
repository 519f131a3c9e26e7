//! The header and the manual have the numbers and names that this crate has.

use plot::{Kind, lent};
use std::fs;
use std::path::Path;

fn document(name: &str) -> String {
    let root = Path::new(env!("CARGO_MANIFEST_DIR")).join("../..");
    fs::read_to_string(root.join(name)).expect("the document is there")
}

/// `FILE_LENGTH` for `FileLength`.
fn constant(kind: Kind) -> String {
    let name = format!("{kind:?}");
    let letters = name.char_indices().map(|(place, letter)| {
        let gap = if place > 0 && letter.is_uppercase() {
            "_"
        } else {
            ""
        };
        format!("{gap}{}", letter.to_ascii_uppercase())
    });
    letters.collect()
}

/// The number and the comment of a name in the header.
fn in_header(header: &str, name: &str) -> (usize, String) {
    let mut lines = header.lines().map(str::trim);
    let line = lines.find_map(|line| line.strip_prefix(&format!("{name} = ")));
    let line = line.unwrap_or_else(|| panic!("{name} is not in the header"));
    let (number, comment) = line.split_once("/* ").expect("it has a comment");
    let number = number.trim().trim_end_matches(',');
    let comment = comment.trim_end_matches("*/").trim();
    (number.parse().expect("it is a number"), comment.to_owned())
}

#[test]
fn refusals_of_the_header() {
    let header = document("include/plot.h");
    for kind in Kind::all() {
        let name = format!("PLOT_REFUSAL_{}", constant(kind));
        let expected = (kind.number() as usize, kind.meaning().to_owned());
        assert_eq!(in_header(&header, &name), expected);
    }
    assert_eq!(header.matches("PLOT_REFUSAL_").count(), Kind::all().count());
}

#[test]
fn places_and_lengths_of_the_header() {
    let header = document("include/plot.h");
    for (name, number) in [
        ("ANSWER_LINE", lent::LINE),
        ("ANSWER_FINISHED", lent::FINISHED),
        ("ANSWER_EXCHANGES", lent::EXCHANGES),
        ("ANSWER_MESSAGES", lent::LETTERS),
        ("ANSWER_RECORD", lent::RECORD),
        ("ANSWER_FIELD", lent::FIELD),
        ("ANSWER_FILLED", lent::FILLED),
        ("ANSWER_HOPS", lent::HOPS),
        ("ANSWER_STEPS", lent::STEPS),
        ("ANSWER_LINES", lent::LINES),
        ("ANSWER_MOST_LINES", lent::MOST_LINES),
        ("ANSWER_REMOTE", lent::REMOTE),
        ("ANSWER_LENGTH", lent::Answer::default().len()),
        ("HOPS_LENGTH", lent::MAX_HOPS),
        ("LINES_LENGTH", lent::MAX_LINES),
        ("CHAINS_LENGTH", lent::MAX_LINES * lent::CHAIN_BYTES),
        ("CHAIN_BYTES", lent::CHAIN_BYTES),
        ("BACK", lent::BACK.into()),
        ("READ", lent::READ.into()),
    ] {
        assert_eq!(
            in_header(&header, &format!("PLOT_{name}")).0,
            number,
            "{name}"
        );
    }
}

#[test]
fn refusals_of_the_manual() {
    let manual = document("docs/MANUAL.md");
    for kind in Kind::all() {
        let row = format!("\n| {} | {} | ", kind.number(), kind.meaning());
        assert_eq!(manual.matches(&row).count(), 1, "{row}");
    }
}

#[test]
fn kinds_and_numbers() {
    let numbers = (1..=21).chain([24, 25]);
    assert_eq!(numbers.clone().count(), Kind::all().count());
    for (number, kind) in numbers.zip(Kind::all()) {
        assert_eq!((Kind::of(number), kind.number()), (kind, number));
        assert!(!kind.advice().is_empty());
    }
    for number in [0, 22, 23, 26, u32::MAX] {
        assert_eq!(Kind::of(number), Kind::Other(number));
        assert_eq!(Kind::Other(number).number(), number);
    }
}
