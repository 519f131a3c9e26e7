//! `plot read` and `plot path`.

use crate::folder::Folder;
use generate::random::Random;
use generate::{chains, registers};
use reference::path::Hop;
use reference::reading::reading;
use reference::register::{Cell, Sizes};

#[test]
fn a_reading_is_filled_or_not() {
    let folder = Folder::with_cemetery("read");
    let read = |chain, record| folder.plot(&["read", "full.register", chain, record]);
    read("M[u]", "3").is("0\n");
    read("M[u]", "9").is("-\n");
    read("u", "11").is("11\n");
    read("N[A[A[u]]]", "4").is("40\n");
    let json = |record| folder.plot(&["read", "full.register", "M[u]", record, "--json"]);
    json("3").is("{\"filled\":true,\"value\":0,\"worked_out\":false}\n");
    json("9").is("{\"filled\":false,\"value\":null,\"worked_out\":false}\n");
}

#[test]
fn a_path_tells_why() {
    let folder = Folder::with_cemetery("path");
    let path = |chain, record| folder.plot(&["path", "full.register", chain, record]);
    path("N[A[A[u]]]", "4").is("  hop  record  field  cell
    1       4  A        10
    2      10  A         9
    3       9  N        40
The reading is filled: N of record 9 is 40.
");
    path("N[A[A[u]]]", "0").has("The reading is unfilled: A of record 9 is a gap, at hop 2.\n");
    path("u", "4")
        .is("The chain is u: it has no hop, and its value is the record's own number, 4.\n");
}

#[test]
fn chains_and_records_that_are_refused() {
    let folder = Folder::with_cemetery("read-refused");
    for command in ["read", "path"] {
        let read = |chain: &str, record| folder.plot(&[command, "full.register", chain, record]);
        read("M[A[u]", "0").fails(
            1,
            "refused 7: this does not have the right form\n  1 | M[A[u]\n    |       ^\n",
        );
        read("", "0").fails(1, "refused 7: this does not have the right form");
        read("M[Z[u]]", "0").fails(1, "refused 9: a letter names no field");
        read("A[M[u]]", "0").fails(1, "  1 | A[M[u]]\n    |   ^\n");
        let long = format!("{}u{}", "A[".repeat(17), "]".repeat(17));
        read(&long, "0").fails(1, "refused 11: a chain has more than 16 hops");
        read("u", "12")
            .fails(1, "record 12: refused 16")
            .fails(1, "the records 0 to 11.");
    }
}

#[test]
fn several_records_at_once() {
    let folder = Folder::with_cemetery("read-several");
    let read = |words: &[&str]| folder.plot(&[&["read", "full.register", "M[u]"], words].concat());
    read(&["3", "10-11", "0"]).is("  record  reading
       3        0
      10       25
      11        -
       0      180
");
    read(&["4-4"]).is("210\n");
    assert_eq!(read(&["--all"]).out.lines().count(), 1 + 12);
    read(&["9", "3", "--json"]).is(
        "{\"readings\":[{\"record\":9,\"filled\":false,\"value\":null,\"worked_out\":false},\
         {\"record\":3,\"filled\":true,\"value\":0,\"worked_out\":false}]}\n",
    );
    let path = |words: &[&str]| folder.plot(&[&["path", "full.register", "M[u]"], words].concat());
    path(&["3", "9"]).is("record 3:
  hop  record  field  cell
    1       3  M         0
The reading is filled: M of record 3 is 0.

record 9:
  hop  record  field  cell
    1       9  M         -
The reading is unfilled: M of record 9 is a gap, at hop 1.
");
    path(&["3-3", "9", "--json"]).has("{\"paths\":[{\"record\":3,\"hops\":[{");
}

#[test]
fn records_that_cannot_be_asked_for() {
    let folder = Folder::with_cemetery("read-ranges");
    let read = |words: &[&str]| folder.plot(&[&["read", "full.register", "M[u]"], words].concat());
    read(&[]).fails(2, "RECORD is missing, or --all");
    read(&["3", "--all"]).fails(2, "--all and RECORD exclude each other");
    read(&["7-3"]).fails(2, "the range 7-3 ends before it begins");
    for word in ["3-", "3-x", "--", "1-2-3", "x", "3,4", "0x1"] {
        read(&["--", word]).fails(2, "RECORD is a number from 0 on, a range");
    }
    read(&["10-99999999999999"]).fails(1, "record 12: refused 16");
    read(&["50-60"]).fails(1, "record 50: refused 16");
    let all = |chain| folder.plot_with(&["read", "-", chain, "--all"], &[0; 12]);
    all("u").is("  record  reading\n");
    all("Z[u]").fails(1, "refused 9");
}

/// What a rule has worked out is told from what was measured.
#[test]
fn worked_out_values_are_marked() {
    let folder = Folder::with_cemetery("read-marks");
    folder.plot(&["run", "full.register", "depths.rules", "--in-place"]);
    let plot = |command, record| folder.plot(&[command, "full.register", "N[A[u]]", record]);
    plot("read", "4").is("65~\n");
    plot("read", "0").is("40\n");
    plot("path", "4")
        .has("    2      10  N       65~\n")
        .has("The reading is filled: N of record 10 is 65~, which a rule has worked out.\n");
    let json = folder.plot(&["path", "full.register", "N[A[u]]", "4", "--json"]);
    json.has("\"cell\":65,\"worked_out\":true}],\"filled\":true,\"value\":65,\"worked_out\":true}");
}

#[test]
fn a_refused_chain_has_one_line() {
    let folder = Folder::with_cemetery("read-line");
    for (chain, expected) in [
        ("M[Z[u]]", "{\"refused\":9,\"line\":1,\"column\":3,"),
        ("M", "{\"refused\":7,\"line\":1,\"column\":2,"),
    ] {
        let json = folder.plot(&["read", "full.register", chain, "0", "--json"]);
        assert!(json.out.starts_with(expected), "{}", json.out);
        assert!(!json.err.contains("at line"), "{}", json.err);
    }
}

/// The value of each reading and the hops of its path are the reference's.
#[test]
fn generated_readings() {
    let folder = Folder::new("read-generated");
    let mut random = Random::new(32);
    for _ in 0..150 {
        let sizes = registers::sizes(&mut random);
        let bytes = registers::file(&mut random, sizes);
        let chain = chains::any(&mut random, sizes);
        let Ok(chain) = str::from_utf8(&chain) else {
            continue;
        };
        let record = random.below(sizes.records + 2);
        let words = ["--", "-", chain, &record.to_string()];
        if chain.contains('\0') {
            continue;
        }
        let read = folder.plot_with(&[&["read"], &words[..]].concat(), &bytes);
        let path = folder.plot_with(&[&["path", "--json"], &words[..]].concat(), &bytes);
        match reading(&bytes, chain.as_bytes(), record as u64) {
            Err(refusal) => {
                let refused = format!("refused {}", refusal.reason.number());
                assert!(read.fails(1, &refused).err.contains(&refused));
                assert_eq!(path.status, 1);
            }
            Ok(value) => {
                let hops = reference::path::path(&bytes, chain.as_bytes(), record as u64);
                let hops = hops.expect("the reading is not refused");
                let mark = if ends_worked_out(&hops) { "~" } else { "" };
                read.is(&format!("{}{mark}\n", shown(value, "-")));
                path.is(&path_json(sizes, &hops, value));
            }
        }
    }
}

/// Whether the reading is a worked-out cell.
fn ends_worked_out(hops: &[Hop]) -> bool {
    hops.last().is_some_and(|hop| is_worked_out(hop.cell))
}

fn is_worked_out(cell: Cell) -> bool {
    matches!(cell, Cell::WorkedOut(_))
}

fn shown(value: Option<i32>, unfilled: &str) -> String {
    value.map_or(unfilled.to_owned(), |value| value.to_string())
}

fn path_json(sizes: Sizes, hops: &[Hop], reading: Option<i32>) -> String {
    let hop = |hop: &Hop| {
        format!(
            "{{\"record\":{},\"field\":\"{}\",\"cell\":{},\"worked_out\":{}}}",
            hop.record,
            char::from(sizes.letter(hop.field)),
            shown(hop.cell.value(), "null"),
            is_worked_out(hop.cell)
        )
    };
    let worked_out = ends_worked_out(hops);
    let hops: Vec<String> = hops.iter().map(hop).collect();
    format!(
        "{{\"hops\":[{}],\"filled\":{},\"value\":{},\"worked_out\":{worked_out}}}\n",
        hops.join(","),
        reading.is_some(),
        shown(reading, "null")
    )
}
