//! What the tables of the manual say of rules is so.

use plot::{Kind, Machine, Register, Sizes, Text};
use std::fs;
use std::path::Path;

/// The rows of the tables in a section of the manual, by their columns.
fn rows(heading: &str) -> Vec<Vec<String>> {
    let place = Path::new(env!("CARGO_MANIFEST_DIR")).join("../../docs/MANUAL.md");
    let manual = fs::read_to_string(place).expect("the manual is there");
    let mut sections = manual.split("\n#");
    let section =
        sections.find(|section| section.trim_start_matches('#').trim().starts_with(heading));
    let lines = section.expect("it has the section").lines();
    let columns = |line: &str| line.split('|').map(|cell| cell.trim().to_owned()).collect();
    lines
        .filter(|line| line.starts_with("| `"))
        .map(columns)
        .collect()
}

/// What stands in code in a cell of a table.
fn code(cell: &str) -> impl Iterator<Item = &str> {
    cell.split('`').skip(1).step_by(2)
}

/// One record with A, M and N, all unfilled.
fn unfilled() -> Register {
    let sizes = Sizes {
        records: 1,
        references: 1,
        measures: 2,
    };
    Register::from_cells(sizes, &[None; 3]).expect("it loads")
}

fn in_step(rule: &str) -> String {
    format!("step\n{rule}\nend\n")
}

#[test]
fn minuses() {
    let register = unfilled();
    let refusal = |expression: &str| {
        let text = in_step(&format!("M[u] := {expression}"));
        Text::check(&register, text)
            .err()
            .map(|refusal| refusal.kind)
    };
    let rows = rows("The grammar");
    assert_eq!(rows.len(), 4);
    for row in rows {
        for expression in code(&row[1]) {
            assert_eq!(refusal(expression), None, "{expression}");
        }
        for expression in code(&row[2]) {
            assert_eq!(refusal(expression), Some(Kind::Form), "{expression}");
        }
    }
}

#[test]
fn sums_out_of_range() {
    let register = unfilled();
    let rows = rows("Sums out of range");
    assert_eq!(rows.len(), 10);
    for row in rows {
        let rule = code(&row[1]).next().expect("a rule");
        let run = register.run(in_step(rule), Machine::Messages, 1);
        let run = run.expect("it passes");
        let stored = run.register.cell(0, 'N').and_then(|cell| cell.value());
        let words: Vec<&str> = row[2].split([' ', ',', ':']).collect();
        let (refusal, value) = match words[..] {
            ["21", ..] => (Some(Kind::Range), None),
            ["nothing", ..] => (None, None),
            ["N", "becomes", value, ..] => (None, value.parse().ok()),
            _ => panic!("{rule}: {}", row[2]),
        };
        assert_eq!((run.end.refusal(), stored), (refusal, value), "{rule}");
    }
}
