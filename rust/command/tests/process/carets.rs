//! The place in a line that a refusal points at.

use crate::folder::Folder;
use generate::neighbours;
use generate::random::Random;
use generate::registers;
use reference::register::Sizes;

const PAIRS: usize = 25;

/// The number after a name in a line of JSON.
fn number(json: &str, name: &str) -> Option<usize> {
    let (_, rest) = json.split_once(&format!("\"{name}\":"))?;
    let digits = rest.find(|c: char| !c.is_ascii_digit())?;
    rest[..digits].parse().ok()
}

/// Whether the place in the line is one that the refusal can be about.
fn fits(refusal: u32, sizes: Sizes, line: &[u8], place: usize) -> bool {
    let byte = line.get(place).copied();
    match refusal {
        7 => place <= line.len(),
        9 => byte.is_some_and(|b| b.is_ascii_uppercase() && sizes.field(b).is_none()),
        10 => byte.is_some(),
        11 => {
            line[place..]
                .iter()
                .filter(|b| b.is_ascii_uppercase())
                .count()
                > 16
        }
        12 => byte.is_some_and(|b| b == b'-' || b.is_ascii_digit()),
        24 => byte == Some(b'('),
        25 => byte.is_some_and(|b| b"+-<".contains(&b)),
        14 => line[..place].ends_with(b"remote ") && byte.is_some_and(|b| b.is_ascii_uppercase()),
        _ => place == 0,
    }
}

#[test]
fn each_refusal_points_at_its_place() {
    let folder = Folder::new("carets");
    let mut random = Random::new(36);
    for refusal in (6..=15).chain([24, 25]) {
        for _ in 0..PAIRS {
            let (sizes, pair) = match random.percent(50) {
                true => neighbours::pair(&mut random, refusal),
                false => neighbours::expression_pair(&mut random, refusal),
            };
            folder.write("register", registers::file(&mut random, sizes));
            folder.write("rules", &pair.refused);
            let said = folder.plot(&["check", "register", "rules", "--json"]);
            assert_eq!(said.status, 1);
            assert_eq!(number(&said.out, "refused"), Some(refusal as usize));
            assert_eq!(number(&said.out, "line"), Some(pair.line));
            let mut lines = pair.refused.split(|&byte| byte == b'\n');
            let line = lines.nth(pair.line.wrapping_sub(1));
            if let Some(column) = number(&said.out, "column") {
                let line = line.expect("a column is of a line");
                let shown = String::from_utf8_lossy(line);
                assert!(
                    fits(refusal, sizes, line, column - 1),
                    "{refusal}: {column} in {shown}"
                );
            } else {
                assert!(refusal == 6 || refusal == 8, "{}", said.err);
            }
            let passed = folder.plot_with(&["check", "register", "-"], &pair.accepted);
            assert_eq!(passed.status, 0, "{}", passed.err);
        }
    }
}

#[test]
fn places_in_expressions() {
    let nested = |groups: usize| format!("{}1{}", "(".repeat(groups), ")".repeat(groups));
    points_at(
        "carets-in-expressions",
        &[
            ("M[u] := (1", 11),
            ("M[u] := 1)", 10),
            ("M[u] := ()", 10),
            ("M[u] := - 1", 10),
            ("M[u] := -(1)", 10),
            ("M[u] := 1 <?= 2", 11),
            ("M[u] := 1 2", 11),
            ("if(1) < 2: M[u] := 1", 3),
            ("if 1 < 2 < 3: M[u] := 1", 10),
            ("remoteM[u] += 1", 7),
            (" M[u] := 1", 1),
            ("A[u] := u<?1", 12),
            ("A[u] := (u+u)", 11),
            ("M[u] := 1 + (2 <? A[u])", 19),
            ("M[u] := 1-2147483648", 11),
            (&format!("M[u] := 1 + {}", nested(9)), 21),
            (&format!("if 1 < 2: M[u] := 1{}", "+1".repeat(65)), 20 + 128),
        ],
    );
}

/// Each line, in a step by itself, is refused with a caret at its column.
fn points_at(name: &str, lines: &[(&str, usize)]) {
    let folder = Folder::with_cemetery(name);
    for &(line, column) in lines {
        let text = format!("step\n{line}\nend\n");
        let words = ["check", "full.register", "-", "--json"];
        let said = folder.plot_with(&words, text.as_bytes());
        let found = number(&said.out, "column");
        assert_eq!(found, Some(column), "{line}: {}", said.err);
        // Longer lines are shown from a later place on.
        if column <= 50 {
            let caret = format!("    | {}^\n", " ".repeat(column - 1));
            assert!(said.err.contains(&caret), "{}", said.err);
        }
    }
}

#[test]
fn places_by_hand() {
    let lines = [
        ("M[u] = 5", 6),
        ("M[u] := 5 ", 10),
        ("M[u] := 007", 10),
        ("M[u] := 5 * 5", 11),
        ("M[A[u]] := 5", 3),
        ("if M[u] = 5: M[u] := 1", 10),
        ("if M[u] == 5 M[u] := 1", 14),
        ("remote M[A[u]] := 5", 16),
        ("M[u] := A[M[u]]", 11),
        ("M[u] := A[u]", 9),
        ("A[u] := 5", 9),
        ("A[u] := A[u] + B[u]", 14),
        ("if A[u] == 5: M[u] := 1", 12),
        ("if A[u] == u: M[u] := u", 23),
        ("remote M[M[u]] += 1", 10),
        ("remote A[u] += u", 13),
        ("M[u] := 1 - 2147483648", 13),
        ("M[u] := 1.8", 12),
        ("M[u] := 1.", 11),
        ("M[u] := 1.800", 13),
        ("M[u] := 1.80.20", 13),
        ("M[u] := 1,80", 10),
        ("M[u] := .80", 9),
        ("M[u] := 01.80", 10),
        ("M[u] := -0", 10),
        ("M[u] := -0.00", 10),
        ("M[u] := 1.80 + 21474836.48", 16),
        ("A[u] := 1.80", 9),
    ];
    points_at("carets-by-hand", &lines);
}
