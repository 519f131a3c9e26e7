//! What `plot check` tells behind the first refusal.

use crate::folder::Folder;
use generate::cases::Case;
use generate::random::Random;

/// The numbers behind a name in a line of JSON.
fn numbers(json: &str, name: &str) -> Vec<usize> {
    let name = format!("\"{name}\":");
    let parts = json.split(&name).skip(1);
    let number = |part: &str| {
        let end = part.find(|c: char| !c.is_ascii_digit());
        part[..end.unwrap_or(part.len())].parse().expect("a number")
    };
    parts.map(number).collect()
}

/// The refusals of a text: numbers and lines.
fn refusals(folder: &Folder, text: &[u8]) -> Vec<(usize, usize)> {
    let said = folder.plot_with(&["check", "full.register", "-", "--json"], text);
    assert_eq!(said.status, 1, "{}", said.err);
    let (refused, lines) = (numbers(&said.out, "refused"), numbers(&said.out, "line"));
    // People are told the same.
    assert_eq!(said.err.matches(": refused ").count(), refused.len());
    assert!(said.err.starts_with("plot: standard input: refused "));
    refused.into_iter().zip(lines).collect()
}

#[test]
fn every_refused_line_is_told() {
    let folder = Folder::with_cemetery("further");
    let cases: [(&str, &[(usize, usize)]); 17] = [
        (
            "step\nM[u] := Z[u]\nM[u] := A[u]\nM[u] := 007\nend\n",
            &[(9, 2), (10, 3), (7, 4)],
        ),
        // What a word was meant to be opens and closes steps and loops.
        (
            "STEP\nM[u] := 1\nEND\nLoop M\nstep\nend\ndone\n",
            &[(7, 1), (7, 3), (7, 4)],
        ),
        ("loop Z\nstep\nend\ndone\n", &[(9, 1)]),
        (
            "loop\nstep 1\nend.\ndone;\n",
            &[(7, 1), (7, 2), (7, 3), (7, 4)],
        ),
        // What is not closed, at the next that opens, and at the end.
        ("step\nstep\nend\nloop M\nstep\nend\n", &[(8, 2), (8, 7)]),
        ("step\nloop M\nstep\nend\ndone\n", &[(8, 2)]),
        ("loop M\nstep\ndone\nM[u] := x\n", &[(8, 3), (7, 4)]),
        ("step\nM[u] := (1\n", &[(7, 2), (8, 3)]),
        // What is not opened.
        (
            "M[u] := 1\nM[u] := Z[u]\nend\nstep\nend\n",
            &[(8, 1), (9, 2)],
        ),
        (
            "M[u] := 1\nstep\nend\nend\ndone\n",
            &[(8, 1), (8, 4), (8, 5)],
        ),
        (
            "loop M\nloop N\nstep\nend\ndone\ndone\nstep\nx\nend\n",
            &[(8, 2), (7, 8)],
        ),
        ("loop M\ndone\nstep\n\nend\n", &[(8, 2), (7, 4)]),
        // Marks of other programs are told once.
        (
            "\u{feff}step\r\nM[u] := Z[u]\r\nend\r\n",
            &[(7, 1), (7, 1), (9, 2)],
        ),
        (
            "step\nremote M[u] += 1\nremote M[u] <?= 1\nremote M[u] <?= Z[u]\nend\n",
            &[(14, 3), (9, 4)],
        ),
        ("step\nM[u] := 1 + A[u]\nend", &[(10, 2), (7, 3)]),
        ("step\nM[u] := 1", &[(7, 2), (8, 3)]),
        ("step\nM[u] := Z[u]", &[(7, 2), (9, 2), (8, 3)]),
    ];
    for (text, expected) in cases {
        assert_eq!(refusals(&folder, text.as_bytes()), expected, "{text}");
    }
}

#[test]
fn limits_are_told_once_and_looked_behind() {
    let folder = Folder::with_cemetery("further-limits");
    let rules = "M[u] := 1\n".repeat(40);
    let text = format!("step\n{rules}M[u] := Z[u]\nend\nstep\n{rules}end\n");
    assert_eq!(
        refusals(&folder, text.as_bytes()),
        [(13, 34), (9, 42), (13, 77)]
    );
    let steps = "step\nend\n".repeat(70);
    let text = format!("{steps}loop M\n{steps}x\ndone\nend\n");
    assert_eq!(
        refusals(&folder, text.as_bytes()),
        [(13, 65), (7, 282), (8, 284)]
    );
    let rules = ["A", "B", "C", "D"].map(|one| {
        let chains = ["A", "B", "C", "D"].map(|other| {
            ["A", "B", "C", "D"].map(|inner| format!("M[{one}[{other}[{inner}[u]]]]"))
        });
        format!("M[u] := {}\n", chains.concat().join(" + "))
    });
    let text = format!("step\n{}end\nstep\nx\nend\n", rules.concat());
    assert_eq!(refusals(&folder, text.as_bytes()), [(15, 6), (7, 8)]);
    let text = "x".repeat(9000);
    assert_eq!(refusals(&folder, text.as_bytes()), [(6, 0)]);
    let text = "\n".repeat(8000);
    assert_eq!(refusals(&folder, text.as_bytes()).len(), 40);
}

/// Of texts that pass, with some rules broken, exactly these are told.
#[test]
fn broken_rules_are_found() {
    let folder = Folder::new("further-generated");
    let mut random = Random::new(41);
    let mut found = 0;
    for _ in 0..80 {
        let case = Case::small(&mut random);
        folder.write("full.register", &case.register);
        let mut expected = Vec::new();
        let lines = case.text.split_inclusive(|&byte| byte == b'\n');
        let mut broken = Vec::new();
        for (number, line) in (1..).zip(lines) {
            let is_rule = line.contains(&b'[');
            if is_rule && expected.len() < 40 && random.percent(40) {
                let (refusal, line) = random.pick(&[(7, "M[u] = 1\n"), (9, "Z[u] := u\n")]);
                expected.push((refusal, number));
                broken.extend_from_slice(line.as_bytes());
            } else {
                broken.extend_from_slice(line);
            }
        }
        if expected.is_empty() || broken.len() > 8192 {
            continue;
        }
        found += expected.len();
        assert_eq!(
            refusals(&folder, &broken),
            expected,
            "{}",
            String::from_utf8_lossy(&broken)
        );
    }
    assert!(found > 100, "only {found} rules were broken");
}
