//! "Knowing, and the plan": the lines, their order and their rounds.

use reference::chain::Word;
use reference::plan::{LineKind, MAX_LINES, Plan, Source, TooManyLines, Writer};
use reference::register::Sizes;

/// Enough fields that every letter names one: A to H are 0 to 7, M to T 8 to 15.
const SIZES: Sizes = Sizes {
    records: 1,
    references: 8,
    measures: 8,
};

/// A hop word by its letters from the inside out, as the paper writes `AAM`.
fn word(letters: &str) -> Word {
    let fields: Vec<u8> = letters
        .bytes()
        .map(|letter| SIZES.field(letter).unwrap() as u8)
        .collect();
    Word::new(&fields)
}

fn plan(readings: &[&str]) -> Result<Plan, TooManyLines> {
    let words: Vec<Word> = readings.iter().map(|letters| word(letters)).collect();
    Plan::of(&words)
}

/// The lines as the paper writes them, as `Back(AA) 2`.
fn listing(readings: &[&str]) -> Vec<String> {
    let line_text = |line: &reference::plan::Line| {
        let letters = String::from_utf8(line.chain.letters(&SIZES)).unwrap();
        format!("{:?}({letters}) {}", line.kind, line.round)
    };
    plan(readings)
        .unwrap()
        .lines()
        .iter()
        .map(line_text)
        .collect()
}

#[test]
fn rounds_by_hops() {
    let table = [0, 0, 2, 3, 3, 4, 4, 4, 4, 5, 5, 5, 5, 5, 5, 5, 5];
    for (hops, rounds) in table.into_iter().enumerate() {
        let mut plan = Plan::default();
        let source = plan.add_reading(word(&"A".repeat(hops)).fields()).unwrap();
        assert_eq!(plan.round_of(source), rounds, "{hops} hops");
        assert_eq!(plan.rounds(), rounds, "{hops} hops");
    }
}

#[test]
fn rounds_do_not_depend_on_which_letters() {
    for (hops, rounds) in [(2, 2), (4, 3), (8, 4), (9, 5), (16, 5)] {
        let letters = &"ABCDEFGHHGFEDCBA"[..hops - 1];
        let plan = plan(&[&format!("{letters}M")]).unwrap();
        assert_eq!(plan.rounds(), rounds, "{hops} hops");
    }
}

#[test]
fn printed_plan() {
    assert_eq!(
        listing(&["AAM"]),
        ["Back(A) 1", "Back(AA) 2", "Read(AAM) 3"]
    );
    let plan = plan(&["AAM"]).unwrap();
    let [back, back_two, read] = plan.lines() else {
        panic!("three lines")
    };
    assert_eq!(
        (back.writer, back.knows),
        (Writer::Origin, Source::OwnCell(0))
    );
    assert_eq!(
        (back_two.writer, back_two.knows),
        (Writer::ToldBy(0), Source::OwnCell(0))
    );
    assert_eq!(
        (read.writer, read.knows),
        (Writer::ToldBy(1), Source::OwnCell(8))
    );
}

#[test]
fn needed_facts_come_first() {
    let lines = [
        "Back(A) 1",
        "Back(AB) 2",
        "Back(C) 1",
        "Read(CM) 2",
        "Read(ABCM) 3",
    ];
    assert_eq!(listing(&["ABCM"]), lines);
    let lines = [
        "Back(A) 1",
        "Back(AB) 2",
        "Back(C) 1",
        "Read(CD) 2",
        "Back(ABCD) 3",
        "Read(ABCDM) 4",
    ];
    assert_eq!(listing(&["ABCDM"]), lines);
}

#[test]
fn short_readings_need_no_line() {
    assert!(listing(&["", "A", "M", "H"]).is_empty());
}

#[test]
fn fact_listed_once() {
    assert_eq!(listing(&["AA", "AA"]), ["Back(A) 1", "Read(AA) 2"]);
    assert_eq!(
        listing(&["AA", "AM", "AAM"]),
        [
            "Back(A) 1",
            "Read(AA) 2",
            "Read(AM) 2",
            "Back(AA) 2",
            "Read(AAM) 3"
        ]
    );
    assert_eq!(
        listing(&["AAAA"]),
        ["Back(A) 1", "Back(AA) 2", "Read(AA) 2", "Read(AAAA) 3"]
    );
}

#[test]
fn needs_stand_earlier_and_in_earlier_rounds() {
    let plan = plan(&["ABCDEFGHABCDEFGM", "BCDEFGHM", "AAAAAAAAAAAAA"]).unwrap();
    for (place, line) in plan.lines().iter().enumerate() {
        let needs = [
            match line.writer {
                Writer::ToldBy(back) => Some((back, LineKind::Back)),
                Writer::Origin => None,
            },
            match line.knows {
                Source::Line(read) => Some((usize::from(read), LineKind::Read)),
                Source::OwnNumber | Source::OwnCell(_) => None,
            },
        ];
        for (need, kind) in needs.into_iter().flatten() {
            assert!(need < place);
            assert_eq!(plan.lines()[need].kind, kind);
            assert!(plan.lines()[need].round < line.round);
        }
    }
}

/// 32 Read lines over two-letter words need one Back line for each first letter.
fn two_letter_readings(count: usize) -> Vec<String> {
    let firsts = "ABCDEFGH".chars();
    let pairs =
        firsts.flat_map(|first| "ABCDEFGH".chars().map(move |last| format!("{first}{last}")));
    pairs.take(count).collect()
}

#[test]
fn at_most_64_lines() {
    let words = two_letter_readings(64);
    let readings = |count: usize| {
        words[..count]
            .iter()
            .map(String::as_str)
            .collect::<Vec<_>>()
    };
    // 8 readings to a first letter make 9 lines: 56 make 63 lines.
    assert_eq!(plan(&readings(56)).unwrap().lines().len(), 63);
    // The next reading needs Back(H) and itself.
    assert_eq!(plan(&readings(57)), Err(TooManyLines));
    let mut full = readings(56);
    full.push("AM");
    assert_eq!(plan(&full).unwrap().lines().len(), MAX_LINES);
    full.extend(["AM", "AB", "GH", "M", "A", ""]);
    assert_eq!(plan(&full).unwrap().lines().len(), MAX_LINES);
    full.push("AN");
    assert_eq!(plan(&full), Err(TooManyLines));
}
