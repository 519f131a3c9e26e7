//! Registers and texts whose runs are timed.

use generate::chains;
use generate::ranking::{self, list};
use reference::register::{Cell, MAX_FIELDS, MAX_RECORDS, Sizes, encode};

/// A run: a register, a text that passes for it, and a budget.
pub struct Case {
    /// What it is.
    pub name: &'static str,
    /// The register file.
    pub register: Vec<u8>,
    /// The text.
    pub text: Vec<u8>,
    /// The budget.
    pub budget: u16,
    /// The ratio that the library must keep.
    pub at_most: f64,
}

fn case(name: &'static str, register: Vec<u8>, text: Vec<u8>, budget: u16) -> Case {
    Case {
        name,
        register,
        text,
        budget,
        at_most: 1.5,
    }
}

/// The runs that are timed by both machines.
pub fn cases() -> Vec<Case> {
    vec![
        case("32 rules of 16 hops", far_about(), long_rules(), 1),
        case("8 chains of 16 hops, 15 common", full(), in_common(), 1),
        case(
            "32 remote sums to one record",
            to_first(),
            remote_rules(),
            1,
        ),
        case(
            "list ranking, 4,096 records",
            list(MAX_RECORDS),
            ranking::TEXT.to_vec(),
            65_535,
        ),
        case("65,535 steps, 16 records", few(), counting(), 65_535),
        case("100 steps, records of 16 fields", full(), counting(), 100),
        Case {
            at_most: 1.2,
            ..case(
                "32 rules of 16 operators",
                far_about(),
                rules_of_16_operators(),
                1,
            )
        },
    ]
}

/// So many steps of so many rules each over all records.
pub fn equal_rules(name: &'static str, steps: usize, rules: usize) -> Case {
    let step = step(&b"M[u] := M[A[u]]\n".repeat(rules));
    case(name, list(MAX_RECORDS), step.repeat(steps), steps as u16)
}

/// A step of these rules.
fn step(rules: &[u8]) -> Vec<u8> {
    [b"step\n", rules, b"end\n"].concat()
}

/// A register file by its cells.
fn file(sizes: Sizes, cell: impl Fn(usize, usize) -> Cell) -> Vec<u8> {
    let cells: Vec<Cell> = (0..sizes.records)
        .flat_map(|u| (0..sizes.fields()).map(move |f| (u, f)))
        .map(|(u, f)| cell(u, f))
        .collect();
    encode(sizes, &cells)
}

fn sizes(records: usize, references: usize, measures: usize) -> Sizes {
    Sizes {
        records,
        references,
        measures,
    }
}

/// One reference field that leads far about, and eight measures.
fn far_about() -> Vec<u8> {
    file(sizes(MAX_RECORDS, 1, 8), |u, f| match f {
        0 => Cell::Measured(((u * 2_654_435 + 977) % MAX_RECORDS) as i32),
        _ => Cell::Measured((u % 100) as i32),
    })
}

/// A step that stores to each of these fields, one by one, its own cell behind
/// the same references, which come the outermost first.
fn reading_behind(references: &[u8], fields: impl Iterator<Item = u8>) -> Vec<u8> {
    let rule = |field: u8| {
        let chain = chains::text(&[&[field], references].concat());
        [&[field], &b"[u] := "[..], &chain, b"\n"].concat()
    };
    step(&fields.flat_map(rule).collect::<Vec<u8>>())
}

fn long_rules() -> Vec<u8> {
    reading_behind(&[b'A'; 15], (0..32).map(|rule| b'M' + rule % 8))
}

/// All eight measures behind the same 15 references. The plan's parts of these all
/// differ, so that the eight readings have 51 lines and only this in common.
fn in_common() -> Vec<u8> {
    reading_behind(b"HEFCDABHGFEDCBA", b'M'..=b'T')
}

/// Rules of 16 operators of every sort, some in groups; the sums stay small.
fn rules_of_16_operators() -> Vec<u8> {
    let rule = |number: usize| {
        let field = |place: usize| char::from(b'M' + ((number + place) % 8) as u8);
        let mut text = format!("{}[u] := {}[A[u]]", field(0), field(1));
        for place in 0..4 {
            let [x, y, z] = [2, 3, 4].map(|more| field(3 * place + more));
            text += &format!(" - {x}[u] <? ({y}[u] + {place} - {z}[u])");
        }
        text + "\n"
    };
    step(&(0..32).map(rule).collect::<String>().into_bytes())
}

/// Every record refers to the first.
fn to_first() -> Vec<u8> {
    file(sizes(MAX_RECORDS, 1, 1), |u, f| match f {
        0 => Cell::Measured(0),
        _ => Cell::Measured((u % 100) as i32),
    })
}

fn remote_rules() -> Vec<u8> {
    step(&b"remote M[A[u]] += M[u]\n".repeat(32))
}

fn few() -> Vec<u8> {
    file(sizes(16, 1, 1), |u, f| match f {
        0 => Cell::Measured(((u + 1) % 16) as i32),
        _ => Cell::Measured(0),
    })
}

/// All fields that there are; every reference leads far about.
fn full() -> Vec<u8> {
    file(sizes(MAX_RECORDS, MAX_FIELDS, MAX_FIELDS), |u, f| {
        Cell::Measured(((u * 2_654_435 + 977 * f) % MAX_RECORDS) as i32)
    })
}

/// A loop whose field is never the same.
fn counting() -> Vec<u8> {
    b"loop M\nstep\nM[u] := M[A[u]] + 1\nend\ndone\n".to_vec()
}
