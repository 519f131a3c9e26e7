//! What is timed.

use crate::timing::Row;
use generate::random::Random;
use generate::{chains, neighbours, padding, registers, texts};
use plot::lent::{self, Answer, PathBuffers};
use reference::path::path;
use reference::reading::reading;
use reference::register::{MAX_FIELDS, Sizes};
use reference::text::{MAX_BYTES, check, read_text};
use std::hint::black_box;

/// All rows, in the order they are printed.
pub fn rows() -> Vec<Row> {
    vec![
        load(),
        path_of_16_hops(),
        check_text("check 8,192 bytes, plain", 1.2, plain_text()),
        check_text("check 8,192 bytes, dense", 1.2, dense_text()),
        check_text("check 8,192 bytes, expressions", 1.2, expression_text()),
    ]
}

/// Loading the largest register, by the cheapest reading of it.
fn load() -> Row {
    let register = registers::full_file(&mut Random::new(3), registers::LARGEST);
    assert_eq!(register.len(), 327_692);
    assert_eq!(read_own_number(&register), (0, 1));
    let same = register.clone();
    Row {
        name: "load 327,692 bytes".to_owned(),
        at_most: 1.3,
        library: Box::new(move || {
            black_box(read_own_number(black_box(&register)));
        }),
        reference: Box::new(move || {
            let _ = black_box(reading(black_box(&same), b"u", 0));
        }),
    }
}

/// The cheapest reading: the refusal number, and whether it is filled.
fn read_own_number(register: &[u8]) -> (u32, u64) {
    let (mut value, mut answer) = (0, Answer::default());
    let number = lent::read(register, b"u", 0, &mut value, &mut answer);
    (number, answer[lent::FILLED])
}

/// The longest path over the largest register, which is loaded for it.
fn path_of_16_hops() -> Row {
    let register = registers::full_file(&mut Random::new(3), registers::LARGEST);
    let chain = chains::text(b"MABCDEFGHABCDEFG");
    assert_eq!(hops_from_1(&register, &chain), (0, 16));
    let (same_register, same_chain) = (register.clone(), chain.clone());
    Row {
        name: "path of 16 hops, 327,692 bytes".to_owned(),
        at_most: 1.3,
        library: Box::new(move || {
            black_box(hops_from_1(black_box(&register), black_box(&chain)));
        }),
        reference: Box::new(move || {
            let _ = black_box(path(black_box(&same_register), black_box(&same_chain), 1));
        }),
    }
}

/// The path from record 1: the refusal number, and how many hops it has.
fn hops_from_1(register: &[u8], chain: &[u8]) -> (u32, u64) {
    let (mut hops, mut answer) = (PathBuffers::default(), Answer::default());
    let number = lent::path(register, chain, 1, &mut hops, &mut answer);
    black_box(&hops);
    (number, answer[lent::HOPS])
}

/// The sizes of the register that the texts are for: all fields that there are,
/// and so few records that loading it takes no time to speak of.
const TEXT_SIZES: Sizes = Sizes {
    records: 2,
    references: MAX_FIELDS,
    measures: MAX_FIELDS,
};

/// Checking a text that passes and is as long as may be.
fn check_text(name: &str, at_most: f64, text: Vec<u8>) -> Row {
    let register = registers::full_file(&mut Random::new(3), TEXT_SIZES);
    assert_eq!(text.len(), 8192);
    assert_eq!(lent::check(&register, &text, &mut Answer::default()), 0);
    let (same_register, same_text) = (register.clone(), text.clone());
    Row {
        name: name.to_owned(),
        at_most,
        library: Box::new(move || {
            let mut answer = Answer::default();
            black_box(lent::check(
                black_box(&register),
                black_box(&text),
                &mut answer,
            ));
        }),
        reference: Box::new(move || {
            let _ = black_box(check(black_box(&same_register), black_box(&same_text)));
        }),
    }
}

/// Rules of every form with short chains.
fn plain_text() -> Vec<u8> {
    let mut random = Random::new(6);
    let shape = texts::Shape {
        parts: 1,
        rules: 12,
        fewest_rules: 12,
        hops: 2,
        tests: 40,
        remotes: 35,
        numbers: 30,
        shared: 50,
        ..texts::DOCUMENT_01
    };
    full_text(&mut random, |random| texts::text(random, TEXT_SIZES, shape))
}

/// Steps of long chains, each with 64 plan lines.
fn dense_text() -> Vec<u8> {
    full_text(&mut Random::new(7), |random| {
        loop {
            if let Some(step) = neighbours::full_step(random, TEXT_SIZES) {
                return step;
            }
        }
    })
}

/// Rules with expressions of up to 16 operators, in groups up to 4 deep.
fn expression_text() -> Vec<u8> {
    let shape = texts::Shape {
        parts: 1,
        rules: 4,
        fewest_rules: 4,
        hops: 2,
        tests: 40,
        remotes: 35,
        numbers: 50,
        operators: 16,
        groups: 4,
        ..texts::DOCUMENT_01
    };
    full_text(&mut Random::new(8), |random| {
        loop {
            let step = texts::text(random, TEXT_SIZES, shape);
            if read_text(&step, &TEXT_SIZES).is_ok() {
                return step;
            }
        }
    })
}

/// As many parts as there is room for, and a last step that fills the text up.
fn full_text(random: &mut Random, mut part: impl FnMut(&mut Random) -> Vec<u8>) -> Vec<u8> {
    let mut text = Vec::new();
    loop {
        let more = [&text[..], &part(random)].concat();
        match padding::pad(random, TEXT_SIZES, &more, MAX_BYTES) {
            Some(_) => text = more,
            None => break,
        }
    }
    padding::pad(random, TEXT_SIZES, &text, MAX_BYTES).expect("it has room for a last step")
}
