//! Single readings of the library and of the reference agree, case by case.

mod common;

use common::{any_answer, refusal_name, refused};
use generate::on_failure::OnFailure;
use generate::random::Random;
use generate::tally::Tally;
use generate::{chains, damage, registers};
use plot::lent::{self, Answer};
use plot::{Kind, Register};
use reference::reading::reading;
use reference::refusal::Refusal;
use reference::register::Sizes;

const SMALL_REGISTERS: usize = 24_000;
const LARGE_REGISTERS: usize = 500;
const READINGS: usize = 4;
const LEAST: u64 = 100;

/// The answer that the library must give, whole.
#[derive(Debug, PartialEq, Eq)]
struct Expected {
    refusal: u32,
    value: i64,
    answer: Answer,
}

/// For a value that was lent as `before`, which a refusal leaves.
fn expected(before: i64, answer: Result<Option<i32>, Refusal>) -> Expected {
    let mut expected = Expected {
        refusal: 0,
        value: before,
        answer: [0; 8],
    };
    match answer {
        Ok(None) => expected.value = 0,
        Ok(Some(value)) => {
            expected.value = i64::from(value);
            expected.answer[lent::FILLED] = 1;
        }
        Err(refusal) => (expected.refusal, expected.answer) = refused(refusal),
    }
    expected
}

fn name(chain: &[u8], answer: Result<Option<i32>, Refusal>) -> String {
    match answer {
        Ok(Some(_)) if chain == b"u" => "own number".to_owned(),
        Ok(Some(0)) => "filled zero".to_owned(),
        Ok(Some(_)) => "filled".to_owned(),
        Ok(None) => "unfilled".to_owned(),
        Err(refusal) => refusal_name(refusal.reason.number()),
    }
}

/// One case: the library, lent a value and an answer full of rubbish, sets both
/// whole, and the value only where it does not refuse.
fn compare(random: &mut Random, tally: &mut Tally, register: &[u8], chain: &[u8], record: u64) {
    let _failing = OnFailure::new(register)
        .bytes("chain", chain)
        .number("record", record);
    let before = random.number() as i64;
    let mut value = before;
    let mut answer = any_answer(random);
    let refusal = lent::read(register, chain, record, &mut value, &mut answer);
    let from_paper = reading(register, chain, record);
    assert_eq!(
        Expected {
            refusal,
            value,
            answer
        },
        expected(before, from_paper),
    );
    tally.count(&name(chain, from_paper));
}

/// A record number: mostly one of the register's, else n, above or far above.
fn record(random: &mut Random, sizes: Sizes) -> u64 {
    let records = sizes.records as u64;
    match random.below(24) {
        0 => records,
        1 => records + 1 + random.below(5000) as u64,
        2 => random.number(),
        3 => random.pick(&[u64::MAX, 1 << 32, (1 << 32) + 1, 1 << 63]),
        4 => records.saturating_sub(1),
        5 => 0,
        _ => random.below(sizes.records.max(1)) as u64,
    }
}

fn compare_register(random: &mut Random, tally: &mut Tally, sizes: Sizes) {
    let mut register = registers::file(random, sizes);
    if random.percent(40) {
        for _ in 0..random.between(1, 3) {
            damage::damage(random, sizes, &mut register);
        }
    }
    for _ in 0..READINGS {
        let chain = chains::any(random, sizes);
        let record = record(random, sizes);
        compare(random, tally, &register, &chain, record);
    }
}

#[test]
fn readings_agree() {
    let mut random = Random::new(1);
    let mut tally = Tally::default();
    for _ in 0..SMALL_REGISTERS {
        let sizes = registers::sizes(&mut random);
        compare_register(&mut random, &mut tally, sizes);
    }
    for _ in 0..LARGE_REGISTERS {
        let sizes = registers::large_sizes(&mut random);
        compare_register(&mut random, &mut tally, sizes);
    }
    tally.print("single readings");
    tally.require(LEAST, &["filled", "filled zero", "unfilled", "own number"]);
    let refusals = [1, 2, 3, 4, 5, 7, 9, 10, 11, 16];
    tally.require(LEAST, &refusals.map(refusal_name));
}

#[test]
fn any_bytes_are_a_register_or_refused() {
    let mut random = Random::new(2);
    let mut tally = Tally::default();
    for _ in 0..4_000 {
        let length = random.below(64);
        let register: Vec<u8> = (0..length).map(|_| random.byte()).collect();
        let chain = chains::random_bytes(&mut random);
        let record = random.number();
        compare(&mut random, &mut tally, &register, &chain, record);
    }
}

#[test]
fn numbers_are_no_chains() {
    let mut random = Random::new(3);
    let mut tally = Tally::default();
    let register = reference::printed::register();
    for chain in ["180", "1.80", "-0.05", "0.00", "M[1.80]", "u.00", "M[u].00"] {
        compare(&mut random, &mut tally, &register, chain.as_bytes(), 0);
    }
    assert_eq!(tally.of(&refusal_name(7)), 7);
}

#[test]
fn bindings_answer_in_rust_values() {
    let register = Register::from_bytes(reference::printed::register()).expect("it loads");
    assert_eq!(register.read("M[u]", 0), Ok(None));
    assert_eq!(register.read("M[u]", 1), Ok(Some(0)));
    assert_eq!(register.read("M[A[A[u]]]", 0), Ok(Some(180)));
    assert_eq!(register.read("u", 2), Ok(Some(2)));
    let refusal = |kind, line| Err(plot::Refusal { kind, line });
    assert_eq!(register.read("A[M[u]]", 0), refusal(Kind::FieldKind, 1));
    assert_eq!(register.read("u", 3), refusal(Kind::Record, 0));
    let refused = plot::Refusal {
        kind: Kind::FileLength,
        line: 0,
    };
    assert_eq!(Register::from_bytes([]), Err(refused));
}
