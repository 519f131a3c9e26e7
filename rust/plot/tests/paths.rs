//! The path behind a reading (M-109): the library and the reference agree on it,
//! and it is the reason for the reading.

mod common;

use common::{any_answer, refusal_name, refused};
use generate::on_failure::OnFailure;
use generate::random::Random;
use generate::tally::Tally;
use generate::{chains, damage, registers};
use plot::lent::{self, Answer, MAX_HOPS, PathBuffers};
use plot::{Kind, Path};
use reference::path::{Hop, path};
use reference::refusal::Refusal;
use reference::register::{Cell, Register, Sizes, encode};

const SMALL_REGISTERS: usize = 30_000;
const LARGE_REGISTERS: usize = 200;
const PATHS: usize = 4;

/// One record with one measure.
const SINGLE: Sizes = Sizes {
    records: 1,
    references: 0,
    measures: 1,
};

/// The answer that the library must give, whole.
#[derive(Debug, PartialEq, Eq)]
struct Expected {
    refusal: u32,
    buffers: PathBuffers,
    answer: Answer,
}

/// For buffers that were lent as `before`, which a refusal leaves.
fn expected(before: PathBuffers, sizes: Sizes, answer: &Result<Vec<Hop>, Refusal>) -> Expected {
    let hops = match answer {
        Err(refusal) => {
            let (refusal, answer) = refused(*refusal);
            return Expected {
                refusal,
                buffers: before,
                answer,
            };
        }
        Ok(hops) => hops,
    };
    let mut expected = Expected {
        refusal: 0,
        buffers: PathBuffers::default(),
        answer: [0; 8],
    };
    expected.answer[lent::HOPS] = hops.len() as u64;
    for (i, hop) in hops.iter().enumerate() {
        expected.buffers.records[i] = hop.record as u64;
        expected.buffers.fields[i] = sizes.letter(hop.field);
        expected.buffers.values[i] = hop.cell.value().map_or(0, i64::from);
        expected.buffers.marks[i] = match hop.cell {
            Cell::Missing => 0,
            Cell::Measured(_) => 1,
            Cell::WorkedOut(_) => 2,
        };
    }
    expected
}

/// Buffers full of rubbish.
fn any_buffers(random: &mut Random) -> PathBuffers {
    let mut buffers = PathBuffers {
        records: std::array::from_fn(|_| random.number()),
        values: std::array::from_fn(|_| random.number() as i64),
        ..PathBuffers::default()
    };
    random.fill(&mut buffers.fields);
    random.fill(&mut buffers.marks);
    buffers
}

fn length_name(hops: usize) -> String {
    format!("hops {hops:>2}")
}

fn name(answer: &Result<Vec<Hop>, Refusal>) -> String {
    match answer {
        Ok(hops) => length_name(hops.len()),
        Err(refusal) => refusal_name(refusal.reason.number()),
    }
}

/// What is read at the end of a path: at `u` alone the record's own number.
fn last(record: usize, hops: &[Hop]) -> Option<i32> {
    hops.last()
        .map_or(Some(record as i32), |hop| hop.cell.value())
}

/// What the library reads over a file that loads.
fn read(file: &[u8], chain: &[u8], record: usize) -> Result<Option<i32>, plot::Refusal> {
    let register = plot::Register::from_bytes(file).expect("it loads");
    register.read(chain, record)
}

/// One case: the library, lent buffers and an answer full of rubbish, sets them
/// whole, and the buffers only where it does not refuse.
fn compare(
    random: &mut Random,
    tally: &mut Tally,
    register: &[u8],
    chain: &[u8],
    record: u64,
) -> Result<Vec<Hop>, Refusal> {
    let _failing = OnFailure::new(register)
        .bytes("chain", chain)
        .number("record", record);
    let before = any_buffers(random);
    let mut buffers = before.clone();
    let mut answer = any_answer(random);
    let refusal = lent::path(register, chain, record, &mut buffers, &mut answer);
    let from_paper = path(register, chain, record);
    let sizes = Register::load(register).map_or(registers::LARGEST, |register| register.sizes);
    assert_eq!(
        Expected {
            refusal,
            buffers,
            answer
        },
        expected(before, sizes, &from_paper),
    );
    tally.count(&name(&from_paper));
    tally.add("paths", u64::from(from_paper.is_ok()));
    let hops = from_paper.iter().flatten();
    let worked_out = hops.filter(|hop| matches!(hop.cell, Cell::WorkedOut(_)));
    tally.add("worked-out cells", worked_out.count() as u64);
    from_paper
}

/// A register of the same sizes that agrees on the listed cells, values and whether
/// filled, all else drawn anew: the same path, and the same reading.
fn compare_other(
    random: &mut Random,
    tally: &mut Tally,
    sizes: Sizes,
    chain: &[u8],
    record: usize,
    hops: &[Hop],
) {
    let density = registers::density(random);
    let mut cells = registers::cells(random, sizes, density);
    for hop in hops {
        cells[place(sizes, hop)] = registers::marked_anew(random, hop.cell);
    }
    let other = encode(sizes, &cells);
    let _failing = OnFailure::new(&other)
        .bytes("chain", chain)
        .number("record", record as u64);
    let same = path(&other, chain, record as u64).expect("it is not refused");
    let shows = |hop: &Hop| (hop.record, hop.field, hop.cell.value());
    assert!(same.iter().map(shows).eq(hops.iter().map(shows)));
    let register = plot::Register::from_bytes(&other[..]).expect("it loads");
    let listed = register.path(chain, record).expect("it is not refused");
    assert_eq!(listed.hops.len(), hops.len());
    for (hop, same) in listed.hops.iter().zip(hops) {
        assert_eq!(hop.record, same.record);
        assert_eq!(hop.field, char::from(sizes.letter(same.field)));
        assert_eq!(hop.cell.value(), same.cell.value());
    }
    assert_eq!(listed.value, last(record, hops));
    assert_eq!(register.read(chain, record), Ok(last(record, hops)));
    tally.count("others that agree");
    if let Some(hop) = (!hops.is_empty()).then(|| random.pick(hops)) {
        cells[place(sizes, &hop)] = Cell::Missing;
        let gap = encode(sizes, &cells);
        assert_eq!(read(&gap, chain, record), Ok(None));
        tally.count("others with a gap");
    }
}

fn place(sizes: Sizes, hop: &Hop) -> usize {
    hop.record * sizes.fields() + hop.field
}

/// A record number: mostly one of the register's.
fn record(random: &mut Random, sizes: Sizes) -> u64 {
    let records = sizes.records as u64;
    match random.below(24) {
        0 => records,
        1 => random.pick(&[u64::MAX, 1 << 32, (1 << 32) + 1, 1 << 63]),
        2 => records.saturating_sub(1),
        _ => random.below(sizes.records.max(1)) as u64,
    }
}

/// A chain: of any length that may be, or any text.
fn chain(random: &mut Random, sizes: Sizes) -> Vec<u8> {
    if random.percent(50) {
        return chains::any(random, sizes);
    }
    let hops = random.between(0, MAX_HOPS);
    chains::text(&chains::valid_letters(random, sizes, hops))
}

fn compare_register(random: &mut Random, tally: &mut Tally, sizes: Sizes) {
    let mut register = registers::file(random, sizes);
    let damaged = random.percent(20);
    if damaged {
        for _ in 0..random.between(1, 3) {
            damage::damage(random, sizes, &mut register);
        }
    }
    for _ in 0..PATHS {
        let chain = chain(random, sizes);
        let record = record(random, sizes);
        let answer = compare(random, tally, &register, &chain, record);
        if let (Ok(hops), false) = (answer, damaged || random.percent(50)) {
            let record = record as usize;
            assert_eq!(read(&register, &chain, record), Ok(last(record, &hops)));
            compare_other(random, tally, sizes, &chain, record, &hops);
        }
    }
}

#[test]
fn paths_agree_and_are_the_reason() {
    let mut random = Random::new(31);
    let mut tally = Tally::default();
    for _ in 0..SMALL_REGISTERS {
        let sizes = registers::sizes(&mut random);
        compare_register(&mut random, &mut tally, sizes);
    }
    for _ in 0..LARGE_REGISTERS {
        let sizes = registers::large_sizes(&mut random);
        compare_register(&mut random, &mut tally, sizes);
    }
    tally.print("paths behind readings");
    tally.require(50_000, &["paths", "worked-out cells"]);
    tally.require(10_000, &["others that agree", "others with a gap"]);
    let lengths: Vec<String> = (0..=MAX_HOPS).map(length_name).collect();
    tally.require(100, &lengths);
    let refusals = [1, 2, 3, 4, 5, 7, 9, 10, 11, 16];
    tally.require(100, &refusals.map(refusal_name));
}

#[test]
fn bindings_answer_in_rust_values() {
    let register = plot::Register::from_bytes(reference::printed::register()).expect("it loads");
    let path = |chain, record| {
        let path: Result<Path, plot::Refusal> = register.path(chain, record);
        path.map(|path| (path.hops, path.value))
    };
    let hop = |record, field, value: Option<i32>| plot::Hop {
        record,
        field,
        cell: value.into(),
    };
    assert_eq!(path("u", 2), Ok((vec![], Some(2))));
    let whole = [(0, 'A', 1), (1, 'A', 2), (2, 'M', 180)];
    let whole = whole.map(|(record, field, value)| hop(record, field, Some(value)));
    assert_eq!(path("M[A[A[u]]]", 0), Ok((whole.to_vec(), Some(180))));
    let gap = vec![hop(1, 'A', Some(2)), hop(2, 'A', None)];
    assert_eq!(path("M[A[A[u]]]", 1), Ok((gap, None)));
    let zero = vec![hop(1, 'M', Some(0))];
    assert_eq!(path("M[u]", 1), Ok((zero, Some(0))));
    let worked_out = encode(SINGLE, &[Cell::WorkedOut(5)]);
    let single = plot::Register::from_bytes(worked_out).expect("it loads");
    let hops = single.path("M[u]", 0).expect("it is not refused").hops;
    assert_eq!(hops[0].cell, plot::Cell::WorkedOut(5));
    let refusal = |kind, line| Err(plot::Refusal { kind, line });
    assert_eq!(path("A[M[u]]", 0), refusal(Kind::FieldKind, 1));
    assert_eq!(path("u", 3), refusal(Kind::Record, 0));
}

/// A path ends in a cell with its mark; at `u` it is the record's own number.
#[test]
fn a_reading_tells_where_its_value_comes_from() {
    let register = plot::Register::from_bytes(reference::printed::register()).expect("it loads");
    let text = "step\nM[u] := M[A[A[u]]]\nend\n";
    let run = register.run(text, plot::Machine::Direct, 1);
    let register = run.expect("it passes").register;
    let cell = |chain, record| register.path(chain, record).map(|path| path.cell());
    assert_eq!(cell("M[u]", 0), Ok(plot::Cell::WorkedOut(180)));
    assert_eq!(cell("M[A[u]]", 0), Ok(plot::Cell::Measured(0)));
    assert_eq!(cell("M[A[u]]", 2), Ok(plot::Cell::Unfilled));
    assert_eq!(cell("u", 2), Ok(plot::Cell::Measured(2)));
}
