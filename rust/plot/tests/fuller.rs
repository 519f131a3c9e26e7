//! Two registers of equal sizes, the second the fuller one: every reading and
//! every letter of a plan that the first has, the second has too, with the same
//! value (M-113).

use generate::cases::Case;
use generate::on_failure::OnFailure;
use generate::random::Random;
use generate::tally::Tally;
use generate::{chains, registers};
use plot::{Machine, Messages, Refusal, Register, Text};
use reference::chain::read_chain;
use reference::register::{Cell, Sizes, encode};

const PAIRS: u64 = 24_000;
/// Readings compared over each pair, each of its own chain and record.
const READINGS: usize = 4;
/// How often each way to differ or not comes up at least.
const LEAST: u64 = 5_000;

/// Which of the two registers has a reading, and a letter: both, the second alone
/// or neither, for counting.
const READ: [&str; 3] = [
    "readings: in both",
    "readings: in the second alone",
    "readings: in neither",
];
const SENT: [&str; 3] = [
    "letters: in both",
    "letters: in the second alone",
    "letters: in neither",
];

/// Whether the pair differs in a cell that one of its readings passes, for counting.
const ON_THE_WAY: &str = "pairs: differ on the way";
const ELSEWHERE: &str = "pairs: differ elsewhere";
const EQUAL: &str = "pairs: equal";

/// A chain at a record.
struct Reading {
    chain: Vec<u8>,
    record: usize,
}

impl Reading {
    /// Any valid chain, more often of several hops than not.
    fn new(random: &mut Random, sizes: Sizes) -> Reading {
        let hops = random.pick(&[1, 2, 2, 3, 4, 5, 8, 16]);
        Reading {
            chain: chains::text(&chains::valid_letters(random, sizes, hops)),
            record: random.below(sizes.records),
        }
    }

    /// The places of the cells that it passes, the first unfilled one being the last.
    fn way(&self, sizes: Sizes, cells: &[Cell]) -> Vec<usize> {
        let word = read_chain(&self.chain, &sizes).expect("the chain is valid");
        let mut reached = Some(self.record as i32);
        let mut places = Vec::new();
        for &field in word.fields() {
            let Some(at) = reached else { break };
            let place = at as usize * sizes.fields() + usize::from(field);
            places.push(place);
            reached = cells[place].value();
        }
        places
    }
}

/// Two registers, a text that passes for both, and readings.
struct Pair {
    case: Case,
    /// The register of the case with fewer cells filled.
    first: Vec<u8>,
    readings: Vec<Reading>,
    /// How the two differ, for counting.
    differ: &'static str,
}

impl Pair {
    fn new(random: &mut Random) -> Pair {
        let mut case = Case::small(random);
        let sizes = case.sizes;
        let density = random.pick(&[50, 90, 97, 100, 100]);
        let second = registers::cells(random, sizes, density);
        let count = if sizes.records == 0 { 0 } else { READINGS };
        let readings: Vec<_> = (0..count).map(|_| Reading::new(random, sizes)).collect();
        let ways = readings.iter().flat_map(|r| r.way(sizes, &second));
        let ways: Vec<usize> = ways.collect();
        let first = with_gaps(random, &second, &ways);
        let differs = |&place: &usize| first[place].value() != second[place].value();
        let differ = if ways.iter().any(differs) {
            ON_THE_WAY
        } else if (0..first.len()).any(|place| differs(&place)) {
            ELSEWHERE
        } else {
            EQUAL
        };
        case.register = encode(sizes, &second);
        let first = encode(sizes, &first);
        Pair {
            case,
            first,
            readings,
            differ,
        }
    }

    /// What is read over the first register is read over the second.
    fn compare_readings(&self, tally: &mut Tally) {
        for reading in &self.readings {
            let (chain, record) = (&reading.chain, reading.record);
            let _failing = self
                .on_failure()
                .bytes("chain", chain)
                .number("record", record as u64);
            let read = |register| loaded(register).read(chain, record);
            let first = read(&self.first).expect("it passes");
            let second = read(&self.case.register).expect("it passes");
            tally.count(READ[retained(first, second)]);
        }
    }

    /// A step of the text, if it has one, after every round from 0 to past the last.
    fn compare_looks(&self, random: &mut Random, tally: &mut Tally) {
        let steps = self.case.program.steps().count();
        let step = random.between(1, steps.max(1));
        let planned = self.case.program.step(step as u64);
        let rounds = planned.map_or(0, |step| step.plan.rounds() as u16);
        for t in 0..=rounds + 1 {
            self.compare_look(tally, step, t);
        }
    }

    /// What is sent over the first register is sent over the second.
    fn compare_look(&self, tally: &mut Tally, step: usize, t: u16) {
        let _failing = self.on_failure().number("step", step as u64).number("t", t);
        let look = |register| -> Result<Vec<Messages>, Refusal> {
            let register = loaded(register);
            Text::check(&register, &self.case.text[..])?.inspect(step, t)
        };
        let (first, second) = (look(&self.first), look(&self.case.register));
        let (Ok(first), Ok(second)) = (&first, &second) else {
            assert_eq!(first, second);
            return;
        };
        assert_eq!(first.len(), second.len());
        tally.count("looks");
        for (&first, &second) in first.iter().flatten().zip(second.iter().flatten()) {
            tally.count(SENT[retained(first, second)]);
        }
    }

    fn on_failure(&self) -> OnFailure<'_> {
        OnFailure::new(&self.first)
            .bytes("fuller", &self.case.register)
            .bytes("text", &self.case.text)
    }
}

fn loaded(file: &[u8]) -> Register {
    Register::from_bytes(file).expect("it loads")
}

/// These cells with marks drawn anew and some unfilled, most often one at a place of
/// some ways.
fn with_gaps(random: &mut Random, cells: &[Cell], ways: &[usize]) -> Vec<Cell> {
    let gaps = random.pick(&[0, 0, 3, 10, 50]);
    let kept = |&cell: &Cell| match random.percent(gaps) {
        true => Cell::Missing,
        false => registers::marked_anew(random, cell),
    };
    let mut cells: Vec<Cell> = cells.iter().map(kept).collect();
    if !ways.is_empty() && random.percent(80) {
        cells[random.pick(ways)] = Cell::Missing;
    }
    cells
}

/// A value of the first is that of the second. Gives 0 where both have it, 1 where
/// the second alone has one, 2 where neither has.
fn retained(first: Option<i32>, second: Option<i32>) -> usize {
    if first.is_some() {
        assert_eq!(first, second);
    }
    usize::from(first.is_none()) + usize::from(second.is_none())
}

#[test]
fn readings_and_letters_stand_over_a_fuller_register() {
    let mut random = Random::new(113);
    let mut tally = Tally::default();
    for _ in 0..PAIRS {
        let pair = Pair::new(&mut random);
        tally.count(pair.differ);
        pair.compare_readings(&mut tally);
        pair.compare_looks(&mut random, &mut tally);
    }
    tally.print("pairs of registers, the second the fuller one");
    tally.require(PAIRS / 2, &[ON_THE_WAY]);
    tally.require(PAIRS / 20, &[ELSEWHERE, EQUAL]);
    tally.require(PAIRS, &["looks"]);
    tally.require(LEAST, &READ);
    tally.require(LEAST, &SENT);
}

/// What does not follow: a test starts to hold, and the text stores another depth.
#[test]
fn a_whole_text_may_alter_a_depth() {
    let sizes = Sizes {
        records: 1,
        references: 0,
        measures: 2,
    };
    let behind = |depths: [Cell; 2]| {
        let text = b"step\nif N[u] == N[u]: M[u] := 1\nend\n";
        let run = loaded(&encode(sizes, &depths)).run(text, Machine::Direct, 1_000);
        run.expect("it passes").register.read("M[u]", 0)
    };
    assert_eq!(behind([Cell::Measured(5), Cell::Missing]), Ok(Some(5)));
    assert_eq!(behind([Cell::Measured(5), Cell::Measured(7)]), Ok(Some(1)));
}
