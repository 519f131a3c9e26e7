//! What is run: a register, a text, a budget, and buffers full of rubbish.

use generate::cases::Case;
use generate::on_failure::OnFailure;
use generate::random::Random;
use generate::{damage, mutations, neighbours, registers};
use plot::lent::RunBuffers;
use reference::run::Scratch;

const BUDGETS: [u16; 10] = [0, 1, 2, 3, 10, 40, 300, 1_000, 5_000, 65_535];

/// One input of a run.
#[derive(Clone)]
pub struct Trial {
    pub register: Vec<u8>,
    pub text: Vec<u8>,
    pub budget: u16,
    /// The buffers as they are lent.
    pub buffers: RunBuffers,
}

impl Trial {
    /// A case with buffers of the right lengths or longer.
    fn new(random: &mut Random, case: Case, budget: u16) -> Trial {
        let length = case.scratch_length();
        let (values, marks) = (length + random.below(3), length + random.below(3));
        let buffers = rubbish(random, case.register.len(), values, marks);
        Trial {
            register: case.register,
            text: case.text,
            budget,
            buffers,
        }
    }

    /// Prints the trial if the test fails.
    pub fn on_failure(&self) -> OnFailure<'_> {
        on_failure(&self.register, &self.text, &self.buffers).number("budget", self.budget)
    }

    /// The lengths of the scratch buffers.
    pub fn scratch(&self) -> Scratch {
        Scratch {
            values: self.buffers.values.len(),
            marks: self.buffers.marks.len(),
        }
    }
}

/// Prints register, text and the lengths of the buffers if the test fails.
pub fn on_failure<'a>(register: &'a [u8], text: &'a [u8], buffers: &RunBuffers) -> OnFailure<'a> {
    OnFailure::new(register)
        .bytes("text", text)
        .number("output", buffers.output.len() as u64)
        .number("values", buffers.values.len() as u64)
        .number("marks", buffers.marks.len() as u64)
}

/// Buffers of these lengths, full of rubbish.
pub fn rubbish(random: &mut Random, output: usize, values: usize, marks: usize) -> RunBuffers {
    RunBuffers {
        output: random.bytes(output),
        values: (0..values).map(|_| random.number() as i64).collect(),
        marks: random.bytes(marks),
    }
}

/// Any budget; some are worth meeting often.
fn budget(random: &mut Random) -> u16 {
    match random.percent(90) {
        true => random.pick(&BUDGETS),
        false => random.number() as u16,
    }
}

/// A register that loads, a text that passes, and buffers that will do.
pub fn right(random: &mut Random) -> Trial {
    let case = Case::small(random);
    let budget = budget(random);
    Trial::new(random, case, budget)
}

/// The same with steps that write a field again and again, over a register with gaps.
pub fn with_gaps(random: &mut Random) -> Trial {
    let case = Case::with_gaps(random);
    Trial::new(random, case, 40)
}

/// The same with few values, which rules store, add and compare again and again.
pub fn with_marks(random: &mut Random) -> Trial {
    let case = Case::with_marks(random);
    Trial::new(random, case, 20)
}

/// The same with sums and totals that go out of range at many places.
pub fn out_of_range(random: &mut Random) -> Trial {
    let case = Case::out_of_range(random);
    Trial::new(random, case, 40)
}

/// The same with expressions, in any spacing.
pub fn with_expressions(random: &mut Random) -> Trial {
    let case = Case::with_expressions(random);
    let budget = budget(random);
    Trial::new(random, case, budget)
}

/// One step whose sums are mostly out of range.
pub fn near_the_range(random: &mut Random) -> Trial {
    let case = Case::near_the_range(random);
    Trial::new(random, case, 1)
}

/// The same with as many records as may be, and a small budget.
pub fn large(random: &mut Random) -> Trial {
    let sizes = registers::large_sizes(random);
    let case = Case::new(random, sizes);
    let budget = random.between(1, 6) as u16;
    Trial::new(random, case, budget)
}

/// Buffers of lengths that will do and of others.
pub fn of_any_lengths(random: &mut Random) -> Trial {
    let case = Case::small(random);
    let file = case.register.len();
    let length = case.scratch_length();
    let short = length.saturating_sub(1 + random.below(2));
    let output = random.pick(&[file - 1, file, file, file + 1]);
    let values = random.pick(&[short, length, length + 1]);
    let marks = random.pick(&[short, length, length + 1]);
    let buffers = rubbish(random, output, values, marks);
    Trial {
        buffers,
        ..Trial::new(random, case, 5)
    }
}

/// A register or a text that is refused, or nearly; often with an output too long.
pub fn damaged(random: &mut Random) -> Trial {
    let case = damaged_case(random);
    let mut trial = Trial::new(random, case, 20);
    if random.percent(50) {
        trial.buffers.output.push(0);
    }
    trial
}

/// A case refused by some number of a text, or one that is damaged anywhere.
fn damaged_case(random: &mut Random) -> Case {
    let mut case = Case::small(random);
    if random.percent(50) {
        let number = random.pick(&[6, 7, 8, 9, 10, 11, 12, 13, 14, 15, 24, 25]);
        let (sizes, pair) = neighbours::pair(random, number);
        case = Case::new(random, sizes);
        case.text = pair.refused;
    } else if random.percent(60) {
        case.text = mutations::several(random, &case.text);
    }
    if random.percent(30) {
        damage::damage(random, case.sizes, &mut case.register);
    }
    case
}
