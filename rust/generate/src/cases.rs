//! Registers that load, each with a text that passes for it.

use crate::marks;
use crate::offences::{Fate, Offence, offences};
use crate::random::Random;
use crate::registers;
use crate::texts::{self, Shape};
use crate::tokens;
use reference::program::Program;
use reference::register::{Cell, Register, Sizes, encode};
use reference::run::scratch_length;
use reference::text::{MAX_BYTES, read_text};

/// Measures whose sums are often out of range.
const FAR: [i32; 6] = [
    i32::MAX,
    i32::MAX - 1,
    1 << 30,
    -1 << 30,
    i32::MIN + 1,
    i32::MIN,
];

/// A register that loads and a text that passes for it.
#[derive(Clone, Debug)]
pub struct Case {
    /// The register's sizes.
    pub sizes: Sizes,
    /// The register file.
    pub register: Vec<u8>,
    /// The text.
    pub text: Vec<u8>,
    /// The program that the text is read as.
    pub program: Program,
}

impl Case {
    /// A case of these sizes.
    pub fn new(random: &mut Random, sizes: Sizes) -> Case {
        loop {
            let shape = texts::any_shape(random);
            if let Some(case) = Case::of_shape(random, sizes, shape) {
                return case;
            }
        }
    }

    /// A case of a shape, if its text passes.
    fn of_shape(random: &mut Random, sizes: Sizes, shape: Shape) -> Option<Case> {
        let text = texts::text(random, sizes, shape);
        let program = read_text(&text, &sizes).ok()?;
        Some(Case {
            sizes,
            register: registers::file(random, sizes),
            text,
            program,
        })
    }

    /// A small case whose steps write a field again and again, over a register with gaps.
    pub fn with_gaps(random: &mut Random) -> Case {
        Case::filled(random, texts::gap_shape, &[50, 80, 90])
    }

    /// A small case whose sums and totals go out of range at many places.
    pub fn out_of_range(random: &mut Random) -> Case {
        Case::filled(random, texts::overflow_shape, &[90, 100])
    }

    /// A small case of a shape, with one of these densities.
    fn filled(random: &mut Random, shape: fn(&mut Random) -> Shape, densities: &[usize]) -> Case {
        let sizes = Sizes {
            records: random.between(2, 12),
            references: random.between(1, 3),
            measures: random.between(1, 3),
        };
        loop {
            let shape = shape(random);
            if let Some(mut case) = Case::of_shape(random, sizes, shape) {
                let density = random.pick(densities);
                case.register = encode(sizes, &registers::cells(random, sizes, density));
                return case;
            }
        }
    }

    /// A small case with expressions, in any spacing.
    pub fn with_expressions(random: &mut Random) -> Case {
        let sizes = Sizes {
            records: random.below(8),
            references: random.between(1, 3),
            measures: random.between(1, 3),
        };
        Case::respaced(random, sizes, texts::right_expression_shape)
    }

    /// A case of one step, whose sums are mostly out of range, and seldom the whole
    /// expression that they stand in.
    pub fn near_the_range(random: &mut Random) -> Case {
        let wanted = random.below(100);
        loop {
            let case = Case::of_far_cells(random);
            let register = Register::load(&case.register).expect("it loads");
            let step = case.program.step(1).expect("it has a step");
            let sums = offences(step, &register);
            let plain = |sum: &Offence| sum.fate == Fate::Outside;
            match wanted {
                0..70 if sums.iter().all(plain) => (),
                70..90 if sums.is_empty() => (),
                _ => return case,
            }
        }
    }

    fn of_far_cells(random: &mut Random) -> Case {
        let sizes = Sizes {
            records: random.between(1, 2),
            references: 1,
            measures: random.between(2, 4),
        };
        let mut case = Case::respaced(random, sizes, texts::range_shape);
        let density = random.pick(&[50, 70, 90]);
        let mut cells = registers::cells(random, sizes, density);
        for record in cells.chunks_mut(sizes.fields()) {
            for cell in &mut record[sizes.references..] {
                if let Cell::Measured(value) | Cell::WorkedOut(value) = cell
                    && random.percent(70)
                {
                    *value = random.pick(&FAR);
                }
            }
        }
        case.register = encode(sizes, &cells);
        case
    }

    fn respaced(random: &mut Random, sizes: Sizes, shape: fn(&mut Random) -> Shape) -> Case {
        loop {
            let shape = shape(random);
            if let Some(mut case) = Case::of_shape(random, sizes, shape) {
                case.text = tokens::respaced(random, &case.text);
                if case.text.len() <= MAX_BYTES {
                    return case;
                }
            }
        }
    }

    /// A small case whose values are all near 0, so that rules often store what is there, add nothing
    /// and offer what is not smaller.
    pub fn with_marks(random: &mut Random) -> Case {
        let sizes = Sizes {
            records: random.between(1, 4),
            references: 1,
            measures: 1,
        };
        let text = marks::text(random).into_bytes();
        let program = read_text(&text, &sizes).expect("the text passes");
        Case {
            sizes,
            register: encode(sizes, &marks::cells(random, sizes)),
            text,
            program,
        }
    }

    /// A case of so few records that a run of it takes little time.
    pub fn small(random: &mut Random) -> Case {
        let sizes = Sizes {
            records: random.below(12),
            ..registers::sizes(random)
        };
        Case::new(random, sizes)
    }

    /// The least length of a scratch buffer.
    pub fn scratch_length(&self) -> usize {
        scratch_length(&self.sizes, &self.program)
    }
}
