//! "The straight machine": every reading follows the cells, hop by hop.

use crate::apply::{Knowledge, OutOfRange, Work};
use crate::program::{Program, Reading, Step};
use crate::reading::follow;
use crate::refusal::Refusal;
use crate::register::{Cell, Sizes};
use crate::run::{Counts, Machine, Run, Scratch, run};

/// Runs a text by the direct machine.
pub fn run_direct(
    register: &[u8],
    text: &[u8],
    budget: u16,
    output: &mut [u8],
    scratch: Scratch,
) -> Result<Run, Refusal> {
    run::<Direct>(register, text, budget, output, scratch)
}

/// The direct machine.
pub struct Direct {
    fields: usize,
}

impl Machine for Direct {
    fn new(sizes: Sizes, _: &Program) -> Direct {
        Direct {
            fields: sizes.fields(),
        }
    }

    fn step(
        &mut self,
        step: &Step,
        before: &[Cell],
        work: &mut Work,
    ) -> Result<Counts, OutOfRange> {
        let known = Following {
            fields: self.fields,
            cells: before,
        };
        work.apply(step, before, &known)?;
        Ok(Counts::default())
    }
}

/// Knowledge by following the cells as they stood before the step.
struct Following<'a> {
    fields: usize,
    cells: &'a [Cell],
}

impl Knowledge for Following<'_> {
    fn read(&self, reading: &Reading, record: usize) -> Option<i32> {
        follow(&reading.word, record, |record, field| {
            self.cells[record * self.fields + field]
        })
    }
}
