//! "A printed run": what the program prints for a register file and a rules text.

use crate::messages::run_messages;
use crate::plan::MAX_LINES;
use crate::register::{Cell, MAX_FIELDS, MAX_RECORDS, Register};
use crate::run::{End, Run, Scratch};

/// The program's budget.
const BUDGET: u16 = 1000;
/// The largest register file that it takes.
const LARGEST: usize = 512;
/// Places enough for every register and text.
const PLACES: usize = MAX_RECORDS * (MAX_LINES + 2 * MAX_FIELDS + 1);

/// All that the program prints.
pub fn print(register: &[u8], text: &[u8]) -> String {
    if register.len() > LARGEST {
        return "too large\n".to_owned();
    }
    let mut output = register.to_vec();
    match run_messages(register, text, BUDGET, &mut output, Scratch::both(PLACES)) {
        Err(refusal) => refused(refusal.reason.number(), refusal.line),
        Ok(run) => match run.end {
            End::Whole => listing(&run, &output),
            _ => refused(run.end.number(), usize::from(run.finished)),
        },
    }
}

fn refused(number: u32, at: usize) -> String {
    format!("refused {number} at {at}\n")
}

/// The header, then each record's number and fields: `-` for unfilled, `~` behind
/// a worked-out value.
fn listing(run: &Run, output: &[u8]) -> String {
    let register = Register::load(output).expect("a run gives a register that loads");
    let sizes = register.sizes;
    let counts = run.counts;
    let mut text = format!(
        "{} records {} steps {} exchanges {} letters\n",
        sizes.records, run.finished, counts.exchanges, counts.letters
    );
    for record in 0..sizes.records {
        text += &record.to_string();
        for field in 0..sizes.fields() {
            text += &match register.cell(record, field) {
                Cell::Missing => " -".to_owned(),
                Cell::Measured(value) => format!(" {value}"),
                Cell::WorkedOut(value) => format!(" {value}~"),
            };
        }
        text += "\n";
    }
    text
}
