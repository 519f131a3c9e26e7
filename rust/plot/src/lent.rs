//! The functions of the library as they are: the result is the refusal number,
//! 0 for none, and every call fills the lent answer whole.

mod path;
mod runs;

pub use path::{MAX_HOPS, PathBuffers, path};
pub use runs::{RunBuffers, RunBy, run_direct, run_messages};

/// The numbers that a call answers; unused places are 0.
pub type Answer = [u64; 8];

/// The place of the line, for refusals 6 to 15, 24 and 25.
pub const LINE: usize = 0;
/// The place of a run's finished steps.
pub const FINISHED: usize = 1;
/// The place of the exchanges of a run by messages.
pub const EXCHANGES: usize = 2;
/// The place of the letters of a run by messages.
pub const LETTERS: usize = 3;
/// The place of the record that refusal 21 names.
pub const RECORD: usize = 4;
/// The place of the field that refusal 21 names, from 0, references first.
pub const FIELD: usize = 5;
/// The place that says whether a reading is filled: 1 filled, 0 unfilled.
pub const FILLED: usize = 6;
/// The place of a path's number of hops.
pub const HOPS: usize = 6;
/// The place of a checked text's number of steps.
pub const STEPS: usize = 6;
/// The place of the most lines of any step of a checked text.
pub const MOST_LINES: usize = 7;
/// The place of a step's number of plan lines.
pub const LINES: usize = 6;
/// The place that says whether a remote exchange follows a plan: 1 if so.
pub const REMOTE: usize = 7;

/// The most lines of a plan.
pub const MAX_LINES: usize = 64;
/// The bytes that the chain of a plan line takes up.
pub const CHAIN_BYTES: usize = 16;
/// The kind of a Back line.
pub const BACK: u8 = 0;
/// The kind of a Read line.
pub const READ: u8 = 1;

/// Buffers for the lines of a plan. Places behind the last line become 0; on a
/// refusal all three stay as they are.
#[derive(Clone, Debug, PartialEq, Eq)]
pub struct PlanBuffers {
    /// Line i is a Back or a Read line.
    pub kinds: [u8; MAX_LINES],
    /// The hop letters of line i from the inside out, in bytes 16·i to 16·i + 15,
    /// 0 behind the last.
    pub chains: [u8; MAX_LINES * CHAIN_BYTES],
    /// The round of line i.
    pub rounds: [u8; MAX_LINES],
}

impl Default for PlanBuffers {
    fn default() -> PlanBuffers {
        PlanBuffers {
            kinds: [0; MAX_LINES],
            chains: [0; MAX_LINES * CHAIN_BYTES],
            rounds: [0; MAX_LINES],
        }
    }
}

unsafe extern "C" {
    fn plot_read(
        register: *const u8,
        register_length: usize,
        chain: *const u8,
        chain_length: usize,
        record: u64,
        value: *mut i64,
        answer: *mut Answer,
    ) -> u32;

    fn plot_check(
        register: *const u8,
        register_length: usize,
        text: *const u8,
        text_length: usize,
        answer: *mut Answer,
    ) -> u32;

    fn plot_plan(
        register: *const u8,
        register_length: usize,
        text: *const u8,
        text_length: usize,
        step: u64,
        kinds: *mut [u8; MAX_LINES],
        chains: *mut [u8; MAX_LINES * CHAIN_BYTES],
        rounds: *mut [u8; MAX_LINES],
        answer: *mut Answer,
    ) -> u32;

    fn plot_inspect(
        register: *const u8,
        register_length: usize,
        text: *const u8,
        text_length: usize,
        step: u64,
        t: u16,
        values: *mut i64,
        values_length: usize,
        marks: *mut u8,
        marks_length: usize,
        answer: *mut Answer,
    ) -> u32;
}

/// Reads a chain at a record: `value` becomes the cell's value, 0 where it is
/// unfilled. Where the call is refused it stays.
pub fn read(
    register: &[u8],
    chain: &[u8],
    record: u64,
    value: &mut i64,
    answer: &mut Answer,
) -> u32 {
    // SAFETY: each pointer comes from a reference that outlives the call, is not
    // null, and goes with its slice's length; the library writes to `value` and
    // `answer` only, and keeps no pointer.
    unsafe {
        plot_read(
            register.as_ptr(),
            register.len(),
            chain.as_ptr(),
            chain.len(),
            record,
            value,
            answer,
        )
    }
}

/// Checks a rules text for a register.
pub fn check(register: &[u8], text: &[u8], answer: &mut Answer) -> u32 {
    // SAFETY: each pointer comes from a reference that outlives the call, is not
    // null, and goes with its slice's length; the library writes to `answer`
    // only, and keeps no pointer.
    unsafe {
        plot_check(
            register.as_ptr(),
            register.len(),
            text.as_ptr(),
            text.len(),
            answer,
        )
    }
}

/// Makes the plan of a step of a rules text; steps count from 1.
pub fn plan(
    register: &[u8],
    text: &[u8],
    step: u64,
    lines: &mut PlanBuffers,
    answer: &mut Answer,
) -> u32 {
    // SAFETY: each pointer comes from a reference that outlives the call, is not
    // null, and goes with its slice's length or to an array of the length that
    // the library writes; it writes to the three buffers and `answer` only, and
    // keeps no pointer.
    unsafe {
        plot_plan(
            register.as_ptr(),
            register.len(),
            text.as_ptr(),
            text.len(),
            step,
            &mut lines.kinds,
            &mut lines.chains,
            &mut lines.rounds,
            answer,
        )
    }
}

/// Inspects a step of a rules text over the register as loaded, after round t:
/// the letter of line i and origin u stands at place i × n + u. Places behind the
/// step's last line stay as they are, and on a refusal all do.
pub fn inspect(
    register: &[u8],
    text: &[u8],
    step: u64,
    t: u16,
    values: &mut [i64],
    marks: &mut [u8],
    answer: &mut Answer,
) -> u32 {
    // SAFETY: each pointer comes from a reference that outlives the call, is not
    // null, and goes with its slice's length; the library writes to `values`,
    // `marks` and `answer` only, and keeps no pointer.
    unsafe {
        plot_inspect(
            register.as_ptr(),
            register.len(),
            text.as_ptr(),
            text.len(),
            step,
            t,
            values.as_mut_ptr(),
            values.len(),
            marks.as_mut_ptr(),
            marks.len(),
            answer,
        )
    }
}
