//! The two runs, which are lent the same and answer in the same places.

use super::Answer;

/// What a run is lent: an output as long as the register file, and the two
/// scratch buffers.
#[derive(Clone, Debug, PartialEq, Eq)]
pub struct RunBuffers {
    /// The register file at the end.
    pub output: Vec<u8>,
    /// Scratch values.
    pub values: Vec<i64>,
    /// Scratch marks.
    pub marks: Vec<u8>,
}

/// A run by one of the machines: register, text, budget, buffers, answer.
pub type RunBy = fn(&[u8], &[u8], u16, &mut RunBuffers, &mut Answer) -> u32;

/// A run over one of the library's functions, declared here too.
macro_rules! run_over {
    ($(#[$about:meta])* $name:ident, $function:ident) => {
        unsafe extern "C" {
            fn $function(
                register: *const u8,
                register_length: usize,
                text: *const u8,
                text_length: usize,
                budget: u16,
                output: *mut u8,
                output_length: usize,
                values: *mut i64,
                values_length: usize,
                marks: *mut u8,
                marks_length: usize,
                answer: *mut Answer,
            ) -> u32;
        }

        $(#[$about])*
        pub fn $name(
            register: &[u8],
            text: &[u8],
            budget: u16,
            buffers: &mut RunBuffers,
            answer: &mut Answer,
        ) -> u32 {
            // SAFETY: each pointer comes from a reference that outlives the call,
            // is not null, and goes with its slice's length; the library writes to
            // the three buffers and `answer` only, and keeps no pointer.
            unsafe {
                $function(
                    register.as_ptr(),
                    register.len(),
                    text.as_ptr(),
                    text.len(),
                    budget,
                    buffers.output.as_mut_ptr(),
                    buffers.output.len(),
                    buffers.values.as_mut_ptr(),
                    buffers.values.len(),
                    buffers.marks.as_mut_ptr(),
                    buffers.marks.len(),
                    answer,
                )
            }
        }
    };
}

run_over! {
    /// Runs a text over a register by the direct machine. On refusals 1 to 19 the
    /// buffers stay as they are.
    run_direct, plot_run_direct
}

run_over! {
    /// Runs a text over a register by the message machine. On refusals 1 to 19 the
    /// buffers stay as they are.
    run_messages, plot_run_messages
}
