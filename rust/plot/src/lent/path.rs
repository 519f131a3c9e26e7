//! The path behind a reading.

use super::Answer;

/// The most hops of a path.
pub const MAX_HOPS: usize = 16;

/// Buffers for the hops of a path. Places behind the last hop become 0; on a
/// refusal all four stay as they are.
#[derive(Clone, Debug, Default, PartialEq, Eq)]
pub struct PathBuffers {
    /// The record that hop i stands at.
    pub records: [u64; MAX_HOPS],
    /// The letter of its field.
    pub fields: [u8; MAX_HOPS],
    /// The value of its cell, 0 where that is unfilled.
    pub values: [i64; MAX_HOPS],
    /// The mark of its cell as the file has it: 0 unfilled, 1 measured, 2 worked out.
    pub marks: [u8; MAX_HOPS],
}

unsafe extern "C" {
    fn plot_path(
        register: *const u8,
        register_length: usize,
        chain: *const u8,
        chain_length: usize,
        record: u64,
        records: *mut [u64; MAX_HOPS],
        fields: *mut [u8; MAX_HOPS],
        values: *mut [i64; MAX_HOPS],
        marks: *mut [u8; MAX_HOPS],
        answer: *mut Answer,
    ) -> u32;
}

/// Lists the path behind the reading of a chain at a record.
pub fn path(
    register: &[u8],
    chain: &[u8],
    record: u64,
    hops: &mut PathBuffers,
    answer: &mut Answer,
) -> u32 {
    // SAFETY: each pointer comes from a reference that outlives the call, is not
    // null, and goes with its slice's length or to an array of the length that
    // the library writes; it writes to the four buffers and `answer` only, and
    // keeps no pointer.
    unsafe {
        plot_path(
            register.as_ptr(),
            register.len(),
            chain.as_ptr(),
            chain.len(),
            record,
            &mut hops.records,
            &mut hops.fields,
            &mut hops.values,
            &mut hops.marks,
            answer,
        )
    }
}
