//! What rules make of cells and their marks (M-107 of document 02), counted while
//! they are applied.

/// What a rule made of a cell and its mark.
#[derive(Clone, Copy, Debug, PartialEq, Eq)]
pub enum Transition {
    /// `:=` of another value over a measured one.
    AssignedMeasured,
    /// `:=` of the same value over a measured one.
    AssignedSame,
    /// `:=` over an unfilled cell.
    AssignedUnfilled,
    /// `:=` over a worked-out value.
    AssignedWorkedOut,
    /// `+=` to a measured value.
    AddedMeasured,
    /// `+=` to a measured value, of 0 or of amounts that cancel.
    AddedNothing,
    /// `+=` to an unfilled cell, which stays so.
    AddedUnfilled,
    /// `+=` to a worked-out value.
    AddedWorkedOut,
    /// `<?=` that changes a measured value.
    LeastChanges,
    /// `<?=` that fills a cell.
    LeastFills,
    /// `<?=` that changes a worked-out value.
    LeastAgain,
    /// `<?=` that is not smaller than a measured value, and leaves its mark.
    LeastLeavesMeasured,
    /// `<?=` that is not smaller than a worked-out value.
    LeastLeavesWorkedOut,
    /// A pass of a loop that changed only marks of its field, and ended the loop.
    AtRest,
}

impl Transition {
    /// Each of them, with its name.
    pub const ALL: [(Transition, &str); 14] = [
        (Transition::AssignedMeasured, ":= over a measured value"),
        (Transition::AssignedSame, ":= of the same value"),
        (Transition::AssignedUnfilled, ":= over an unfilled cell"),
        (Transition::AssignedWorkedOut, ":= over a worked-out value"),
        (Transition::AddedMeasured, "+= to a measured value"),
        (Transition::AddedNothing, "+= of 0, or cancelling"),
        (Transition::AddedUnfilled, "+= to an unfilled cell"),
        (Transition::AddedWorkedOut, "+= to a worked-out value"),
        (Transition::LeastChanges, "<?= changes a measured value"),
        (Transition::LeastFills, "<?= fills a cell"),
        (Transition::LeastAgain, "<?= changes a worked-out one"),
        (
            Transition::LeastLeavesMeasured,
            "<?= leaves a measured value",
        ),
        (
            Transition::LeastLeavesWorkedOut,
            "<?= leaves a worked-out one",
        ),
        (Transition::AtRest, "a loop at rest but for marks"),
    ];
}

/// How often each of them happened.
#[derive(Clone, Copy, Debug, Default, PartialEq, Eq)]
pub struct Transitions([u64; Transition::ALL.len()]);

impl Transitions {
    /// Counts one.
    pub fn count(&mut self, transition: Transition) {
        self.0[transition as usize] += 1;
    }

    /// How often it happened.
    pub fn of(&self, transition: Transition) -> u64 {
        self.0[transition as usize]
    }
}
