//! The limits, and the room that a call must be lent (01, "At most 4,096 bytes for each", "Buffers").

#[derive(Clone, Copy, Debug, PartialEq, Eq)]
pub struct Limits {
    pub bytes: usize,
    /// in a term
    pub nodes: usize,
    /// in a proof
    pub rules: usize,
    /// in a formula alone, and in all formulas of a proof together
    pub formulas: usize,
    /// where a printed term goes
    pub text_room: usize,
    /// where a printed formula goes
    pub formula_text_room: usize,
    /// where a stored form goes, and the longest stored file
    pub stored_room: usize,
    pub scratch_room: usize,
    pub entry_room: usize,
}

impl Limits {
    pub const BASE: Limits = Limits {
        bytes: 4096,
        nodes: 512,
        rules: 512,
        formulas: 1024,
        text_room: 20480,
        formula_text_room: 11264,
        stored_room: 4608,
        scratch_room: 8192,
        entry_room: 512,
    };

    /// where a term, a name list or content goes
    pub fn output_room(&self) -> usize {
        self.bytes
    }
}

/// An extraction may not leave the counter over this.
pub const MOST_COUNTER: u64 = 100_000_000;
