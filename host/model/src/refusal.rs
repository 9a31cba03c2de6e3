//! Refusals: number and place by 01's table and 02's requests, and which input it is about: 1, 2 or 3 in the order of the arguments, 0 for none.

#[derive(Clone, Copy, Debug, PartialEq, Eq)]
pub struct Refusal {
    pub number: u8,
    pub place: usize,
    pub input: u8,
}

/// A count (the bytes written, or the nodes of what was read), or a refusal.
pub type Answer = Result<usize, Refusal>;

pub fn refuse<T>(number: u8, place: usize, input: u8) -> Result<T, Refusal> {
    Err(Refusal { number, place, input })
}

/// 1: a lent buffer is shorter than asked.
pub fn short<T>() -> Result<T, Refusal> {
    refuse(1, 0, 0)
}

/// Scratch and cut entries are untouched by 1 to 7, 9 and 15, and all zeros otherwise.
pub fn clears_scratch<T>(outcome: &Result<T, Refusal>) -> bool {
    match outcome {
        Ok(_) => true,
        Err(r) => !matches!(r.number, 1..=7 | 9 | 15),
    }
}
