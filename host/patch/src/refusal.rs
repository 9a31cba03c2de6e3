//! Refusals.

/// Why a call is refused, with the number that the rules give it.
#[derive(Clone, Copy, Debug, PartialEq, Eq)]
pub enum Reason {
    ShortBuffer = 1,
    InputTooLong = 2,
    EndsInside = 3,
    NotListed = 4,
    BadName = 5,
    OneTooMany = 6,
    LeftOver = 7,
    Outgrows = 8,
    CounterOver = 9,
    StoredLength = 10,
    BlockCheck = 11,
    BlockHead = 12,
    UnusedNotZero = 13,
    NoSuchChild = 14,
    ReservedWord = 15,
}

/// By their numbers, from 1.
const REASONS: [Reason; 15] = [
    Reason::ShortBuffer,
    Reason::InputTooLong,
    Reason::EndsInside,
    Reason::NotListed,
    Reason::BadName,
    Reason::OneTooMany,
    Reason::LeftOver,
    Reason::Outgrows,
    Reason::CounterOver,
    Reason::StoredLength,
    Reason::BlockCheck,
    Reason::BlockHead,
    Reason::UnusedNotZero,
    Reason::NoSuchChild,
    Reason::ReservedWord,
];

/// A refusal: why, where, and which input it is about: 1 for the first, 0 for none.
#[derive(Clone, Copy, Debug, PartialEq, Eq)]
pub struct Refusal {
    pub reason: Reason,
    pub place: usize,
    pub input: u8,
}

impl Refusal {
    /// The refusal that an entry point told, if it told one.
    pub(crate) fn told(number: u64, place: u64, input: u64) -> Option<Refusal> {
        let reason = *REASONS.get((number as usize).checked_sub(1)?)?;
        Some(Refusal { reason, place: place as usize, input: input as u8 })
    }
}

impl std::fmt::Display for Refusal {
    fn fmt(&self, f: &mut std::fmt::Formatter) -> std::fmt::Result {
        write!(f, "refused {} at {}", self.reason as u8, self.place)
    }
}

impl std::error::Error for Refusal {}
