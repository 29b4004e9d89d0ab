//! Refusals: a number of document 01's tables and a place.

use std::fmt;

use crate::limits::NOWHERE;

/// Why a call was turned down, and where. The place is never cut: a step list may have more than [`NOWHERE`] steps.
#[derive(Clone, Copy, Debug, PartialEq, Eq)]
pub struct Refusal {
    pub number: u64,
    pub place: u64,
}

/// A result, or the one refusal that document 01 gives.
pub type Answer<T> = Result<T, Refusal>;

impl Refusal {
    /// The refusal `number` at `place`.
    pub const fn at(number: u64, place: u64) -> Self {
        Refusal { number, place }
    }

    /// The refusal `number` without a place.
    pub const fn nowhere(number: u64) -> Self {
        Refusal::at(number, NOWHERE)
    }
}

impl fmt::Display for Refusal {
    fn fmt(&self, f: &mut fmt::Formatter<'_>) -> fmt::Result {
        write!(f, "refused {} {}", self.number, self.place)
    }
}

impl std::error::Error for Refusal {}
