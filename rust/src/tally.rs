//! How often each number of an answer came. For tests.

use std::ops::{Index, IndexMut, RangeInclusive};

use crate::refusal::Answer;

/// The largest number of a refusal.
const LARGEST_NUMBER: usize = 32;

/// How often each number came; 0 is a result.
#[derive(Clone, Debug)]
pub struct ByNumber([u64; LARGEST_NUMBER + 1]);

impl ByNumber {
    pub const NUMBERS: RangeInclusive<usize> = 0..=LARGEST_NUMBER;

    pub fn total(&self) -> u64 {
        self.0.iter().sum()
    }
}

impl Default for ByNumber {
    fn default() -> Self {
        ByNumber([0; LARGEST_NUMBER + 1])
    }
}

impl Index<usize> for ByNumber {
    type Output = u64;

    fn index(&self, number: usize) -> &u64 {
        &self.0[number]
    }
}

impl IndexMut<usize> for ByNumber {
    fn index_mut(&mut self, number: usize) -> &mut u64 {
        &mut self.0[number]
    }
}

/// The place of an answer in a tally: 0 for a result.
pub fn number_of<T>(answer: &Answer<T>) -> usize {
    answer.as_ref().err().map_or(0, |refusal| refusal.number as usize)
}
