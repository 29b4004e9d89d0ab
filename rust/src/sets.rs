//! Sets of timers (one 64-bit word) and of locations (four words).

use crate::limits::{LOCATIONS, MOST_TIMERS};

/// The bits of a word.
const BITS: u8 = u64::BITS as u8;

/// The words of a set of locations.
const WORDS: usize = LOCATIONS / BITS as usize;

// A word has a bit for each timer.
const _: () = assert!(MOST_TIMERS == BITS);

/// A set of timers: timer j is bit j.
#[derive(Clone, Copy, Debug, Default, PartialEq, Eq)]
pub struct TimerSet(u64);

impl TimerSet {
    pub const EMPTY: TimerSet = TimerSet(0);

    /// The set whose bits are those of `word`.
    #[inline]
    pub const fn from_word(word: u64) -> Self {
        TimerSet(word)
    }

    /// The timers below `count`, which is at most [`MOST_TIMERS`].
    #[inline]
    pub const fn below(count: u8) -> Self {
        if count == 0 {
            TimerSet::EMPTY
        } else {
            TimerSet(u64::MAX >> (BITS - count))
        }
    }

    #[inline]
    pub const fn word(self) -> u64 {
        self.0
    }

    #[inline]
    pub const fn is_empty(self) -> bool {
        self.0 == 0
    }

    /// The number of timers in the set.
    #[inline]
    pub const fn len(self) -> u32 {
        self.0.count_ones()
    }

    #[inline]
    pub const fn has(self, timer: u8) -> bool {
        self.0 >> timer & 1 != 0
    }

    /// Whether some timer of the set is `timer` or a higher one.
    #[inline]
    pub const fn reaches(self, timer: u8) -> bool {
        self.0 >> timer != 0
    }

    #[inline]
    pub const fn with(self, timer: u8) -> Self {
        TimerSet(self.0 | 1 << timer)
    }

    #[inline]
    pub const fn without(self, timer: u8) -> Self {
        TimerSet(self.0 & !(1 << timer))
    }

    #[inline]
    pub const fn joined(self, other: Self) -> Self {
        TimerSet(self.0 | other.0)
    }

    #[inline]
    pub const fn common(self, other: Self) -> Self {
        TimerSet(self.0 & other.0)
    }

    #[inline]
    pub const fn minus(self, other: Self) -> Self {
        TimerSet(self.0 & !other.0)
    }
}

/// The timers of a set, rising.
impl IntoIterator for TimerSet {
    type Item = u8;
    type IntoIter = Members;

    #[inline]
    fn into_iter(self) -> Members {
        Members(self.0)
    }
}

impl FromIterator<u8> for TimerSet {
    fn from_iter<I: IntoIterator<Item = u8>>(timers: I) -> Self {
        timers.into_iter().fold(TimerSet::EMPTY, TimerSet::with)
    }
}

/// The positions of the ones of a word, rising.
#[derive(Clone, Debug)]
pub struct Members(u64);

impl Iterator for Members {
    type Item = u8;

    #[inline]
    fn next(&mut self) -> Option<u8> {
        if self.0 == 0 {
            return None;
        }
        let lowest = self.0.trailing_zeros() as u8;
        self.0 &= self.0 - 1;
        Some(lowest)
    }
}

/// A set of locations: location q is bit q modulo 64 of word q / 64.
#[derive(Clone, Copy, Debug, Default, PartialEq, Eq)]
pub struct LocationSet([u64; WORDS]);

impl LocationSet {
    pub const EMPTY: LocationSet = LocationSet([0; WORDS]);

    /// The locations below `count`, which is at most [`MOST_LOCATIONS`](crate::limits::MOST_LOCATIONS).
    pub fn below(count: u16) -> Self {
        let mut set = LocationSet::EMPTY;
        let mut left = count;
        for word in &mut set.0 {
            let here = left.min(u16::from(BITS));
            *word = TimerSet::below(here as u8).word();
            left -= here;
        }
        set
    }

    #[inline]
    pub fn has(&self, location: u8) -> bool {
        self.0[usize::from(location / BITS)] >> (location % BITS) & 1 != 0
    }

    #[inline]
    pub fn add(&mut self, location: u8) {
        self.0[usize::from(location / BITS)] |= 1 << (location % BITS);
    }

    /// The number of locations in the set.
    pub fn count(&self) -> u16 {
        self.0.iter().map(|word| word.count_ones() as u16).sum()
    }

    /// Whether some location is in both sets.
    pub fn meets(&self, other: &LocationSet) -> bool {
        self.0.iter().zip(&other.0).any(|(word, other)| word & other != 0)
    }

    /// The locations that are in both sets.
    pub fn common(&self, other: &LocationSet) -> LocationSet {
        LocationSet(std::array::from_fn(|word| self.0[word] & other.0[word]))
    }

    /// The lowest location that is in the set and not in `other`.
    pub fn lowest_beyond(&self, other: &LocationSet) -> Option<u8> {
        (0..WORDS).find_map(|word| {
            let rest = self.0[word] & !other.0[word];
            (rest != 0).then(|| BITS * word as u8 + rest.trailing_zeros() as u8)
        })
    }

    /// The lowest location, taken out of the set.
    #[inline]
    pub fn take_lowest(&mut self) -> Option<u8> {
        for (index, word) in self.0.iter_mut().enumerate() {
            if *word != 0 {
                let lowest = word.trailing_zeros();
                *word &= *word - 1;
                return Some(BITS * index as u8 + lowest as u8);
            }
        }
        None
    }

    /// The locations of the set, rising.
    #[inline]
    pub fn iter(&self) -> impl Iterator<Item = u8> + '_ {
        self.0.iter().enumerate().flat_map(|(index, &word)| Members(word).map(move |bit| BITS * index as u8 + bit))
    }
}

#[cfg(test)]
mod tests {
    use super::*;

    #[test]
    fn sets_of_timers() {
        assert_eq!(TimerSet::below(0), TimerSet::EMPTY);
        assert_eq!(TimerSet::below(64).word(), u64::MAX);
        assert_eq!(TimerSet::below(64).len(), 64);
        let set: TimerSet = [0, 5, 63].into_iter().collect();
        assert_eq!(set.into_iter().collect::<Vec<_>>(), [0, 5, 63]);
        assert!(set.has(63) && !set.has(62));
        assert!(set.reaches(63) && set.without(63).reaches(5) && !set.without(63).reaches(6));
        assert_eq!(set.minus(TimerSet::below(6)), TimerSet::EMPTY.with(63));
        assert_eq!(set.common(TimerSet::below(6)).joined(TimerSet::EMPTY.with(63)), set);
    }

    #[test]
    fn sets_of_locations() {
        let mut set = LocationSet::EMPTY;
        for location in [255, 0, 64, 63] {
            set.add(location);
        }
        assert_eq!(set.iter().collect::<Vec<_>>(), [0, 63, 64, 255]);
        assert_eq!(set.count(), 4);
        assert!(set.has(64) && !set.has(65));
        assert_eq!(LocationSet::below(256).count(), 256);
        assert_eq!(LocationSet::below(65).iter().last(), Some(64));
        assert!(set.meets(&LocationSet::below(1)) && !set.meets(&LocationSet::EMPTY));
        assert_eq!(set.common(&LocationSet::below(64)).iter().collect::<Vec<_>>(), [0, 63]);
        assert_eq!(LocationSet::below(256).lowest_beyond(&set), Some(1));
        assert_eq!(set.lowest_beyond(&LocationSet::below(256)), None);
        assert_eq!([set.take_lowest(), set.take_lowest()], [Some(0), Some(63)]);
        assert_eq!([set.take_lowest(), set.take_lowest(), set.take_lowest()], [Some(64), Some(255), None]);
    }
}
