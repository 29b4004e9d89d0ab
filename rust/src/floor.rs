//! The floor (document 02, P1): with few families the smallest number of timers in any plan that gives meeting families
//! different numbers, found by search; with more, the size of the fullest live set. Twins count once in both (P6).

use std::collections::HashSet;

use crate::analysis::Families;
use crate::limits::MOST_SEARCHED;

/// How many timers a board needs at least, as far as the analysis tells.
#[derive(Clone, Copy, Debug, PartialEq, Eq)]
pub struct Floor {
    pub timers: u32,
    /// Whether this is the smallest number of timers in any plan; else it is only the size of the fullest live set.
    pub searched: bool,
}

impl Floor {
    /// The floor of a chart for which first fit uses `used` timers.
    pub fn of(families: &Families, used: u32) -> Self {
        // Families that are live at one location meet: no plan has fewer timers.
        let fullest = families.fullest();
        if families.list().len() > MOST_SEARCHED {
            return Floor { timers: fullest, searched: false };
        }
        // First fit's plan is one.
        let mut search = Search::of(families);
        let timers = (fullest..used).find(|&k| search.suffice(k)).unwrap_or(used);
        Floor { timers, searched: true }
    }
}

/// A set of families: family i is bit i.
type Set = u32;

/// The families of a set, rising.
fn members(mut set: Set) -> impl Iterator<Item = usize> {
    std::iter::from_fn(move || {
        let lowest = set.trailing_zeros() as usize;
        (set != 0).then(|| {
            set &= set - 1;
            lowest
        })
    })
}

/// The search for a plan. It hands out one timer after the other, each to families no two of which meet.
struct Search {
    /// Of each family the others that it meets.
    meets: Vec<Set>,
    /// What was found not to do: families, and the timers that are left for them.
    failed: HashSet<(Set, u32)>,
}

impl Search {
    fn of(families: &Families) -> Self {
        let list = families.list();
        let meets = list.iter().enumerate().map(|(i, family)| {
            let others =
                list.iter().enumerate().filter(|&(j, other)| j != i && family.locations.meets(&other.locations));
            others.fold(0, |set, (j, _)| set | 1 << j)
        });
        Search { meets: meets.collect(), failed: HashSet::new() }
    }

    /// How many families of a set a family meets.
    fn met(&self, family: usize, set: Set) -> u32 {
        (self.meets[family] & set).count_ones()
    }

    /// Whether some plan for all families has `k` timers.
    fn suffice(&mut self, k: u32) -> bool {
        self.suffice_for((1 << self.meets.len()) - 1, k)
    }

    /// Whether some plan for the families `left` has `k` timers.
    fn suffice_for(&mut self, left: Set, k: u32) -> bool {
        let left = self.hard(left, k);
        let Some(first) = members(left).max_by_key(|&family| self.met(family, left)) else {
            return true;
        };
        // With one timer and families that meet, or none and families, there is no plan.
        if k < 2 || self.failed.contains(&(left, k)) {
            return false;
        }
        let own = 1 << first;
        let found = self.share(left, k, own, left & !own & !self.meets[first], 0);
        if !found {
            self.failed.insert((left, k));
        }
        found
    }

    /// Leaves out, as long as there are such, families that meet fewer than `k` others: once all others have one of `k`
    /// timers, one remains for them.
    fn hard(&self, left: Set, k: u32) -> Set {
        let mut hard = left;
        loop {
            let easy =
                members(hard).filter(|&family| self.met(family, hard) < k).fold(0, |set, family| set | 1 << family);
            if easy == 0 {
                return hard;
            }
            hard &= !easy;
        }
    }

    /// Whether some plan for `left` with `k` timers gives one of them to `own`, to some of `open` and to none of
    /// `passed`. None of these two meets one of `own`.
    ///
    /// A timer that could go to one family more need not be tried without it.
    fn share(&mut self, left: Set, k: u32, own: Set, mut open: Set, mut passed: Set) -> bool {
        if open == 0 {
            return passed == 0 && self.suffice_for(left & !own, k - 1);
        }
        // This family, or an open one that it meets, has the timer too; or else the family could join.
        let with_met = |family: usize| open & (self.meets[family] | 1 << family);
        let choices = members(open | passed).map(with_met).min_by_key(|choices| choices.count_ones());
        for family in members(choices.unwrap_or(open)) {
            let apart = !self.meets[family] & !(1 << family);
            if self.share(left, k, own | 1 << family, open & apart, passed & apart) {
                return true;
            }
            open &= !(1 << family);
            passed |= 1 << family;
        }
        false
    }
}
