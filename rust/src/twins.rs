//! Twins (document 02, P6): timers that every transition starts together or not at all. Before families are formed they
//! count as one timer, the lowest of them, which is live wherever any of them is. Transitions that leave spare locations are
//! passed over (P7).

use crate::chart::Chart;
use crate::limits::TIMERS;
use crate::sets::{LocationSet, TimerSet};

/// Of each timer of a chart the lowest of its twins, itself among them.
#[derive(Clone, Debug, PartialEq, Eq)]
pub struct Twins {
    lowest: [u8; TIMERS],
    /// The timers with a lower twin.
    higher: TimerSet,
}

impl Twins {
    /// No timer has a twin but itself.
    pub const NONE: Twins = {
        let mut lowest = [0; TIMERS];
        let mut timer = 0;
        while timer < TIMERS {
            lowest[timer] = timer as u8;
            timer += 1;
        }
        Twins { lowest, higher: TimerSet::EMPTY }
    };

    /// The twins of a chart with these reached locations, whether or not they are tested or live anywhere. Timers that
    /// nothing starts are twins too.
    pub fn of(chart: &Chart, reached: &LocationSet) -> Self {
        let mut groups = Groups::of(chart.timers());
        for transition in chart.transitions_from(reached) {
            if groups.count == usize::from(chart.timers()) {
                // All are apart.
                return Twins::NONE;
            }
            groups.tell_apart(transition.starts);
        }
        let mut twins = Twins::NONE;
        for &group in groups.all() {
            let mut members = group.into_iter();
            let Some(first) = members.next() else { continue };
            for timer in members {
                twins.lowest[usize::from(timer)] = first;
                twins.higher = twins.higher.with(timer);
            }
        }
        twins
    }

    /// The lowest twin of a timer.
    #[inline]
    pub fn lowest(&self, timer: u8) -> u8 {
        self.lowest[usize::from(timer)]
    }

    /// The lowest twins of a set's timers.
    #[inline]
    pub fn merged(&self, timers: TimerSet) -> TimerSet {
        let higher = timers.common(self.higher);
        higher.into_iter().fold(timers.minus(higher), |merged, timer| merged.with(self.lowest(timer)))
    }
}

/// The timers in groups: together are those that no transition so far has told apart.
struct Groups {
    /// The groups, in the first `count` entries.
    timers: [TimerSet; TIMERS],
    count: usize,
    /// Of each timer the place of its group.
    place: [u8; TIMERS],
}

impl Groups {
    /// All timers in one group.
    fn of(timers: u8) -> Self {
        let mut groups = Groups { timers: [TimerSet::EMPTY; TIMERS], count: 1, place: [0; TIMERS] };
        groups.timers[0] = TimerSet::below(timers);
        groups
    }

    fn all(&self) -> &[TimerSet] {
        &self.timers[..self.count]
    }

    /// Parts those that a transition starts from those of their group that it does not.
    fn tell_apart(&mut self, starts: TimerSet) {
        let mut left = starts;
        while let Some(timer) = left.into_iter().next() {
            let group = &mut self.timers[usize::from(self.place[usize::from(timer)])];
            let started = group.common(starts);
            left = left.minus(started);
            if started != *group {
                // A group has a timer at least, so there are never more groups than timers.
                *group = group.minus(started);
                self.timers[self.count] = started;
                started.into_iter().for_each(|timer| self.place[usize::from(timer)] = self.count as u8);
                self.count += 1;
            }
        }
    }
}
