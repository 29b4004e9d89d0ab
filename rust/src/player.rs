//! The player: a step list, played on a chart file.

use crate::analysis::judged_chart;
use crate::chart::{Chart, Transition};
use crate::limits::{MOST_TICKS, MOST_TIMERS, TIMERS};
use crate::refusal::{Answer, Refusal};

/// Where a step list ends.
#[derive(Clone, Copy, Debug, PartialEq, Eq)]
pub struct Playing {
    pub location: u64,
    pub time: u64,
    pub accepting: bool,
}

/// Plays the steps (`transitions[i]` at `times[i]`) from tick 0 in the initial location, with one starting count for
/// each timer. Judges 1 to 10, 12 and 13, then of each step 14, 15, 22, 23 and 24.
pub fn play(file: &[u8], counts: &[u32], transitions: &[u32], times: &[u64]) -> Answer<Playing> {
    let chart = judged_chart(file)?;
    judge_counts(&chart, counts)?;
    judge_lengths(transitions, times)?;
    let mut position = Position::new(&chart, counts);
    each_step(transitions, times, |transition, time| step(&mut position, transition, time))?;
    Ok(position.playing())
}

/// Takes one step, or returns the number of its refusal and changes nothing.
#[inline]
pub(crate) fn step(position: &mut Position, transition: u32, time: u64) -> Result<(), u64> {
    let transition = position.named(transition)?;
    if time > u64::from(MOST_TICKS) {
        return Err(15);
    }
    position.judge_source(transition)?;
    let time = time as u32;
    if time < position.tick {
        return Err(23);
    }
    position.take(transition, time)
}

/// Judges starting counts (12): one for each timer, none over [`MOST_TICKS`].
pub(crate) fn judge_counts(chart: &Chart, counts: &[u32]) -> Answer<()> {
    if counts.len() != usize::from(chart.timers()) {
        return Err(Refusal::nowhere(12));
    }
    match counts.iter().position(|&count| count > MOST_TICKS) {
        Some(timer) => Err(Refusal::at(12, timer as u64)),
        None => Ok(()),
    }
}

/// Judges the lengths of a step list's two lists (13).
pub(crate) fn judge_lengths<T>(transitions: &[u32], times: &[T]) -> Answer<()> {
    if transitions.len() == times.len() {
        Ok(())
    } else {
        Err(Refusal::nowhere(13))
    }
}

/// Has `step` take the steps one by one, each a transition's number with its time or reading. It returns the number of
/// a refusal, which ends the list; the place is the step.
#[inline]
pub(crate) fn each_step<T: Copy>(
    transitions: &[u32],
    times: &[T],
    mut step: impl FnMut(u32, T) -> Result<(), u64>,
) -> Answer<()> {
    for (index, (&transition, &time)) in transitions.iter().zip(times).enumerate() {
        step(transition, time).map_err(|number| Refusal::at(number, index as u64))?;
    }
    Ok(())
}

/// A chart being played: its present location, the ticks that have passed, and its timers. Refusals are numbers here.
pub(crate) struct Position<'a> {
    chart: &'a Chart,
    location: u8,
    /// The ticks that have passed since tick 0.
    pub(crate) tick: u32,
    /// Of each timer the tick at which its count was 0, wrapping below tick 0 for the starting counts. A count is the
    /// present tick less this one: at most [`MOST_TICKS`] more than the tick.
    zero: [u32; TIMERS],
}

impl<'a> Position<'a> {
    /// The initial location at tick 0, with one starting count for each timer.
    pub(crate) fn new(chart: &'a Chart, counts: &[u32]) -> Self {
        let mut zero = [0; TIMERS];
        for (zero, &count) in zero.iter_mut().zip(counts) {
            *zero = count.wrapping_neg();
        }
        Position { chart, location: chart.initial(), tick: 0, zero }
    }

    /// The transition of that number (14).
    #[inline]
    pub(crate) fn named(&self, transition: u32) -> Result<&'a Transition, u64> {
        self.chart.transitions().get(transition as usize).ok_or(14)
    }

    /// Judges whether the transition leaves the present location (22).
    #[inline]
    pub(crate) fn judge_source(&self, transition: &Transition) -> Result<(), u64> {
        if transition.source == self.location {
            Ok(())
        } else {
            Err(22)
        }
    }

    /// Takes a transition at a tick that is not before the present one, if its tests are met then (24); else nothing
    /// changes.
    #[inline]
    pub(crate) fn take(&mut self, transition: &Transition, tick: u32) -> Result<(), u64> {
        for test in self.chart.tests(transition) {
            let count = tick.wrapping_sub(self.zero[usize::from(test.timer % MOST_TIMERS)]);
            if !test.comparison.met(count, test.constant) {
                return Err(24);
            }
        }
        for timer in transition.starts {
            self.zero[usize::from(timer)] = tick;
        }
        self.location = transition.target;
        self.tick = tick;
        Ok(())
    }

    /// Counts the ticks from 0 again, with the present location and counts; those over `largest` become `largest`.
    pub(crate) fn count_from_0(&mut self, largest: u32) {
        for zero in &mut self.zero {
            let count = self.tick.wrapping_sub(*zero).min(largest);
            *zero = count.wrapping_neg();
        }
        self.tick = 0;
    }

    /// The counts of the chart's timers at a tick that is not before the present one.
    pub(crate) fn counts_at(&self, tick: u32) -> Vec<u32> {
        let zero = &self.zero[..usize::from(self.chart.timers())];
        zero.iter().map(|&zero| tick.wrapping_sub(zero)).collect()
    }

    /// What the player answers if the step list ends here.
    pub(crate) fn playing(&self) -> Playing {
        Playing { location: self.location(), time: u64::from(self.tick), accepting: self.accepts() }
    }

    pub(crate) fn location(&self) -> u64 {
        u64::from(self.location)
    }

    /// Whether the present location accepts.
    pub(crate) fn accepts(&self) -> bool {
        self.chart.accepting().has(self.location)
    }
}
