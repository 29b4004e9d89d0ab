//! Step lists played step by step: the player and the counter board with all counts after each step and, of the step that
//! is refused, what is wrong with it. The steps are taken by this crate's own player and counter board.

use crate::chart::{Chart, Comparison, Test, Transition};
use crate::counter::{CounterBoard, CounterPlaying};
use crate::limits::COUNTER_LARGEST_COUNT;
use crate::player::{self, Playing, Position};

/// The steps of a list that are taken, and the one that is refused, if there is one.
#[derive(Clone, Debug, PartialEq, Eq)]
pub struct Trace<Taken> {
    pub steps: Vec<Taken>,
    pub refused: Option<RefusedStep>,
}

/// Where a step of the player leads, and the counts of the chart's timers after its starts.
#[derive(Clone, Debug, PartialEq, Eq)]
pub struct PlayedStep {
    pub playing: Playing,
    pub counts: Vec<u32>,
}

/// Where a step of the counter board leads, the ticks that passed at it, and the counts of the chart's timers after its
/// starts.
#[derive(Clone, Debug, PartialEq, Eq)]
pub struct CounterStep {
    pub playing: CounterPlaying,
    pub passed: u16,
    pub counts: Vec<u32>,
}

/// A step that is refused, from 0, and what is wrong with it.
#[derive(Clone, Debug, PartialEq, Eq)]
pub struct RefusedStep {
    pub step: usize,
    pub transition: u32,
    pub moment: Moment,
    pub wrong: Wrong,
}

/// When a step is to be taken: the player's time or the counter board's reading.
#[derive(Clone, Copy, Debug, PartialEq, Eq)]
pub enum Moment {
    Time(u64),
    Reading(u16),
}

/// What is wrong with a step.
#[derive(Clone, Debug, PartialEq, Eq)]
pub enum Wrong {
    /// It names none of the chart's transitions, which are so many.
    NoTransition { transitions: usize },
    /// Its time is over the largest.
    TooLate,
    /// Its transition leaves another location than the present one.
    OtherSource { source: u8, location: u64 },
    /// Its time is before the present one.
    Early { time: u32 },
    /// These of its transition's tests are not met.
    NotMet(Vec<FailedTest>),
}

impl Wrong {
    /// The number of the refusal.
    pub fn number(&self) -> u64 {
        match self {
            Wrong::NoTransition { .. } => 14,
            Wrong::TooLate => 15,
            Wrong::OtherSource { .. } => 22,
            Wrong::Early { .. } => 23,
            Wrong::NotMet(_) => 24,
        }
    }
}

/// A test that is not met, and its timer's count.
#[derive(Clone, Copy, Debug, PartialEq, Eq)]
pub struct FailedTest {
    pub test: Test,
    pub count: u32,
}

/// How many ticks a count is away from the nearest one that would do.
#[derive(Clone, Copy, Debug, PartialEq, Eq)]
pub enum Off {
    TooMany(u64),
    TooFew(u64),
    /// No count would do.
    Never,
}

impl FailedTest {
    /// How far the count is off.
    pub fn off(&self) -> Off {
        let (count, constant) = (u64::from(self.count), u64::from(self.test.constant));
        match self.test.comparison {
            Comparison::AtMost => Off::TooMany(count - constant),
            Comparison::Below if constant == 0 => Off::Never,
            Comparison::Below => Off::TooMany(count - (constant - 1)),
            Comparison::AtLeast => Off::TooFew(constant - count),
            Comparison::Above => Off::TooFew(constant + 1 - count),
            Comparison::Equal if count > constant => Off::TooMany(count - constant),
            Comparison::Equal => Off::TooFew(constant - count),
        }
    }
}

/// The tests of a transition that these counts do not meet.
fn failed_tests(chart: &Chart, transition: &Transition, counts: &[u32]) -> Vec<FailedTest> {
    let tests = chart.tests(transition).iter();
    let tried = tests.map(|&test| FailedTest { test, count: counts[usize::from(test.timer)] });
    tried.filter(|FailedTest { test, count }| !test.comparison.met(*count, test.constant)).collect()
}

/// Plays the steps, each a transition's number and a time, on an accepted chart with starting counts that 12 allows.
pub fn play(chart: &Chart, counts: &[u32], transitions: &[u32], times: &[u64]) -> Trace<PlayedStep> {
    let mut position = Position::new(chart, counts);
    let mut steps = Vec::new();
    for (&transition, &time) in transitions.iter().zip(times) {
        if let Err(number) = player::step(&mut position, transition, time) {
            let wrong = wrong_with(chart, &position, number, transition, || position.counts_at(time as u32));
            let refused = RefusedStep { step: steps.len(), transition, moment: Moment::Time(time), wrong };
            return Trace { steps, refused: Some(refused) };
        }
        steps.push(PlayedStep { playing: position.playing(), counts: position.counts_at(position.tick) });
    }
    Trace { steps, refused: None }
}

/// Plays the steps, each a transition's number and a reading, on an accepted chart that 18 allows, with starting counts
/// that 12 allows and the reading `first` at tick 0. Counts stop rising at [`COUNTER_LARGEST_COUNT`].
pub fn play_counter(
    chart: &Chart,
    counts: &[u32],
    transitions: &[u32],
    first: u16,
    readings: &[u16],
) -> Trace<CounterStep> {
    let mut board = CounterBoard::new(chart, counts, first);
    let mut steps = Vec::new();
    for (&transition, &reading) in transitions.iter().zip(readings) {
        let passed = board.passed(reading);
        if let Err(number) = board.step(transition, reading) {
            let counts = || counter_counts(&board.position, board.position.tick + u32::from(passed));
            let wrong = wrong_with(chart, &board.position, number, transition, counts);
            let refused = RefusedStep { step: steps.len(), transition, moment: Moment::Reading(reading), wrong };
            return Trace { steps, refused: Some(refused) };
        }
        let counts = counter_counts(&board.position, board.position.tick);
        steps.push(CounterStep { playing: board.playing(), passed, counts });
    }
    Trace { steps, refused: None }
}

/// The counts of the counter board at a tick.
fn counter_counts(position: &Position, tick: u32) -> Vec<u32> {
    position.counts_at(tick).into_iter().map(|count| count.min(COUNTER_LARGEST_COUNT)).collect()
}

/// What is wrong with a step that was refused with this number; `counts` are those that its tests were tried on.
fn wrong_with(
    chart: &Chart,
    position: &Position,
    number: u64,
    transition: u32,
    counts: impl FnOnce() -> Vec<u32>,
) -> Wrong {
    let Ok(named) = position.named(transition) else {
        return Wrong::NoTransition { transitions: chart.transitions().len() };
    };
    match number {
        15 => Wrong::TooLate,
        22 => Wrong::OtherSource { source: named.source, location: position.location() },
        23 => Wrong::Early { time: position.tick },
        _ => Wrong::NotMet(failed_tests(chart, named, &counts())),
    }
}
