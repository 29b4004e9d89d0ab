//! The counter board, which document 02 calls the cheap board: a step list, played on a chart file by a board that has no
//! timers and reads one free-running counter of sixteen bits.

use crate::analysis::judged_chart;
use crate::chart::Chart;
use crate::limits::{COUNTER_LARGEST_CONSTANT, COUNTER_LARGEST_COUNT, MOST_TICKS};
use crate::player::{each_step, judge_counts, judge_lengths, Position};
use crate::refusal::{Answer, Refusal};

/// Where a step list ends. The counter board knows no time.
#[derive(Clone, Copy, Debug, PartialEq, Eq)]
pub struct CounterPlaying {
    pub location: u64,
    pub accepting: bool,
}

/// Plays the steps (`transitions[i]` at the reading `readings[i]`) from the initial location, with one starting count for
/// each timer and the reading `first` at tick 0. Judges 1 to 10, 12, 13 and 18, then of each step 14, 22 and 24.
pub fn play_counter(
    file: &[u8],
    counts: &[u32],
    transitions: &[u32],
    first: u16,
    readings: &[u16],
) -> Answer<CounterPlaying> {
    let chart = judged_chart(file)?;
    judge_counts(&chart, counts)?;
    judge_lengths(transitions, readings)?;
    judge_constants(&chart)?;
    let mut board = CounterBoard::new(&chart, counts, first);
    each_step(transitions, readings, |transition, reading| board.step(transition, reading))?;
    Ok(board.playing())
}

/// Judges the constants of all tests (18): none over [`COUNTER_LARGEST_CONSTANT`].
fn judge_constants(chart: &Chart) -> Answer<()> {
    if chart.largest_constant() > Some(COUNTER_LARGEST_CONSTANT) {
        Err(Refusal::nowhere(18))
    } else {
        Ok(())
    }
}

/// A chart being played by the counter board.
pub(crate) struct CounterBoard<'a> {
    /// Its counts go on beyond [`COUNTER_LARGEST_COUNT`], which no test can tell: there is no constant that large. They
    /// are cut to it where the ticks have come to more than [`MOST_TICKS`], which are then counted from 0 again; so
    /// neither ever exceeds 32 bits.
    pub(crate) position: Position<'a>,
    /// The reading at the last step, before the first step that at tick 0.
    last: u16,
}

impl<'a> CounterBoard<'a> {
    /// The initial location at the reading `first`, with one starting count for each timer.
    pub(crate) fn new(chart: &'a Chart, counts: &[u32], first: u16) -> Self {
        CounterBoard { position: Position::new(chart, counts), last: first }
    }

    /// The ticks from the last step to a reading.
    #[inline]
    pub(crate) fn passed(&self, reading: u16) -> u16 {
        reading.wrapping_sub(self.last)
    }

    /// What the counter board answers if the step list ends here.
    pub(crate) fn playing(&self) -> CounterPlaying {
        CounterPlaying { location: self.position.location(), accepting: self.position.accepts() }
    }

    /// Takes one step, or returns the number of its refusal and changes nothing.
    #[inline]
    pub(crate) fn step(&mut self, transition: u32, reading: u16) -> Result<(), u64> {
        let transition = self.position.named(transition)?;
        self.position.judge_source(transition)?;
        let passed = self.passed(reading);
        self.position.take(transition, self.position.tick + u32::from(passed))?;
        if self.position.tick > MOST_TICKS {
            self.position.count_from_0(COUNTER_LARGEST_COUNT);
        }
        self.last = reading;
        Ok(())
    }
}
