//! The rewriting of a chart for a board of K timers.

use crate::analysis::{judge, used, Families, Liveness};
use crate::chart::{Chart, Test, Transition};
use crate::floor::Floor;
use crate::limits::{MOST_TIMERS, TIMERS};
use crate::refusal::{Answer, Refusal};
use crate::sets::TimerSet;
use crate::twins::Twins;

/// What the rewriting returns beside the file.
#[derive(Clone, Copy, Debug, PartialEq, Eq)]
pub struct Rewriting {
    /// The number of timers of the rewritten chart.
    pub used: u64,
    /// The number of bytes of its file.
    pub length: u64,
}

/// A chart with its live sets and the board number of each pair of a location and a live timer; twins share theirs.
pub struct Plan {
    chart: Chart,
    liveness: Liveness,
    twins: Twins,
    families: Families,
    used: u8,
    /// By [`pair`] of a location and a lowest twin; 0 where none of the twins is live.
    numbers: Vec<u8>,
}

/// Judges the timers of a board (11).
pub(crate) fn judge_board(k: u32) -> Answer<()> {
    if k > u32::from(MOST_TIMERS) {
        Err(Refusal::nowhere(11))
    } else {
        Ok(())
    }
}

/// The place of a location and a timer in a list of all pairs.
#[inline]
fn pair(location: u8, timer: u8) -> usize {
    TIMERS * usize::from(location) + usize::from(timer)
}

impl Plan {
    /// Reads a chart file and allots the numbers of a board of `k` timers. Judges 1 to 11 and 20.
    pub fn of(file: &[u8], k: u32) -> Answer<Plan> {
        let chart = Chart::read(file)?;
        let graph = judge(&chart)?;
        judge_board(k)?;
        let liveness = Liveness::of(&chart, graph);
        let twins = Twins::of(&chart, liveness.reached());
        let families = Families::of(&chart, &liveness, &twins);
        let given = families.first_fit(k as usize).ok_or(Refusal::nowhere(20))?;
        let mut numbers = vec![0; TIMERS * usize::from(chart.locations())];
        for (family, &number) in families.list().iter().zip(&given) {
            family.locations.iter().for_each(|location| {
                numbers[pair(location, family.timer)] = number as u8;
            });
        }
        Ok(Plan { chart, liveness, twins, families, used: used(&given) as u8, numbers })
    }

    /// One more than the largest number given: at most [`MOST_TIMERS`].
    pub fn used(&self) -> u8 {
        self.used
    }

    /// The chart's floor. It is found anew at each call.
    pub fn floor(&self) -> Floor {
        Floor::of(&self.families, u32::from(self.used))
    }

    /// The live set of each location of the chart, by drawn timers.
    pub fn live(&self) -> &[TimerSet] {
        self.liveness.sets()
    }

    /// The board number of the family of a timer that is live at the location; the family is that of its twins.
    #[inline]
    pub fn number(&self, location: u8, timer: u8) -> u8 {
        self.numbers[pair(location, self.twins.lowest(timer))]
    }

    /// Writes the rewritten chart's file to the front of `out` and returns its length. Judges 21.
    ///
    /// A test reads the number at the transition's source. Of the starts only those live at the target remain, under
    /// their number there, which twins share; they form a set, so they stand rising and each once. A transition that
    /// leaves a spare location is left without tests and starts.
    fn write(&self, out: &mut [u8]) -> Answer<usize> {
        let is_spare = |transition: &Transition| !self.liveness.reached().has(transition.source);
        let born = |transition: &Transition| match is_spare(transition) {
            true => TimerSet::EMPTY,
            false => self.twins.merged(transition.starts.common(self.live()[usize::from(transition.target)])),
        };
        let tests = |transition| -> &[Test] {
            match is_spare(transition) {
                true => &[],
                false => self.chart.tests(transition),
            }
        };
        let length = self.chart.file_length_with(|transition| (born(transition).len(), tests(transition)));
        let Some(file) = out.get_mut(..length) else {
            return Err(Refusal::nowhere(21));
        };
        self.chart.write_with(
            file,
            self.used,
            |transition| born(transition).into_iter().map(|timer| self.number(transition.target, timer)).collect(),
            tests,
            |transition, timer| self.number(transition.source, timer),
        );
        Ok(length)
    }
}

/// Rewrites a chart file for a board of `k` timers, to the front of `out`. Judges 1 to 11, 20 and 21.
pub fn rewrite(file: &[u8], k: u32, out: &mut [u8]) -> Answer<Rewriting> {
    let plan = Plan::of(file, k)?;
    let length = plan.write(out)?;
    Ok(Rewriting { used: u64::from(plan.used()), length: length as u64 })
}
