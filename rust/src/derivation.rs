//! The derivation of a chart's board numbers, as data that can be followed by hand: of each live timer a shortest path that
//! shows it, the twins, the spare locations, the families with the transitions that link them, which families meet and
//! where, and how first fit comes to their numbers or to a family that finds none.
//!
//! [`Derivation::check`] goes over it once more by the definitions alone.

mod check;

use std::fmt::Write;

use crate::analysis::{self, judge, Families, Liveness};
use crate::chart::{Chart, Transition};
use crate::limits::TIMERS;
use crate::refusal::Answer;
use crate::sets::{LocationSet, TimerSet};
use crate::twins::Twins;

/// A timer that is live at a location, and why.
#[derive(Clone, Debug, PartialEq, Eq)]
pub struct LiveTimer {
    pub location: u8,
    pub timer: u8,
    /// The transitions of a path that [`shows`] it. None has fewer; of those with as few it comes first by the numbers of
    /// its transitions, in their order.
    pub path: Vec<u16>,
    /// The place of its family in the order of families: that of its twins.
    pub family: usize,
}

/// An earlier family that a family meets.
#[derive(Clone, Debug, PartialEq, Eq)]
pub struct Meeting {
    /// Its place in the order of families.
    pub family: usize,
    /// The locations that both contain.
    pub at: LocationSet,
}

/// A family with all that its board number hangs on.
#[derive(Clone, Debug, PartialEq, Eq)]
pub struct Family {
    /// 64 times the lowest location, plus the timer.
    pub number: u16,
    /// The lowest of the twins, which stands for all of them.
    pub timer: u8,
    /// The twins that are live somewhere in the family.
    pub timers: TimerSet,
    pub locations: LocationSet,
    /// The transitions that link its locations, rising.
    pub links: Vec<u16>,
    /// The earlier families that it meets, in the order of families.
    pub meets: Vec<Meeting>,
    /// The places of the later families that it meets.
    pub later: Vec<usize>,
    /// Its board number; none if it finds none, or if an earlier family finds none.
    pub board: Option<u16>,
}

/// The family that finds no number on a board.
#[derive(Clone, Debug, PartialEq, Eq)]
pub struct Stuck {
    /// Its place in the order of families.
    pub family: usize,
    /// For each number of the board the place of the earliest family that holds it and that this one meets.
    pub holders: Vec<usize>,
}

/// The derivation of a chart's board numbers.
#[derive(Clone, Debug, PartialEq, Eq)]
pub struct Derivation {
    /// The locations that no path from the initial one reaches.
    pub spare: LocationSet,
    /// By rising location, then rising timer.
    pub live: Vec<LiveTimer>,
    /// Of each timer that has a twin the twins, itself among them; by the lowest of them.
    pub twins: Vec<TimerSet>,
    /// By rising number.
    pub families: Vec<Family>,
    /// The family that finds no number; none if all find one.
    pub stuck: Option<Stuck>,
}

/// Whether a path shows that a timer is live at a location: it begins there, it ends in a test of the timer, and no earlier
/// transition of it starts the timer.
pub fn shows(chart: &Chart, location: u8, timer: u8, path: &[u16]) -> bool {
    let mut present = location;
    let mut transitions = Vec::with_capacity(path.len());
    for &number in path {
        let Some(transition) = chart.transitions().get(usize::from(number)) else { return false };
        if transition.source != present {
            return false;
        }
        present = transition.target;
        transitions.push(transition);
    }
    let Some((last, earlier)) = transitions.split_last() else { return false };
    chart.tests(last).iter().any(|test| test.timer == timer)
        && !earlier.iter().any(|transition| transition.starts.has(timer))
}

/// Whether a transition links two locations of a family.
fn links(transition: &Transition, timer: u8, locations: &LocationSet) -> bool {
    !transition.starts.has(timer) && locations.has(transition.source) && locations.has(transition.target)
}

impl Derivation {
    /// The derivation of a chart for a board of `k` timers; if none is given, for one with as many as first fit uses.
    /// Judges 9 and 10.
    pub fn of(chart: &Chart, k: Option<u32>) -> Answer<Derivation> {
        let liveness = Liveness::of(chart, judge(chart)?);
        let twins = Twins::of(chart, liveness.reached());
        let found = Families::of(chart, &liveness, &twins);
        let groups = groups(&twins, chart.timers());
        let mut families: Vec<Family> =
            found.list().iter().map(|family| Family::of(chart, &liveness, &groups, family)).collect();
        let stuck = give_numbers(&mut families, &found, k);
        find_meetings(&mut families);
        let stuck = stuck.zip(k).map(|(family, k)| Stuck { family, holders: holders(&families, family, k) });
        let reached = liveness.reached();
        let mut spare = LocationSet::EMPTY;
        LocationSet::below(chart.locations()).iter().filter(|&q| !reached.has(q)).for_each(|q| spare.add(q));
        let twins = groups.into_iter().filter(|group| group.len() > 1).collect();
        Ok(Derivation { spare, live: live_timers(chart, &liveness, &families), twins, families, stuck })
    }

    /// One more than the largest board number given.
    pub fn used(&self) -> u64 {
        self.families.iter().filter_map(|family| family.board).max().map_or(0, |largest| u64::from(largest) + 1)
    }

    /// The board number of a live timer; none if its family has none.
    pub fn board(&self, live: &LiveTimer) -> Option<u16> {
        self.families[live.family].board
    }

    /// Why a board is refused (20): the family that finds no number, and who holds each number of the board.
    pub fn reason(&self) -> Option<String> {
        let stuck = self.stuck.as_ref()?;
        let Family { number, timer, .. } = self.families[stuck.family];
        let mut sentence = format!("20: family {number} of timer {timer} finds no number: ");
        if stuck.holders.is_empty() {
            sentence += "the board has no timers";
        }
        for (held, &holder) in stuck.holders.iter().enumerate() {
            let separator = if held > 0 { ", " } else { "" };
            write!(sentence, "{separator}family {} holds {held}", self.families[holder].number).ok()?;
        }
        Some(sentence)
    }
}

/// The timers in groups of twins, by the lowest of each; one without a twin is a group of its own.
fn groups(twins: &Twins, timers: u8) -> Vec<TimerSet> {
    let with_lowest = |lowest| (0..timers).filter(|&timer| twins.lowest(timer) == lowest).collect::<TimerSet>();
    (0..timers).map(with_lowest).filter(|group| !group.is_empty()).collect()
}

impl Family {
    /// A family with its links; meetings and number are still to be found.
    fn of(chart: &Chart, liveness: &Liveness, groups: &[TimerSet], family: &analysis::Family) -> Family {
        let analysis::Family { timer, locations } = *family;
        let lowest = locations.iter().next().map_or(0, u16::from);
        let twins = groups.iter().find(|group| group.has(timer)).copied().unwrap_or_default();
        let live = locations.iter().map(|location| liveness.sets()[usize::from(location)]);
        let timers = live.fold(TimerSet::EMPTY, TimerSet::joined).common(twins);
        let is_link = |number: &u16| links(&chart.transitions()[usize::from(*number)], timer, &locations);
        let links = (0..chart.transitions().len() as u16).filter(is_link).collect();
        let number = TIMERS as u16 * lowest + u16::from(timer);
        Family { number, timer, timers, locations, links, meets: Vec::new(), later: Vec::new(), board: None }
    }
}

/// Gives the families their numbers by first fit, up to the first that finds none below `k`; the place of that one.
fn give_numbers(families: &mut [Family], found: &Families, k: Option<u32>) -> Option<usize> {
    // With a limit first fit hands out the same numbers, up to the family that finds none.
    let numbers = found.first_fit(usize::MAX).expect("without a limit every family gets a number");
    let stuck = numbers.iter().position(|&number| k.is_some_and(|k| u32::from(number) >= k));
    for (family, &number) in families.iter_mut().zip(&numbers[..stuck.unwrap_or(numbers.len())]) {
        family.board = Some(number);
    }
    stuck
}

/// Finds which families meet.
fn find_meetings(families: &mut [Family]) {
    for place in 1..families.len() {
        let (earlier, others) = families.split_at_mut(place);
        let family = &mut others[0];
        for (index, other) in earlier.iter_mut().enumerate() {
            if other.locations.meets(&family.locations) {
                family.meets.push(Meeting { family: index, at: other.locations.common(&family.locations) });
                other.later.push(place);
            }
        }
    }
}

/// For each number below `k` the place of the earliest family that holds it and that the family at `place` meets.
fn holders(families: &[Family], place: usize, k: u32) -> Vec<usize> {
    let holder = |number: u32| {
        let mut met = families[place].meets.iter().map(|meeting| meeting.family);
        met.find(|&earlier| families[earlier].board.map(u32::from) == Some(number))
    };
    (0..k).filter_map(holder).collect()
}

/// The live timers of all locations with their paths and families.
fn live_timers(chart: &Chart, liveness: &Liveness, families: &[Family]) -> Vec<LiveTimer> {
    let steps = FirstSteps::of(chart, liveness.reached());
    let mut places = vec![[0; TIMERS]; usize::from(chart.locations())];
    for (place, family) in families.iter().enumerate() {
        for location in family.locations.iter() {
            family.timers.into_iter().for_each(|timer| places[usize::from(location)][usize::from(timer)] = place);
        }
    }
    let mut live = Vec::new();
    for (index, &timers) in liveness.sets().iter().enumerate() {
        let location = index as u8;
        live.extend(timers.into_iter().map(|timer| LiveTimer {
            location,
            timer,
            path: steps.path(chart, location, timer),
            family: places[index][usize::from(timer)],
        }));
    }
    live
}

/// Of each location and timer the first transition of the path that shows the timer live there.
struct FirstSteps(Vec<[Option<u16>; TIMERS]>);

impl FirstSteps {
    /// Searches in breadth: round n finds the timers that a path of n transitions shows live, and no shorter one. It goes
    /// through the transitions by rising number, and the first that leads to such a path is kept.
    fn of(chart: &Chart, reached: &LocationSet) -> FirstSteps {
        let locations = usize::from(chart.locations());
        let mut steps = vec![[None; TIMERS]; locations];
        let mut before = vec![TimerSet::EMPTY; locations];
        loop {
            let mut now = before.clone();
            for (number, transition) in chart.transitions().iter().enumerate() {
                if !reached.has(transition.source) {
                    continue;
                }
                let source = usize::from(transition.source);
                let passed = before[usize::from(transition.target)].minus(transition.starts);
                for timer in transition.tested.joined(passed).minus(now[source]) {
                    steps[source][usize::from(timer)] = Some(number as u16);
                    now[source] = now[source].with(timer);
                }
            }
            if now == before {
                return FirstSteps(steps);
            }
            before = now;
        }
    }

    /// The path: one step after the other, up to the first that tests the timer. It is empty where the timer is not live.
    fn path(&self, chart: &Chart, location: u8, timer: u8) -> Vec<u16> {
        let mut path = Vec::new();
        let mut present = location;
        while let Some(number) = self.0[usize::from(present)][usize::from(timer)] {
            path.push(number);
            let transition = &chart.transitions()[usize::from(number)];
            if transition.tested.has(timer) {
                break;
            }
            present = transition.target;
        }
        path
    }
}
