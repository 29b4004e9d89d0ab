//! The analysis: reached, unstarted, live with the number of rounds; families, their board numbers by first fit, used.
//!
//! Spare locations (document 02, P7) are those that no path from the initial one reaches; from version 3 on there may be
//! some. Nothing is live at them, and the transitions that leave them count for nothing here: they test, start and link
//! nothing.

use crate::chart::{Chart, Transition};
use crate::floor::Floor;
use crate::limits::{LOCATIONS, TIMERS, TRANSITIONS};
use crate::refusal::{Answer, Refusal};
use crate::sets::{LocationSet, TimerSet};
use crate::twins::Twins;

/// One entry for each location that a chart can have; a location's byte is always inside.
type ByLocation<T> = [T; LOCATIONS];

/// What the analysis returns beside the live sets.
#[derive(Clone, Copy, Debug, PartialEq, Eq)]
pub struct Analysis {
    /// One more than the largest board number given, 0 if there is no family. It may exceed the timers of any board.
    pub used: u64,
    /// The smallest number of timers in any plan if `searched`, else the size of the fullest live set, twins counted once.
    pub floor: u64,
    /// Whether there are few enough families for the search.
    pub searched: bool,
    /// The number of rounds in which the live sets are found, with the last one, which changes no set: at least 1, at most
    /// the number of locations.
    pub rounds: u64,
}

/// Analyses a chart file and writes the live set of each location to the front of `live`. Judges 1 to 10 and 21.
pub fn analyse(file: &[u8], live: &mut [u64]) -> Answer<Analysis> {
    let chart = Chart::read(file)?;
    let graph = judge(&chart)?;
    let Some(entries) = live.get_mut(..usize::from(chart.locations())) else {
        return Err(Refusal::nowhere(21));
    };
    let liveness = Liveness::of(&chart, graph);
    let twins = Twins::of(&chart, liveness.reached());
    let families = Families::of(&chart, &liveness, &twins);
    let numbers = families.first_fit(usize::MAX).expect("without a limit every family gets a number");
    let used = u32::from(used(&numbers));
    let Floor { timers, searched } = Floor::of(&families, used);
    for (entry, set) in entries.iter_mut().zip(liveness.sets()) {
        *entry = set.word();
    }
    Ok(Analysis { used: u64::from(used), floor: u64::from(timers), searched, rounds: liveness.rounds })
}

/// Reads a chart file. Judges 1 to 10.
pub(crate) fn judged_chart(file: &[u8]) -> Answer<Chart> {
    let chart = Chart::read(file)?;
    judge(&chart)?;
    Ok(chart)
}

/// Judges 9, where the version allows no spare locations, and 10, and returns the graph that it used.
pub fn judge(chart: &Chart) -> Answer<Graph> {
    let graph = Graph::of(chart);
    if !chart.version().allows_spare() {
        if let Some(location) = LocationSet::below(chart.locations()).lowest_beyond(&graph.reached) {
            return Err(Refusal::at(9, u64::from(location)));
        }
    }
    if !chart.has_no_tests() {
        // At spare locations, to which there is no path, no timer is unstarted.
        let unstarted = unstarted_sets(chart, &graph);
        let is_unstarted =
            |transition: &Transition| !transition.tested.common(unstarted[usize::from(transition.source)]).is_empty();
        if let Some(place) = chart.transitions().iter().position(is_unstarted) {
            return Err(Refusal::at(10, place as u64));
        }
    }
    Ok(graph)
}

/// Transitions grouped by one of their ends.
struct Grouped {
    /// Where each location's group ends in `transitions`; it begins where the one before ends.
    ends: ByLocation<u16>,
    transitions: [u16; TRANSITIONS],
}

impl Grouped {
    /// The groups of the transitions for which there is an `end`; the others are in none.
    fn by(chart: &Chart, end: impl Fn(&Transition) -> Option<u8>) -> Self {
        let mut ends = [0; LOCATIONS];
        for end in chart.transitions().iter().filter_map(&end) {
            ends[usize::from(end)] += 1;
        }
        let mut sum = 0;
        for entry in &mut ends[..usize::from(chart.locations())] {
            sum += *entry;
            *entry = sum - *entry;
        }
        // Each entry is its group's first place now, and moves to its end as the group is filled.
        let mut transitions = [0; TRANSITIONS];
        for (index, transition) in chart.transitions().iter().enumerate() {
            let Some(end) = end(transition) else { continue };
            let place = &mut ends[usize::from(end)];
            transitions[usize::from(*place)] = index as u16;
            *place += 1;
        }
        Grouped { ends, transitions }
    }

    fn first(&self, location: u8) -> u16 {
        match location {
            0 => 0,
            _ => self.ends[usize::from(location - 1)],
        }
    }

    /// The transitions of a location's group.
    #[inline]
    fn group<'a>(&'a self, chart: &'a Chart, location: u8) -> impl Iterator<Item = &'a Transition> {
        let range = usize::from(self.first(location))..usize::from(self.ends[usize::from(location)]);
        self.transitions[range].iter().map(|&index| &chart.transitions()[usize::from(index)])
    }
}

/// The locations that paths from the initial one reach, in an order in which sets settle fast along transitions.
pub struct Graph {
    leaving: Grouped,
    reached: LocationSet,
    /// The reached locations by rising position: each before those that it leads to, but along loops.
    order: ByLocation<u8>,
    position: ByLocation<u8>,
}

impl Graph {
    /// Searches the chart in depth from the initial location; the order is that in which locations are left, reversed.
    fn of(chart: &Chart) -> Self {
        let leaving = Grouped::by(chart, |transition| Some(transition.source));
        let mut reached = LocationSet::EMPTY;
        let mut order = [0; LOCATIONS];
        let mut position = [0; LOCATIONS];
        let mut path = [0; LOCATIONS];
        let mut depth = 0;
        let mut next = [0; LOCATIONS];
        let mut free = LOCATIONS;
        let mut location = chart.initial();
        reached.add(location);
        next[usize::from(location)] = leaving.first(location);
        loop {
            let here = usize::from(location);
            if next[here] < leaving.ends[here] {
                let transition = leaving.transitions[usize::from(next[here])];
                next[here] += 1;
                let target = chart.transitions()[usize::from(transition)].target;
                if !reached.has(target) {
                    reached.add(target);
                    next[usize::from(target)] = leaving.first(target);
                    path[depth] = location;
                    depth += 1;
                    location = target;
                }
            } else {
                free -= 1;
                order[free] = location;
                position[here] = free as u8;
                if depth == 0 {
                    break;
                }
                depth -= 1;
                location = path[depth];
            }
        }
        Graph { leaving, reached, order, position }
    }

    /// The reached locations.
    pub fn reached(&self) -> &LocationSet {
        &self.reached
    }
}

/// Of each location the timers that some path to it from the initial location starts nowhere.
fn unstarted_sets(chart: &Chart, graph: &Graph) -> ByLocation<TimerSet> {
    let mut sets = [TimerSet::EMPTY; LOCATIONS];
    sets[usize::from(chart.initial())] = TimerSet::below(chart.timers());
    let mut pending = LocationSet::EMPTY;
    pending.add(graph.position[usize::from(chart.initial())]);
    while let Some(position) = pending.take_lowest() {
        let location = graph.order[usize::from(position)];
        let here = sets[usize::from(location)];
        for transition in graph.leaving.group(chart, location) {
            let target = &mut sets[usize::from(transition.target)];
            let joined = target.joined(here.minus(transition.starts));
            if joined != *target {
                *target = joined;
                pending.add(graph.position[usize::from(transition.target)]);
            }
        }
    }
    sets
}

/// The live sets of a chart.
pub struct Liveness {
    locations: usize,
    reached: LocationSet,
    sets: ByLocation<TimerSet>,
    rounds: u64,
    leaving: Grouped,
    /// Only of the transitions that leave a reached location.
    entering: Grouped,
}

impl Liveness {
    /// Makes the sets in rounds (document 02, P3). Each round makes every location's set from the sets of the round
    /// before, the first from empty ones: the timers that a transition from there tests, and those that it does not
    /// start and that were in the set of its target. The first round that changes no set is the last, and counts. The
    /// sets of spare locations stay empty throughout.
    ///
    /// Sets only grow. So what a round adds comes from what the round before has added, and nothing else is looked at;
    /// what it adds itself waits for the next round.
    pub fn of(chart: &Chart, graph: Graph) -> Self {
        let Graph { leaving, reached, .. } = graph;
        let is_reached = |transition: &Transition| reached.has(transition.source);
        let entering = Grouped::by(chart, |transition| is_reached(transition).then_some(transition.target));
        let mut sets = [TimerSet::EMPTY; LOCATIONS];
        let (mut before, mut now) = (&mut Added::default(), &mut Added::default());
        for transition in chart.transitions_from(&reached) {
            before.add(&mut sets, transition.source, transition.tested);
        }
        let mut rounds = 1;
        while before.count > 0 {
            while let Some((location, timers)) = before.take() {
                for transition in entering.group(chart, location) {
                    now.add(&mut sets, transition.source, timers.minus(transition.starts));
                }
            }
            std::mem::swap(&mut before, &mut now);
            rounds += 1;
        }
        Liveness { locations: usize::from(chart.locations()), reached, sets, rounds, leaving, entering }
    }

    /// The locations that paths from the initial one reach; all others are spare.
    pub fn reached(&self) -> &LocationSet {
        &self.reached
    }

    /// The live set of each location of the chart, by drawn timers.
    pub fn sets(&self) -> &[TimerSet] {
        &self.sets[..self.locations]
    }

    /// The same with each timer as its lowest twin: that one is live wherever any of its twins is.
    fn merged(&self, twins: &Twins) -> ByLocation<TimerSet> {
        let mut merged = [TimerSet::EMPTY; LOCATIONS];
        merged.iter_mut().zip(self.sets()).for_each(|(merged, &set)| *merged = twins.merged(set));
        merged
    }
}

/// What a round has added to the live sets.
struct Added {
    /// At each location the timers that were added there.
    timers: ByLocation<TimerSet>,
    /// The locations where there are such timers, each once, in the first `count` entries.
    locations: ByLocation<u8>,
    count: usize,
}

impl Default for Added {
    fn default() -> Self {
        Added { timers: [TimerSet::EMPTY; LOCATIONS], locations: [0; LOCATIONS], count: 0 }
    }
}

impl Added {
    /// Adds to a location's set those of the timers that are not in it, and notes them.
    #[inline]
    fn add(&mut self, sets: &mut ByLocation<TimerSet>, location: u8, timers: TimerSet) {
        let set = &mut sets[usize::from(location)];
        let new = timers.minus(*set);
        if new.is_empty() {
            return;
        }
        *set = set.joined(new);
        let added = &mut self.timers[usize::from(location)];
        if added.is_empty() {
            self.locations[self.count] = location;
            self.count += 1;
        }
        *added = added.joined(new);
    }

    /// One of the locations with what was added there, taken out.
    #[inline]
    fn take(&mut self) -> Option<(u8, TimerSet)> {
        self.count = self.count.checked_sub(1)?;
        let location = self.locations[self.count];
        Some((location, std::mem::take(&mut self.timers[usize::from(location)])))
    }
}

/// One more than the largest number given.
pub fn used(numbers: &[u16]) -> u16 {
    numbers.iter().max().map_or(0, |largest| largest + 1)
}

/// A family: its timer, the lowest of its twins, and its locations.
#[derive(Clone, Copy, Debug, PartialEq, Eq)]
pub struct Family {
    pub timer: u8,
    pub locations: LocationSet,
}

/// The families of a chart, by rising number, and how many there are at the location that has most.
pub struct Families {
    list: Vec<Family>,
    fullest: u32,
}

impl Families {
    /// Goes through the locations, rising. The live timers of a location that are in no family yet begin one family
    /// each, and these propagate along their links all at once, as one word at each location. Twins are one timer here.
    pub fn of(chart: &Chart, liveness: &Liveness, twins: &Twins) -> Self {
        let merged = liveness.merged(twins);
        let mut families = Vec::new();
        let mut propagation = Propagation::default();
        let mut place = [0; TIMERS];
        for (first, &live) in merged[..liveness.locations].iter().enumerate() {
            let begun = live.minus(propagation.placed[first]);
            if begun.is_empty() {
                continue;
            }
            for timer in begun {
                place[usize::from(timer)] = families.len();
                families.push(Family { timer, locations: LocationSet::EMPTY });
            }
            propagation.run(chart, liveness, &merged, first as u8, begun);
            std::mem::take(&mut propagation.touched).iter().for_each(|location| {
                for timer in std::mem::take(&mut propagation.members[usize::from(location)]) {
                    families[place[usize::from(timer)]].locations.add(location);
                }
            });
        }
        // Each live timer of a location is in a family of its own there.
        let fullest = merged[..liveness.locations].iter().map(|set| set.len()).max().unwrap_or(0);
        Families { list: families, fullest }
    }

    /// The families, by rising number.
    pub fn list(&self) -> &[Family] {
        &self.list
    }

    /// The size of the fullest live set, twins counted once.
    pub fn fullest(&self) -> u32 {
        self.fullest
    }

    /// Gives each family the smallest number below `limit` that no earlier family which it meets holds; none if all
    /// are held for some family.
    pub fn first_fit(&self, limit: usize) -> Option<Vec<u16>> {
        // Of each location the numbers held there, as many to a row as a word has bits.
        let mut held: Vec<ByLocation<u64>> = Vec::new();
        let mut numbers = Vec::with_capacity(self.list.len());
        for Family { locations, .. } in &self.list {
            let mut row = 0;
            let free = loop {
                let Some(words) = held.get(row) else {
                    held.push([0; LOCATIONS]);
                    break 0;
                };
                let taken = locations.iter().fold(0, |taken, location| taken | words[usize::from(location)]);
                if taken != u64::MAX {
                    break taken.trailing_ones() as usize;
                }
                row += 1;
            };
            let number = u64::BITS as usize * row + free;
            if number >= limit {
                return None;
            }
            let words = &mut held[row];
            locations.iter().for_each(|location| words[usize::from(location)] |= 1 << free);
            numbers.push(number as u16);
        }
        Some(numbers)
    }
}

/// Families of different timers that are being found, all from one first location.
struct Propagation {
    /// At each location the timers that are in a family by now.
    placed: ByLocation<TimerSet>,
    /// At each location the timers that are in one of the families at hand.
    members: ByLocation<TimerSet>,
    /// The locations where there are members.
    touched: LocationSet,
    /// The locations whose links are still to be followed.
    pending: LocationSet,
}

impl Default for Propagation {
    fn default() -> Self {
        Propagation {
            placed: [TimerSet::EMPTY; LOCATIONS],
            members: [TimerSet::EMPTY; LOCATIONS],
            touched: LocationSet::EMPTY,
            pending: LocationSet::EMPTY,
        }
    }
}

impl Propagation {
    /// Follows the links of `begun` from their first location. `merged` has the live sets with twins as one timer.
    fn run(&mut self, chart: &Chart, liveness: &Liveness, merged: &ByLocation<TimerSet>, first: u8, begun: TimerSet) {
        self.add(first, begun);
        while let Some(location) = self.pending.take_lowest() {
            let members = self.members[usize::from(location)];
            for transition in liveness.leaving.group(chart, location) {
                let live = merged[usize::from(transition.target)];
                self.add(transition.target, members.minus(transition.starts).common(live));
            }
            // What is live at the target and not started is live at the source; and twins are started together.
            for transition in liveness.entering.group(chart, location) {
                self.add(transition.source, members.minus(transition.starts));
            }
        }
    }

    /// Adds timers, live at the location, to their families.
    #[inline]
    fn add(&mut self, location: u8, timers: TimerSet) {
        let index = usize::from(location);
        let added = timers.minus(self.placed[index]);
        if !added.is_empty() {
            self.placed[index] = self.placed[index].joined(added);
            self.members[index] = self.members[index].joined(added);
            self.touched.add(location);
            self.pending.add(location);
        }
    }
}
