//! A derivation gone over once more by the definitions of the documents: of what it was found by nothing is used here but
//! [`shows`] and [`links`]. That no live timer is left out is for the caller to see, who knows the live sets.

use std::collections::BTreeMap;

use super::{links, shows, Derivation, Family, Meeting};
use crate::chart::{Chart, Transition};
use crate::limits::TIMERS;
use crate::paths::reached;
use crate::sets::{LocationSet, TimerSet};

/// What a check comes to: a sentence where something is not as the definitions say.
type Checked = Result<(), String>;

/// A sentence if something does not hold.
fn holds(holds: bool, otherwise: impl FnOnce() -> String) -> Checked {
    if holds {
        Ok(())
    } else {
        Err(otherwise())
    }
}

impl Derivation {
    /// Checks a derivation of the chart for a board of `k` timers.
    pub fn check(&self, chart: &Chart, k: Option<u32>) -> Checked {
        self.check_spare(chart)?;
        self.check_twins(chart)?;
        self.check_paths(chart)?;
        let at = self.families_at(chart);
        self.check_families(chart, &at)?;
        self.check_links(chart, &at)?;
        self.check_meetings(&at)?;
        self.check_numbers(k)
    }

    /// Whether a transition leaves a location that is not spare.
    fn counts(&self, transition: &Transition) -> bool {
        !self.spare.has(transition.source)
    }

    /// Of each location the places of the families of its live timers, rising.
    fn families_at(&self, chart: &Chart) -> Vec<Vec<usize>> {
        let mut at = vec![Vec::new(); usize::from(chart.locations())];
        self.live.iter().for_each(|live| at[usize::from(live.location)].push(live.family));
        for families in &mut at {
            families.sort_unstable();
            families.dedup();
        }
        at
    }

    /// The spare locations are those to which no path from the initial one leads.
    fn check_spare(&self, chart: &Chart) -> Checked {
        let reached = reached(chart);
        let all = LocationSet::below(chart.locations());
        let wrong = all.iter().find(|&location| self.spare.has(location) == reached.has(location));
        wrong.map_or(Ok(()), |location| Err(format!("location {location} is reached and spare, or neither")))
    }

    /// Two timers are in one group exactly if every transition that counts starts both or neither.
    fn check_twins(&self, chart: &Chart) -> Checked {
        for first in 0..chart.timers() {
            for second in first + 1..chart.timers() {
                let told_apart = |transition: &Transition| {
                    self.counts(transition) && transition.starts.has(first) != transition.starts.has(second)
                };
                let together = self.twins.iter().any(|group| group.has(first) && group.has(second));
                holds(together != chart.transitions().iter().any(told_apart), || {
                    format!("timers {first} and {second} are twins and told apart, or neither")
                })?;
            }
        }
        Ok(())
    }

    /// Each path shows its timer live at its location.
    fn check_paths(&self, chart: &Chart) -> Checked {
        let wrong = self.live.iter().find(|live| !shows(chart, live.location, live.timer, &live.path));
        wrong.map_or(Ok(()), |wrong| Err(format!("a path does not show what it is to show: {wrong:?}")))
    }

    /// Each family has the locations and timers of the live timers that name it, which are twins; at each location it is
    /// the only one of its timer; and the families stand by rising number.
    fn check_families(&self, chart: &Chart, at: &[Vec<usize>]) -> Checked {
        let mut members = vec![(LocationSet::EMPTY, TimerSet::EMPTY); self.families.len()];
        for live in &self.live {
            let (locations, timers) = &mut members[live.family];
            locations.add(live.location);
            *timers = timers.with(live.timer);
        }
        for (family, members) in self.families.iter().zip(&members) {
            let Family { number, timer, timers, locations, .. } = family;
            let lowest = locations.iter().next().map(|location| TIMERS as u16 * u16::from(location));
            let own = TimerSet::EMPTY.with(*timer);
            let twins = self.twins.iter().find(|group| group.has(*timer)).copied().unwrap_or(own);
            let is_lowest = twins.into_iter().next() == Some(*timer) && timers.minus(twins).is_empty();
            let numbered = lowest.map(|lowest| lowest + u16::from(*timer)) == Some(*number);
            holds((*locations, *timers) == *members && is_lowest && numbered, || format!("no family: {family:?}"))?;
        }
        let rises = self.families.windows(2).all(|families| families[0].number < families[1].number);
        holds(rises, || "the families do not rise".to_string())?;
        let mut alone = (0..chart.locations()).map(|location| {
            let timers: TimerSet = at[usize::from(location)].iter().map(|&place| self.families[place].timer).collect();
            timers.len() as usize == at[usize::from(location)].len()
        });
        holds(alone.all(|alone| alone), || "a location has two families of one timer".to_string())
    }

    /// A family has all of its links and no others, they join all its locations, and no transition links it to another.
    fn check_links(&self, chart: &Chart, at: &[Vec<usize>]) -> Checked {
        for family in &self.families {
            let is_link =
                |transition: &Transition| self.counts(transition) && links(transition, family.timer, &family.locations);
            let all = (0u16..).zip(chart.transitions()).filter(|(_, transition)| is_link(transition));
            let all = all.map(|(number, _)| number).eq(family.links.iter().copied());
            holds(all && joined(chart, family), || format!("not the links of family {}", family.number))?;
        }
        for transition in chart.transitions().iter().filter(|transition| self.counts(transition)) {
            let unstarted = |place: &&usize| !transition.starts.has(self.families[**place].timer);
            for &source in at[usize::from(transition.source)].iter().filter(unstarted) {
                let timer = self.families[source].timer;
                let targets = &at[usize::from(transition.target)];
                let apart = |&place: &usize| place != source && self.families[place].timer == timer;
                holds(!targets.iter().any(apart), || format!("{transition:?} links two families of timer {timer}"))?;
            }
        }
        Ok(())
    }

    /// Families meet at the locations that both have: each such location is in the list of the two, and no other.
    fn check_meetings(&self, at: &[Vec<usize>]) -> Checked {
        let mut later = vec![Vec::new(); self.families.len()];
        let mut listed = 0;
        for (place, family) in self.families.iter().enumerate() {
            for (index, Meeting { family: earlier, at }) in family.meets.iter().enumerate() {
                let rises = index == 0 || family.meets[index - 1].family < *earlier;
                let both = |q| family.locations.has(q) && self.families[*earlier].locations.has(q);
                let true_meeting = *earlier < place && rises && at.count() > 0 && at.iter().all(both);
                holds(true_meeting, || format!("no meeting: {place}, {:?}", family.meets[index]))?;
                later[*earlier].push(place);
                listed += usize::from(at.count());
            }
        }
        // Each pair of families at a location meets there.
        let all: usize = at.iter().map(|families| families.len() * families.len().saturating_sub(1) / 2).sum();
        holds(listed == all, || format!("{listed} meetings, there are {all}"))?;
        let mirrored = self.families.iter().zip(&later).all(|(family, later)| family.later == *later);
        holds(mirrored, || "the later families are not those that meet".to_string())
    }

    /// Each family has the smallest number that no earlier one which it meets holds, up to the one that finds none.
    fn check_numbers(&self, k: Option<u32>) -> Checked {
        let numbered = self.stuck.as_ref().map_or(self.families.len(), |stuck| stuck.family);
        for (place, family) in self.families.iter().enumerate() {
            let held = self.held(family);
            let right = match family.board {
                Some(number) => {
                    let below = k.is_none_or(|k| u32::from(number) < k);
                    place < numbered
                        && below
                        && !held.contains_key(&number)
                        && held.range(..number).count() == usize::from(number)
                }
                None => place >= numbered,
            };
            holds(right, || format!("not the number of family {}: {:?}", family.number, family.board))?;
        }
        let Some(stuck) = &self.stuck else { return Ok(()) };
        let held = self.held(&self.families[stuck.family]);
        let holders = (0u16..).map_while(|number| held.get(&number).copied()).take(stuck.holders.len());
        let right = Some(stuck.holders.len()) == k.map(|k| k as usize) && holders.eq(stuck.holders.iter().copied());
        holds(right, || format!("not who holds the numbers: {stuck:?}"))
    }

    /// The numbers that earlier families hold which a family meets, each with the place of the earliest of them.
    fn held(&self, family: &Family) -> BTreeMap<u16, usize> {
        let mut held = BTreeMap::new();
        for earlier in family.meets.iter().map(|meeting| meeting.family) {
            self.families[earlier].board.into_iter().for_each(|number| {
                held.entry(number).or_insert(earlier);
            });
        }
        held
    }
}

/// Whether chains of a family's links join all its locations.
fn joined(chart: &Chart, family: &Family) -> bool {
    let mut joined = LocationSet::EMPTY;
    family.locations.iter().take(1).for_each(|location| joined.add(location));
    loop {
        let before = joined;
        for &link in &family.links {
            let Transition { source, target, .. } = chart.transitions()[usize::from(link)];
            if joined.has(source) || joined.has(target) {
                joined.add(source);
                joined.add(target);
            }
        }
        if joined == before {
            return joined == family.locations;
        }
    }
}
