//! Paths of transitions.

use std::collections::VecDeque;

use crate::chart::{Chart, Transition};
use crate::limits::LOCATIONS;
use crate::sets::LocationSet;

/// The locations that paths from the initial one reach, by the definition: all transitions are gone over until none leads
/// on. [`crate::analysis`] finds them by a search in depth.
pub fn reached(chart: &Chart) -> LocationSet {
    let mut reached = LocationSet::EMPTY;
    reached.add(chart.initial());
    loop {
        let before = reached;
        chart.transitions_from(&before).for_each(|transition| reached.add(transition.target));
        if reached == before {
            return reached;
        }
    }
}

/// A shortest path of transitions from one location to another, by their numbers, over such as `allowed` allows; of
/// several the one whose numbers come first, compared in order. None if there is no path; the empty one from a location
/// to itself.
///
/// Locations are gone through in the order in which they are found, and what leaves one by rising number. So those that
/// are equally far are found in the order of their paths' numbers, and the first path found to each is the one asked for.
pub fn shortest(chart: &Chart, from: u8, to: u8, allowed: impl Fn(&Transition) -> bool) -> Option<Vec<u16>> {
    // Of each location that was found, but for the first, the transition by which it was.
    let mut found_by: [Option<u16>; LOCATIONS] = [None; LOCATIONS];
    let mut pending = VecDeque::from([from]);
    while let Some(location) = pending.pop_front() {
        if location == to {
            return Some(traced(chart, from, to, &found_by));
        }
        for (number, transition) in chart.transitions().iter().enumerate() {
            let target = usize::from(transition.target);
            let new = transition.target != from && found_by[target].is_none();
            if transition.source == location && new && allowed(transition) {
                found_by[target] = Some(number as u16);
                pending.push_back(transition.target);
            }
        }
    }
    None
}

/// The path to a location, put together from its end.
fn traced(chart: &Chart, from: u8, to: u8, found_by: &[Option<u16>; LOCATIONS]) -> Vec<u16> {
    let mut path = Vec::new();
    let mut location = to;
    while location != from {
        let number = found_by[usize::from(location)].expect("each location of the path was found");
        path.push(number);
        location = chart.transitions()[usize::from(number)].source;
    }
    path.reverse();
    path
}

#[cfg(test)]
mod tests {
    use super::*;
    use crate::drawing::{Arrow, Drawing};
    use crate::generator::{accepted, Random, Shape};

    #[test]
    fn the_shortest_path_and_of_several_the_first() {
        let arrows = [(0, 0), (2, 3), (0, 2), (0, 1), (1, 3), (3, 0), (0, 3)];
        let transitions = arrows.map(|(source, target)| Arrow::new(source, target)).to_vec();
        let chart = Chart::read(&Drawing::new(5, 0, transitions).file()).unwrap();
        let path = |from, to, left_out: usize| {
            let left_out = chart.transitions()[left_out];
            shortest(&chart, from, to, |transition| *transition != left_out)
        };
        assert_eq!(path(0, 3, 0), Some(vec![6]));
        // Both of 2, 1 and 3, 4 have two transitions.
        assert_eq!(path(0, 3, 6), Some(vec![2, 1]));
        assert_eq!(path(2, 1, 0), Some(vec![1, 5, 3]));
        assert_eq!([path(0, 0, 0), path(0, 4, 0)], [Some(vec![]), None]);
    }

    /// The path asked for, found anew: of the paths with ever more transitions, to each location the first by its numbers.
    fn by_length(chart: &Chart, from: u8, to: u8, allowed: impl Fn(&Transition) -> bool) -> Option<Vec<u16>> {
        let mut paths = std::collections::BTreeMap::from([(from, vec![])]);
        for _ in 0..=chart.locations() {
            if let Some(path) = paths.get(&to) {
                return Some(path.clone());
            }
            let mut longer = std::collections::BTreeMap::new();
            for (number, transition) in chart.transitions().iter().enumerate().filter(|(_, each)| allowed(each)) {
                let Some(path) = paths.get(&transition.source) else { continue };
                let path = [&path[..], &[number as u16]].concat();
                let first = longer.entry(transition.target).or_insert_with(|| path.clone());
                *first = path.min(first.clone());
            }
            paths = longer;
        }
        None
    }

    #[test]
    fn random_paths() {
        let mut random = Random::new(5);
        for _ in 0..300 {
            let shape = Shape::random(&mut random, 10);
            let chart = Chart::read(&accepted(&mut random, &shape).file()).unwrap();
            let location = |random: &mut Random| random.below(u64::from(chart.locations())) as u8;
            let (from, to, timer) = (location(&mut random), location(&mut random), random.below(4) as u8);
            let leaves_alone = |transition: &Transition| !transition.starts.has(timer);
            assert_eq!(shortest(&chart, from, to, leaves_alone), by_length(&chart, from, to, leaves_alone));
        }
    }
}
