//! Charts of every kind that the calls are to meet, and files made of them, whole and spoilt. For tests.

use crate::drawing::*;
use crate::generator::*;
use crate::limits::{COUNTER_LARGEST_CONSTANT, MOST_LOCATIONS, MOST_STARTS, MOST_TESTS, MOST_TIMERS, MOST_TRANSITIONS};
use crate::version::Version;

/// How many kinds there are; some look alike, so that they come more often.
pub const KINDS: u64 = 100;

/// What was done to a chart's file.
#[derive(Clone, Copy, Debug, PartialEq, Eq)]
pub enum Treatment {
    /// Nothing.
    Whole,
    /// It has another version byte.
    Relabelled,
    /// A number or some bytes were changed, or both.
    Spoilt,
}

/// A random chart of the kind, which is below [`KINDS`]. Most are accepted.
pub fn of_kind(random: &mut Random, kind: u64) -> Drawing {
    let mut drawing = match kind {
        0..=58 => {
            let most = random.pick(&[4, 8, 8, 16, 40]);
            let shape = Shape::random(random, most);
            accepted(random, &shape)
        }
        59 => {
            let charts: [fn() -> Drawing; 5] =
                [spare_beside_twins, spare_cycle, spare_unstarted, spare_row, spare_first];
            random.pick(&charts)()
        }
        60..=69 => {
            let few = random.between(0, 14);
            let about = random.between(15, 25);
            let families = random.pick(&[few, about, about, about, 20, 20, 21]) as usize;
            random_meetings(random, families)
        }
        70..=79 => random.pick(&[
            chart_a as fn() -> Drawing,
            chart_b,
            chart_c,
            one_location,
            self_loop,
            never_started,
            started_anew,
            over_floor,
            two_twins,
            twins_around,
            lowest_untested,
            twins_on_two_ways,
            || chart_a_continued(17),
            || chart_a_continued(18),
            || lone_families(20),
            || lone_families(21),
            || looped_chain(MOST_LOCATIONS),
            || looped_chain(MOST_LOCATIONS).last_to_first(),
            || three_tests(COUNTER_LARGEST_CONSTANT),
            || three_tests(COUNTER_LARGEST_CONSTANT + 1),
        ])(),
        80..=85 => {
            let shape = Shape::random(random, MOST_LOCATIONS);
            accepted(random, &shape)
        }
        86 => accepted(random, &Shape::LARGEST),
        87 if random.chance(1, 2) => {
            let version = random.pick(&Version::ALL);
            longest(random, version)
        }
        87 if random.chance(1, 8) => largest_spare(random),
        87 => {
            let starts = random.pick(&[(1, 1), (10, 40), (40, MOST_STARTS)]);
            accepted(random, &Shape { cycle: true, starting: 90, starts, ..Shape::LARGEST })
        }
        88..=91 => {
            let locations = random.between(12, 40) as u16;
            let starting = random.between(90, 100);
            accepted(random, &Shape { locations, starting, ..Shape::SMALL_FAMILIES })
        }
        92..=95 => {
            let levels = random.between(3, 17);
            let most = (u64::from(MOST_TESTS) * (levels - 2)).min(u64::from(MOST_TIMERS) / 2);
            many_numbers(levels as u16, random.between(1, most) as u8)
        }
        96..=97 => random_chain(random),
        _ => sixty_five_numbers(random.between(1, u64::from(MOST_TIMERS) - 1) as u8),
    };
    match random.below(8) {
        0 if drawing.transitions.len() + 6 <= usize::from(MOST_TRANSITIONS) => drawing = drawing.told_apart(),
        // Where loops alone tell timers apart, there are twins without them.
        1 => drawing.transitions.retain(|transition| transition.source != transition.target),
        2 => add_twins(random, &mut drawing),
        _ => {}
    }
    if random.chance(1, 5) {
        // Mostly of version 3, which allows them.
        drawing.version = if random.chance(1, 6) { drawing.version } else { Version::Three as u8 };
        add_spare(random, &mut drawing);
    }
    let has_room = drawing.timers > 0 && drawing.transitions.len() < usize::from(MOST_TRANSITIONS);
    if has_room && random.chance(1, 15) {
        // At the initial location every timer is unstarted.
        drawing.transitions.push(Arrow::new(drawing.initial, drawing.initial).tests(0, AT_LEAST, 0));
    }
    if random.chance(1, 4) {
        let whole = random.pick(&[1, 4, 20]);
        store_large(random, &mut drawing, whole);
    } else if random.chance(1, 4) {
        let whole = random.pick(&[1, 4, 20]);
        store_about_counter(random, &mut drawing, whole);
    }
    if !drawing.transitions.is_empty() && random.chance(1, 4) {
        // One transition is changed: often 9 or 10 then applies, or the families are others.
        let transition = random.below(drawing.transitions.len() as u64) as usize;
        let transition = &mut drawing.transitions[transition];
        match random.below(5) {
            0 => transition.target = transition.source,
            1 => std::mem::swap(&mut transition.source, &mut transition.target),
            2 => transition.starts.clear(),
            3 if drawing.timers > 0 => {
                transition.tests.truncate(usize::from(MOST_TESTS) - 1);
                transition.tests.push((random.below(u64::from(drawing.timers)) as u8, AT_LEAST, 0));
            }
            _ => transition.starts = (0..drawing.timers).collect(),
        }
    }
    drawing
}

/// A file made of a chart, and what was done to it.
pub fn treated(random: &mut Random, drawing: &Drawing) -> (Treatment, Vec<u8>) {
    let good = drawing.file();
    match random.below(11) {
        0..=5 => (Treatment::Whole, good),
        6 => (Treatment::Relabelled, relabelled(random, &good)),
        7 | 8 => (Treatment::Spoilt, spoilt(random, drawing)),
        9 => (Treatment::Spoilt, damaged(random, &good)),
        _ => {
            let worse = spoilt(random, drawing);
            (Treatment::Spoilt, damaged(random, &worse))
        }
    }
}
