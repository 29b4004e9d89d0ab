//! The derivation: of document 01's charts and of charts with twins and spare locations, typed by hand; on random charts held
//! against the definitions; and, with the feature `library`, its answers.

use timing_chart::analysis::judge;
use timing_chart::chart::Chart;
use timing_chart::derivation::{shows, Derivation, Family, LiveTimer};
use timing_chart::drawing::{
    chart_a, chart_a_continued, chart_b, chart_c, lone_families, lowest_untested, one_location, over_floor, self_loop,
    spare_beside_twins, spare_cycle, spare_first, spare_row, spare_unstarted, started_anew, twins_around,
    twins_on_two_ways, two_twins, Arrow, Drawing, AT_LEAST,
};
use timing_chart::generator::{
    accepted, add_spare, add_twins, many_numbers, meetings, random_chain, random_meetings, sixty_five_numbers, Random,
    Shape,
};
use timing_chart::limits::TIMERS;
use timing_chart::Refusal;

fn chart(drawing: &Drawing) -> Chart {
    Chart::read(&drawing.file()).expect("the drawing keeps the limits")
}

/// The derivation of an accepted chart, checked.
fn derived(drawing: &Drawing, k: Option<u32>) -> Derivation {
    let chart = chart(drawing);
    let derivation = Derivation::of(&chart, k).expect("the chart is accepted");
    assert_eq!(derivation.check(&chart, k), Ok(()));
    derivation
}

/// Numbers with commas between them.
fn listed<T: ToString>(numbers: impl IntoIterator<Item = T>) -> String {
    numbers.into_iter().map(|number| number.to_string()).collect::<Vec<_>>().join(",")
}

/// A line for each part of a derivation that is there.
fn lines(derivation: &Derivation) -> Vec<String> {
    let mut lines = Vec::new();
    if derivation.spare.count() > 0 {
        lines.push(format!("spare {}", listed(derivation.spare.iter())));
    }
    lines.extend(derivation.twins.iter().map(|&twins| format!("twins {}", listed(twins))));
    let live = |live: &LiveTimer| format!("at {} timer {} path {}", live.location, live.timer, listed(&live.path));
    lines.extend(derivation.live.iter().map(live));
    lines.extend(derivation.families.iter().map(|family| line(derivation, family)));
    lines.extend(derivation.reason());
    lines
}

fn line(derivation: &Derivation, family: &Family) -> String {
    let number = |place: usize| derivation.families[place].number;
    let mut line = format!("family {} timer {}", family.number, family.timer);
    line += &format!(" for {} at {}", listed(family.timers), listed(family.locations.iter()));
    if !family.links.is_empty() {
        line += &format!(" links {}", listed(&family.links));
    }
    for meeting in &family.meets {
        line += &format!(" meets {} at {}", number(meeting.family), listed(meeting.at.iter()));
    }
    if !family.later.is_empty() {
        line += &format!(" later {}", listed(family.later.iter().map(|&place| number(place))));
    }
    line + &family.board.map_or(" none".to_string(), |board| format!(" takes {board}"))
}

const LIVE_IN_A: [&str; 8] = [
    "at 1 timer 0 path 1,2",
    "at 2 timer 0 path 2",
    "at 2 timer 1 path 3",
    "at 3 timer 1 path 4",
    "at 3 timer 2 path 4,6",
    "at 4 timer 0 path 5",
    "at 4 timer 2 path 5,6",
    "at 5 timer 2 path 6",
];

#[test]
fn chart_a_needs_three() {
    let families = [
        "family 64 timer 0 for 0 at 1,2,4 links 1,3 later 129,194 takes 0",
        "family 129 timer 1 for 1 at 2,3 links 2 meets 64 at 2 later 194 takes 1",
        "family 194 timer 2 for 2 at 3,4,5 links 4,5 meets 64 at 4 meets 129 at 3 takes 2",
    ];
    for k in [None, Some(3), Some(64), Some(u32::MAX)] {
        let derivation = derived(&chart_a(), k);
        assert_eq!(lines(&derivation), [&LIVE_IN_A[..], &families].concat());
        assert_eq!((derivation.used(), derivation.reason()), (3, None));
    }
}

#[test]
fn chart_a_on_boards_too_small() {
    let two = [
        "family 64 timer 0 for 0 at 1,2,4 links 1,3 later 129,194 takes 0",
        "family 129 timer 1 for 1 at 2,3 links 2 meets 64 at 2 later 194 takes 1",
        "family 194 timer 2 for 2 at 3,4,5 links 4,5 meets 64 at 4 meets 129 at 3 none",
        "20: family 194 of timer 2 finds no number: family 64 holds 0, family 129 holds 1",
    ];
    assert_eq!(lines(&derived(&chart_a(), Some(2))), [&LIVE_IN_A[..], &two].concat());
    let one = [
        "family 64 timer 0 for 0 at 1,2,4 links 1,3 later 129,194 takes 0",
        "family 129 timer 1 for 1 at 2,3 links 2 meets 64 at 2 later 194 none",
        "family 194 timer 2 for 2 at 3,4,5 links 4,5 meets 64 at 4 meets 129 at 3 none",
        "20: family 129 of timer 1 finds no number: family 64 holds 0",
    ];
    assert_eq!(lines(&derived(&chart_a(), Some(1))), [&LIVE_IN_A[..], &one].concat());
    let none = [
        "family 64 timer 0 for 0 at 1,2,4 links 1,3 later 129,194 none",
        "family 129 timer 1 for 1 at 2,3 links 2 meets 64 at 2 later 194 none",
        "family 194 timer 2 for 2 at 3,4,5 links 4,5 meets 64 at 4 meets 129 at 3 none",
        "20: family 64 of timer 0 finds no number: the board has no timers",
    ];
    assert_eq!(lines(&derived(&chart_a(), Some(0))), [&LIVE_IN_A[..], &none].concat());
}

#[test]
fn charts_b_and_c() {
    let b = [
        "at 1 timer 0 path 1",
        "at 2 timer 1 path 2",
        "family 64 timer 0 for 0 at 1 takes 0",
        "family 129 timer 1 for 1 at 2 takes 0",
    ];
    assert_eq!(lines(&derived(&chart_b(), Some(16))), b);
    let c = [
        "at 1 timer 1 path 1,2,3",
        "at 2 timer 0 path 2",
        "at 2 timer 1 path 2,3",
        "at 3 timer 1 path 3",
        "at 4 timer 0 path 4",
        "family 65 timer 1 for 1 at 1,2,3 links 1,2 later 128 takes 0",
        "family 128 timer 0 for 0 at 2 meets 65 at 2 takes 1",
        "family 256 timer 0 for 0 at 4 takes 0",
    ];
    assert_eq!(lines(&derived(&chart_c(), Some(2))), c);
}

#[test]
fn charts_with_no_family() {
    let none: [&str; 0] = [];
    assert_eq!(lines(&derived(&one_location(), Some(0))), none);
    assert_eq!(lines(&derived(&self_loop(), Some(0))), none);
    assert_eq!(derived(&self_loop(), Some(0)).used(), 0);
}

#[test]
fn twins_count_as_the_lowest_of_them() {
    let two = [
        "twins 0,1",
        "at 1 timer 0 path 1",
        "at 1 timer 1 path 1,2",
        "at 2 timer 1 path 2",
        "family 64 timer 0 for 0,1 at 1,2 links 1 takes 0",
    ];
    assert_eq!(lines(&derived(&two_twins(), None)), two);
    let around = [
        "twins 0,2",
        "at 1 timer 0 path 1",
        "at 1 timer 2 path 1,2",
        "at 2 timer 1 path 2",
        "at 2 timer 2 path 2",
        "family 64 timer 0 for 0,2 at 1,2 links 1 later 129 takes 0",
        "family 129 timer 1 for 1 at 2 meets 64 at 2 takes 1",
    ];
    assert_eq!(lines(&derived(&twins_around(), None)), around);
    let untested = [
        "twins 0,2",
        "at 1 timer 1 path 2",
        "at 1 timer 2 path 2",
        "at 2 timer 2 path 1,2",
        "family 64 timer 0 for 2 at 1,2 links 1 later 65 takes 0",
        "family 65 timer 1 for 1 at 1 meets 64 at 1 none",
        "20: family 65 of timer 1 finds no number: family 64 holds 0",
    ];
    assert_eq!(lines(&derived(&lowest_untested(), Some(1))), untested);
    let two_ways = [
        "twins 0,1",
        "at 1 timer 0 path 1",
        "at 1 timer 1 path 2,3",
        "at 3 timer 1 path 3",
        "family 64 timer 0 for 0,1 at 1,3 links 2 takes 0",
    ];
    assert_eq!(lines(&derived(&twins_on_two_ways(), Some(1))), two_ways);
    // Timers that nothing starts are twins too.
    assert_eq!(lines(&derived(&Drawing { timers: 3, ..one_location() }, None)), ["twins 0,1,2"]);
}

#[test]
fn spare_locations_count_for_nothing() {
    let beside_twins = [
        "spare 4",
        "twins 0,1",
        "at 1 timer 0 path 1",
        "at 1 timer 1 path 1,2",
        "at 2 timer 1 path 2",
        "family 64 timer 0 for 0,1 at 1,2 links 1 takes 0",
    ];
    assert_eq!(lines(&derived(&spare_beside_twins(), None)), beside_twins);
    let cycle = ["spare 4,5", "at 1 timer 0 path 1", "family 64 timer 0 for 0 at 1 takes 0"];
    assert_eq!(lines(&derived(&spare_cycle(), None)), cycle);
    assert_eq!(lines(&derived(&spare_unstarted(), Some(0))), ["spare 2"]);
    let row = ["spare 2,3,4,5", "at 1 timer 0 path 1", "family 64 timer 0 for 0 at 1 links 1 takes 0"];
    assert_eq!(lines(&derived(&spare_row(), None)), row);
    assert_eq!(lines(&derived(&spare_first(), None)), ["spare 0"]);
}

#[test]
fn a_timer_started_anew_has_two_families() {
    let anew = [
        "at 1 timer 0 path 1",
        "at 2 timer 0 path 2",
        "family 64 timer 0 for 0 at 1 takes 0",
        "family 128 timer 0 for 0 at 2 takes 0",
    ];
    assert_eq!(lines(&derived(&started_anew(), None)), anew);
}

#[test]
fn first_fit_over_the_floor() {
    let expected = [
        "at 2 timer 0 path 4",
        "at 2 timer 2 path 4",
        "at 3 timer 0 path 1",
        "at 3 timer 1 path 2,3",
        "at 4 timer 1 path 3",
        "at 4 timer 2 path 3,4",
        "family 128 timer 0 for 0 at 2 later 130 takes 0",
        "family 130 timer 2 for 2 at 2,4 links 3 meets 128 at 2 later 193 takes 1",
        "family 192 timer 0 for 0 at 3 later 193 takes 0",
        "family 193 timer 1 for 1 at 3,4 links 2 meets 130 at 4 meets 192 at 3 none",
        "20: family 193 of timer 1 finds no number: family 192 holds 0, family 130 holds 1",
    ];
    assert_eq!(lines(&derived(&over_floor(), Some(2))), expected);
    assert_eq!(derived(&over_floor(), None).families[3].board, Some(2));
}

#[test]
fn the_earliest_holder_is_named() {
    // Families 64 and 129 do not meet and both hold 0; 194 meets both.
    let drawing = meetings(&[0, 1, 2], &[vec![0, 2], vec![1, 2]]);
    let reason = derived(&drawing, Some(1)).reason();
    assert_eq!(reason.as_deref(), Some("20: family 194 of timer 2 finds no number: family 64 holds 0"));
}

#[test]
fn more_than_20_families() {
    let lone = derived(&lone_families(21), Some(1));
    let expected = |index: u16| {
        let (location, timer) = (index + 1, index % 2);
        format!("family {} timer {timer} for {timer} at {location} takes 0", 64 * location + timer)
    };
    let families: Vec<String> = lone.families.iter().map(|family| line(&lone, family)).collect();
    assert_eq!(families, (0..21).map(expected).collect::<Vec<_>>());
    let continued = derived(&chart_a_continued(18), None);
    assert_eq!((continued.families.len(), continued.used()), (21, 3));
    let last = "family 1473 timer 1 for 1 at 23 takes 0";
    assert_eq!(line(&continued, &continued.families[20]), last);
}

#[test]
fn the_first_of_the_shortest_paths() {
    // From 1, of the two ways to a test of timer 0 with two transitions, that by transition 2; the test of transition 5
    // takes three, and the loop 1 starts the timer.
    let drawing = Drawing::new(
        5,
        1,
        vec![
            Arrow::new(0, 1).starts(&[0]),
            Arrow::new(1, 1).starts(&[0]),
            Arrow::new(1, 3),
            Arrow::new(1, 2),
            Arrow::new(2, 4).tests(0, AT_LEAST, 0),
            Arrow::new(4, 0).tests(0, AT_LEAST, 0),
            Arrow::new(3, 4).tests(0, AT_LEAST, 0),
            Arrow::new(3, 4).tests(0, AT_LEAST, 0),
        ],
    );
    let paths: Vec<_> = derived(&drawing, None).live.into_iter().map(|live| (live.location, live.path)).collect();
    assert_eq!(paths, [(1, vec![2, 6]), (2, vec![4]), (3, vec![6]), (4, vec![5])]);
}

#[test]
fn what_shows_a_live_timer() {
    let chart = chart(&chart_a());
    assert!(shows(&chart, 1, 0, &[1, 2]));
    assert!(shows(&chart, 1, 0, &[1, 3, 5]));
    // No transition; none that leaves there; none that leaves where the last ended; no such transition.
    assert!(!shows(&chart, 1, 0, &[]));
    assert!(!shows(&chart, 2, 0, &[1, 2]));
    assert!(!shows(&chart, 1, 0, &[1, 5]));
    assert!(!shows(&chart, 1, 0, &[1, 7]));
    // The last has no test of the timer; an earlier one starts it.
    assert!(!shows(&chart, 1, 0, &[1, 3]));
    assert!(!shows(&chart, 0, 0, &[0, 1, 2]));
    // The last may start it.
    let anew = self::chart(&started_anew());
    assert!(shows(&anew, 1, 0, &[1]) && !shows(&anew, 1, 0, &[1, 2]));
}

#[test]
fn refused_charts_have_no_derivation() {
    let never_started = chart(&timing_chart::drawing::never_started());
    assert_eq!(Derivation::of(&never_started, None), Err(Refusal { number: 10, place: 1 }));
    let spare = chart(&spare_first().version(2));
    assert_eq!(Derivation::of(&spare, Some(3)), Err(Refusal { number: 9, place: 0 }));
}

/// A change that makes a derivation wrong.
type Wrong = fn(&mut Derivation);

#[test]
fn wrong_derivations_are_found() {
    let of_a: [(Option<u32>, Wrong); 16] = [
        (None, |wrong| wrong.live[0].path = vec![1]),
        (None, |wrong| wrong.live[0].path = vec![1, 2, 4]),
        (None, |wrong| wrong.live[0].family = 1),
        (None, |wrong| wrong.live.truncate(7)),
        (None, |wrong| wrong.families[0].links.truncate(1)),
        (None, |wrong| wrong.families[0].links.push(5)),
        (None, |wrong| wrong.families[0].number = 65),
        (None, |wrong| wrong.families[2].meets.truncate(1)),
        (None, |wrong| wrong.families[2].meets[0].at.add(1)),
        (None, |wrong| wrong.families[0].later.truncate(1)),
        (None, |wrong| wrong.families[1].board = Some(0)),
        (None, |wrong| wrong.families[2].board = Some(3)),
        (None, |wrong| wrong.families[2].board = None),
        (Some(2), |wrong| wrong.families[2].board = Some(2)),
        (Some(2), |wrong| wrong.stuck = None),
        (Some(2), |wrong| wrong.stuck.as_mut().unwrap().holders.swap(0, 1)),
    ];
    let of_spare: [(Option<u32>, Wrong); 4] = [
        (None, |wrong| wrong.twins.clear()),
        (None, |wrong| wrong.spare.add(3)),
        (None, |wrong| wrong.spare = Default::default()),
        (None, |wrong| wrong.families[0].timers = wrong.families[0].timers.without(0)),
    ];
    let all = of_a.map(|case| (chart_a(), case)).into_iter().chain(of_spare.map(|case| (spare_beside_twins(), case)));
    for (index, (drawing, (k, change))) in all.enumerate() {
        let mut wrong = derived(&drawing, k);
        change(&mut wrong);
        assert!(wrong.check(&chart(&drawing), k).is_err(), "change {index}");
    }
}

/// A random chart of some kind, and perhaps with twins or spare locations more.
fn random_chart(random: &mut Random) -> Drawing {
    let mut drawing = match random.below(40) {
        0 => random_chain(random),
        1 => sixty_five_numbers(random.between(1, 63) as u8),
        2 => many_numbers(random.between(3, 6) as u16, 8),
        3 => {
            let locations = random.between(12, 20) as u16;
            accepted(random, &Shape { locations, transitions: 60, ..Shape::SMALL_FAMILIES })
        }
        4..=9 => {
            let families = random.between(0, 25) as usize;
            random_meetings(random, families)
        }
        _ => {
            let most = random.pick(&[4, 8, 8, 16, 40]);
            let shape = Shape::random(random, most);
            accepted(random, &shape)
        }
    };
    if random.chance(1, 6) {
        add_twins(random, &mut drawing);
    }
    if random.chance(1, 4) {
        drawing.version = 3;
        add_spare(random, &mut drawing);
    }
    drawing
}

/// So many random charts that are accepted, each with its derivation without a limit.
fn random_derivations(seed: u64, count: usize) -> impl Iterator<Item = (Drawing, Derivation)> {
    let mut random = Random::new(seed);
    let charts = std::iter::repeat_with(move || random_chart(&mut random));
    let accepted = charts.filter(|drawing| judge(&chart(drawing)).is_ok());
    accepted.take(count).map(|drawing| {
        let derivation = derived(&drawing, None);
        (drawing, derivation)
    })
}

/// The transitions that leave a location which paths from the initial one reach, with their numbers.
fn counting(drawing: &Drawing) -> Vec<(u16, &Arrow)> {
    let mut reached = vec![false; usize::from(drawing.locations)];
    reached[usize::from(drawing.initial)] = true;
    for _ in 0..drawing.locations {
        for transition in &drawing.transitions {
            reached[usize::from(transition.target)] |= reached[usize::from(transition.source)];
        }
    }
    let all = (0..).zip(&drawing.transitions);
    all.filter(|(_, transition)| reached[usize::from(transition.source)]).collect()
}

/// Of each location and timer the round in which the timer comes to the live set; 0 where it never does. Each round makes
/// all sets from those of the round before.
fn first_rounds(drawing: &Drawing) -> Vec<[usize; TIMERS]> {
    let transitions = counting(drawing);
    let mut first = vec![[0; TIMERS]; usize::from(drawing.locations)];
    for round in 1.. {
        let before = first.clone();
        for (_, transition) in &transitions {
            for timer in 0..drawing.timers {
                let was_live = before[usize::from(transition.target)][usize::from(timer)] > 0;
                let entry = &mut first[usize::from(transition.source)][usize::from(timer)];
                if *entry == 0 && (transition.is_test(timer) || was_live && !transition.is_start(timer)) {
                    *entry = round;
                }
            }
        }
        if first == before {
            break;
        }
    }
    first
}

/// Of all paths with so many transitions that show a timer live at a location, the first by the transitions' numbers. Every
/// path is gone along by itself.
fn first_path(drawing: &Drawing, location: u16, timer: u8, length: usize) -> Option<Vec<u16>> {
    let mut leaving = (0..).zip(&drawing.transitions).filter(|(_, transition)| transition.source == location);
    leaving.find_map(|(number, transition)| {
        if length == 1 {
            return transition.is_test(timer).then(|| vec![number]);
        }
        let rest = || first_path(drawing, transition.target, timer, length - 1);
        let rest = if transition.is_start(timer) { None } else { rest() };
        rest.map(|rest| [vec![number], rest].concat())
    })
}

#[test]
fn paths_are_the_first_of_the_shortest() {
    let (mut paths, mut longer, mut compared) = (0, 0, 0);
    for (drawing, derivation) in random_derivations(31, 3_000) {
        let chart = chart(&drawing);
        let first = first_rounds(&drawing);
        let live = first.iter().flatten().filter(|&&round| round > 0).count();
        assert_eq!(derivation.live.len(), live, "{drawing:?}");
        for LiveTimer { location, timer, path, .. } in &derivation.live {
            assert!(shows(&chart, *location, *timer, path), "{drawing:?}");
            assert_eq!(path.len(), first[usize::from(*location)][usize::from(*timer)], "{drawing:?}");
            if path.len() <= 6 && drawing.locations <= 10 {
                assert_eq!(first_path(&drawing, u16::from(*location), *timer, path.len()).as_ref(), Some(path));
                compared += u64::from(path.len() > 1);
            }
            paths += 1;
            longer += u64::from(path.len() > 3);
        }
        let rises = |two: &[LiveTimer]| (two[0].location, two[0].timer) < (two[1].location, two[1].timer);
        assert!(derivation.live.windows(2).all(rises));
    }
    assert!(paths > 100_000 && longer > 10_000 && compared > 5_000, "{paths} {longer} {compared}");
}

/// The lowest timer that every transition of these starts where it starts this one, and nowhere else.
fn lowest_twin(transitions: &[(u16, &Arrow)], timer: u8) -> u8 {
    let twins = |other: &u8| transitions.iter().all(|(_, arrow)| arrow.is_start(*other) == arrow.is_start(timer));
    (0..=timer).find(twins).expect("it is its own twin")
}

#[test]
fn families_are_joined_by_their_links() {
    let (mut families, mut linked) = (0, 0);
    for (drawing, derivation) in random_derivations(32, 3_000) {
        let transitions = counting(&drawing);
        let lowest: Vec<u8> = (0..drawing.timers).map(|timer| lowest_twin(&transitions, timer)).collect();
        // Of each pair the family that it is in.
        let mut of_pair = vec![[None; TIMERS]; usize::from(drawing.locations)];
        for live in &derivation.live {
            let family = &derivation.families[live.family];
            assert_eq!(family.timer, lowest[usize::from(live.timer)]);
            assert!(family.locations.has(live.location) && family.timers.has(live.timer));
            let pair = &mut of_pair[usize::from(live.location)][usize::from(family.timer)];
            assert!(pair.is_none_or(|place| place == live.family));
            *pair = Some(live.family);
        }
        for (place, family) in derivation.families.iter().enumerate() {
            let pair = |location: u16| of_pair[usize::from(location)][usize::from(family.timer)];
            let locations: Vec<u16> =
                (0..drawing.locations).filter(|&location| pair(location) == Some(place)).collect();
            assert!(family.locations.iter().map(u16::from).eq(locations.iter().copied()), "{drawing:?}");
            assert_eq!(family.number, 64 * locations[0] + u16::from(family.timer));
            // Both ends of what does not start the timer are pairs of one family, and then it is a link of it.
            let links = transitions.iter().filter(|(_, arrow)| {
                let ends = (pair(arrow.source), pair(arrow.target));
                let is_link = !arrow.is_start(family.timer) && ends.0.is_some() && ends.1.is_some();
                assert!(!is_link || ends.0 == ends.1, "{drawing:?}");
                is_link && ends.0 == Some(place)
            });
            let links: Vec<u16> = links.map(|(number, _)| *number).collect();
            assert_eq!(family.links, links, "{drawing:?}");
            assert_eq!(joined(&drawing, locations[0], &links), locations, "{drawing:?}");
            families += 1;
            linked += u64::from(locations.len() > 2);
        }
    }
    assert!(families > 20_000 && linked > 5_000, "{families} {linked}");
}

/// The locations that chains of links join to one of them, either way along each.
fn joined(drawing: &Drawing, location: u16, links: &[u16]) -> Vec<u16> {
    let mut joined = vec![location];
    let mut next = 0;
    while next < joined.len() {
        for arrow in links.iter().map(|&link| &drawing.transitions[usize::from(link)]) {
            for (from, to) in [(arrow.source, arrow.target), (arrow.target, arrow.source)] {
                if from == joined[next] && !joined.contains(&to) {
                    joined.push(to);
                }
            }
        }
        next += 1;
    }
    joined.sort_unstable();
    joined
}

#[test]
fn numbers_are_first_fit_for_the_reasons_given() {
    let (mut over_board, mut stuck_boards) = (0, 0);
    for (drawing, free) in random_derivations(33, 1_500) {
        let used = free.used() as u32;
        for k in [0, 1, used.saturating_sub(1), used, 64] {
            let derivation = derived(&drawing, Some(k));
            assert_eq!(derivation.stuck.is_some(), used > k);
            let numbered = derivation.stuck.as_ref().map_or(derivation.families.len(), |stuck| stuck.family);
            for (place, family) in derivation.families.iter().enumerate() {
                assert_eq!(family.board, if place < numbered { free.families[place].board } else { None });
                check_reasons(&derivation, place, family.board.map_or(k, u32::from), place < numbered);
                // Those after the one that finds none have no number to check.
                if place == numbered {
                    let reason = derivation.reason().expect("the board is refused");
                    assert_eq!(reason, reason_by_definition(&derivation, place, k));
                    stuck_boards += 1;
                    break;
                }
            }
        }
        over_board += u64::from(used > 64);
    }
    assert!(over_board > 20 && stuck_boards > 2_000, "{over_board} {stuck_boards}");
}

/// The earliest family that holds a number and has a location in common with the one at a place, before which it is.
fn holder(derivation: &Derivation, place: usize, number: u32) -> Option<&Family> {
    let family = &derivation.families[place];
    let shares = |earlier: &&Family| family.locations.iter().any(|location| earlier.locations.has(location));
    derivation.families[..place].iter().filter(shares).find(|earlier| earlier.board.map(u32::from) == Some(number))
}

/// All numbers below this one are held by earlier families that the one at a place meets; this one is not, if it is free.
fn check_reasons(derivation: &Derivation, place: usize, number: u32, free: bool) {
    assert!((0..number).all(|smaller| holder(derivation, place, smaller).is_some()));
    assert!(!free || holder(derivation, place, number).is_none());
    let family = &derivation.families[place];
    let met: Vec<usize> = (0..place).filter(|&p| derivation.families[p].locations.meets(&family.locations)).collect();
    assert!(family.meets.iter().map(|meeting| meeting.family).eq(met));
    for meeting in &family.meets {
        let earlier = &derivation.families[meeting.family];
        let common = family.locations.iter().filter(|&location| earlier.locations.has(location));
        assert!(meeting.at.iter().eq(common) && earlier.later.contains(&place));
    }
    assert!(family.later.iter().all(|&later| derivation.families[later].meets.iter().any(|m| m.family == place)));
}

fn reason_by_definition(derivation: &Derivation, place: usize, k: u32) -> String {
    let family = &derivation.families[place];
    let held = |number| format!("family {} holds {number}", holder(derivation, place, number).unwrap().number);
    let held = (0..k).map(held).collect::<Vec<_>>().join(", ");
    let held = if k == 0 { "the board has no timers" } else { &held };
    format!("20: family {} of timer {} finds no number: {held}", family.number, family.timer)
}

#[cfg(feature = "library")]
mod answers {
    use super::*;
    use timing_chart::answers::answer;
    use timing_chart::json::Json;
    use timing_chart::listing::listing;

    fn asked(file: &[u8], k: Option<u32>) -> Json {
        let k = k.map_or(Json::Null, |k| Json::Number(u64::from(k)));
        answer(&Json::object([("call", Json::of_text("derive")), ("file", Json::of_bytes(file)), ("k", k)]))
    }

    /// What the program prints for an input of K and this file, from the answer.
    fn text(answer: &Json) -> String {
        let word = if answer.is("searched") { "floor" } else { "seen" };
        let [used, floor, limit] = ["used", "floor", "k"].map(|name| answer.number(name));
        let mut text = format!("used {used} {word} {floor} limit {limit}\n");
        for (location, numbers) in answer.list("numbers").iter().enumerate() {
            text += &format!("at {location}");
            let Json::List(numbers) = numbers else { panic!("a list of each location") };
            for number in numbers {
                let number: Vec<u64> = number.as_numbers();
                text += &format!(" {}>{}", number[0], number[1]);
            }
            text += "\n";
        }
        text
    }

    #[test]
    fn chart_b_for_16() {
        let expected = concat!(
            r#"{"chart":{"accepting":[3],"initial":0,"locations":4,"timers":2,"transitions":["#,
            r#"{"event":0,"source":0,"starts":[0],"target":1,"tests":[]},"#,
            r#"{"event":0,"source":1,"starts":[1],"target":2,"#,
            r#""tests":[{"comparison":"at most","constant":2,"timer":0}]},"#,
            r#"{"event":0,"source":2,"starts":[],"target":3,"#,
            r#""tests":[{"comparison":"at least","constant":1,"timer":1}]}],"version":1},"#,
            r#""families":[{"board":0,"later":[],"links":[],"locations":[1],"meets":[],"number":64,"timer":0,"#,
            r#""timers":[0]},{"board":0,"later":[],"links":[],"locations":[2],"meets":[],"number":129,"timer":1,"#,
            r#""timers":[1]}],"file":"0100000030000400000100010003000300080000000100010000000c000100020001"#,
            r#"000100000002000b0002000300000100020001","floor":1,"k":16,"#,
            r#""live":[{"location":1,"path":[1],"timer":0},{"location":2,"path":[2],"timer":1}],"#,
            r#""numbers":[[],[[0,0]],[[1,0]],[]],"rewritten":{"accepting":[3],"initial":0,"locations":4,"timers":1,"#,
            r#""transitions":[{"event":0,"source":0,"starts":[0],"target":1,"tests":[]},"#,
            r#"{"event":0,"source":1,"starts":[0],"target":2,"#,
            r#""tests":[{"comparison":"at most","constant":2,"timer":0}]},"#,
            r#"{"event":0,"source":2,"starts":[],"target":3,"#,
            r#""tests":[{"comparison":"at least","constant":1,"timer":0}]}],"version":1},"#,
            r#""rounds":2,"searched":true,"spare":[],"twins":[],"used":1}"#
        );
        assert_eq!(asked(&chart_b().file(), Some(16)).to_string(), expected);
    }

    #[test]
    fn chart_a_for_2_and_for_none() {
        let refused = asked(&chart_a().file(), Some(2));
        assert_eq!(refused.numbers::<u64>("refused"), [20, 65_535]);
        let reason = "20: family 194 of timer 2 finds no number: family 64 holds 0, family 129 holds 1";
        assert_eq!((refused.text("reason"), refused.number("stuck")), (reason, 194));
        for name in ["numbers", "file", "rewritten"] {
            assert_eq!(refused.get(name), None);
        }
        let last = concat!(
            r#"{"board":null,"later":[],"links":[{"source":3,"target":5,"transition":4},"#,
            r#"{"source":4,"target":5,"transition":5}],"locations":[3,4,5],"#,
            r#""meets":[{"at":[4],"board":0,"family":64},{"at":[3],"board":1,"family":129}],"#,
            r#""number":194,"timer":2,"timers":[2]}"#
        );
        assert_eq!(refused.list("families")[2].to_string(), last);
        let figures = |answer: &Json| ["used", "floor", "rounds"].map(|name| answer.number(name));
        assert_eq!((figures(&refused), refused.is("searched")), ([3, 3, 3], true));
        let free = asked(&chart_a().file(), None);
        assert_eq!((figures(&free), free.get("k"), free.get("numbers")), ([3, 3, 3], Some(&Json::Null), None));
        assert_eq!(free.list("families")[2].to_string(), last.replace("null", "2"));
        assert_eq!(free.get("live"), refused.get("live"));
        let none = asked(&chart_a().file(), Some(0));
        assert_eq!(none.text("reason"), "20: family 64 of timer 0 finds no number: the board has no timers");
        assert_eq!(none.number("stuck"), 64);
    }

    #[test]
    fn a_board_of_65_is_refused() {
        let expected = r#"{"reason":"11: K is 65; a board has at most 64 timers","refused":[11,65535]}"#;
        assert_eq!(asked(&chart_a().file(), Some(65)).to_string(), expected);
    }

    #[test]
    fn random_charts_bring_no_fault() {
        let (mut results, mut refused) = (0, 0);
        for (drawing, free) in random_derivations(34, 2_000) {
            let (file, used) = (drawing.file(), free.used());
            let answer = asked(&file, None);
            assert_eq!((answer.get("fault"), answer.get("refused")), (None, None), "{drawing:?}");
            assert_eq!(answer.list("live").len(), free.live.len());
            for k in [0, (used as u32).saturating_sub(1), used as u32, 64, 65] {
                let answer = asked(&file, Some(k));
                assert_eq!(answer.get("fault"), None, "{drawing:?}");
                if k > 64 || used > u64::from(k) {
                    let number = if k > 64 { 11 } else { 20 };
                    assert_eq!(answer.numbers::<u64>("refused"), [number, 65_535]);
                    refused += 1;
                } else {
                    assert_eq!(text(&answer), listing(&[&[k as u8], &file[..]].concat()));
                    results += 1;
                }
            }
        }
        assert!(results > 4_000 && refused > 4_000, "{results} {refused}");
    }
}
