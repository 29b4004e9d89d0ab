//! The crate compared with a second implementation that spells out the definitions of documents 01 and 02 one by one, on
//! random charts.

use std::collections::BTreeSet;

use timing_chart::analysis::{self, analyse, Analysis};
use timing_chart::chart::Chart;
use timing_chart::counter::{play_counter, CounterPlaying};
use timing_chart::drawing::{
    chart_a, chart_b, chart_c, dwell, lowest_untested, over_floor, self_loop, spare_beside_twins, spare_cycle,
    spare_first, spare_row, spare_unstarted, twins_around, twins_on_two_ways, two_twins, Arrow, Drawing, AT_LEAST,
};
use timing_chart::generator::*;
use timing_chart::limits::{
    LARGEST_CONSTANT_VERSION_1, LARGEST_FILE, LOCATIONS, MOST_LOCATIONS, MOST_SEARCHED, MOST_TICKS,
};
use timing_chart::listing::listing;
use timing_chart::lists::{self, Header, LentLists, Lists, OwnedLists};
use timing_chart::player::{play, Playing};
use timing_chart::rewriting::{rewrite, Rewriting};
use timing_chart::tally::{number_of, ByNumber};
use timing_chart::twins::Twins;
use timing_chart::version::Version;
use timing_chart::{Answer, Refusal, NOWHERE};

/// The locations that paths from `from` reach by transitions that pass, the empty path among them.
fn reached(drawing: &Drawing, from: u16, passes: impl Fn(&Arrow) -> bool) -> BTreeSet<u16> {
    let mut found = BTreeSet::from([from]);
    let mut latest = vec![from];
    while let Some(location) = latest.pop() {
        for transition in &drawing.transitions {
            if transition.source == location && passes(transition) && found.insert(transition.target) {
                latest.push(transition.target);
            }
        }
    }
    found
}

/// The locations that no path from the initial one reaches.
fn spare(drawing: &Drawing) -> BTreeSet<u16> {
    let all = reached(drawing, drawing.initial, |_| true);
    (0..drawing.locations).filter(|location| !all.contains(location)).collect()
}

/// The chart without the transitions that leave spare locations.
fn without_spare_transitions(drawing: &Drawing) -> Drawing {
    let (mut kept, spare) = (drawing.clone(), spare(drawing));
    kept.transitions.retain(|transition| !spare.contains(&transition.source));
    kept
}

fn judged(drawing: &Drawing) -> Answer<()> {
    if let (1 | 2, Some(&place)) = (drawing.version, spare(drawing).first()) {
        return Err(Refusal { number: 9, place: u64::from(place) });
    }
    // A transition that leaves a spare location is on no path from the initial one.
    let unstarted = |transition: &Arrow| {
        transition.tests.iter().any(|&(timer, _, _)| {
            reached(drawing, drawing.initial, |other| !other.is_start(timer)).contains(&transition.source)
        })
    };
    match drawing.transitions.iter().position(unstarted) {
        Some(place) => Err(Refusal { number: 10, place: place as u64 }),
        None => Ok(()),
    }
}

/// Whether a timer is live at a reached location. Paths from there come to no spare one.
fn is_live(drawing: &Drawing, location: u16, timer: u8) -> bool {
    let before_a_start = reached(drawing, location, |transition| !transition.is_start(timer));
    drawing
        .transitions
        .iter()
        .any(|transition| before_a_start.contains(&transition.source) && transition.is_test(timer))
}

/// The live sets as words, made in rounds: each makes all locations' sets from those of the round before, the first
/// from empty ones, and the first that changes no set is the last. Those of spare locations have no timers in any round.
/// With the number of rounds.
fn in_rounds(drawing: &Drawing) -> (Vec<u64>, u64) {
    let spare = spare(drawing);
    let mut before = vec![0; usize::from(drawing.locations)];
    let mut rounds = 0;
    loop {
        let mut sets = vec![0; usize::from(drawing.locations)];
        for transition in drawing.transitions.iter().filter(|transition| !spare.contains(&transition.source)) {
            let tested = transition.tests.iter().fold(0, |word, test| word | 1 << test.0);
            let started = transition.starts.iter().fold(0, |word, timer| word | 1 << timer);
            sets[usize::from(transition.source)] |= tested | before[usize::from(transition.target)] & !started;
        }
        rounds += 1;
        if sets == before {
            return (sets, rounds);
        }
        before = sets;
    }
}

/// Whether every transition of these starts both timers or neither.
fn start_together(transitions: &[Arrow], first: u8, second: u8) -> bool {
    transitions.iter().all(|transition| transition.is_start(first) == transition.is_start(second))
}

/// The same for the transitions that count.
fn are_twins(drawing: &Drawing, first: u8, second: u8) -> bool {
    start_together(&without_spare_transitions(drawing).transitions, first, second)
}

/// Of each timer the lowest of its twins.
fn lowest_twins(drawing: &Drawing) -> Vec<u8> {
    let transitions = without_spare_transitions(drawing).transitions;
    let lowest = |timer| (0..=timer).find(|&other| start_together(&transitions, other, timer));
    (0..drawing.timers).map(|timer| lowest(timer).expect("it is its own twin")).collect()
}

/// The twins that this crate finds in a chart that is accepted.
fn twins_of(drawing: &Drawing) -> Twins {
    let chart = Chart::read(&drawing.file()).unwrap();
    Twins::of(&chart, analysis::judge(&chart).unwrap().reached())
}

/// A pair of a location and a timer, ordered as 64 times the location plus the timer.
type Pair = (u16, u8);

struct Planned {
    /// The pairs of drawn timers that are live.
    drawn: BTreeSet<Pair>,
    /// Of each drawn timer the one that stands for it in families.
    stands: Vec<u8>,
    /// The pairs of these.
    pairs: BTreeSet<Pair>,
    /// Each family with its board number.
    families: Vec<(BTreeSet<Pair>, usize)>,
}

impl Planned {
    /// Twins count as the lowest of them.
    fn of(drawing: &Drawing) -> Self {
        Planned::with(drawing, lowest_twins(drawing))
    }

    /// Each timer counts for itself, as it did before twins were looked for.
    fn without_twins(drawing: &Drawing) -> Self {
        Planned::with(drawing, (0..drawing.timers).collect())
    }

    fn with(drawing: &Drawing, stands: Vec<u8>) -> Self {
        let mut drawn = BTreeSet::new();
        for location in reached(drawing, drawing.initial, |_| true) {
            drawn.extend((0..drawing.timers).filter(|&j| is_live(drawing, location, j)).map(|j| (location, j)));
        }
        let pairs: BTreeSet<Pair> = drawn.iter().map(|&(q, j)| (q, stands[usize::from(j)])).collect();
        let mut left = pairs.clone();
        let mut families: Vec<(BTreeSet<Pair>, usize)> = Vec::new();
        while let Some(first) = left.pop_first() {
            let mut family = BTreeSet::from([first]);
            let mut latest = vec![first];
            while let Some((location, timer)) = latest.pop() {
                for transition in drawing.transitions.iter().filter(|transition| !transition.is_start(timer)) {
                    for (near, far) in [(transition.source, transition.target), (transition.target, transition.source)]
                    {
                        if near == location && left.remove(&(far, timer)) {
                            family.insert((far, timer));
                            latest.push((far, timer));
                        }
                    }
                }
            }
            let meets = |other: &BTreeSet<Pair>| other.iter().any(|a| family.iter().any(|b| a.0 == b.0));
            let held: BTreeSet<usize> = families.iter().filter(|other| meets(&other.0)).map(|other| other.1).collect();
            let number = (0..).find(|number| !held.contains(number)).unwrap();
            families.push((family, number));
        }
        Planned { drawn, stands, pairs, families }
    }

    fn used(&self) -> usize {
        self.families.iter().map(|family| family.1 + 1).max().unwrap_or(0)
    }

    /// The smallest number of timers in any plan: the smallest `k` for which there is a way to cover all families with
    /// `k` sets, none of which has two that meet. Such ways are counted, modulo a prime: the lists of `k` such sets from
    /// within each set of families, added and taken away by turns, leave those that cover all.
    fn fewest(&self) -> u64 {
        const PRIME: u64 = 4_294_967_291;
        let locations = |family: &(BTreeSet<Pair>, usize)| family.0.iter().map(|pair| pair.0).collect::<BTreeSet<_>>();
        let locations: Vec<BTreeSet<u16>> = self.families.iter().map(locations).collect();
        let meeting = |a: usize| {
            let meets = |b: &usize| *b != a && !locations[a].is_disjoint(&locations[*b]);
            (0..locations.len()).filter(meets).fold(0_usize, |set, b| set | 1 << b)
        };
        let meeting: Vec<usize> = (0..locations.len()).map(meeting).collect();
        let all = (1_usize << locations.len()) - 1;
        // Of each set of families: how many of its subsets have no two that meet.
        let mut subsets = vec![1_u64; all + 1];
        for set in 1..=all {
            let first = set.trailing_zeros() as usize;
            let rest = set & !(1 << first);
            subsets[set] = subsets[rest] + subsets[rest & !meeting[first]];
        }
        let mut lists = vec![1_u64; all + 1];
        let mut k = 0;
        loop {
            let sign = |set: usize| if (all ^ set).count_ones().is_multiple_of(2) { 1 } else { -1 };
            let count: i64 = lists.iter().enumerate().map(|(set, &lists)| sign(set) * lists as i64).sum();
            if count % PRIME as i64 != 0 {
                return k;
            }
            k += 1;
            for (lists, &subsets) in lists.iter_mut().zip(&subsets) {
                *lists = *lists * subsets % PRIME;
            }
        }
    }

    fn floor(&self, drawing: &Drawing) -> (u64, bool) {
        if self.families.len() <= MOST_SEARCHED {
            return (self.fewest(), true);
        }
        let sizes = (0..drawing.locations).map(|q| self.pairs.iter().filter(|pair| pair.0 == q).count());
        (sizes.max().unwrap() as u64, false)
    }

    /// The board number of a drawn timer that is live at the location.
    fn number(&self, location: u16, timer: u8) -> usize {
        let pair = (location, self.stands[usize::from(timer)]);
        self.families.iter().find(|family| family.0.contains(&pair)).expect("a twin is live there").1
    }

    /// The board numbers of all drawn timers that are live somewhere.
    fn numbers(&self) -> Vec<(Pair, usize)> {
        self.drawn.iter().map(|&(location, timer)| ((location, timer), self.number(location, timer))).collect()
    }

    fn live_sets(&self, drawing: &Drawing) -> Vec<u64> {
        let set =
            |location| self.drawn.iter().filter(|pair| pair.0 == location).fold(0, |word, pair| word | 1 << pair.1);
        (0..drawing.locations).map(set).collect()
    }

    fn rewritten(&self, drawing: &Drawing) -> Drawing {
        let (mut result, spare) = (drawing.clone(), spare(drawing));
        result.timers = self.used() as u8;
        for transition in &mut result.transitions {
            if spare.contains(&transition.source) {
                transition.tests.clear();
                transition.starts.clear();
                continue;
            }
            for test in &mut transition.tests {
                test.0 = self.number(transition.source, test.0) as u8;
            }
            let born = transition.starts.iter().filter(|&&timer| self.drawn.contains(&(transition.target, timer)));
            let numbers: BTreeSet<u8> = born.map(|&timer| self.number(transition.target, timer) as u8).collect();
            transition.starts = numbers.into_iter().collect();
        }
        result
    }
}

/// 12 and 13 of a step list whose lists have these lengths.
fn judged_lists(drawing: &Drawing, counts: &[u32], transitions: usize, times: usize) -> Answer<()> {
    if counts.len() != usize::from(drawing.timers) {
        return Err(Refusal { number: 12, place: NOWHERE });
    }
    if let Some(place) = counts.iter().position(|&count| count > MOST_TICKS) {
        return Err(Refusal { number: 12, place: place as u64 });
    }
    if transitions != times {
        return Err(Refusal { number: 13, place: NOWHERE });
    }
    Ok(())
}

/// Whether all tests of a transition are met by these counts.
fn all_met(transition: &Arrow, counts: &[u64]) -> bool {
    transition.tests.iter().all(|&(timer, code, constant)| {
        let (count, constant) = (counts[usize::from(timer)], u64::from(constant));
        [count <= constant, count < constant, count >= constant, count > constant, count == constant][usize::from(code)]
    })
}

/// Where a step list ends, and when, with the counts of all timers.
fn end_of(drawing: &Drawing, counts: &[u32], steps: &Steps) -> Answer<(u16, u64, Vec<u64>)> {
    judged_lists(drawing, counts, steps.transitions.len(), steps.times.len())?;
    let mut counts: Vec<u64> = counts.iter().map(|&count| u64::from(count)).collect();
    let (mut location, mut now) = (drawing.initial, 0);
    for (step, (&transition, &time)) in steps.transitions.iter().zip(&steps.times).enumerate() {
        let refused = |number| Err(Refusal { number, place: step as u64 });
        if transition as usize >= drawing.transitions.len() {
            return refused(14);
        }
        let transition = &drawing.transitions[transition as usize];
        if time > u64::from(MOST_TICKS) {
            return refused(15);
        }
        if transition.source != location {
            return refused(22);
        }
        if time < now {
            return refused(23);
        }
        for count in &mut counts {
            *count += time - now;
        }
        if !all_met(transition, &counts) {
            return refused(24);
        }
        for &timer in &transition.starts {
            counts[usize::from(timer)] = 0;
        }
        (location, now) = (transition.target, time);
    }
    Ok((location, now, counts))
}

fn played(drawing: &Drawing, counts: &[u32], steps: &Steps) -> Answer<Playing> {
    let (location, time, _) = end_of(drawing, counts, steps)?;
    Ok(Playing { location: u64::from(location), time, accepting: drawing.accepting.contains(&location) })
}

/// How often a step's tests read a count that had stopped on the counter board, and were met or were not.
#[derive(Default)]
struct Stopped {
    met: u64,
    not_met: u64,
}

/// The counter board: a location, the last reading and the counts.
fn counter_played(
    drawing: &Drawing,
    counts: &[u32],
    steps: &CounterSteps,
    stopped: &mut Stopped,
) -> Answer<CounterPlaying> {
    judged_lists(drawing, counts, steps.transitions.len(), steps.readings.len())?;
    if drawing.transitions.iter().flat_map(|transition| &transition.tests).any(|test| test.2 > 65_535) {
        return Err(Refusal { number: 18, place: NOWHERE });
    }
    let mut counts: Vec<u64> = counts.iter().map(|&count| u64::from(count)).collect();
    let (mut location, mut last) = (drawing.initial, u64::from(steps.first));
    for (step, (&transition, &reading)) in steps.transitions.iter().zip(&steps.readings).enumerate() {
        let refused = |number| Err(Refusal { number, place: step as u64 });
        if transition as usize >= drawing.transitions.len() {
            return refused(14);
        }
        let transition = &drawing.transitions[transition as usize];
        if transition.source != location {
            return refused(22);
        }
        let now = u64::from(reading);
        let ticks = (now + 65_536 - last) % 65_536;
        for count in &mut counts {
            *count = (*count + ticks).min(65_536);
        }
        let is_met = all_met(transition, &counts);
        if transition.tests.iter().any(|test| counts[usize::from(test.0)] == 65_536) {
            *(if is_met { &mut stopped.met } else { &mut stopped.not_met }) += 1;
        }
        if !is_met {
            return refused(24);
        }
        for &timer in &transition.starts {
            counts[usize::from(timer)] = 0;
        }
        (location, last) = (transition.target, now);
    }
    Ok(CounterPlaying { location: u64::from(location), accepting: drawing.accepting.contains(&location) })
}

/// Random charts, most of them accepted, some with a test or a transition too many or too few, some with spare locations,
/// which are of version 3 but for a few.
fn drawings(random: &mut Random, count: usize, most_locations: u16) -> impl Iterator<Item = Drawing> + '_ {
    (0..count).map(move |_| {
        let shape = Shape::random(random, most_locations);
        let mut drawing = accepted(random, &shape);
        let transitions = drawing.transitions.len() as u64;
        if transitions > 0 && random.chance(1, 4) {
            let transition = random.below(transitions) as usize;
            match random.below(3) {
                0 => drop(drawing.transitions.remove(transition)),
                1 => drawing.transitions[transition].starts.clear(),
                _ if drawing.timers > 0 => {
                    let timer = random.below(u64::from(drawing.timers)) as u8;
                    let transition = &mut drawing.transitions[transition];
                    transition.tests.truncate(7);
                    transition.tests.push((timer, 2, 0));
                }
                _ => {}
            }
        }
        if random.chance(1, 4) {
            drawing.version = if random.chance(1, 8) { drawing.version } else { 3 };
            add_spare(random, &mut drawing);
        }
        drawing
    })
}

fn check_analysis_and_rewriting(random: &mut Random, drawing: &Drawing) -> Option<Drawing> {
    let file = drawing.file();
    let mut live = vec![5; usize::from(drawing.locations) + 2];
    let mut out = vec![6; file.len() + 3];
    if let Err(refusal) = judged(drawing) {
        assert_eq!(analyse(&file, &mut live), Err(refusal));
        assert_eq!(rewrite(&file, 99, &mut out), Err(refusal));
        assert_eq!(play(&file, &[], &[], &[0]), Err(refusal));
        assert_eq!(play_counter(&file, &[], &[], 0, &[0]), Err(refusal));
        assert!(live.iter().all(|&word| word == 5) && out.iter().all(|&byte| byte == 6));
        return None;
    }
    let planned = Planned::of(drawing);
    let mut sets = planned.live_sets(drawing);
    let (floor, searched) = planned.floor(drawing);
    let used = planned.used();
    let (sets_in_rounds, rounds) = in_rounds(drawing);
    assert_eq!(sets_in_rounds, sets);
    assert_eq!(analyse(&file, &mut live), Ok(Analysis { used: used as u64, floor, searched, rounds }));
    sets.extend([5, 5]);
    assert_eq!(live, sets);
    let k = random.below(65) as u32;
    if used > k as usize {
        assert_eq!(rewrite(&file, k, &mut out), Err(Refusal { number: 20, place: NOWHERE }));
    }
    if used > 64 {
        return None;
    }
    let board = planned.rewritten(drawing);
    let mut expected = board.file();
    let answer = Rewriting { used: used as u64, length: expected.len() as u64 };
    assert_eq!(rewrite(&file, used as u32, &mut out), Ok(answer));
    expected.resize(out.len(), 6);
    assert_eq!(out, expected);
    Some(board)
}

#[test]
fn analysis_and_rewriting_follow_the_definitions() {
    let mut random = Random::new(1);
    let mut drawings: Vec<Drawing> = drawings(&mut random, 2_500, 14).collect();
    drawings.extend([
        chart_a(),
        chart_b(),
        chart_c(),
        over_floor(),
        two_twins(),
        twins_around(),
        lowest_untested(),
        twins_on_two_ways(),
        spare_beside_twins(),
        spare_cycle(),
        spare_unstarted(),
        spare_row(),
        spare_first(),
        many_numbers(4, 16),
        many_numbers(5, 16),
        sixty_five_numbers(1),
    ]);
    let boards: Vec<Drawing> =
        drawings.iter().filter_map(|drawing| check_analysis_and_rewriting(&mut random, drawing)).collect();
    for version in [1, 2, 3] {
        let count = boards.iter().filter(|board| board.version == version).count();
        assert!(count > 400, "{count}");
    }
    let with_spare = boards.iter().filter(|board| !spare(board).is_empty()).count();
    assert!(with_spare > 300, "{with_spare}");
}

#[test]
fn dense_charts_follow_the_definitions() {
    let mut random = Random::new(2);
    for _ in 0..40 {
        let shape = Shape { locations: 24, transitions: 60, ..Shape::LARGEST };
        let drawing = accepted(&mut random, &shape);
        check_analysis_and_rewriting(&mut random, &drawing);
    }
}

/// The board numbers that this crate gives to all drawn timers that are live somewhere, if `twins` stand for them.
fn given_numbers(drawing: &Drawing, twins: &Twins) -> Vec<(Pair, usize)> {
    let chart = Chart::read(&drawing.file()).unwrap();
    let liveness = analysis::Liveness::of(&chart, analysis::judge(&chart).unwrap());
    let families = analysis::Families::of(&chart, &liveness, twins);
    let numbers = families.first_fit(usize::MAX).unwrap();
    let number = |q: u8, timer: u8| {
        let holds = |family: &analysis::Family| family.timer == timer && family.locations.has(q);
        usize::from(numbers[families.list().iter().position(holds).expect("the timer is live there")])
    };
    let live = liveness.sets().iter().enumerate().flat_map(|(q, &set)| set.into_iter().map(move |j| (q as u8, j)));
    live.map(|(q, j)| ((u16::from(q), j), number(q, twins.lowest(j)))).collect()
}

/// Random charts that pass 1 to 10, and the document's charts with twins.
fn charts_with_twins(random: &mut Random, count: usize) -> Vec<Drawing> {
    let mut all: Vec<Drawing> = drawings(random, count, 8).filter(|drawing| judged(drawing).is_ok()).collect();
    all.extend([two_twins(), twins_around(), lowest_untested(), twins_on_two_ways()]);
    all
}

#[test]
fn twins_follow_the_definition() {
    let mut random = Random::new(13);
    let (mut pairs, mut groups, mut met) = (0, 0, 0);
    for drawing in charts_with_twins(&mut random, 500) {
        let twins = twins_of(&drawing);
        let lowest = lowest_twins(&drawing);
        // Every timer is its own twin, and twins of twins are twins: these are the timers with one lowest twin.
        for first in 0..drawing.timers {
            assert_eq!(twins.lowest(first), lowest[usize::from(first)]);
            for second in 0..drawing.timers {
                let same = lowest[usize::from(first)] == lowest[usize::from(second)];
                assert_eq!(are_twins(&drawing, first, second), same);
                pairs += u64::from(first < second && same);
            }
        }
        groups += u64::from(lowest.iter().any(|first| lowest.iter().filter(|other| *other == first).count() > 2));
        // On every path they are last started at the same step, or not at all.
        let mut location = drawing.initial;
        let mut started = vec![None; usize::from(drawing.timers)];
        for step in 0..40 {
            let leaving: Vec<&Arrow> = drawing.transitions.iter().filter(|arrow| arrow.source == location).collect();
            if leaving.is_empty() {
                break;
            }
            let taken = random.pick(&leaving);
            taken.starts.iter().for_each(|&timer| started[usize::from(timer)] = Some(step));
            location = taken.target;
            for timer in 0..usize::from(drawing.timers) {
                assert_eq!(started[timer], started[usize::from(lowest[timer])]);
                met += u64::from(started[timer].is_some() && usize::from(lowest[timer]) < timer);
            }
        }
    }
    assert!(pairs > 500 && groups > 50 && met > 1_000, "{pairs} {groups} {met}");
}

#[test]
fn twins_have_one_number_where_they_are_live() {
    let mut random = Random::new(14);
    let (mut shared, mut lowest_not_live, mut parted) = (0, 0, 0);
    for drawing in charts_with_twins(&mut random, 800) {
        let planned = Planned::of(&drawing);
        let numbers = given_numbers(&drawing, &twins_of(&drawing));
        assert_eq!(numbers, planned.numbers());
        let is_live = |location, timer| planned.drawn.contains(&(location, timer));
        let somewhere = |timer| (0..drawing.locations).any(|location| is_live(location, timer));
        // A pair of a location and a lowest twin is there exactly where some of the twins is live.
        for location in 0..drawing.locations {
            for lowest in (0..drawing.timers).filter(|&timer| planned.stands[usize::from(timer)] == timer) {
                let of_twins = |&timer: &u8| are_twins(&drawing, lowest, timer) && is_live(location, timer);
                let any = (0..drawing.timers).any(|timer| of_twins(&timer));
                assert_eq!(planned.pairs.contains(&(location, lowest)), any);
                lowest_not_live += u64::from(any && !somewhere(lowest));
                parted += u64::from(any && !is_live(location, lowest) && somewhere(lowest));
            }
        }
        // At one location twins have one number and others have different ones.
        for &((location, first), number) in &numbers {
            for &((_, second), other) in numbers.iter().filter(|((q, second), _)| *q == location && *second != first) {
                assert_eq!(are_twins(&drawing, first, second), other == number);
                shared += u64::from(other == number);
            }
        }
    }
    assert!(shared > 500 && lowest_not_live > 100 && parted > 50, "{shared} {lowest_not_live} {parted}");
}

#[test]
fn without_twins_the_numbers_are_what_they_were() {
    let mut random = Random::new(15);
    let (mut apart, mut others) = (0, 0);
    for drawing in charts_with_twins(&mut random, 800) {
        let before = Planned::without_twins(&drawing);
        assert_eq!(given_numbers(&drawing, &Twins::NONE), before.numbers());
        let told_apart = drawing.clone().told_apart();
        let analysed = |drawing: &Drawing| {
            let mut live = [5; LOCATIONS];
            (analyse(&drawing.file(), &mut live).expect("a chart that is accepted"), live)
        };
        let ((figures, live), (told, told_live)) = (analysed(&drawing), analysed(&told_apart));
        let (floor, searched) = before.floor(&drawing);
        assert_eq!(told, Analysis { used: before.used() as u64, floor, searched, rounds: figures.rounds });
        assert_eq!(live, told_live);
        let twins = twins_of(&told_apart);
        assert_eq!(twins, Twins::NONE);
        assert_eq!(given_numbers(&told_apart, &twins), before.numbers());
        match twins_of(&drawing) {
            Twins::NONE => {
                assert_eq!(figures, told);
                apart += 1;
            }
            twins => others += u64::from(given_numbers(&drawing, &twins) != before.numbers()),
        }
    }
    assert!(apart > 100 && others > 100, "{apart} {others}");
}

/// Random charts with spare locations, of version 3, some of them refused by 10.
fn charts_with_spare(random: &mut Random, count: usize) -> Vec<Drawing> {
    let with_spare = |drawing: &Drawing| !spare(drawing).is_empty();
    let mut all: Vec<Drawing> = drawings(random, 4 * count, 9).filter(with_spare).collect();
    all.iter_mut().for_each(|drawing| drawing.version = 3);
    all.extend([spare_beside_twins(), spare_cycle(), spare_unstarted(), spare_row(), spare_first()]);
    all
}

/// Whether some path of at most so many transitions from a location ends in a test of the timer and starts it nowhere
/// before; every path is gone along by itself.
fn is_live_by_paths(drawing: &Drawing, location: u16, timer: u8, most: u32) -> bool {
    let leaving = |transition: &&Arrow| transition.source == location;
    most > 0
        && drawing.transitions.iter().filter(leaving).any(|transition| {
            transition.is_test(timer)
                || !transition.is_start(timer) && is_live_by_paths(drawing, transition.target, timer, most - 1)
        })
}

#[test]
fn nothing_is_live_at_spare_locations() {
    let mut random = Random::new(16);
    let (mut lively, mut checked, mut rounds_fewer) = (0, 0, 0);
    for drawing in charts_with_spare(&mut random, 400).iter().filter(|drawing| judged(drawing).is_ok()) {
        let spare = spare(drawing);
        let mut live = vec![5; usize::from(drawing.locations)];
        let figures = analyse(&drawing.file(), &mut live).expect("a chart that is accepted");
        let file = drawing.file();
        let text = listing(&[vec![64], file].concat());
        for location in 0..drawing.locations {
            let set = live[usize::from(location)];
            // On so few transitions, all paths are short enough to be gone along.
            let short = drawing.transitions.len() <= 10;
            for timer in 0..drawing.timers {
                let is_live = set >> timer & 1 == 1;
                if spare.contains(&location) {
                    assert!(!is_live);
                    lively += u64::from(short && is_live_by_paths(drawing, location, timer, 3));
                } else if short {
                    // No path must be longer than one through all locations.
                    assert_eq!(is_live, is_live_by_paths(drawing, location, timer, u32::from(drawing.locations)));
                    checked += u64::from(is_live);
                }
            }
            if spare.contains(&location) && figures.used <= 64 {
                assert!(text.contains(&format!("\nat {location}\n")), "{text}");
            }
        }
        // Each round makes nothing live there; if they counted, there would sometimes be more rounds.
        let as_reached = Drawing { transitions: all_reached(drawing), ..drawing.clone() };
        rounds_fewer += u64::from(in_rounds(&as_reached).1 > figures.rounds);
    }
    assert!(lively > 300 && checked > 300 && rounds_fewer > 10, "{lively} {checked} {rounds_fewer}");
}

/// The transitions of a chart with one more from the initial location to each spare one.
fn all_reached(drawing: &Drawing) -> Vec<Arrow> {
    let added = spare(drawing).into_iter().map(|location| {
        let every: Vec<u8> = (0..drawing.timers).collect();
        Arrow::new(drawing.initial, location).starts(&every)
    });
    drawing.transitions.iter().cloned().chain(added).collect()
}

#[test]
fn transitions_that_leave_spare_locations_change_nothing() {
    let mut random = Random::new(17);
    let (mut refused, mut apart, mut bare) = (0, 0, 0);
    for drawing in charts_with_spare(&mut random, 500) {
        let without = without_spare_transitions(&drawing);
        assert_eq!(spare(&without), spare(&drawing));
        let analysed = |drawing: &Drawing| {
            let mut live = [5; LOCATIONS];
            (analyse(&drawing.file(), &mut live), live)
        };
        let (answer, live) = analysed(&drawing);
        let (answer_without, live_without) = analysed(&without);
        // 10 has a transition as its place, and those after a spare one are numbered otherwise.
        assert_eq!(
            (answer.map_err(|refusal| refusal.number), live),
            (answer_without.map_err(|r| r.number), live_without)
        );
        let Ok(figures) = answer else {
            assert_eq!(answer.map(drop), judged(&drawing));
            refused += 1;
            continue;
        };
        assert_eq!(twins_of(&drawing), twins_of(&without));
        let pairs = (0..drawing.timers).flat_map(|first| (0..first).map(move |second| (first, second)));
        let told = |&(a, b): &(u8, u8)| are_twins(&drawing, a, b) && !start_together(&drawing.transitions, a, b);
        apart += pairs.filter(told).count();
        assert_eq!(given_numbers(&drawing, &twins_of(&drawing)), given_numbers(&without, &twins_of(&without)));
        if figures.used > 64 {
            continue;
        }
        // The rewritten file: the same without these transitions, and with them where they were, bare.
        let rewritten = |drawing: &Drawing| {
            let mut out = vec![0; LARGEST_FILE];
            let length = rewrite(&drawing.file(), figures.used as u32, &mut out).expect("the chart fits").length;
            out.truncate(length as usize);
            out
        };
        let board = Chart::read(&rewritten(&drawing)).unwrap();
        assert_eq!((board.version(), board.transitions().len()), (Version::Three, drawing.transitions.len()));
        let spare = spare(&drawing);
        let mut kept = Vec::new();
        for (drawn, written) in drawing.transitions.iter().zip(board.transitions()) {
            assert_eq!(
                (drawn.source, drawn.target, drawn.event),
                (u16::from(written.source), u16::from(written.target), written.event)
            );
            if spare.contains(&drawn.source) {
                assert!(written.starts.is_empty() && board.tests(written).is_empty());
                bare += u64::from(!drawn.starts.is_empty() || !drawn.tests.is_empty());
            } else {
                assert_eq!(board.tests(written).len(), drawn.tests.len());
                kept.push((written.starts, board.tests(written).to_vec()));
            }
        }
        let board_without = Chart::read(&rewritten(&without)).unwrap();
        let all = board_without.transitions().iter();
        let all: Vec<_> = all.map(|written| (written.starts, board_without.tests(written).to_vec())).collect();
        assert_eq!(kept, all);
    }
    assert!(refused > 20 && apart > 100 && bare > 300, "{refused} {apart} {bare}");
}

#[test]
fn charts_with_spare_locations_and_their_boards_play_alike() {
    let mut random = Random::new(18);
    let (mut numbers, mut named) = (ByNumber::default(), 0);
    for drawing in charts_with_spare(&mut random, 300).iter().filter(|drawing| judged(drawing).is_ok()) {
        let (file, spare) = (drawing.file(), spare(drawing));
        let mut board = vec![0; file.len()];
        let Ok(Rewriting { used, length }) = rewrite(&file, 64, &mut board) else { continue };
        board.truncate(length as usize);
        for _ in 0..6 {
            let mut steps = run(&mut random, drawing, 20, 5, true);
            let last = steps.times.last().copied().unwrap_or(0);
            // Some transition as it comes, often one that leaves a spare location.
            let any = random.below(drawing.transitions.len().max(1) as u64) as u32;
            match random.below(3) {
                0 => {
                    steps.cut(&mut random);
                    steps.push(any, last);
                }
                1 => lengthen(&mut random, drawing, &mut steps),
                _ => {}
            }
            let start = counts(&mut random, usize::from(drawing.timers), true);
            let for_board = counts(&mut random, used as usize, true);
            let answer = play(&file, &start, &steps.transitions, &steps.times);
            assert_eq!(answer, played(drawing, &start, &steps));
            assert_eq!(play(&board, &for_board, &steps.transitions, &steps.times), answer);
            numbers[number_of(&answer)] += 1;
            match answer {
                // No run comes to a spare location.
                Ok(playing) => assert!(!spare.contains(&(playing.location as u16))),
                Err(Refusal { number: 22, place }) => {
                    let transition = &drawing.transitions[steps.transitions[place as usize] as usize];
                    named += u64::from(spare.contains(&transition.source));
                }
                Err(_) => {}
            }
            if keeps_provisos(&steps.times) && Chart::read(&file).unwrap().largest_constant() <= Some(65_535) {
                let steps = CounterSteps::of(&steps, first_reading(&mut random));
                assert_eq!(on_counter_board(&file, &start, &steps), without_time(answer));
                assert_eq!(on_counter_board(&board, &for_board, &steps), without_time(answer));
            }
        }
    }
    assert!(named > 100 && [0, 22, 24].iter().all(|&number| numbers[number] > 20), "{named} {numbers:?}");
}

#[test]
fn before_version_3_spare_locations_are_9() {
    let mut random = Random::new(19);
    let (mut lost, mut none) = (0, 0);
    for mut drawing in drawings(&mut random, 1_000, 12) {
        let lowest = spare(&drawing).first().copied();
        for version in [1, 2, 3] {
            drawing.version = version;
            let answer = analyse(&drawing.file(), &mut [0; LOCATIONS]);
            let is_9 = matches!(answer, Err(Refusal { number: 9, .. }));
            assert_eq!(is_9, version < 3 && lowest.is_some());
            if let (true, Some(lowest)) = (is_9, lowest) {
                assert_eq!(answer, Err(Refusal { number: 9, place: u64::from(lowest) }));
            }
        }
        *(if lowest.is_some() { &mut lost } else { &mut none }) += 1;
    }
    assert!(lost > 200 && none > 400, "{lost} {none}");
}

#[test]
fn floors_follow_the_definitions() {
    let mut random = Random::new(6);
    let (mut above_fullest, mut below_used) = (0, 0);
    for families in (0..=25).chain([18, 19, 20, 21]) {
        for _ in 0..8 {
            let drawing = random_meetings(&mut random, families);
            assert_eq!(Planned::of(&drawing).families.len(), families);
            check_analysis_and_rewriting(&mut random, &drawing);
            let mut live = [0; 256];
            let found = analyse(&drawing.file(), &mut live).expect("a chart that is accepted");
            let fullest = live.iter().map(|set| u64::from(set.count_ones())).max();
            above_fullest += u64::from(found.searched && Some(found.floor) > fullest);
            below_used += u64::from(found.searched && found.floor < found.used);
        }
    }
    assert!(above_fullest > 0 && below_used > 0);
}

#[test]
fn rounds_follow_the_definitions() {
    let mut random = Random::new(9);
    let mut drawings: Vec<Drawing> = (0..200).map(|_| random_chain(&mut random)).collect();
    for _ in 0..200 {
        let shape = Shape::random(&mut random, MOST_LOCATIONS);
        drawings.push(accepted(&mut random, &shape));
    }
    let mut numbers = BTreeSet::new();
    for drawing in &drawings {
        let mut live = vec![5; usize::from(drawing.locations)];
        let answer = analyse(&drawing.file(), &mut live).expect("a chart that is accepted");
        assert_eq!((live, answer.rounds), in_rounds(drawing));
        assert!(answer.rounds <= u64::from(drawing.locations));
        numbers.insert(answer.rounds);
    }
    assert!([1, 2, 256].iter().all(|rounds| numbers.contains(rounds)) && numbers.len() > 50, "{numbers:?}");
}

/// Asserts that at every point of a run the board timer of a drawn timer's twins shows its count, though it be not live
/// there itself: after each step that is taken, since both grow alike until the next one. Answers how many counts of twins
/// that are not the lowest were compared, and how many of timers that are not live.
fn shows_all(planned: &Planned, drawn: (&Drawing, &[u32]), board: (&Drawing, &[u32]), steps: &Steps) -> [u64; 2] {
    let mut compared = [0; 2];
    for count in 0..=steps.times.len().min(steps.transitions.len()) {
        let part = Steps { transitions: steps.transitions[..count].to_vec(), times: steps.times[..count].to_vec() };
        let ends = [drawn, board].map(|(drawing, start)| end_of(drawing, start, &part));
        let [Ok((location, _, counts)), Ok((_, _, on_board))] = &ends else { break };
        let has_number = |timer: &u8| planned.pairs.contains(&(*location, planned.stands[usize::from(*timer)]));
        for timer in (0..drawn.0.timers).filter(has_number) {
            assert_eq!(counts[usize::from(timer)], on_board[planned.number(*location, timer)]);
            compared[0] += u64::from(planned.stands[usize::from(timer)] != timer);
            compared[1] += u64::from(!planned.drawn.contains(&(*location, timer)));
        }
    }
    compared
}

#[test]
fn the_player_follows_the_definitions_and_boards_play_alike() {
    let mut random = Random::new(3);
    let drawings: Vec<Drawing> = drawings(&mut random, 2_000, 10).filter(|drawing| judged(drawing).is_ok()).collect();
    let (mut taken, mut shown, mut large) = (0, [0; 2], [0; 2]);
    for drawing in &drawings {
        let planned = Planned::of(drawing);
        for _ in 0..4 {
            let mut steps = run(&mut random, drawing, 30, 5, true);
            if random.chance(1, 3) {
                lengthen(&mut random, drawing, &mut steps);
            } else if random.chance(1, 2) {
                spoil_steps(&mut random, &mut steps, drawing.transitions.len() as u32);
            }
            let is_good = random.chance(7, 8);
            let start = counts(&mut random, usize::from(drawing.timers), is_good);
            let answer = play(&drawing.file(), &start, &steps.transitions, &steps.times);
            assert_eq!(answer, played(drawing, &start, &steps));
            taken += u64::from(answer.is_ok_and(|playing| playing.time > 0));
            let is_large = |&transition: &u32| is_large(&drawing.transitions[transition as usize]);
            match answer {
                Ok(_) => large[0] += steps.transitions.iter().filter(|transition| is_large(transition)).count(),
                Err(Refusal { number: 24, place }) => {
                    large[1] += usize::from(is_large(&steps.transitions[place as usize]))
                }
                Err(_) => {}
            }
            if planned.used() <= 64 && answer.err().map(|refusal| refusal.number) != Some(12) {
                let board = planned.rewritten(drawing);
                let for_board = counts(&mut random, planned.used(), true);
                assert_eq!(play(&board.file(), &for_board, &steps.transitions, &steps.times), answer);
                let compared = shows_all(&planned, (drawing, &start), (&board, &for_board), &steps);
                shown = [0, 1].map(|kind| shown[kind] + compared[kind]);
            }
        }
    }
    assert!(taken > 500 && shown.iter().all(|&count| count > 1_000), "{taken} {shown:?}");
    assert!(large.iter().all(|&count| count > 20), "{large:?}");
}

/// The counter board of this crate on such a list.
fn on_counter_board(file: &[u8], counts: &[u32], steps: &CounterSteps) -> Answer<CounterPlaying> {
    play_counter(file, counts, &steps.transitions, steps.first, &steps.readings)
}

/// Random charts that pass 1 to 10, half of them with constants about the largest that the counter board takes.
fn counter_drawings(random: &mut Random, count: usize) -> Vec<Drawing> {
    let mut drawings: Vec<Drawing> = drawings(random, count, 10).filter(|drawing| judged(drawing).is_ok()).collect();
    for drawing in drawings.iter_mut().step_by(2) {
        let whole = random.pick(&[1, 3, 10]);
        store_about_counter(random, drawing, whole);
    }
    drawings
}

#[test]
fn the_counter_board_follows_the_definitions() {
    let mut random = Random::new(10);
    let (mut numbers, mut stopped) = (ByNumber::default(), Stopped::default());
    let (mut wrapped, mut long) = (0, 0);
    for drawing in counter_drawings(&mut random, 2_500) {
        for _ in 0..4 {
            let most = random.pick(&[30, 30, 30, 1_000]);
            let mut steps = if random.chance(2, 3) {
                counter_run(&mut random, &drawing, most)
            } else {
                run(&mut random, &drawing, most, 70_000, true)
            };
            match random.below(4) {
                0 => lengthen(&mut random, &drawing, &mut steps),
                1 => delay(&mut random, &mut steps),
                _ => {}
            }
            let mut steps = CounterSteps::of(&steps, first_reading(&mut random));
            if random.chance(1, 3) {
                spoil_counter_steps(&mut random, &mut steps, drawing.transitions.len() as u32);
            }
            let is_good = random.chance(7, 8);
            let start = counts(&mut random, usize::from(drawing.timers), is_good);
            let answer = on_counter_board(&drawing.file(), &start, &steps);
            assert_eq!(answer, counter_played(&drawing, &start, &steps, &mut stopped));
            numbers[number_of(&answer)] += 1;
            if answer.is_ok() {
                let taken = || 0..steps.readings.len();
                wrapped += taken().filter(|&step| steps.readings[step] < steps.before(step)).count();
                let ticks = taken().map(|step| u64::from(steps.readings[step].wrapping_sub(steps.before(step))));
                long += u64::from(ticks.sum::<u64>() > u64::from(MOST_TICKS));
            }
        }
    }
    let came: Vec<usize> = ByNumber::NUMBERS.filter(|&number| numbers[number] > 20).collect();
    assert_eq!(came, [0, 12, 13, 14, 18, 22, 24], "{numbers:?}");
    let Stopped { met, not_met } = stopped;
    assert!(wrapped > 1_000 && long > 100 && met > 1_000 && not_met > 50, "{wrapped} {long} {met} {not_met}");
}

/// The answer of the player as the counter board gives it: without the time.
fn without_time(answer: Answer<Playing>) -> Answer<CounterPlaying> {
    answer.map(|Playing { location, accepting, .. }| CounterPlaying { location, accepting })
}

#[test]
fn within_the_provisos_the_counter_board_takes_the_players_steps() {
    let mut random = Random::new(11);
    let (mut numbers, mut over, mut boards) = (ByNumber::default(), 0, 0);
    for drawing in counter_drawings(&mut random, 2_500) {
        let file = drawing.file();
        let mut board = vec![0; file.len()];
        let used = rewrite(&file, 64, &mut board).map(|Rewriting { used, length }| {
            board.truncate(length as usize);
            used as usize
        });
        let large = Chart::read(&file).unwrap().largest_constant() > Some(65_535);
        for _ in 0..4 {
            let mut steps = if random.chance(1, 2) {
                counter_run(&mut random, &drawing, 200)
            } else {
                run(&mut random, &drawing, 200, 65_535, true)
            };
            if random.chance(1, 2) {
                steps.cut(&mut random);
                lengthen(&mut random, &drawing, &mut steps);
            }
            if random.chance(1, 4) {
                spoil_steps(&mut random, &mut steps, drawing.transitions.len() as u32);
            }
            if !keeps_provisos(&steps.times) {
                continue;
            }
            let mut start = || counts(&mut random, usize::from(drawing.timers), true);
            let (for_player, for_counter) = (start(), start());
            let answer = without_time(play(&file, &for_player, &steps.transitions, &steps.times));
            let counter_steps = CounterSteps::of(&steps, first_reading(&mut random));
            let counter_answer = on_counter_board(&file, &for_counter, &counter_steps);
            if large {
                let unequal = steps.transitions.len() != steps.times.len();
                let number = if unequal { 13 } else { 18 };
                assert_eq!(counter_answer, Err(Refusal { number, place: NOWHERE }));
                over += 1;
                continue;
            }
            assert_eq!(counter_answer, answer);
            numbers[number_of(&answer)] += u64::from(!steps.times.is_empty());
            if let Ok(used) = used {
                let for_board = counts(&mut random, used, true);
                assert_eq!(on_counter_board(&board, &for_board, &counter_steps), answer);
                boards += 1;
            }
        }
    }
    // 15 and 23 cannot come: the provisos exclude them.
    let came: Vec<usize> = ByNumber::NUMBERS.filter(|&number| numbers[number] > 20).collect();
    assert_eq!(came, [0, 13, 14, 22, 24], "{numbers:?}");
    assert!(over > 100 && boards > 1_000 && numbers[0] > 1_000, "{over} {boards} {numbers:?}");
}

#[test]
fn each_proviso_is_needed() {
    let both = |drawing: &Drawing, transitions: &[u32], times: &[u64]| {
        let steps = Steps { transitions: transitions.to_vec(), times: times.to_vec() };
        let counts = vec![0; usize::from(drawing.timers)];
        let file = drawing.file();
        let counter = on_counter_board(&file, &counts, &CounterSteps::of(&steps, 65_530));
        (without_time(play(&file, &counts, transitions, times)), counter)
    };
    let refused = |number, place| Err(Refusal { number, place });
    let ends = Ok(CounterPlaying { location: 2, accepting: true });
    // A time falls.
    assert_eq!(both(&dwell(AT_LEAST, 1), &[0, 1], &[5, 4]), (refused(23, 1), ends));
    // A time is over 16,777,215, though never more than 65,535 ticks pass.
    let late: Vec<u64> = (1..=257).map(|step| 65_535 * step).collect();
    let stays = Ok(CounterPlaying { location: 0, accepting: true });
    assert_eq!(both(&self_loop(), &[0; 256], &late[..256]), (stays, stays));
    assert_eq!(both(&self_loop(), &[0; 257], &late), (refused(15, 256), stays));
    // 65,536 ticks pass at a step, which look like none.
    assert_eq!(both(&dwell(AT_LEAST, 1), &[0, 1], &[5, 65_540]), (ends, ends));
    assert_eq!(both(&dwell(AT_LEAST, 1), &[0, 1], &[5, 65_541]), (ends, refused(24, 1)));
    // A constant is over 65,535, here on a step that takes two waits.
    let mut waits = dwell(AT_LEAST, 65_536);
    waits.transitions.push(Arrow::new(1, 1));
    assert_eq!(both(&waits, &[0, 2, 1], &[5, 10, 65_541]), (ends, refused(18, NOWHERE)));
    waits.transitions[1].tests[0].2 = 65_535;
    assert_eq!(both(&waits, &[0, 2, 1], &[5, 10, 65_541]), (ends, ends));
}

#[test]
fn the_wait_before_the_first_step_may_be_anything() {
    let mut random = Random::new(12);
    let mut taken = 0;
    for drawing in counter_drawings(&mut random, 1_000) {
        // Nothing was started there, so that a test would be unstarted (10).
        let leaves = |transition: &&Arrow| transition.source == drawing.initial;
        assert!(drawing.transitions.iter().filter(leaves).all(|transition| transition.tests.is_empty()));
        let mut steps = counter_run(&mut random, &drawing, 30);
        lengthen(&mut random, &drawing, &mut steps);
        let mut counter_steps = CounterSteps::of(&steps, 0);
        let start = counts(&mut random, usize::from(drawing.timers), true);
        let answer = on_counter_board(&drawing.file(), &start, &counter_steps);
        for _ in 0..4 {
            counter_steps.first = first_reading(&mut random);
            assert_eq!(on_counter_board(&drawing.file(), &start, &counter_steps), answer);
        }
        // The player takes them as well, however late they come.
        if keeps_provisos(&steps.times) && number_of(&answer) != 18 {
            let late = u64::from(MOST_TICKS) - steps.times.last().unwrap_or(&0);
            let late = random.between(0, late);
            steps.times.iter_mut().for_each(|time| *time += late);
            let played = play(&drawing.file(), &start, &steps.transitions, &steps.times);
            assert_eq!(without_time(played), answer);
            taken += u64::from(answer.is_ok() && late > 65_535);
        }
    }
    assert!(taken > 100, "{taken}");
}

/// Whether a transition has tests, all of them with large constants: version 1 does not hold them.
fn is_large(transition: &Arrow) -> bool {
    let constants = transition.tests.iter().map(|test| test.2);
    !transition.tests.is_empty() && constants.min() > Some(LARGEST_CONSTANT_VERSION_1)
}

#[test]
fn files_survive_reading_and_writing() {
    let mut random = Random::new(4);
    let mut relabelled_too = 0;
    for _ in 0..2_000 {
        let shape = Shape::random(&mut random, 40);
        let drawing = accepted(&mut random, &shape);
        let good = drawing.file();
        let other = relabelled(&mut random, &good);
        relabelled_too += u64::from(Chart::read(&other).is_ok());
        for file in [good.clone(), other, spoilt(&mut random, &drawing), damaged(&mut random, &good)] {
            let Ok(chart) = Chart::read(&file) else {
                continue;
            };
            assert_eq!(chart.version() as u8, file[0]);
            let mut out = vec![3; file.len() + 1];
            assert_eq!(chart.write(&mut out[..file.len() - 1]), Err(Refusal { number: 21, place: NOWHERE }));
            assert!(out.iter().all(|&byte| byte == 3));
            assert_eq!(chart.write(&mut out), Ok(file.len()));
            assert_eq!(out.pop(), Some(3));
            assert_eq!(Chart::read(&out), Ok(chart));
            assert_eq!(out, file);
        }
    }
    assert!(relabelled_too > 50, "{relabelled_too}");
}

#[test]
fn charts_survive_lists() {
    let mut random = Random::new(5);
    for _ in 0..500 {
        let shape = Shape::random(&mut random, 40);
        let file = accepted(&mut random, &shape).file();
        let mut owned = OwnedLists::room(9);
        let header = lists::read(&file, &mut owned.lent()).unwrap();
        let mut out = vec![7; file.len() + 1];
        assert_eq!(lists::write(&header, &owned.lists(), &mut out[1..]), Ok(file.len()));
        assert_eq!(out[1..], file);
        let short = file.len() - 1;
        assert_eq!(
            lists::write(&header, &owned.lists(), &mut out[..short]),
            Err(Refusal { number: 21, place: NOWHERE })
        );
    }
}

/// The file as the writer writes it in a version, from the lists that the reader filled.
fn stored(file: &[u8], version: u8) -> Answer<Vec<u8>> {
    let mut owned = OwnedLists::room(9);
    let header = lists::read(file, &mut owned.lent()).unwrap();
    assert_eq!(header.version, file[0]);
    let mut out = vec![7; LARGEST_FILE];
    let length = lists::write(&Header { version, ..header }, &owned.lists(), &mut out)?;
    assert!(out[length..].iter().all(|&byte| byte == 7));
    out.truncate(length);
    Ok(out)
}

#[test]
fn charts_stored_as_another_version_lose_nothing() {
    let mut random = Random::new(7);
    let (mut small, mut large) = (0, 0);
    for _ in 0..1_000 {
        let shape = Shape::random(&mut random, 40);
        let drawing = accepted(&mut random, &shape);
        let file = drawing.file();
        assert_eq!(stored(&file, drawing.version), Ok(file.clone()));
        let version_2 = drawing.clone().version(2).file();
        assert_eq!(stored(&file, 2), Ok(version_2.clone()));
        let version_3 = drawing.clone().version(3).file();
        assert_eq!(stored(&file, 3), Ok(version_3.clone()));
        assert_eq!((&version_3[1..], version_3[0]), (&version_2[1..], 3));
        let constants = drawing.transitions.iter().flat_map(|transition| &transition.tests).map(|test| test.2);
        if constants.max() > Some(LARGEST_CONSTANT_VERSION_1) {
            assert_eq!(stored(&version_2, 1), Err(Refusal { number: 17, place: NOWHERE }));
            assert_eq!(stored(&version_3, 1), Err(Refusal { number: 17, place: NOWHERE }));
            large += 1;
        } else {
            assert_eq!(stored(&version_2, 1), Ok(drawing.version(1).file()));
            small += 1;
        }
    }
    assert!(small > 200 && large > 200, "{small} {large}");
}

#[test]
fn all_versions_of_a_chart_answer_alike() {
    let mut random = Random::new(8);
    for _ in 0..500 {
        let shape = Shape { version: Version::One, ..Shape::random(&mut random, 20) };
        let shape = Shape { constant: shape.constant.min(LARGEST_CONSTANT_VERSION_1), ..shape };
        let drawing = accepted(&mut random, &shape);
        let [one, two, three] = [1, 2, 3].map(|version| drawing.clone().version(version).file());
        let analysed = |file: &[u8]| {
            let mut live = [0; LOCATIONS];
            (analyse(file, &mut live), live)
        };
        assert_eq!(analysed(&one), analysed(&two));
        assert_eq!(analysed(&one), analysed(&three));
        let board = |file: &[u8]| {
            let mut out = vec![0; LARGEST_FILE];
            let length = rewrite(file, 64, &mut out)?.length as usize;
            out.truncate(length);
            Ok(out)
        };
        let stored = |file: Vec<u8>| stored(&file, 3);
        assert_eq!(board(&one).and_then(stored), board(&three));
        assert_eq!(board(&two).and_then(stored), board(&three));
        let mut steps = run(&mut random, &drawing, 30, 5, true);
        lengthen(&mut random, &drawing, &mut steps);
        let start = counts(&mut random, usize::from(drawing.timers), true);
        let played = |file: &[u8]| play(file, &start, &steps.transitions, &steps.times);
        assert_eq!(played(&one), played(&two));
        assert_eq!(played(&one), played(&three));
    }
}

#[test]
fn lists_are_judged_in_the_order_of_the_fields() {
    let file = chart_b().file();
    let mut owned = OwnedLists::room(9);
    let header = lists::read(&file, &mut owned.lent()).unwrap();
    assert_eq!(header, Header { version: 1, locations: 4, initial: 0, timers: 2, accepting: 1, transitions: 3 });
    assert_eq!(owned.test_counts[..4], [0, 1, 1, 9]);
    assert_eq!(owned.starts[..4], [1, 2, 0, 9]);
    let lists = owned.lists();
    let refused = |number, place| Err(Refusal { number, place });
    let mut out = [8; 100];
    let mut write = |header: Header, lists: Lists| {
        let answer = lists::write(&header, &lists, &mut out);
        if answer.is_err() {
            assert_eq!(out, [8; 100]);
        }
        out = [8; 100];
        answer.map(|_| ())
    };
    assert_eq!(write(header, lists), Ok(()));
    assert_eq!(write(Header { version: 2, ..header }, lists), Ok(()));
    assert_eq!(write(Header { version: 3, ..header }, lists), Ok(()));
    assert_eq!(write(Header { version: 4, locations: 0, ..header }, lists), refused(2, NOWHERE));
    assert_eq!(write(Header { locations: 0, initial: 9, ..header }, lists), refused(4, NOWHERE));
    assert_eq!(write(Header { locations: 257, ..header }, lists), refused(4, NOWHERE));
    assert_eq!(write(Header { initial: 4, timers: 99, ..header }, lists), refused(5, NOWHERE));
    assert_eq!(write(Header { timers: 65, ..header }, lists), refused(4, NOWHERE));
    assert_eq!(write(header, Lists { accepting: &[], ..lists }), refused(3, NOWHERE));
    assert_eq!(write(header, Lists { accepting: &[4], ..lists }), refused(5, NOWHERE));
    assert_eq!(write(Header { accepting: 2, ..header }, Lists { accepting: &[1, 1], ..lists }), refused(7, NOWHERE));
    assert_eq!(
        write(Header { accepting: 65_535, ..header }, Lists { accepting: &[1, 2], ..lists }),
        refused(3, NOWHERE)
    );
    assert_eq!(write(Header { transitions: 513, ..header }, Lists { sources: &[], ..lists }), refused(4, NOWHERE));
    assert_eq!(write(header, Lists { sources: &[0, 1], ..lists }), refused(3, NOWHERE));
    assert_eq!(write(header, Lists { sources: &[0, 9], ..lists }), refused(5, 1));
    assert_eq!(write(header, Lists { sources: &[0], targets: &[9], ..lists }), refused(5, 0));
    assert_eq!(write(header, Lists { targets: &[1], ..lists }), refused(3, NOWHERE));
    assert_eq!(write(header, Lists { events: &[1], ..lists }), refused(3, NOWHERE));
    assert_eq!(write(header, Lists { starts: &[1], ..lists }), refused(3, NOWHERE));
    assert_eq!(write(header, Lists { starts: &[1, 1 << 63, 0], ..lists }), refused(6, 1));
    assert_eq!(write(header, Lists { starts: &[1, 4, 0], test_counts: &[9], ..lists }), refused(4, 0));
    assert_eq!(write(header, Lists { test_counts: &[0, 9], ..lists }), refused(4, 1));
    assert_eq!(write(header, Lists { test_counts: &[0, 1], ..lists }), refused(3, NOWHERE));
    assert_eq!(write(header, Lists { timers: &[0], ..lists }), refused(3, NOWHERE));
    assert_eq!(write(header, Lists { timers: &[2], codes: &[], ..lists }), refused(6, 1));
    assert_eq!(write(header, Lists { codes: &[0, 5], constants: &[0], ..lists }), refused(8, 2));
    assert_eq!(write(header, Lists { codes: &[0], ..lists }), refused(3, NOWHERE));
    assert_eq!(write(header, Lists { constants: &[0], ..lists }), refused(3, NOWHERE));
    let large = Lists { constants: &[65_536, 0], ..lists };
    assert_eq!(write(header, large), refused(17, NOWHERE));
    assert_eq!(write(Header { version: 2, ..header }, large), Ok(()));
    assert_eq!(write(Header { version: 3, ..header }, large), Ok(()));
    assert_eq!(write(header, Lists { codes: &[0, 5], ..large }), refused(8, 2));
    assert_eq!(write(header, Lists { constants: &[65_536], ..lists }), refused(3, NOWHERE));
}

#[test]
fn lent_lists_too_short_are_21_and_stay_as_they_were() {
    let file = chart_b().file();
    let mut owned = OwnedLists::room(9);
    type Shorten = fn(&mut LentLists);
    let shortened: [Shorten; 9] = [
        |lent| lent.accepting = &mut [],
        |lent| lent.sources = &mut [],
        |lent| lent.targets = &mut [],
        |lent| lent.events = &mut [],
        |lent| lent.starts = &mut [],
        |lent| lent.test_counts = &mut [],
        |lent| lent.timers = &mut [],
        |lent| lent.codes = &mut [],
        |lent| lent.constants = &mut [],
    ];
    for shorten in shortened {
        let mut lent = owned.lent();
        shorten(&mut lent);
        assert_eq!(lists::read(&file, &mut lent), Err(Refusal { number: 21, place: NOWHERE }));
        assert!(owned.sources.iter().all(|&entry| entry == 9) && owned.constants.iter().all(|&entry| entry == 9));
        assert!(owned.starts.iter().all(|&entry| entry == 9) && owned.test_counts.iter().all(|&entry| entry == 9));
    }
    assert_eq!(lists::read(&file[..9], &mut owned.lent()), Err(Refusal { number: 1, place: NOWHERE }));
}
