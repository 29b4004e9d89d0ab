//! Compares the proved library and the program `allocate` with this crate, on random files, limits, lent memory, charts in
//! lists, step lists and controllers from a seed.
//!
//! usage: differential [TRIALS] [SEED] [--without-program]
//!
//! Exit status 0 if all agree and every refusal number, every kind of floor, of twins, of spare locations, of number of
//! rounds, of version and constant, of step on the counter board, of lists and of what a controller meets came; 1 at the first difference, or where a
//! controller or the counter board breaks a promise or gives a refusal that its call does not have, with the input in
//! hex; 2 if one that should come never did, or the program is missing. What no call can answer, such as a transition
//! that is taken with no event served, ends it by a panic. A thousand trials bring all.

use std::fmt::{Debug, Display, Formatter};
use std::io::{ErrorKind, Write};
use std::path::{Path, PathBuf};
use std::process::{exit, Command, Stdio};

use timing_chart::analysis::{self, Analysis, Families, Liveness};
use timing_chart::chart::{Chart, Comparison, Test, Transition};
use timing_chart::counter::{self, CounterPlaying};
use timing_chart::drawing::*;
use timing_chart::generator::*;
use timing_chart::kinds::{of_kind, treated, Treatment, KINDS};
use timing_chart::limits::{
    COUNTER_LARGEST_CONSTANT, COUNTER_LARGEST_COUNT, COUNTER_READINGS, LARGEST_CONSTANT_VERSION_1, LOCATIONS,
    MOST_INPUT, MOST_SEARCHED, MOST_TICKS, MOST_TIMERS, NOWHERE, TIMERS,
};
use timing_chart::list_trials;
use timing_chart::listing::listing;
use timing_chart::paths::reached;
use timing_chart::player::{self, Playing};
use timing_chart::rewriting::{self, Rewriting};
use timing_chart::sets::{LocationSet, TimerSet};
use timing_chart::tally::{number_of, ByNumber};
use timing_chart::trials::{Calls, Trials};
use timing_chart::twins::Twins;
use timing_chart::version::Version;
use timing_chart::{library, Answer, Refusal};

/// The numbers that calls of the library on a chart file bring, each of which must come; [`Trials`] has the controller's,
/// [`list_trials`] those of the reader and the writer.
/// 17 is not among them: it is the writer's, which may be handed a chart of version 1 with a constant over 65,535. In a
/// file of version 1 a constant has two bytes, so that no other call can meet it.
const EXPECTED: [usize; 21] = [1, 2, 3, 4, 5, 6, 7, 8, 9, 10, 11, 12, 13, 14, 15, 18, 20, 21, 22, 23, 24];

/// The refusals of the counter board: all of these must come from it, and no others.
const OF_COUNTER_BOARD: [usize; 16] = [1, 2, 3, 4, 5, 6, 7, 8, 9, 10, 12, 13, 18, 14, 22, 24];

/// The most calls from a controller's set-up on.
const CALLS: u64 = 60;

/// The number that the program alone brings.
const OF_PROGRAM: usize = 16;

/// How often what came.
#[derive(Default)]
struct Tally {
    /// Refusals of each call by number.
    analyses: ByNumber,
    rewritings: ByNumber,
    playings: ByNumber,
    counter_playings: ByNumber,
    /// The program's, the number taken from its text.
    listings: ByNumber,
    floors: Floors,
    twins: TwinKinds,
    spare: SpareKinds,
    live_rounds: LiveRounds,
    versions: Versions,
    counter_kinds: CounterKinds,
    /// Texts of the program with either word.
    printed_floor: u64,
    printed_seen: u64,
    steps_taken: u64,
    largest: u64,
}

/// How often which figures came.
#[derive(Default)]
struct Floors {
    used_over_most: u64,
    /// Too many families for the search.
    seen: u64,
    searched: u64,
    /// The search found more than the fullest live set has.
    over_fullest: u64,
    /// The search found fewer than first fit uses.
    below_used: u64,
}

impl Floors {
    fn count(&mut self, Analysis { used, floor, searched, .. }: Analysis, fullest: u64) {
        self.used_over_most += u64::from(used > u64::from(MOST_TIMERS));
        self.seen += u64::from(!searched);
        self.searched += u64::from(searched);
        self.over_fullest += u64::from(searched && floor > fullest);
        self.below_used += u64::from(searched && floor < used);
    }

    /// Whether each came.
    fn all_came(&self) -> bool {
        [self.used_over_most, self.seen, self.searched, self.over_fullest, self.below_used]
            .iter()
            .all(|&count| count > 0)
    }
}

impl Display for Floors {
    fn fmt(&self, f: &mut Formatter<'_>) -> std::fmt::Result {
        let Floors { used_over_most, seen, searched, over_fullest, below_used } = self;
        write!(f, "used over {MOST_TIMERS}: {used_over_most}; floor not searched: {seen}, searched: {searched}, ")?;
        write!(f, "of these above the fullest live set: {over_fullest}, below used: {below_used}")
    }
}

/// How many charts came with twins of which kind.
#[derive(Default)]
struct TwinKinds {
    /// No two timers are twins.
    none: u64,
    /// Two timers that are live somewhere are twins; three or more are.
    two: u64,
    three: u64,
    /// A timer is live somewhere and its lowest twin is not.
    lowest_not_live: u64,
    /// Each of two twins is live at a location where the other is not.
    parted: u64,
    /// A transition starts several twins that are live at its target: one start on the board.
    one_start: u64,
    /// Some timer's number differs from the one that it has if each timer counts for itself; the same though no two timers
    /// that are live somewhere are twins, so that only the order of the families is another.
    other_numbers: u64,
    other_order: u64,
    /// Fewer timers are used than if each counts for itself; the floor is searched, and would not be then.
    fewer_used: u64,
    searched: u64,
}

impl TwinKinds {
    /// Counts a chart that is accepted.
    fn count(&mut self, chart: &Chart) {
        let graph = analysis::judge(chart).expect("the chart is accepted");
        let twins = Twins::of(chart, graph.reached());
        if twins == Twins::NONE {
            self.none += 1;
            return;
        }
        let liveness = Liveness::of(chart, graph);
        let sets = liveness.sets();
        let live = sets.iter().fold(TimerSet::EMPTY, |all, &set| all.joined(set));
        // The timers that are live somewhere, by their lowest twins.
        let group = |lowest| live.into_iter().filter(|&timer| twins.lowest(timer) == lowest).collect();
        let groups: Vec<TimerSet> = twins.merged(live).into_iter().map(group).collect();
        let most = groups.iter().map(|group| group.len()).max().unwrap_or(0);
        self.two += u64::from(most >= 2);
        self.three += u64::from(most >= 3);
        self.lowest_not_live += u64::from(!twins.merged(live).minus(live).is_empty());
        let alone = |timer: u8, other: u8| sets.iter().any(|set| set.has(timer) && !set.has(other));
        let parts = |group: &TimerSet| {
            let with = |timer: u8| group.into_iter().any(|other| alone(timer, other) && alone(other, timer));
            group.into_iter().any(with)
        };
        self.parted += u64::from(groups.iter().any(parts));
        let joins = |transition: &Transition| {
            let born = transition.starts.common(sets[usize::from(transition.target)]);
            twins.merged(born).len() < born.len()
        };
        self.one_start += u64::from(chart.transitions().iter().any(joins));

        let families = Families::of(chart, &liveness, &twins);
        let singly = Families::of(chart, &liveness, &Twins::NONE);
        let (numbers, before) = (numbers_of(&families, sets, &twins), numbers_of(&singly, sets, &Twins::NONE));
        self.other_numbers += u64::from(numbers != before);
        self.other_order += u64::from(numbers != before && most == 1);
        self.fewer_used += u64::from(numbers.iter().max() < before.iter().max());
        let few = |families: &Families| families.list().len() <= MOST_SEARCHED;
        self.searched += u64::from(few(&families) && !few(&singly));
    }

    /// Whether each came.
    fn all_came(&self) -> bool {
        let TwinKinds { none, two, three, lowest_not_live, parted, one_start, .. } = *self;
        let numbers = [self.other_numbers, self.other_order, self.fewer_used, self.searched];
        [none, two, three, lowest_not_live, parted, one_start].iter().chain(&numbers).all(|&count| count > 0)
    }
}

/// The board numbers of the live timers of each location, rising, if `twins` stand for them in the families.
fn numbers_of(families: &Families, sets: &[TimerSet], twins: &Twins) -> Vec<u16> {
    let given = families.first_fit(usize::MAX).expect("without a limit every family gets a number");
    let mut table = vec![[0; TIMERS]; sets.len()];
    for (family, number) in families.list().iter().zip(given) {
        family.locations.iter().for_each(|location| table[usize::from(location)][usize::from(family.timer)] = number);
    }
    let of_location = |(set, row): (&TimerSet, [u16; TIMERS])| {
        set.into_iter().map(move |timer| row[usize::from(twins.lowest(timer))]).collect::<Vec<u16>>()
    };
    sets.iter().zip(table).flat_map(of_location).collect()
}

impl Display for TwinKinds {
    fn fmt(&self, f: &mut Formatter<'_>) -> std::fmt::Result {
        let TwinKinds { none, two, three, lowest_not_live, parted, one_start, .. } = self;
        let TwinKinds { other_numbers, other_order, fewer_used, searched, .. } = self;
        write!(f, "no twins: {none}; two live ones: {two}, three: {three}, the lowest not live: {lowest_not_live}, ")?;
        write!(f, "each live without the other: {parted}, one start for several: {one_start}; numbers other than if ")?;
        write!(
            f,
            "each timer counts for itself: {other_numbers}, by the order of the families alone: {other_order}, "
        )?;
        write!(f, "fewer used: {fewer_used}, few enough families for the search: {searched}")
    }
}

/// What must come with spare locations: charts, and what was done with them.
const SPARE: [&str; 18] = [
    "version 3 without any",
    "version 3 with some",
    "version 1 refused 9",
    "version 2 refused 9",
    "version 3 without any refused 10",
    "version 3 with some refused 10",
    "a cycle of them",
    "one that accepts",
    "one next to the initial location by number",
    "a transition into a reached location that starts a timer which is live there",
    "one that tests a timer",
    "one that does not start a timer which is live there",
    "a transition that would tell twins apart, so that the numbers would be others",
    "a test of a timer that nothing starts",
    "more rounds if they counted",
    "a step refused since its transition leaves one",
    "a constant on a transition from one that the counter board alone refuses",
    OF_TEXT,
];

/// The one of these that the program alone brings.
const OF_TEXT: &str = "a text of the program";

/// How often each came.
#[derive(Default)]
struct SpareKinds([u64; SPARE.len()]);

impl SpareKinds {
    fn count(&mut self, name: &str, came: bool) {
        let index = SPARE.iter().position(|&other| other == name);
        self.0[index.expect("each kind is listed")] += u64::from(came);
    }

    /// Counts a chart that was refused with this number.
    fn count_refused(&mut self, chart: &Chart, number: u64) {
        match (chart.version(), number) {
            (Version::One, 9) => self.count("version 1 refused 9", true),
            (Version::Two, 9) => self.count("version 2 refused 9", true),
            (Version::Three, 10) => {
                let any = spare_of(chart).is_some();
                self.count("version 3 without any refused 10", !any);
                self.count("version 3 with some refused 10", any);
            }
            _ => {}
        }
    }

    /// Counts a chart that is accepted.
    fn count_accepted(&mut self, chart: &Chart, rounds: u64) {
        let spare = spare_of(chart);
        self.count("version 3 without any", chart.version() == Version::Three && spare.is_none());
        self.count("version 3 with some", spare.is_some());
        let Some(spare) = spare else { return };
        let transitions = || chart.transitions_from(&spare);
        self.count("a cycle of them", has_cycle(chart, &spare));
        self.count("one that accepts", spare.meets(chart.accepting()));
        let initial = chart.initial();
        let next_to = [initial.checked_sub(1), initial.checked_add(1)];
        let is_next = next_to.into_iter().flatten().any(|location| spare.has(location));
        self.count("one next to the initial location by number", is_next);

        let liveness = Liveness::of(chart, analysis::judge(chart).expect("the chart is accepted"));
        let sets = liveness.sets();
        // Nothing is live at spare locations: these transitions enter reached ones.
        let live_after = |transition: &Transition| sets[usize::from(transition.target)];
        let starts = |transition: &Transition| !transition.starts.common(live_after(transition)).is_empty();
        let leaves = |transition: &Transition| !live_after(transition).minus(transition.starts).is_empty();
        let tests = |transition: &Transition| !spare.has(transition.target) && !transition.tested.is_empty();
        self.count(
            "a transition into a reached location that starts a timer which is live there",
            transitions().any(starts),
        );
        self.count("one that tests a timer", transitions().any(tests));
        self.count("one that does not start a timer which is live there", transitions().any(leaves));

        let all = LocationSet::below(chart.locations());
        let [twins, told_apart] = [liveness.reached(), &all].map(|locations| Twins::of(chart, locations));
        let numbers = |twins: &Twins| numbers_of(&Families::of(chart, &liveness, twins), sets, twins);
        let others = twins != told_apart && numbers(&twins) != numbers(&told_apart);
        self.count("a transition that would tell twins apart, so that the numbers would be others", others);

        let started = chart.transitions().iter().fold(TimerSet::EMPTY, |set, other| set.joined(other.starts));
        let unstarted = transitions().any(|transition| !transition.tested.minus(started).is_empty());
        self.count("a test of a timer that nothing starts", unstarted);
        self.count("more rounds if they counted", rounds_of_all(chart) > rounds);
    }

    /// Counts a list of steps that was refused since a step's transition does not leave the present location.
    fn count_step(&mut self, chart: &Chart, transition: u32) {
        let source = chart.transitions()[transition as usize].source;
        let is_spare = spare_of(chart).is_some_and(|spare| spare.has(source));
        self.count("a step refused since its transition leaves one", is_spare);
    }

    /// Counts a chart that the counter board refused for a constant.
    fn count_constant(&mut self, chart: &Chart) {
        let Some(spare) = spare_of(chart) else { return };
        let is_large = |test: &Test| test.constant > COUNTER_LARGEST_CONSTANT;
        let of_spare = |transition: &Transition| spare.has(transition.source);
        let large = |transition: &&Transition| chart.tests(transition).iter().any(is_large);
        let only = chart.transitions().iter().filter(large).all(of_spare);
        self.count("a constant on a transition from one that the counter board alone refuses", only);
    }

    /// What never came.
    fn missing(&self) -> impl Iterator<Item = &'static str> + '_ {
        SPARE.into_iter().zip(self.0).filter(|(_, count)| *count == 0).map(|(name, _)| name)
    }
}

impl Display for SpareKinds {
    fn fmt(&self, f: &mut Formatter<'_>) -> std::fmt::Result {
        write!(f, "spare locations:")?;
        SPARE.iter().zip(self.0).try_for_each(|(name, count)| write!(f, " {name}: {count};"))
    }
}

/// The spare locations of a chart of version 3; none if all are reached.
fn spare_of(chart: &Chart) -> Option<LocationSet> {
    if chart.version() != Version::Three {
        return None;
    }
    let reached = reached(chart);
    let mut spare = LocationSet::EMPTY;
    let all = LocationSet::below(chart.locations());
    all.iter().filter(|&location| !reached.has(location)).for_each(|location| spare.add(location));
    (spare != LocationSet::EMPTY).then_some(spare)
}

/// Whether transitions lead round in a circle within these locations.
fn has_cycle(chart: &Chart, within: &LocationSet) -> bool {
    let mut left = *within;
    loop {
        // Those that lead on to one that is left.
        let mut leading = LocationSet::EMPTY;
        let leads = |transition: &&Transition| left.has(transition.target);
        chart.transitions_from(&left).filter(leads).for_each(|transition| leading.add(transition.source));
        if leading == left {
            return left != LocationSet::EMPTY;
        }
        left = leading;
    }
}

/// The rounds that the live sets of all locations take if the spare ones count.
fn rounds_of_all(chart: &Chart) -> u64 {
    let mut before = [TimerSet::EMPTY; LOCATIONS];
    let mut rounds = 0;
    loop {
        let mut sets = [TimerSet::EMPTY; LOCATIONS];
        for transition in chart.transitions() {
            let set = &mut sets[usize::from(transition.source)];
            let passed = before[usize::from(transition.target)].minus(transition.starts);
            *set = set.joined(transition.tested).joined(passed);
        }
        rounds += 1;
        if sets == before {
            return rounds;
        }
        before = sets;
    }
}

/// How often which numbers of rounds of the live sets came.
#[derive(Default)]
struct LiveRounds {
    one: u64,
    two: u64,
    to_8: u64,
    to_255: u64,
    /// More than a byte holds.
    more: u64,
    most: u64,
}

impl LiveRounds {
    fn count(&mut self, rounds: u64) {
        let kind = match rounds {
            0 => panic!("there is at least one round"),
            1 => &mut self.one,
            2 => &mut self.two,
            3..=8 => &mut self.to_8,
            9..=255 => &mut self.to_255,
            _ => &mut self.more,
        };
        *kind += 1;
        self.most = self.most.max(rounds);
    }

    /// Whether each came.
    fn all_came(&self) -> bool {
        [self.one, self.two, self.to_8, self.to_255, self.more].iter().all(|&count| count > 0)
    }
}

impl Display for LiveRounds {
    fn fmt(&self, f: &mut Formatter<'_>) -> std::fmt::Result {
        let LiveRounds { one, two, to_8, to_255, more, most } = self;
        write!(f, "live sets in 1 round: {one}, in 2: {two}, in 3 to 8: {to_8}, in 9 to 255: {to_255}, ")?;
        write!(f, "in more: {more}; the most: {most}")
    }
}

/// How often which versions and constants came.
#[derive(Default)]
struct Versions {
    /// Charts that were analysed, and charts that were rewritten, by version.
    analysed: [u64; Version::ALL.len()],
    rewritten: [u64; Version::ALL.len()],
    /// Good files of one version that are good files of another too: where a constant has another width, and between 2
    /// and 3.
    relabelled: u64,
    two_or_three: u64,
    /// Steps with tests that [ask for a large constant](asks_for_large): taken, and refused since the count was less.
    large: u64,
    too_short: u64,
    /// Steps with tests that [allow a large constant](allows_large): taken, and refused since the count was more.
    within: u64,
    too_long: u64,
}

/// Whether a test asks for a count that has come to a large constant.
fn asks_for_large(test: &Test) -> bool {
    is_large(test) && matches!(test.comparison, Comparison::AtLeast | Comparison::Above | Comparison::Equal)
}

/// Whether a test asks for a count that has not gone beyond a large constant.
fn allows_large(test: &Test) -> bool {
    is_large(test) && matches!(test.comparison, Comparison::AtMost | Comparison::Below)
}

/// Whether a test's constant is large: version 1 does not hold it.
fn is_large(test: &Test) -> bool {
    test.constant > LARGEST_CONSTANT_VERSION_1
}

impl Versions {
    /// Counts the steps that were tried: so many were taken and, if `refused`, the next one was refused by a test.
    fn count_steps(&mut self, chart: &Chart, steps: &Steps, taken: usize, refused: bool) {
        let transition = |step: usize| &chart.transitions()[steps.transitions[step] as usize];
        for step in 0..taken {
            let tests = chart.tests(transition(step));
            self.large += u64::from(tests.iter().any(asks_for_large));
            self.within += u64::from(tests.iter().any(allows_large));
        }
        if refused {
            let not_met = |test: &&Test| {
                // A timer is only tested once it was started.
                let start = (0..taken).rev().find(|&step| transition(step).starts.has(test.timer));
                let count = steps.times[taken] - start.map_or(0, |step| steps.times[step]);
                !test.comparison.met(count as u32, test.constant)
            };
            let tests: Vec<&Test> = chart.tests(transition(taken)).iter().filter(not_met).collect();
            self.too_short += u64::from(tests.iter().any(|test| asks_for_large(test)));
            self.too_long += u64::from(tests.iter().any(|test| allows_large(test)));
        }
    }

    /// Whether each came.
    fn all_came(&self) -> bool {
        let steps = [self.large, self.too_short, self.within, self.too_long];
        let others = [self.relabelled, self.two_or_three].into_iter().chain(steps);
        self.analysed.into_iter().chain(self.rewritten).chain(others).all(|count| count > 0)
    }
}

impl Display for Versions {
    fn fmt(&self, f: &mut Formatter<'_>) -> std::fmt::Result {
        let Versions { analysed, rewritten, relabelled, two_or_three, large, too_short, within, too_long } = self;
        let most = LARGEST_CONSTANT_VERSION_1;
        write!(f, "by version: analysed {analysed:?}, rewritten {rewritten:?}; good with constants of either width: ")?;
        write!(f, "{relabelled}, as 2 and as 3: {two_or_three}; ")?;
        write!(f, "steps with tests for a count over {most}, taken: {large}, refused, too short: {too_short}; ")?;
        write!(f, "with tests for no more than a constant over {most}, taken: {within}, refused, too long: {too_long}")
    }
}

/// How often what came on the counter board.
#[derive(Default)]
struct CounterKinds {
    /// Steps taken at a lower reading than that before.
    wrapped: u64,
    /// Steps with a test of a count that has stopped rising: taken, and refused.
    stopped: u64,
    stopped_refused: u64,
    /// The same for counts one below.
    last: u64,
    last_refused: u64,
    /// Lists with steps taken on which the counter board is to answer as the player does: on the file as drawn, and on
    /// the rewritten one.
    as_player: u64,
    as_player_rewritten: u64,
    /// Lists on which the two answer otherwise: some proviso does not hold.
    otherwise: u64,
}

impl CounterKinds {
    /// Counts the steps that were tried: so many were taken and, if `refused`, the next one was refused by a test.
    fn count_steps(&mut self, chart: &Chart, steps: &CounterSteps, taken: usize, refused: bool) {
        let (most, mut tick) = (u64::from(COUNTER_LARGEST_COUNT), 0);
        // A timer is only tested once it was started.
        let mut started = [0; TIMERS];
        for step in 0..taken + usize::from(refused) {
            let transition = &chart.transitions()[steps.transitions[step] as usize];
            let (reading, before) = (steps.readings[step], steps.before(step));
            tick += u64::from(reading.wrapping_sub(before));
            let reads = |is: &dyn Fn(u64) -> bool| {
                chart.tests(transition).iter().any(|test| is(tick - started[usize::from(test.timer)]))
            };
            let (stopped, last) = (reads(&|count| count >= most), reads(&|count| count == most - 1));
            let is_taken = step < taken;
            self.wrapped += u64::from(is_taken && reading < before);
            self.stopped += u64::from(is_taken && stopped);
            self.stopped_refused += u64::from(!is_taken && stopped);
            self.last += u64::from(is_taken && last);
            self.last_refused += u64::from(!is_taken && last);
            transition.starts.into_iter().for_each(|timer| started[usize::from(timer)] = tick);
        }
    }

    /// Whether each came.
    fn all_came(&self) -> bool {
        let CounterKinds { wrapped, stopped, stopped_refused, last, last_refused, .. } = *self;
        let lists = [self.as_player, self.as_player_rewritten, self.otherwise];
        [wrapped, stopped, stopped_refused, last, last_refused].iter().chain(&lists).all(|&count| count > 0)
    }
}

impl Display for CounterKinds {
    fn fmt(&self, f: &mut Formatter<'_>) -> std::fmt::Result {
        let CounterKinds { wrapped, stopped, stopped_refused, last, last_refused, .. } = self;
        let CounterKinds { as_player, as_player_rewritten, otherwise, .. } = self;
        let most = COUNTER_LARGEST_COUNT;
        write!(
            f,
            "on the counter board: steps across the wrap: {wrapped}; steps with tests of a count that stopped at "
        )?;
        write!(f, "{most}, taken: {stopped}, refused: {stopped_refused}, of one at {}, taken: {last}, ", most - 1)?;
        write!(f, "refused: {last_refused}; lists answered as by the player: {as_player}, on the rewritten file: ")?;
        write!(f, "{as_player_rewritten}; lists without the provisos, answered otherwise: {otherwise}")
    }
}

/// Whether a chart has a constant that the counter board does not take.
fn exceeds_counter_board(file: &[u8]) -> bool {
    Chart::read(file).is_ok_and(|chart| chart.largest_constant() > Some(COUNTER_LARGEST_CONSTANT))
}

/// How many steps of a list were taken.
fn steps_taken<T>(answer: &Answer<T>, steps: usize) -> usize {
    match answer {
        Ok(_) => steps,
        Err(Refusal { number: 14 | 15 | 22..=24, place }) => *place as usize,
        Err(_) => 0,
    }
}

impl Tally {
    fn all(&self) -> [&ByNumber; 5] {
        [&self.analyses, &self.rewritings, &self.playings, &self.counter_playings, &self.listings]
    }

    /// Whether some call brought the number.
    fn came(&self, number: usize) -> bool {
        self.all().iter().any(|numbers| numbers[number] > 0)
    }
}

/// The place of a version in a tally.
fn place_of(version: Version) -> usize {
    version as usize - 1
}

fn hex(bytes: &[u8]) -> String {
    bytes.iter().map(|byte| format!("{byte:02x}")).collect()
}

/// Reports a difference and ends.
fn differ(what: &str, file: &[u8], with: &dyn Debug, library: &dyn Debug, rust: &dyn Debug) -> ! {
    println!("difference in {what}\nfile {}\nwith {with:?}\nproved {library:?}\nrust   {rust:?}", hex(file));
    exit(1)
}

/// Trials of the calls on one chart and of the program; those of the controller are [`Trials`].
struct ChartTrials {
    random: Random,
    tally: Tally,
    lists: list_trials::Trials,
    program: Option<PathBuf>,
}

impl ChartTrials {
    /// Analyses with a lent list of `length` words, filled beforehand.
    fn analyse(&mut self, file: &[u8], length: usize) -> Answer<Analysis> {
        let before: Vec<u64> = (0..length).map(|_| self.random.word()).collect();
        let (mut proved, mut rust) = (before.clone(), before.clone());
        let proved_answer = library::analyse(file, &mut proved);
        let answer = analysis::analyse(file, &mut rust);
        if proved_answer != answer {
            differ("analysis", file, &length, &proved_answer, &answer);
        }
        if proved != rust || answer.is_err() && rust != before {
            differ("analysis, lent list", file, &before, &proved, &rust);
        }
        self.tally.analyses[number_of(&answer)] += 1;
        if let (Err(Refusal { number: number @ (9 | 10), .. }), Ok(chart)) = (answer, Chart::read(file)) {
            self.tally.spare.count_refused(&chart, number);
        }
        if let (Ok(figures), Ok(chart)) = (answer, Chart::read(file)) {
            let sets = &rust[..usize::from(chart.locations())];
            let fullest = sets.iter().map(|set| u64::from(set.count_ones())).max().unwrap_or(0);
            self.tally.floors.count(figures, fullest);
            self.tally.twins.count(&chart);
            self.tally.spare.count_accepted(&chart, figures.rounds);
            self.tally.live_rounds.count(figures.rounds);
            self.tally.versions.analysed[place_of(chart.version())] += 1;
        }
        answer
    }

    /// Rewrites for `k` with a lent buffer of `length` bytes, filled beforehand, and returns the file.
    fn rewrite(&mut self, file: &[u8], k: u32, length: usize) -> Answer<Vec<u8>> {
        let before = self.random.bytes(length);
        let (mut proved, mut rust) = (before.clone(), before.clone());
        let proved_answer = library::rewrite(file, k, &mut proved);
        let answer = rewriting::rewrite(file, k, &mut rust);
        if proved_answer != answer {
            differ("rewriting", file, &(k, length), &proved_answer, &answer);
        }
        if proved != rust || answer.is_err() && rust != before {
            differ("rewriting, lent buffer", file, &(k, hex(&before)), &hex(&proved), &hex(&rust));
        }
        self.tally.rewritings[number_of(&answer)] += 1;
        let Rewriting { used, length } = answer?;
        rust.truncate(length as usize);
        let board = Chart::read(&rust).expect("the rewritten file is good");
        assert_eq!((u64::from(board.timers()), board.version() as u8), (used, file[0]));
        self.tally.versions.rewritten[place_of(board.version())] += 1;
        Ok(rust)
    }

    fn play(&mut self, file: &[u8], counts: &[u32], steps: &Steps) -> Answer<Playing> {
        let proved = library::play(file, counts, &steps.transitions, &steps.times);
        let answer = player::play(file, counts, &steps.transitions, &steps.times);
        if proved != answer {
            differ("player", file, &(counts, &steps.transitions, &steps.times), &proved, &answer);
        }
        self.tally.playings[number_of(&answer)] += 1;
        let taken = steps_taken(&answer, steps.times.len());
        self.tally.steps_taken += taken as u64;
        if let Ok(chart) = Chart::read(file) {
            self.tally.versions.count_steps(&chart, steps, taken, number_of(&answer) == 24);
            if let Err(Refusal { number: 22, place }) = answer {
                self.tally.spare.count_step(&chart, steps.transitions[place as usize]);
            }
        }
        answer
    }

    fn play_counter(&mut self, file: &[u8], counts: &[u32], steps: &CounterSteps) -> Answer<CounterPlaying> {
        let CounterSteps { first, transitions, readings } = steps;
        let proved = library::play_counter(file, counts, transitions, *first, readings);
        let answer = counter::play_counter(file, counts, transitions, *first, readings);
        let number = number_of(&answer);
        if proved != answer {
            differ("counter board", file, &(counts, steps), &proved, &answer);
        }
        if answer.is_err() && !OF_COUNTER_BOARD.contains(&number) {
            differ("counter board, no refusal of it", file, &(counts, steps), &proved, &answer);
        }
        self.tally.counter_playings[number] += 1;
        let taken = steps_taken(&answer, readings.len());
        self.tally.steps_taken += taken as u64;
        if taken > 0 || number == 24 {
            let chart = Chart::read(file).expect("the chart is accepted");
            self.tally.counter_kinds.count_steps(&chart, steps, taken, number == 24);
        }
        if number == 18 {
            self.tally.spare.count_constant(&Chart::read(file).expect("the chart is accepted"));
        }
        answer
    }

    /// The counter board on the readings of a step list that the player has answered. Where the provisos hold, it is to
    /// answer alike, and on the rewritten file too, from any counts.
    fn play_counted(
        &mut self,
        file: &[u8],
        counts_drawn: &[u32],
        steps: &Steps,
        player: Answer<Playing>,
        board: Option<(&[u8], usize)>,
    ) {
        let counted = CounterSteps::of(steps, first_reading(&mut self.random));
        let answer = self.play_counter(file, counts_drawn, &counted);
        let player = player.map(|Playing { location, accepting, .. }| CounterPlaying { location, accepting });
        if !keeps_provisos(&steps.times) || exceeds_counter_board(file) {
            self.tally.counter_kinds.otherwise += u64::from(answer != player);
            return;
        }
        let with = (counts_drawn, &counted, &steps.times);
        if answer != player {
            differ("the counter board and the player", file, &with, &answer, &player);
        }
        let any_taken = u64::from(steps_taken(&answer, steps.times.len()) > 0);
        self.tally.counter_kinds.as_player += any_taken;
        if let (Some((board, used)), true) = (board, number_of(&answer) != 12) {
            let counts_board = counts(&mut self.random, used, true);
            let board_answer = self.play_counter(board, &counts_board, &counted);
            if board_answer != player {
                differ("the counter board on the rewritten file", file, &(board, with), &board_answer, &player);
            }
            self.tally.counter_kinds.as_player_rewritten += any_taken;
        }
    }

    /// The counter board on a list of its own, whose times have no limit and whose waits are less than the counter's
    /// readings; some lists are spoilt.
    fn play_counter_run(&mut self, file: &[u8], drawing: Option<&Drawing>, most_steps: usize) {
        let chart = Chart::read(file);
        let timers = chart.as_ref().map_or(1, |chart| usize::from(chart.timers()));
        let transitions = chart.as_ref().map_or(1, |chart| chart.transitions().len() as u32);
        let random = &mut self.random;
        let mut steps = drawing.map_or(Steps::default(), |drawing| counter_run(random, drawing, most_steps));
        if let (Some(drawing), true) = (drawing, random.chance(1, 2)) {
            steps.cut(random);
            let last = steps.times.last().copied().unwrap_or(0);
            lengthen(random, drawing, &mut steps);
            if let (Some(time), true) = (steps.times.last_mut(), random.chance(1, 2)) {
                // As many ticks as can pass, so that counts are likely to stop.
                *time = last + u64::from(COUNTER_READINGS) - 1;
            }
        }
        let mut steps = CounterSteps::of(&steps, first_reading(random));
        if drawing.is_none() || random.chance(1, 3) {
            spoil_counter_steps(random, &mut steps, transitions);
        }
        let good = random.chance(7, 8);
        let counts = counts(random, timers, good);
        let _ = self.play_counter(file, &counts, &steps);
    }

    /// Runs the program on an input and compares what it prints.
    fn print(&mut self, input: &[u8]) {
        let Some(program) = &self.program else {
            return;
        };
        let expected = listing(input);
        let printed = output(program, input);
        if printed != expected.as_bytes() {
            let printed = String::from_utf8_lossy(&printed).into_owned();
            differ("program (the input is K, then the file)", input, &input.len(), &printed, &expected);
        }
        let number = expected.strip_prefix("refused ").and_then(|rest| rest.split(' ').next()?.parse().ok());
        self.tally.listings[number.unwrap_or(0)] += 1;
        self.tally.printed_floor += u64::from(expected.contains(" floor "));
        self.tally.printed_seen += u64::from(expected.contains(" seen "));
        let chart = number.is_none().then(|| Chart::read(&input[1..]).expect("the chart is accepted"));
        let with_spare = chart.is_some_and(|chart| spare_of(&chart).is_some());
        self.tally.spare.count(OF_TEXT, with_spare);
    }

    /// All calls on one file, with step lists made for `drawing` where the file is that drawing's.
    fn all_calls(&mut self, file: &[u8], drawing: Option<&Drawing>, most_steps: usize) {
        if let Err(wrong) = self.lists.run(file) {
            println!("difference in {wrong}");
            exit(1);
        }
        let chart = Chart::read(file);
        let locations = chart.as_ref().map_or(4, |chart| usize::from(chart.locations()));
        let room = self.random.below(locations as u64) as usize;
        let _ = self.analyse(file, room);
        let extra = self.random.pick(&[0, 0, 1, 300]);
        let most = u32::from(MOST_TIMERS);
        let analysis = self.analyse(file, locations + extra);
        let used = analysis.map_or(3, |analysis| analysis.used.min(u64::from(most)) as u32);

        let board = self.rewrite(file, used, file.len() + extra);
        if let Ok(board) = &board {
            for length in [board.len(), board.len() - 1, self.random.below(board.len() as u64) as usize] {
                let _ = self.rewrite(file, used, length);
            }
        }
        let any = self.random.between(0, u64::from(most)) as u32;
        let beyond = self.random.pick(&[most + 1, 2 * most, 255, 256, 1 << 16, 1 << 31, u32::MAX]);
        for k in [used.saturating_sub(1), any, most, beyond] {
            let length = if self.random.chance(1, 4) { 0 } else { file.len() };
            let _ = self.rewrite(file, k, length);
        }

        let timers = chart.as_ref().map_or(1, |chart| usize::from(chart.timers()));
        let transitions = chart.as_ref().map_or(1, |chart| chart.transitions().len() as u32);
        for _ in 0..3 {
            let mut steps = match drawing {
                Some(drawing) => {
                    let wait = self.random.pick(&[0, 2, 20, u64::from(COUNTER_READINGS) - 1, 70_000, 1 << 20]);
                    let mut steps = run(&mut self.random, drawing, most_steps, wait, true);
                    if self.random.chance(1, 2) {
                        if self.random.chance(1, 2) {
                            steps.cut(&mut self.random);
                        }
                        lengthen(&mut self.random, drawing, &mut steps);
                    }
                    if self.random.chance(1, 8) {
                        delay(&mut self.random, &mut steps);
                    }
                    if self.random.chance(1, 8) {
                        // The same steps as late as can be.
                        let late = u64::from(MOST_TICKS).saturating_sub(*steps.times.last().unwrap_or(&0));
                        steps.times.iter_mut().for_each(|time| *time += late);
                    }
                    steps
                }
                None => Steps::default(),
            };
            if drawing.is_none() || self.random.chance(1, 2) {
                spoil_steps(&mut self.random, &mut steps, transitions);
            }
            let good = self.random.chance(7, 8);
            let counts_drawn = counts(&mut self.random, timers, good);
            let answer = self.play(file, &counts_drawn, &steps);
            if let Ok(board) = &board {
                let counts_board = counts(&mut self.random, used as usize, true);
                let board_answer = self.play(board, &counts_board, &steps);
                if number_of(&answer) != 12 && board_answer != answer {
                    differ("the player on the rewritten file", file, &(board, steps), &board_answer, &answer);
                }
            }
            if self.random.chance(1, 3) {
                let board = board.as_ref().ok().map(|board| (board.as_slice(), used as usize));
                self.play_counted(file, &counts_drawn, &steps, answer, board);
            }
        }
        self.play_counter_run(file, drawing, most_steps);
    }

    /// One trial: a file of some kind, and all calls on it.
    fn run(&mut self, index: u64) {
        let random = &mut self.random;
        let kind = random.below(KINDS);
        let most_steps = if kind.is_multiple_of(10) { 2_000 } else { 25 };
        let drawing = of_kind(random, kind);
        let good = drawing.file();
        self.tally.largest = self.tally.largest.max(good.len() as u64);
        let (treatment, file) = treated(random, &drawing);
        match treatment {
            Treatment::Whole => self.all_calls(&good, Some(&drawing), most_steps),
            Treatment::Relabelled => {
                let count = match (good[0], file[0]) {
                    (2, 3) | (3, 2) => &mut self.tally.versions.two_or_three,
                    _ => &mut self.tally.versions.relabelled,
                };
                *count += u64::from(Chart::read(&file).is_ok());
                self.all_calls(&file, None, 0);
            }
            Treatment::Spoilt => self.all_calls(&file, None, 0),
        }
        if index.is_multiple_of(20) {
            let random = &mut self.random;
            let most = MOST_TIMERS;
            let k = random.pick(&[0, 1, 2, 3, 8, 16, most - 1, most, most, most + 1, u8::MAX]);
            let mut file = if random.chance(2, 3) { good } else { damaged(random, &good) };
            file.insert(0, k);
            self.print(&file);
        }
    }

    /// Lists that are longer than a place of 16 bits tells, and starting counts of every kind on them.
    fn long_lists(&mut self) {
        let version = self.random.pick(&Version::ALL);
        let shape = Shape { version, locations: 9, transitions: 30, cycle: true, lenient: true, ..Shape::LARGEST };
        let drawing = accepted(&mut self.random, &shape);
        let file = drawing.file();
        let steps = run(&mut self.random, &drawing, 70_000, 0, false);
        assert_eq!(steps.times.len(), 70_000, "the chart's runs do not end");
        let board = self.rewrite(&file, u32::from(MOST_TIMERS), file.len()).expect("the chart fits the largest board");
        let used = self.analyse(&file, 9).map_or(0, |analysis| analysis.used as usize);
        let exceeds = exceeds_counter_board(&file).then_some(Refusal { number: 18, place: NOWHERE });
        let cut = NOWHERE as usize;
        let places = [None, Some(cut - 1), Some(cut), Some(cut + 1), Some(69_999)];
        let on_counter_board = self.random.pick(&places);
        for at in places {
            let mut steps = steps.clone();
            if let Some(at) = at {
                steps.transitions[at] = 30;
            }
            let refusal = at.map(|at| Refusal { number: 14, place: at as u64 });
            for (file, timers) in [(&file, TIMERS), (&board, used)] {
                let counts = counts(&mut self.random, timers, true);
                let answer = self.play(file, &counts, &steps);
                assert_eq!(answer.err(), refusal);
            }
            if at == on_counter_board {
                let counts = counts(&mut self.random, TIMERS, true);
                let counted = CounterSteps::of(&steps, first_reading(&mut self.random));
                let answer = self.play_counter(&file, &counts, &counted);
                assert_eq!(answer.err(), exceeds.or(refusal));
            }
        }
    }

    /// Inputs of the program about its limits of length.
    fn input_lengths(&mut self) {
        let with_k = |file: Vec<u8>| [vec![MOST_TIMERS], file].concat();
        self.print(&[]);
        self.print(&[MOST_TIMERS]);
        self.print(&with_k(chart_b().file()));
        for length in [MOST_INPUT - 1, MOST_INPUT, MOST_INPUT + 1, MOST_INPUT + 2, 70_000, 200_000] {
            let mut body = chart_b().file()[5..].to_vec();
            body.resize(length - 6, 0);
            self.print(&with_k(enclosed(1, &body)));
        }
        let longest_text = accepted(&mut self.random, &Shape { starts: (1, 1), starting: 5, ..Shape::LARGEST });
        self.print(&with_k(longest_text.file()));
        for version in Version::ALL {
            let longest_file = longest(&mut self.random, version);
            self.print(&with_k(longest_file.file()));
        }
        let largest_file = largest_spare(&mut self.random);
        self.print(&with_k(largest_file.file()));
    }
}

/// What a program prints for an input.
fn output(program: &Path, input: &[u8]) -> Vec<u8> {
    let mut child = Command::new(program)
        .stdin(Stdio::piped())
        .stdout(Stdio::piped())
        .spawn()
        .unwrap_or_else(|error| panic!("{}: {error}", program.display()));
    let mut stdin = child.stdin.take().expect("the input is piped");
    std::thread::scope(|scope| {
        scope.spawn(move || match stdin.write_all(input) {
            Err(error) if error.kind() != ErrorKind::BrokenPipe => panic!("{error}"),
            _ => {}
        });
        child.wait_with_output().expect("the program ends").stdout
    })
}

fn main() {
    let (options, numbers): (Vec<String>, Vec<String>) =
        std::env::args().skip(1).partition(|word| word.starts_with("--"));
    let number = |index: usize, default: u64| {
        numbers.get(index).map_or(default, |word| word.parse().unwrap_or_else(|_| panic!("no number: {word}")))
    };
    let (trials, seed) = (number(0, 20_000), number(1, 1));
    let default = Path::new(env!("CARGO_MANIFEST_DIR")).join("../target/bin/allocate");
    let program = std::env::var_os("CHART_PROGRAM").map_or(default, PathBuf::from);
    let without = options.iter().any(|option| option == "--without-program");
    if !without && !program.exists() {
        println!("no program at {}; build it, or pass --without-program", program.display());
        exit(2);
    }
    let program = (!without).then_some(program);
    let lists = list_trials::Trials::new(seed, [list_trials::Calls::PROVED, list_trials::Calls::RUST]);
    let mut charts = ChartTrials { random: Random::new(seed), tally: Tally::default(), lists, program };
    let mut controllers = Trials::new(seed, [Calls::PROVED, Calls::RUST]);
    charts.input_lengths();
    for index in 0..trials {
        charts.run(index);
        if index.is_multiple_of(2) {
            if let Err(wrong) = controllers.run(CALLS) {
                println!("wrong in controller: {wrong}");
                exit(1);
            }
        }
        if index.is_multiple_of(2_000) {
            charts.long_lists();
        }
    }

    let tally = &charts.tally;
    println!("trials {trials}, seed {seed}; largest chart {} bytes", tally.largest);
    println!("steps taken: {}", tally.steps_taken);
    println!("analyses with {}", tally.floors);
    println!("analyses of charts with {}", tally.twins);
    println!("{}", tally.spare);
    println!("{}", tally.live_rounds);
    println!("{}", tally.versions);
    println!("{}", tally.counter_kinds);
    println!("{}", charts.lists.tally);
    println!("{}", controllers.tally);
    println!("texts with floor: {}, with seen: {}", tally.printed_floor, tally.printed_seen);
    println!("how often each answer came (0: a result)");
    let [analyses, rewritings, playings, counter_playings, listings] = tally.all();
    let columns = [
        ("analysis", analyses),
        ("rewriting", rewritings),
        ("player", playings),
        ("counter", counter_playings),
        ("program", listings),
        ("reader", &charts.lists.tally.readings),
        ("writer", &charts.lists.tally.writings),
        ("set-up", &controllers.tally.set_ups),
        ("event", &controllers.tally.events),
        ("turn", &controllers.tally.turns),
    ];
    let row = |first: &str, cell: &dyn Fn(usize) -> String| {
        let cells: String = (0..columns.len()).map(|column| format!(" {:>10}", cell(column))).collect();
        println!("{first:>6}{cells}");
    };
    row("number", &|column| columns[column].0.to_string());
    for number in ByNumber::NUMBERS {
        if EXPECTED.contains(&number) || columns.iter().any(|(_, numbers)| numbers[number] > 0) {
            row(&number.to_string(), &|column| columns[column].1[number].to_string());
        }
    }
    let program = charts.program.is_some().then_some(OF_PROGRAM);
    let missing: Vec<usize> = EXPECTED.into_iter().chain(program).filter(|&number| !tally.came(number)).collect();
    let words_came = charts.program.is_none() || tally.printed_floor > 0 && tally.printed_seen > 0;
    let Tally { floors, twins, spare, live_rounds, versions, counter_kinds, .. } = tally;
    let figures_came = floors.all_came() && twins.all_came() && live_rounds.all_came();
    let kinds_came = figures_came && versions.all_came() && counter_kinds.all_came();
    let of_counter: Vec<usize> =
        OF_COUNTER_BOARD.into_iter().chain([0]).filter(|&number| counter_playings[number] == 0).collect();
    let (of_controllers, of_lists) = (controllers.tally.missing(), charts.lists.tally.missing());
    // Without the program no text of it comes.
    let spare_missing: Vec<&str> =
        spare.missing().filter(|name| charts.program.is_some() || *name != OF_TEXT).collect();
    let numbers_came = missing.is_empty() && of_counter.is_empty() && of_controllers.is_empty() && of_lists.is_empty();
    if !(numbers_came && spare_missing.is_empty() && kinds_came && words_came) {
        println!("never came with a controller: {of_controllers:?}; with the counter board: {of_counter:?}");
        println!("never came with lists: {of_lists:?}");
        print!("never came: {missing:?}, or one of: {floors}; or one of: {twins}; or one of: {live_rounds}; ");
        println!("or one of: {versions}; or one of: {counter_kinds}; or a word of the program");
        println!("never came with spare locations: {spare_missing:?}");
        exit(2);
    }
    let calls: u64 = columns.iter().map(|(_, numbers)| numbers.total()).sum();
    println!("all {calls} calls agree");
}
