//! Random charts, damaged files and step lists from a seed. For tests and measurements.

use crate::drawing::{chain, looped_chain, Arrow, Drawing, AT_LEAST, AT_MOST, BELOW};
use crate::limits::{
    COUNTER_LARGEST_CONSTANT, COUNTER_READINGS, LARGEST_CONSTANT_VERSION_1, MOST_LOCATIONS, MOST_STARTS, MOST_TESTS,
    MOST_TICKS, MOST_TIMERS, MOST_TRANSITIONS, TIMERS,
};
use crate::version::Version;

/// Large constants, which version 1 does not hold, and the last that it does: where two bytes end and where a run's
/// time, a count and four bytes do. Some are small if their high bytes are cut off.
const LARGE_CONSTANTS: [u32; 16] = [
    LARGEST_CONSTANT_VERSION_1,
    LARGEST_CONSTANT_VERSION_1 + 1,
    LARGEST_CONSTANT_VERSION_1 + 2,
    LARGEST_CONSTANT_VERSION_1 + 4,
    70_000,
    1_000_000,
    MOST_TICKS - 1,
    MOST_TICKS,
    MOST_TICKS + 1,
    MOST_TICKS + 4,
    2 * MOST_TICKS,
    2 * MOST_TICKS + 1,
    1 << 31,
    (1 << 31) + 3,
    u32::MAX - 1,
    u32::MAX,
];

/// Version bytes that are no version's.
const NO_VERSIONS: [u8; 3] = [0, 4, u8::MAX];

/// A small generator of random numbers (SplitMix64).
#[derive(Clone, Debug)]
pub struct Random(u64);

impl Random {
    pub fn new(seed: u64) -> Self {
        Random(seed)
    }

    pub fn word(&mut self) -> u64 {
        self.0 = self.0.wrapping_add(0x9e37_79b9_7f4a_7c15);
        let mut word = self.0;
        word = (word ^ (word >> 30)).wrapping_mul(0xbf58_476d_1ce4_e5b9);
        word = (word ^ (word >> 27)).wrapping_mul(0x94d0_49bb_1331_11eb);
        word ^ (word >> 31)
    }

    /// A number below `bound`, which is not 0.
    pub fn below(&mut self, bound: u64) -> u64 {
        self.word() % bound
    }

    /// A number from `low` to `high`, both among them.
    pub fn between(&mut self, low: u64, high: u64) -> u64 {
        low + self.below(high - low + 1)
    }

    /// True `part` times out of `whole`.
    pub fn chance(&mut self, part: u64, whole: u64) -> bool {
        self.below(whole) < part
    }

    pub fn pick<T: Copy>(&mut self, choices: &[T]) -> T {
        choices[self.below(choices.len() as u64) as usize]
    }

    pub fn shuffle<T>(&mut self, list: &mut [T]) {
        for last in (1..list.len()).rev() {
            list.swap(last, self.below(last as u64 + 1) as usize);
        }
    }

    pub fn bytes(&mut self, count: usize) -> Vec<u8> {
        (0..count).map(|_| self.word() as u8).collect()
    }
}

/// What a random chart looks like.
#[derive(Clone, Copy, Debug)]
pub struct Shape {
    pub version: Version,
    pub locations: u16,
    pub timers: u8,
    /// At least the number of locations less one, so that each can be reached.
    pub transitions: u16,
    /// Of 100 transitions, how many start timers at all.
    pub starting: u64,
    /// The fewest and the most timers that such a transition starts, where there are as many; groups of timers where there
    /// are groups.
    pub starts: (u8, u8),
    /// The fewest and the most tests of a transition, where enough timers are surely started.
    pub tests: (u8, u8),
    /// Whether the transitions that leave the initial location start all timers.
    pub start_all: bool,
    /// The most that a constant is, but for a few.
    pub constant: u32,
    /// Whether a cycle leads through all locations, so that no run comes to an end; takes one transition more.
    pub cycle: bool,
    /// Whether all tests are met for some 65,000 ticks.
    pub lenient: bool,
    /// The most groups that its timers fall into: those of a group are always started together. With as many groups as
    /// timers, or more, each is started for itself.
    pub groups: u8,
}

impl Shape {
    /// A random shape with at most so many locations.
    pub fn random(random: &mut Random, most_locations: u16) -> Shape {
        let version = random.pick(&Version::ALL);
        let locations = random.between(1, u64::from(most_locations)) as u16;
        let spare = random.pick(&[0, 1, u64::from(locations), 2 * u64::from(locations)]);
        let timers = match random.below(10) {
            0 => 0,
            1 | 2 => u64::from(MOST_TIMERS),
            3 => random.between(1, u64::from(MOST_TIMERS)),
            _ => random.between(1, 8),
        } as u8;
        Shape {
            version,
            locations,
            timers,
            transitions: (u64::from(locations) - 1 + spare).min(u64::from(MOST_TRANSITIONS)) as u16,
            starting: random.pick(&[10, 30, 60, 90]),
            starts: random.pick(&[(1, 1), (1, 2), (1, 3), (1, 8), (1, MOST_STARTS), (50, MOST_STARTS)]),
            tests: random.pick(&[(0, 1), (0, 1), (0, 2), (1, 3), (0, MOST_TESTS), (MOST_TESTS, MOST_TESTS)]),
            start_all: random.chance(1, 2),
            constant: random.pick(&[0, 3, 10, 10, 1_000, LARGEST_CONSTANT_VERSION_1, version.largest_constant()]),
            cycle: random.chance(1, 3),
            lenient: random.chance(1, 4),
            groups: if random.chance(1, 2) { random.between(1, u64::from(timers.max(1))) as u8 } else { MOST_TIMERS },
        }
    }

    /// The largest chart: as many of each as there may be, tests wherever their timers are surely started.
    pub const LARGEST: Shape = Shape {
        version: Version::One,
        locations: MOST_LOCATIONS,
        timers: MOST_TIMERS,
        transitions: MOST_TRANSITIONS,
        starting: 40,
        starts: (1, 3),
        tests: (MOST_TESTS, MOST_TESTS),
        start_all: true,
        constant: 20,
        cycle: false,
        lenient: false,
        groups: MOST_TIMERS,
    };

    /// Many timers live everywhere and most of them started anew everywhere: many small families, whose numbers often
    /// exceed those of any board.
    pub const SMALL_FAMILIES: Shape =
        Shape { locations: 24, transitions: 300, starting: 100, starts: (54, MOST_STARTS), ..Shape::LARGEST };
}

/// A chart that passes 1 to 10: each location is reached, and each test reads a timer started on every path to it.
pub fn accepted(random: &mut Random, shape: &Shape) -> Drawing {
    let mut order: Vec<u16> = (0..shape.locations).collect();
    random.shuffle(&mut order);
    if random.chance(1, 2) {
        let initial = order.iter().position(|&location| location == 0).unwrap_or(0);
        order.swap(0, initial);
    }
    let mut transitions = Vec::new();
    for index in 1..order.len() {
        let near = shape.cycle || random.chance(1, 2);
        let parent = if near { index - 1 } else { random.below(index as u64) as usize };
        transitions.push(Arrow::new(order[parent], order[index]));
    }
    if shape.cycle && transitions.len() < usize::from(shape.transitions) {
        transitions.push(Arrow::new(order[order.len() - 1], order[0]));
    }
    while transitions.len() < usize::from(shape.transitions) {
        transitions.push(Arrow::new(random.pick(&order), random.pick(&order)));
    }
    random.shuffle(&mut transitions);
    let mut drawing = Drawing {
        version: shape.version as u8,
        locations: shape.locations,
        initial: order[0],
        timers: shape.timers,
        accepting: (0..shape.locations).filter(|_| random.chance(1, 3)).collect(),
        transitions,
    };
    let count = shape.groups.min(shape.timers);
    let groups = groups(random, shape.timers, count);
    for transition in &mut drawing.transitions {
        transition.event = random.word() as u8;
        if shape.start_all && transition.source == order[0] {
            transition.starts = (0..shape.timers).collect();
        } else if shape.timers > 0 && random.below(100) < shape.starting {
            let (fewest, most) = (shape.starts.0.min(count), shape.starts.1.min(count));
            let mut chosen: Vec<u8> = (0..count).collect();
            random.shuffle(&mut chosen);
            chosen.truncate(random.between(u64::from(fewest), u64::from(most)) as usize);
            let chosen = chosen.iter().fold(0_u64, |word, group| word | 1 << group);
            let starts = |timer: &u8| chosen >> groups[usize::from(*timer)] & 1 == 1;
            transition.starts = (0..shape.timers).filter(starts).collect();
        }
    }
    // Where there are twins, some timers are tested nowhere: often the lowest of a group.
    let tested = if count < shape.timers { random.word() } else { u64::MAX };
    let started = surely_started(&drawing);
    for transition in &mut drawing.transitions {
        let usable = started[usize::from(transition.source)] & tested;
        let usable: Vec<u8> = (0..shape.timers).filter(|timer| usable >> timer & 1 == 1).collect();
        if usable.is_empty() {
            continue;
        }
        for _ in 0..random.between(u64::from(shape.tests.0), u64::from(shape.tests.1)) {
            let (code, constant) = comparison(random, shape);
            transition.tests.push((random.pick(&usable), code, constant));
        }
    }
    drawing
}

/// Of each timer the number of its group, below `count`. With as many groups as timers each has its own.
fn groups(random: &mut Random, timers: u8, count: u8) -> Vec<u8> {
    let group = |timer| if count < timers { random.below(u64::from(count)) as u8 } else { timer };
    (0..timers).map(group).collect()
}

/// A comparison code and a constant for a test of such a chart.
fn comparison(random: &mut Random, shape: &Shape) -> (u8, u32) {
    let most = if random.chance(1, 50) { shape.version.largest_constant() } else { shape.constant };
    let constant = random.between(0, u64::from(most)) as u32;
    let large = match shape.version {
        Version::One => LARGEST_CONSTANT_VERSION_1,
        Version::Two | Version::Three => random.pick(&LARGE_CONSTANTS),
    };
    if shape.lenient {
        return random.pick(&[(AT_LEAST, 0), (AT_MOST, large), (BELOW, large)]);
    }
    let code = random.below(5) as u8;
    let is_large = shape.version != Version::One && random.chance(1, 8);
    (code, if is_large { large } else { constant })
}

/// Stores a chart as version 2, or as 3 if it is of that, and gives about one in `whole` of its tests a large constant, or
/// the last that version 1 holds.
pub fn store_large(random: &mut Random, drawing: &mut Drawing, whole: u64) {
    drawing.version = drawing.version.max(Version::Two as u8);
    for test in drawing.transitions.iter_mut().flat_map(|transition| &mut transition.tests) {
        if random.chance(1, whole) {
            test.2 = random.pick(&LARGE_CONSTANTS);
        }
    }
}

/// Gives about one in `whole` of a chart's tests a constant about the largest that the counter board takes; a few are
/// one larger, from version 2 on, and such a chart is refused there.
pub fn store_about_counter(random: &mut Random, drawing: &mut Drawing, whole: u64) {
    let most = COUNTER_LARGEST_CONSTANT;
    let beyond = most + u32::from(drawing.version != Version::One as u8 && random.chance(1, 4));
    for test in drawing.transitions.iter_mut().flat_map(|transition| &mut transition.tests) {
        if random.chance(1, whole) {
            test.2 = random.pick(&[most - 1, most, most, beyond]);
        }
    }
}

/// Gives a chart more timers, if it may have more, each of which is started wherever one of those that it has is: a twin.
/// All are numbered anew. A test of a timer names any of its twins, or all tests of it name one of them, so that often the
/// lowest is tested nowhere.
pub fn add_twins(random: &mut Random, drawing: &mut Drawing) {
    let timers = usize::from(drawing.timers);
    if timers == 0 || timers == TIMERS {
        return;
    }
    // Of each timer by its new number the one that it was, or that it is a twin of.
    let mut was: Vec<u8> = (0..drawing.timers).collect();
    for _ in 0..random.between(1, (TIMERS - timers).min(timers) as u64) {
        was.push(random.below(timers as u64) as u8);
    }
    random.shuffle(&mut was);
    let named_now = |timer: u8| (0..was.len() as u8).filter(|&new| was[usize::from(new)] == timer).collect();
    let mut names: Vec<Vec<u8>> = (0..drawing.timers).map(named_now).collect();
    for transition in &mut drawing.transitions {
        transition.starts = transition.starts.iter().flat_map(|&timer| names[usize::from(timer)].clone()).collect();
        transition.starts.sort_unstable();
    }
    if random.chance(1, 2) {
        names.iter_mut().for_each(|names| *names = vec![random.pick(names)]);
    }
    for test in drawing.transitions.iter_mut().flat_map(|transition| &mut transition.tests) {
        test.0 = random.pick(&names[usize::from(test.0)]);
    }
    drawing.timers = was.len() as u8;
}

/// Adds to a chart locations that nothing reaches, if it may have more, and transitions that leave them, which start and
/// test any timers. The new locations come last, or all are numbered anew. The version stays: before 3 such a chart is
/// refused.
pub fn add_spare(random: &mut Random, drawing: &mut Drawing) {
    let before = drawing.locations;
    let (few, many) = (random.between(1, 4) as u16, random.between(1, u64::from(before)) as u16);
    let count = random.pick(&[1, 2, few, few, many]).min(MOST_LOCATIONS - before);
    if count == 0 {
        return;
    }
    // Of each location its new number: those that there were, then the spare ones.
    let mut numbers: Vec<u16> = (0..before + count).collect();
    if random.chance(2, 3) {
        random.shuffle(&mut numbers);
    }
    let (old, spare) = numbers.split_at(usize::from(before));
    let named_now = |location: &mut u16| *location = old[usize::from(*location)];
    drawing.locations = before + count;
    named_now(&mut drawing.initial);
    drawing.accepting.iter_mut().for_each(named_now);
    drawing.accepting.extend(spare.iter().filter(|_| random.chance(1, 3)));
    drawing.accepting.sort_unstable();
    for transition in &mut drawing.transitions {
        named_now(&mut transition.source);
        named_now(&mut transition.target);
    }
    let mut added = Vec::new();
    if random.chance(1, 2) {
        // A cycle of all of them, or of one.
        let cycle = if random.chance(1, 2) { spare } else { &spare[..1] };
        added.extend((0..cycle.len()).map(|index| Arrow::new(cycle[index], cycle[(index + 1) % cycle.len()])));
    }
    for _ in 0..random.between(1, 2 * u64::from(count)) {
        let targets = random.pick(&[old, spare]);
        added.push(Arrow::new(random.pick(spare), random.pick(targets)));
    }
    added.truncate(usize::from(MOST_TRANSITIONS) - drawing.transitions.len());
    // Sometimes one that the counter board does not take.
    let is_large = drawing.version != Version::One as u8 && random.chance(1, 8);
    let large = if is_large { COUNTER_LARGEST_CONSTANT + 1 } else { COUNTER_LARGEST_CONSTANT };
    for mut transition in added {
        transition.event = random.word() as u8;
        if drawing.timers > 0 {
            let (half, few) = (random.word(), random.word() & random.word() & random.word());
            let started = random.pick(&[0, 0, half, few]);
            transition.starts = (0..drawing.timers).filter(|timer| started >> timer & 1 == 1).collect();
            for _ in 0..random.pick(&[0, 0, 1, 2, MOST_TESTS]) {
                let timer = random.below(u64::from(drawing.timers)) as u8;
                let small = random.below(20) as u32;
                transition.tests.push((timer, random.below(5) as u8, random.pick(&[small, small, small, large])));
            }
        }
        let place = random.below(drawing.transitions.len() as u64 + 1) as usize;
        drawing.transitions.insert(place, transition);
    }
}

/// Of each location the timers that every path to it starts, as a word.
fn surely_started(drawing: &Drawing) -> Vec<u64> {
    let mut started = vec![u64::MAX; usize::from(drawing.locations)];
    started[usize::from(drawing.initial)] = 0;
    loop {
        let mut changed = false;
        for transition in &drawing.transitions {
            let starts = transition.starts.iter().fold(0, |word, &timer| word | 1 << timer);
            let after = started[usize::from(transition.source)] | starts;
            let target = &mut started[usize::from(transition.target)];
            changed |= *target & !after != 0;
            *target &= after;
        }
        if !changed {
            return started;
        }
    }
}

/// A chart for which first fit hands out `levels` times `half` numbers, with 2 times `half` timers. 3 to 17 levels,
/// `half` at most half of [`MOST_TIMERS`] and at most [`MOST_TESTS`] for each level but two.
///
/// The timers are two halves, A and B. Each level has a group of families of A and one of B; but the last has no group
/// of B, and so the last but one needs none of A. For any two different levels, a location has the A group of the one
/// and the B group of the other, so that a group of level i meets groups that hold all numbers of the levels before it.
/// A group's locations lie on a cycle that starts the other half only. The timers are told apart, since those of a half
/// would be twins.
pub fn many_numbers(levels: u16, half: u8) -> Drawing {
    let mut pairs = Vec::new();
    for level in 1..levels {
        if level != levels - 2 {
            pairs.extend((0..level).map(|other| (level, other)));
        }
        if level != levels - 1 {
            pairs.extend((0..level).map(|other| (other, level)));
        }
    }
    // Location 0 is initial; at 1 there is the B group of level 0 alone, so that it is the first of all.
    let place = |index: usize| index as u16 + 2;
    let all: Vec<u8> = (0..2 * half).collect();
    let mut transitions = vec![Arrow::new(0, 1).starts(&all)];
    transitions
        .extend(pairs.iter().position(|&pair| pair == (0, 1)).map(|index| Arrow::new(0, place(index)).starts(&all)));
    for level in 0..levels {
        for is_a in [true, false] {
            let group = |pair: &(u16, u16)| if is_a { pair.0 == level } else { pair.1 == level };
            let mut cycle: Vec<u16> = (0..pairs.len()).filter(|&index| group(&pairs[index])).map(place).collect();
            if level == 0 && !is_a {
                cycle.insert(0, 1);
            }
            let (tested, started) = if is_a { all.split_at(usize::from(half)) } else { swapped(&all, half) };
            let mut tests = tested.chunks(usize::from(MOST_TESTS));
            for (index, &source) in cycle.iter().enumerate() {
                let target = cycle[(index + 1) % cycle.len()];
                let mut transition = Arrow::new(source, target).starts(started);
                transition.tests = tests.next().unwrap_or(&[]).iter().map(|&timer| (timer, 2, 0)).collect();
                transitions.push(transition);
            }
        }
    }
    Drawing::new(pairs.len() as u16 + 2, 2 * half, transitions).told_apart()
}

/// The timers' second half, then the first.
fn swapped(all: &[u8], half: u8) -> (&[u8], &[u8]) {
    let (first, second) = all.split_at(usize::from(half));
    (second, first)
}

/// A chart of five locations for which first fit hands out 65 numbers: the second family of timer 0 meets all others
/// at location 3 and, at location 4, a family of timer `other` that holds number 0. `other` is not 0. The timers are told
/// apart, since all but these two would be twins.
pub fn sixty_five_numbers(other: u8) -> Drawing {
    let all: Vec<u8> = (0..MOST_TIMERS).collect();
    let mut transitions = vec![
        Arrow::new(0, 1).starts(&[other]),
        Arrow::new(1, 4).starts(&[0]),
        Arrow::new(0, 2).starts(&all),
        Arrow::new(2, 3).tests(0, 2, 1).starts(&[0]),
        Arrow::new(4, 0).tests(0, 2, 1).tests(other, 2, 1),
    ];
    for timers in all[1..].chunks(usize::from(MOST_TESTS)) {
        let mut transition = Arrow::new(3, 4).starts(&[other]);
        transition.tests = timers.iter().map(|&timer| (timer, 2, 0)).collect();
        transitions.push(transition);
    }
    Drawing::new(5, MOST_TIMERS, transitions).told_apart()
}

/// A chart with one family for each entry of `timers`, in that order, each of the timer that the entry names, and
/// families that meet where some set of `sets` has them both. Families of one timer are in no common set.
///
/// Family f alone is live at location f + 1, and the families of each set at a further one. The locations of a family
/// lie on a cycle whose transitions test its timer and start all others.
pub fn meetings(timers: &[u8], sets: &[Vec<usize>]) -> Drawing {
    let count = timers.iter().max().map_or(0, |&timer| timer + 1);
    let mut transitions = Vec::new();
    for (family, &timer) in timers.iter().enumerate() {
        let all: Vec<u8> = (0..count).collect();
        let others: Vec<u8> = all.iter().copied().filter(|&other| other != timer).collect();
        let own = family as u16 + 1;
        transitions.push(Arrow::new(0, own).starts(&all));
        let mut cycle = vec![own];
        cycle.extend(
            (0..sets.len()).filter(|&set| sets[set].contains(&family)).map(|set| (timers.len() + set) as u16 + 1),
        );
        for (index, &source) in cycle.iter().enumerate() {
            let target = cycle[(index + 1) % cycle.len()];
            transitions.push(Arrow::new(source, target).starts(&others).tests(timer, AT_LEAST, 0));
        }
    }
    Drawing::new((timers.len() + sets.len()) as u16 + 1, count, transitions)
}

/// The pairs of numbers below `count` for which `meet` says so.
pub fn pairs(count: usize, mut meet: impl FnMut(usize, usize) -> bool) -> Vec<Vec<usize>> {
    let mut pairs = Vec::new();
    for second in 0..count {
        pairs.extend((0..second).filter(|&first| meet(first, second)).map(|first| vec![first, second]));
    }
    pairs
}

/// Of twenty families, those that each meets: of all that were tried, the search of the proved library takes longest.
const HARDEST: [u32; 20] = [
    0x74c78, 0x9b794, 0xef3c2, 0x74c71, 0x19cab, 0x74c59, 0x66b2d, 0x1b716, 0xef2c6, 0x6f1c6, 0x198bb, 0x74479,
    0x9a796, 0xed3c6, 0xe2b6d, 0x93796, 0x09cbb, 0xc6b6d, 0xa6b6d, 0x6f106,
];

/// A chart of twenty families whose floor, 10, is hard to find; nowhere are more than two timers live at once.
pub fn hardest_floor() -> Drawing {
    let timers: Vec<u8> = (0..20).collect();
    meetings(&timers, &pairs(20, |a, b| HARDEST[a] >> b & 1 == 1))
}

/// A chart of twenty families in five groups of four, on a circle: families meet within a group and in neighbouring
/// groups. Of any three families two meet, so that a plan takes ten timers; nowhere are more than two live at once.
pub fn five_groups() -> Drawing {
    let timers: Vec<u8> = (0..20).collect();
    meetings(&timers, &pairs(20, |a, b| matches!((a + 20 - b) % 5, 0 | 1 | 4)))
}

/// A chart of [`meetings`] with so many families, at most 25. Often its floor exceeds the fullest live set, or first fit
/// uses more timers than its floor.
pub fn random_meetings(random: &mut Random, families: usize) -> Drawing {
    let part = random.between(2, 6) as usize;
    let share = random.between(1, 100);
    let mut sets = match random.below(6) {
        0 => pairs(families, |_, _| random.chance(share, 100)),
        // Groups, no two of one group meet.
        1 => pairs(families, |a, b| a % part != b % part && random.chance(share, 100)),
        // Groups, all of one group meet.
        2 => pairs(families, |a, b| a % part == b % part),
        // Neighbours of a circle of groups meet, and perhaps all of a group.
        3 => {
            let (groups, within) = (2 * part - 1, random.chance(1, 2));
            let distance = |a: usize, b: usize| (a % groups + groups - b % groups) % groups;
            pairs(families, |a, b| matches!(distance(a, b), d if d == 1 || d + 1 == groups || within && d == 0))
        }
        // Lone families, then some that meet pairwise.
        4 => pairs(families, |a, b| a.min(b) + part >= families),
        _ => Vec::new(),
    };
    random.shuffle(&mut sets);
    for _ in 0..random.pick(&[0, 0, 1, 5, 20]) {
        let mut set: Vec<usize> = (0..families).filter(|_| random.chance(1, part as u64)).collect();
        set.truncate(5);
        sets.push(set);
    }
    // As many as keep to a chart's limits: each set has a location, each of its members a transition.
    let mut room = usize::from(MOST_TRANSITIONS) - 2 * families;
    sets.retain(|set| {
        let fits = !set.is_empty() && set.len() <= room;
        room -= if fits { set.len() } else { 0 };
        fits
    });
    sets.truncate(usize::from(MOST_LOCATIONS) - 1 - families);
    let mut order: Vec<usize> = (0..families).collect();
    random.shuffle(&mut order);
    sets.iter_mut().flatten().for_each(|family| *family = order[*family]);
    let timers = if random.chance(1, 2) { (0..families as u8).collect() } else { few_timers(random, families, &sets) };
    meetings(&timers, &sets)
}

/// Timers for families: few, but different ones within each set.
fn few_timers(random: &mut Random, families: usize, sets: &[Vec<usize>]) -> Vec<u8> {
    let mut timers: Vec<Option<u8>> = vec![None; families];
    let mut order: Vec<usize> = (0..families).collect();
    random.shuffle(&mut order);
    for family in order {
        let held = |timer| {
            let shares = |set: &&Vec<usize>| set.contains(&family);
            sets.iter().filter(shares).flatten().any(|&other| timers[other] == Some(timer))
        };
        timers[family] = (0..MOST_TIMERS).find(|&timer| !held(timer));
    }
    timers.into_iter().flatten().collect()
}

/// A [`chain`] or [`looped_chain`] of some length, with more timers, which 0→1 starts too and of which each is tested at
/// most once, with a few transitions more, and all transitions in some order. Its live sets often take many rounds.
pub fn random_chain(random: &mut Random) -> Drawing {
    let locations = random.between(3, u64::from(MOST_LOCATIONS)) as u16;
    let locations = random.pick(&[locations, locations, MOST_LOCATIONS]);
    let mut drawing = random.pick(&[chain as fn(u16) -> Drawing, looped_chain])(locations);
    drawing.timers = random.pick(&[1, 2, 8, MOST_TIMERS]);
    drawing.transitions[0].starts = (0..drawing.timers).collect();
    let last = drawing.transitions.len() as u64 - 1;
    for timer in 1..drawing.timers {
        let tests = &mut drawing.transitions[random.between(1, last) as usize].tests;
        if tests.len() < usize::from(MOST_TESTS) {
            tests.push((timer, AT_LEAST, 0));
        }
    }
    for _ in 0..random.pick(&[0, 0, 1, 5]) {
        let source = random.between(1, u64::from(locations) - 1) as u16;
        let target = random.below(u64::from(locations)) as u16;
        let started = random.below(u64::from(drawing.timers)) as u8;
        drawing.transitions.push(Arrow::new(source, target).starts(&[started]));
    }
    match random.below(3) {
        0 => drawing,
        1 => drawing.last_to_first(),
        _ => {
            random.shuffle(&mut drawing.transitions);
            drawing
        }
    }
}

/// The longest file of a version that passes 1 to 10 and has no spare locations, 54,254 bytes in version 1 and 62,430 in
/// versions 2 and 3: all limits are reached, but the one transition that leaves the initial location has no tests. Every
/// transition starts all timers, so that all are twins.
pub fn longest(random: &mut Random, version: Version) -> Drawing {
    let all: Vec<u8> = (0..MOST_TIMERS).collect();
    let last = MOST_LOCATIONS - 1;
    let mut transitions: Vec<Arrow> = (0..last).map(|location| Arrow::new(location, location + 1)).collect();
    while transitions.len() < usize::from(MOST_TRANSITIONS) {
        let source = random.between(1, u64::from(last)) as u16;
        transitions.push(Arrow::new(source, random.between(0, u64::from(last)) as u16));
    }
    for transition in &mut transitions {
        transition.starts = all.clone();
        if transition.source != 0 {
            let mut timer = || random.below(u64::from(MOST_TIMERS)) as u8;
            transition.tests = (0..MOST_TESTS).map(|_| (timer(), AT_MOST, version.largest_constant())).collect();
        }
    }
    let accepting = (0..=last).collect();
    let version = version as u8;
    Drawing { version, locations: MOST_LOCATIONS, initial: 0, timers: MOST_TIMERS, accepting, transitions }
}

/// The largest file that there is, 62,478 bytes, as version 3: it passes 1 to 10, since every transition leaves a spare
/// location, and the initial one alone is reached.
pub fn largest_spare(random: &mut Random) -> Drawing {
    let mut drawing = longest(random, Version::Three);
    let first = &mut drawing.transitions[0];
    first.source = 1;
    first.tests = vec![(0, AT_MOST, Version::Three.largest_constant()); usize::from(MOST_TESTS)];
    drawing
}

/// A number of the chart spoilt, so that its file is refused by 2 to 10, and perhaps by none; as a file.
pub fn spoilt(random: &mut Random, drawing: &Drawing) -> Vec<u8> {
    let mut drawing = drawing.clone();
    if random.chance(1, 3) || drawing.transitions.is_empty() {
        match random.below(9) {
            0 => drawing.locations = random.pick(&[0, MOST_LOCATIONS + 1, u16::MAX]),
            1 => drawing.locations = drawing.locations.saturating_add(1),
            2 => drawing.initial = random.pick(&[drawing.locations, MOST_LOCATIONS, u16::MAX]),
            3 => drawing.timers = random.pick(&[MOST_TIMERS + 1, u8::MAX, drawing.timers.saturating_sub(1)]),
            4 => drawing.accepting.push(random.pick(&[0, drawing.locations, u16::MAX])),
            5 => drawing.accepting.reverse(),
            6 => drawing.transitions.resize(usize::from(MOST_TRANSITIONS) + 1, Arrow::new(0, 0)),
            7 => drawing.version = random.pick(&NO_VERSIONS),
            _ => drawing.transitions.clear(),
        }
        return drawing.file();
    }
    let index = random.below(drawing.transitions.len() as u64) as usize;
    let transition = &mut drawing.transitions[index];
    let mut length = (0, 0);
    let no_location = [drawing.locations, drawing.locations + 1, MOST_LOCATIONS, u16::MAX];
    match random.below(13) {
        0 => transition.source = random.pick(&no_location),
        1 => transition.target = random.pick(&no_location),
        2 => transition.starts.push(random.pick(&[drawing.timers, MOST_TIMERS - 1, MOST_TIMERS, u8::MAX])),
        3 => transition.starts.push(0),
        4 => transition.starts.reverse(),
        5 => transition.starts = (0..MOST_STARTS + random.between(1, 16) as u8).collect(),
        6 => transition.tests.resize(usize::from(MOST_TESTS) + random.between(1, 4) as usize, (0, 0, 0)),
        7 => {
            transition.tests.resize(usize::from(MOST_TESTS) + 1, (0, 0, 0));
            length = (index + 1, random.between(0, 50) as u16);
        }
        8 => transition.tests.push((random.pick(&[drawing.timers, MOST_TIMERS, u8::MAX]), 0, 0)),
        9 => transition.tests.push((0, random.between(5, u64::from(u8::MAX)) as u8, 0)),
        10 => length = (index + 1, random.pick(&[1, 2, 4, u16::MAX - 1, u16::MAX])),
        11 => transition.starts.clear(),
        _ => {
            // Two failures: the first field of them counts.
            transition.tests.push((0, 9, 0));
            let second = random.below(drawing.transitions.len() as u64) as usize;
            drawing.transitions[second].target = drawing.locations;
        }
    }
    drawing.file_with(
        |record, true_length| {
            if record + 1 == length.0 {
                true_length.wrapping_add(length.1)
            } else {
                true_length
            }
        },
    )
}

/// A file under another version byte: mostly another version's, whose constants may have another width; a good file
/// without tests is good under that one too.
pub fn relabelled(random: &mut Random, file: &[u8]) -> Vec<u8> {
    let mut file = file.to_vec();
    file[0] = match file[0] {
        _ if random.chance(1, 6) => random.pick(&NO_VERSIONS),
        1 => random.pick(&[2, 3]),
        2 => random.pick(&[1, 3]),
        _ => random.pick(&[1, 2]),
    };
    file
}

/// A file with bytes changed, cut off, put in or taken out; its length field is set right or left as it was.
pub fn damaged(random: &mut Random, file: &[u8]) -> Vec<u8> {
    let mut file = file.to_vec();
    for _ in 0..random.pick(&[1, 1, 1, 2, 5]) {
        let near = if random.chance(1, 2) { file.len().min(40) } else { file.len() };
        let at = random.below(near as u64 + 1) as usize;
        match random.below(6) {
            0 if at < file.len() => file[at] = random.word() as u8,
            1 if at < file.len() => file[at] ^= 1 << random.below(8),
            2 if at < file.len() => {
                let near = [0, 1, 2, 3, 4, 5, MOST_TESTS, MOST_TESTS + 1, MOST_TIMERS, MOST_TIMERS + 1, u8::MAX];
                file[at] = random.pick(&near)
            }
            3 => file.truncate(at),
            4 => {
                let count = random.between(1, 9) as usize;
                let bytes = random.bytes(count);
                file.splice(at..at, bytes);
            }
            _ if at < file.len() => drop(file.remove(at)),
            _ => file.push(random.word() as u8),
        }
    }
    if random.chance(3, 4) {
        mend_length(&mut file);
    }
    file
}

/// Sets the length field of a file right.
pub fn mend_length(file: &mut [u8]) {
    if let Some(length) = file.len().checked_sub(5) {
        file[1..5].copy_from_slice(&(length as u32).to_be_bytes());
    }
}

/// A step list: transition numbers and times.
#[derive(Clone, Debug, Default)]
pub struct Steps {
    pub transitions: Vec<u32>,
    pub times: Vec<u64>,
}

impl Steps {
    pub fn push(&mut self, transition: u32, time: u64) {
        self.transitions.push(transition);
        self.times.push(time);
    }

    /// Keeps the steps before a random one.
    pub fn cut(&mut self, random: &mut Random) {
        let kept = random.below(self.times.len() as u64 + 1) as usize;
        self.transitions.truncate(kept);
        self.times.truncate(kept);
    }
}

/// Steps that a chart takes from the initial location, as far as they are found: at most `most`, with waits of at most
/// `wait` ticks and, if `due`, often up to a constant of the tests.
pub fn run(random: &mut Random, drawing: &Drawing, most: usize, wait: u64, due: bool) -> Steps {
    let time = |random: &mut Random, transition: &Arrow, now: u64, started: &[u64; TIMERS]| {
        let mut time = now + random.below(wait + 1);
        if due && !transition.tests.is_empty() && random.chance(2, 3) {
            time = due_time(random, transition, started).max(now);
        }
        time
    };
    run_at(random, drawing, most, u64::from(MOST_TICKS), time)
}

/// Steps that the counter board takes, as far as they are found: at most `most`. Fewer than [`COUNTER_READINGS`] ticks
/// pass at each, often just so many, none at all, or up to a constant of the tests. Their times have no limit.
pub fn counter_run(random: &mut Random, drawing: &Drawing, most: usize) -> Steps {
    let most_ticks = u64::from(COUNTER_READINGS) - 1;
    let time = |random: &mut Random, transition: &Arrow, now: u64, started: &[u64; TIMERS]| {
        let any = random.between(0, most_ticks);
        let mut wait = random.pick(&[0, 0, 1, 5, any, any, most_ticks - 1, most_ticks]);
        if !transition.tests.is_empty() && random.chance(2, 3) {
            wait = due_time(random, transition, started).saturating_sub(now).min(most_ticks);
        }
        now + wait
    };
    run_at(random, drawing, most, u64::MAX, time)
}

/// The time at which the count of a tested timer is its constant, or one tick later.
fn due_time(random: &mut Random, transition: &Arrow, started: &[u64; TIMERS]) -> u64 {
    let (timer, _, constant) = random.pick(&transition.tests);
    started[usize::from(timer)] + u64::from(constant) + random.below(2)
}

/// Steps that a chart takes from the initial location, as far as they are found: at most `most`, none later than
/// `latest`. `time` proposes a time for a transition, from the present one and that at which each timer was started.
fn run_at(
    random: &mut Random,
    drawing: &Drawing,
    most: usize,
    latest: u64,
    time: impl Fn(&mut Random, &Arrow, u64, &[u64; TIMERS]) -> u64,
) -> Steps {
    let mut leaving = vec![Vec::new(); usize::from(drawing.locations)];
    for (index, transition) in drawing.transitions.iter().enumerate() {
        leaving[usize::from(transition.source)].push(index);
    }
    let mut steps = Steps::default();
    let mut location = drawing.initial;
    let mut now = 0;
    // A timer is only tested once it was started, so starting counts do not matter.
    let mut started = [0_u64; TIMERS];
    'steps: while steps.times.len() < most {
        let choices = &leaving[usize::from(location)];
        if choices.is_empty() {
            break;
        }
        for _ in 0..60 {
            let index = random.pick(choices);
            let transition = &drawing.transitions[index];
            let time = time(random, transition, now, &started);
            let met = |&(timer, code, constant): &(u8, u8, u32)| {
                let count = time - started[usize::from(timer)];
                let constant = u64::from(constant);
                match code {
                    0 => count <= constant,
                    1 => count < constant,
                    2 => count >= constant,
                    3 => count > constant,
                    _ => count == constant,
                }
            };
            if time <= latest && transition.tests.iter().all(met) {
                for &timer in &transition.starts {
                    started[usize::from(timer)] = time;
                }
                location = transition.target;
                now = time;
                steps.push(index as u32, time);
                continue 'steps;
            }
        }
        break;
    }
    steps
}

/// Lengthens the steps that a chart takes by one that leaves the last location, whether its tests are met or not.
pub fn lengthen(random: &mut Random, drawing: &Drawing, steps: &mut Steps) {
    let location = steps.transitions.last().map_or(drawing.initial, |&last| drawing.transitions[last as usize].target);
    let leaving = |&index: &u32| drawing.transitions[index as usize].source == location;
    let mut choices: Vec<u32> = (0..drawing.transitions.len() as u32).filter(leaving).collect();
    let tested = |&index: &u32| !drawing.transitions[index as usize].tests.is_empty();
    if choices.iter().any(tested) && random.chance(3, 4) {
        choices.retain(tested);
    }
    if !choices.is_empty() {
        let transition = random.pick(&choices);
        let last = steps.times.last().copied().unwrap_or(0);
        let most = u64::from(MOST_TICKS);
        let early = last.saturating_sub(1);
        let mut time = random.pick(&[last, last, last + 1, last + 2, last + 5, last + 100, early, most + 1]);
        let tests = &drawing.transitions[transition as usize].tests;
        if !tests.is_empty() && random.chance(2, 3) {
            // A tick before, at or after the one at which the count is the constant, or the largest constant that the
            // counter board takes, as near as a step may be.
            let (timer, _, constant) = random.pick(tests);
            let count = random.pick(&[constant, constant, constant, COUNTER_LARGEST_CONSTANT]);
            let due = last_start(drawing, steps, timer) + u64::from(count) + random.below(3);
            time = due.saturating_sub(1).clamp(last, most.max(last));
        }
        steps.push(transition, time);
    }
}

/// When a timer was last started in steps that the chart takes; 0 if it was not.
fn last_start(drawing: &Drawing, steps: &Steps, timer: u8) -> u64 {
    let starts = |&(&transition, _): &(&u32, &u64)| drawing.transitions[transition as usize].is_start(timer);
    steps.transitions.iter().zip(&steps.times).rev().find(starts).map_or(0, |(_, &time)| time)
}

/// Spoils a step list, or lengthens it by a step that is likely to be refused.
pub fn spoil_steps(random: &mut Random, steps: &mut Steps, transitions: u32) {
    let any = random.below(u64::from(transitions.max(1))) as u32;
    let count = steps.times.len() as u64;
    let at = random.below(count + 1) as usize;
    let last = steps.times.last().copied().unwrap_or(0);
    let most = u64::from(MOST_TICKS);
    match random.below(12) {
        10 | 11 => {
            // Often two failures at once.
            let transition = random.pick(&[any, any, any, transitions]);
            steps.push(transition, random.pick(&[0, last.saturating_sub(1), last, most + 1]));
        }
        0 => steps.push(any, last + random.below(5)),
        1 => steps.push(random.pick(&[transitions, transitions + 1, (1 << 16) + any, u32::MAX]), last),
        2 => steps.push(any, random.pick(&[most, most + 1, 1 << 24 | last, 1 << 32 | last, u64::MAX])),
        3 => drop(steps.times.pop()),
        4 => steps.times.push(0),
        _ if at == steps.times.len() => steps.push(any, last),
        5 => steps.times[at] = steps.times[at].saturating_sub(random.between(1, 3)),
        6 => steps.times[at] += random.between(1, 3),
        7 => steps.transitions[at] = any,
        8 => steps.transitions[at] = transitions,
        _ => steps.times[at] = random.pick(&[most, most + 1]),
    }
}

/// A step list for the counter board: transition numbers and readings of the counter.
#[derive(Clone, Debug, Default)]
pub struct CounterSteps {
    /// The reading at tick 0.
    pub first: u16,
    pub transitions: Vec<u32>,
    pub readings: Vec<u16>,
}

impl CounterSteps {
    /// The same steps, as a counter that shows `first` at tick 0 shows their times.
    pub fn of(steps: &Steps, first: u16) -> CounterSteps {
        let reading = |&time: &u64| first.wrapping_add(time as u16);
        CounterSteps {
            first,
            transitions: steps.transitions.clone(),
            readings: steps.times.iter().map(reading).collect(),
        }
    }

    pub fn push(&mut self, transition: u32, reading: u16) {
        self.transitions.push(transition);
        self.readings.push(reading);
    }

    /// The reading before a step: that of the step before it or, of the first one, that at tick 0.
    pub fn before(&self, step: usize) -> u16 {
        step.checked_sub(1).map_or(self.first, |last| self.readings[last])
    }
}

/// Whether the times never fall, none is over [`MOST_TICKS`], and fewer than [`COUNTER_READINGS`] ticks pass at each
/// step, at the first from tick 0. The counter board is to take the player's steps then.
pub fn keeps_provisos(times: &[u64]) -> bool {
    let follows = |(&time, &last): (&u64, &u64)| {
        time <= u64::from(MOST_TICKS) && (last..last + u64::from(COUNTER_READINGS)).contains(&time)
    };
    times.iter().zip([0].iter().chain(times)).all(follows)
}

/// Delays the steps from some step on, by about the ticks after which a counter shows the same reading again.
pub fn delay(random: &mut Random, steps: &mut Steps) {
    let from = random.below(steps.times.len() as u64 + 1) as usize;
    let around = u64::from(COUNTER_READINGS);
    let ticks = random.pick(&[around - 1, around, around, around + 1, 2 * around]);
    steps.times[from..].iter_mut().for_each(|time| *time += ticks);
}

/// The reading at tick 0: any, or one about the wrap.
pub fn first_reading(random: &mut Random) -> u16 {
    let any = random.word() as u16;
    random.pick(&[any, any, any, 0, 1, u16::MAX - 5, u16::MAX - 1, u16::MAX])
}

/// Spoils a step list of the counter board, or lengthens it by a step that is likely to be refused.
pub fn spoil_counter_steps(random: &mut Random, steps: &mut CounterSteps, transitions: u32) {
    let any = random.below(u64::from(transitions.max(1))) as u32;
    let any_reading = random.word() as u16;
    let at = random.below(steps.readings.len() as u64 + 1) as usize;
    let last = steps.before(steps.readings.len());
    match random.below(10) {
        0 => steps.push(any, last.wrapping_add(random.below(5) as u16)),
        1 => steps.push(random.pick(&[transitions, transitions + 1, (1 << 16) + any, u32::MAX]), any_reading),
        2 => steps.push(any, random.pick(&[last, last.wrapping_sub(1), any_reading])),
        3 => drop(steps.readings.pop()),
        4 => steps.readings.push(any_reading),
        5 => steps.first = any_reading,
        6 => (0..at).for_each(|step| steps.readings[step] = random.word() as u16),
        _ if at == steps.readings.len() => steps.push(any, last),
        7 => {
            let reading = steps.readings[at];
            let before = steps.before(at);
            let near = [reading.wrapping_add(1), reading.wrapping_sub(1), before.wrapping_sub(1), before, any_reading];
            steps.readings[at] = random.pick(&near);
        }
        8 => steps.transitions[at] = any,
        _ => steps.transitions[at] = transitions,
    }
}

/// Starting counts; a few lists are too short, too long or hold a count that is too large.
pub fn counts(random: &mut Random, timers: usize, good: bool) -> Vec<u32> {
    let mut counts: Vec<u32> = (0..timers)
        .map(|_| match random.below(5) {
            0 => MOST_TICKS,
            1 => random.below(20) as u32,
            2 => 0,
            3 => COUNTER_LARGEST_CONSTANT - 1 + random.below(4) as u32,
            _ => random.between(0, u64::from(MOST_TICKS)) as u32,
        })
        .collect();
    if good {
        return counts;
    }
    match random.below(4) {
        0 => counts.push(random.pick(&[0, MOST_TICKS + 1])),
        1 if timers > 0 => drop(counts.pop()),
        _ if timers > 0 => {
            for _ in 0..random.between(1, 3) {
                let timer = random.below(timers as u64) as usize;
                counts[timer] = random.pick(&[MOST_TICKS + 1, u32::MAX, 1 << 31]);
            }
        }
        _ => {}
    }
    counts
}
