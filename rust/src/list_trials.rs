//! Trials of the reader and the writer over lists: two implementations are handed the same files, lent lists, headers and
//! lists, good ones and spoilt ones, and must answer alike and leave the same memory. For tests.

use std::fmt::{Debug, Display, Formatter};

use crate::chart::Chart;
use crate::generator::Random;
#[cfg(feature = "library")]
use crate::library;
use crate::limits::{LARGEST_CONSTANT_VERSION_1, MOST_LOCATIONS, MOST_TESTS, MOST_TIMERS, MOST_TRANSITIONS};
use crate::lists::{self, Header, LentLists, Lists, OwnedLists};
use crate::refusal::{Answer, Refusal};
use crate::tally::{number_of, ByNumber};
use crate::trials::Found;

/// One implementation of the reader and the writer.
#[derive(Clone, Copy)]
pub struct Calls {
    pub read: fn(&[u8], &mut LentLists) -> Answer<Header>,
    pub write: fn(&Header, &Lists, &mut [u8]) -> Answer<usize>,
}

impl Calls {
    /// This crate's.
    pub const RUST: Calls = Calls { read: lists::read, write: lists::write };

    /// The proved library's.
    #[cfg(feature = "library")]
    pub const PROVED: Calls = Calls { read: library::read, write: library::write };
}

/// The refusals of each call: all of these must come, and no others.
const OF_READER: [usize; 9] = [1, 2, 3, 4, 5, 6, 7, 8, 21];
const OF_WRITER: [usize; 9] = [2, 3, 4, 5, 6, 7, 8, 17, 21];

/// How many lists a chart is handed over in.
const LISTS: usize = 9;

/// How often what came.
#[derive(Default)]
pub struct Tally {
    pub readings: ByNumber,
    pub writings: ByNumber,
    /// Files that were read, written and the same again.
    returned: u64,
    /// Lists that were one entry too short for the chart, of each.
    too_short: [u64; LISTS],
    /// Spoilt lists that are a chart's nevertheless.
    other_charts: u64,
}

impl Tally {
    /// What should have come and did not.
    pub fn missing(&self) -> Vec<String> {
        let mut missing = Vec::new();
        for (call, counts, expected) in [("reader", &self.readings, &OF_READER), ("writer", &self.writings, &OF_WRITER)]
        {
            for &number in expected.iter().chain(&[0]).filter(|&&number| counts[number] == 0) {
                missing.push(format!("{number} from {call}"));
            }
        }
        let others = [self.returned, self.other_charts];
        if self.too_short.iter().chain(&others).any(|&count| count == 0) {
            missing.push(self.to_string());
        }
        missing
    }
}

impl Display for Tally {
    fn fmt(&self, f: &mut Formatter<'_>) -> std::fmt::Result {
        let Tally { returned, too_short, other_charts, .. } = self;
        write!(f, "files read into lists and written again: {returned}; lists one entry too short: {too_short:?}; ")?;
        write!(f, "charts of spoilt lists: {other_charts}")
    }
}

impl OwnedLists {
    /// Lists of these lengths that hold anything.
    fn filled(random: &mut Random, lengths: [usize; LISTS]) -> Self {
        let [accepting, sources, targets, events, starts, test_counts, timers, codes, constants] =
            lengths.map(|length| (0..length).map(|_| random.word()).collect::<Vec<u64>>());
        let pairs = |words: Vec<u64>| words.into_iter().map(|word| word as u16).collect();
        let bytes = |words: Vec<u64>| words.into_iter().map(|word| word as u8).collect();
        OwnedLists {
            accepting: pairs(accepting),
            sources: pairs(sources),
            targets: pairs(targets),
            events: bytes(events),
            starts,
            test_counts: bytes(test_counts),
            timers: bytes(timers),
            codes: bytes(codes),
            constants: constants.into_iter().map(|word| word as u32).collect(),
        }
    }

    /// Cuts a list somewhere.
    fn cut(&mut self, random: &mut Random, list: usize) {
        fn cut<T>(random: &mut Random, list: &mut Vec<T>) {
            list.truncate(random.below(list.len() as u64 + 1) as usize);
        }
        match list {
            0 => cut(random, &mut self.accepting),
            1 => cut(random, &mut self.sources),
            2 => cut(random, &mut self.targets),
            3 => cut(random, &mut self.events),
            4 => cut(random, &mut self.starts),
            5 => cut(random, &mut self.test_counts),
            6 => cut(random, &mut self.timers),
            7 => cut(random, &mut self.codes),
            _ => cut(random, &mut self.constants),
        }
    }

    /// Changes an entry of a list that has one.
    fn change(&mut self, random: &mut Random, list: usize, header: &Header) {
        fn change<T>(random: &mut Random, list: &mut [T], entry: T) {
            if !list.is_empty() {
                let index = random.below(list.len() as u64) as usize;
                list[index] = entry;
            }
        }
        let locations = header.locations;
        let location = random.pick(&[0, locations.saturating_sub(1), locations, MOST_LOCATIONS, u16::MAX]);
        let timer = random.pick(&[0, header.timers.saturating_sub(1), header.timers, MOST_TIMERS, u8::MAX]);
        let byte = random.word() as u8;
        match list {
            0 => change(random, &mut self.accepting, location),
            1 => change(random, &mut self.sources, location),
            2 => change(random, &mut self.targets, location),
            3 => change(random, &mut self.events, byte),
            4 => change(random, &mut self.starts, 1 << (timer % 64)),
            5 => change(random, &mut self.test_counts, byte % (MOST_TESTS + 2)),
            6 => change(random, &mut self.timers, timer),
            7 => change(random, &mut self.codes, byte % 7),
            _ => {
                let large = LARGEST_CONSTANT_VERSION_1;
                let constant = random.pick(&[0, large, large + 1, u32::MAX]);
                change(random, &mut self.constants, constant);
            }
        }
    }
}

/// Changes one number of a header.
fn spoil_header(random: &mut Random, header: &mut Header) {
    let kind = random.below(6);
    let version = random.pick(&[0, 1, 1, 1, 2, 3, 4, u8::MAX]);
    // Numbers about one that stands and about the most that there can be.
    let mut about = |number: u16, most: u16| {
        random.pick(&[0, number.saturating_sub(1), number.saturating_add(1), most, most + 1, u16::MAX])
    };
    match kind {
        0 => header.version = version,
        1 => header.locations = about(header.locations, MOST_LOCATIONS),
        2 => header.initial = about(header.locations, MOST_LOCATIONS),
        3 => header.timers = about(header.timers.into(), MOST_TIMERS.into()) as u8,
        4 => header.accepting = about(header.accepting, MOST_LOCATIONS),
        _ => header.transitions = about(header.transitions, MOST_TRANSITIONS),
    }
}

/// How many entries each list needs for a chart.
fn needed(chart: &Chart) -> [usize; LISTS] {
    let transitions = chart.transitions().len();
    let tests = chart.transitions().iter().map(|transition| chart.tests(transition).len()).sum();
    let accepting = usize::from(chart.accepting().count());
    [accepting, transitions, transitions, transitions, transitions, transitions, tests, tests, tests]
}

/// Finds what differs: the call, what it was handed, and both answers or memories.
fn same<T: Debug + PartialEq>(call: &str, with: &dyn Debug, both: &[T; 2]) -> Found<()> {
    let [first, second] = both;
    if first == second {
        return Ok(());
    }
    Err(format!("{call}\nwith {with:?}\nproved {first:?}\nrust   {second:?}"))
}

/// Trials of two implementations from a seed.
pub struct Trials {
    random: Random,
    both: [Calls; 2],
    pub tally: Tally,
}

impl Trials {
    pub fn new(seed: u64, both: [Calls; 2]) -> Self {
        Trials { random: Random::new(seed), both, tally: Tally::default() }
    }

    /// Reads into lists of these lengths, which hold anything before.
    fn read(&mut self, file: &[u8], lengths: [usize; LISTS]) -> Found<(Answer<Header>, OwnedLists)> {
        let before = OwnedLists::filled(&mut self.random, lengths);
        let mut lent = [before.clone(), before.clone()];
        let answers: [Answer<Header>; 2] =
            std::array::from_fn(|index| (self.both[index].read)(file, &mut lent[index].lent()));
        same("reader", &(file, lengths), &answers)?;
        same("reader, lent lists", &(file, lengths), &lent)?;
        let ([answer, _], [lists, _]) = (answers, lent);
        if answer.is_err() {
            same("reader, refused", &(file, lengths), &[&before, &lists])?;
        }
        let number = number_of(&answer);
        if number > 0 && !OF_READER.contains(&number) {
            return Err(format!("no refusal of the reader: {number}, file {file:?}"));
        }
        self.tally.readings[number] += 1;
        Ok((answer, lists))
    }

    /// Writes into a buffer of so many bytes, which hold anything before; returns the file.
    fn write(&mut self, header: &Header, lists: &OwnedLists, room: usize) -> Found<Answer<Vec<u8>>> {
        let before = self.random.bytes(room);
        let mut out = [before.clone(), before.clone()];
        let with = (header, lists, room);
        let answers: [Answer<usize>; 2] =
            std::array::from_fn(|index| (self.both[index].write)(header, &lists.lists(), &mut out[index]));
        same("writer", &with, &answers)?;
        same("writer, lent buffer", &with, &out)?;
        let ([answer, _], [mut out, _]) = (answers, out);
        let untouched = answer.unwrap_or(0);
        same("writer, beyond the file", &with, &[&before[untouched..], &out[untouched..]])?;
        let number = number_of(&answer);
        if number > 0 && !OF_WRITER.contains(&number) {
            return Err(format!("no refusal of the writer: {number}, {with:?}"));
        }
        self.tally.writings[number] += 1;
        Ok(answer.map(|length| {
            out.truncate(length);
            out
        }))
    }

    /// A file, good or not: read into lists that are long enough and into ones of which one is not, and what is read is
    /// written, as it is and spoilt.
    pub fn run(&mut self, file: &[u8]) -> Found<()> {
        let lengths = Chart::read(file).map_or([3; LISTS], |chart| needed(&chart));
        let longer = lengths.map(|length| length + self.random.pick(&[0, 0, 1, 40]) as usize);
        let (answer, lists) = self.read(file, longer)?;
        let Ok(header) = answer else { return Ok(()) };

        let no_room = Err(Refusal::nowhere(21));
        let list = self.random.below(LISTS as u64) as usize;
        if lengths[list] > 0 {
            let mut short = longer;
            short[list] = lengths[list] - 1;
            let (answer, _) = self.read(file, short)?;
            same("reader, no room", &(file, short), &[answer, no_room])?;
            self.tally.too_short[list] += 1;
        }

        let room = file.len() + self.random.pick(&[0, 1, 300]) as usize;
        let written = self.write(&header, &lists, room)?;
        same("what is read and written again", &header, &[written, Ok(file.to_vec())])?;
        self.tally.returned += 1;
        if self.random.chance(1, 3) {
            let any = self.random.below(file.len() as u64) as usize;
            let room = self.random.pick(&[any, file.len() - 1]);
            let answer = self.write(&header, &lists, room)?;
            same("writer, no room", &(header, room), &[answer.map(|_| ()), no_room.map(|_| ())])?;
        }

        let (mut header, mut lists) = (header, lists);
        for _ in 0..self.random.between(1, 2) {
            let list = self.random.below(LISTS as u64) as usize;
            match self.random.below(5) {
                0 => spoil_header(&mut self.random, &mut header),
                1 => lists.cut(&mut self.random, list),
                _ => lists.change(&mut self.random, list, &header),
            }
        }
        // More bytes than any spoilt chart of these lists takes, or as many as the file has.
        let room = self.random.pick(&[2 * file.len() + 20_000, file.len()]);
        if let Ok(other) = self.write(&header, &lists, room)? {
            let chart = Chart::read(&other);
            same("a file that was written", &(header, &lists), &[chart.map(|_| ()), Ok(())])?;
            self.tally.other_charts += u64::from(other != file);
        }
        Ok(())
    }
}
