//! The chart, its file, the reader and the writer.
//!
//! A [`Chart`] is only made by the reader, so it always keeps the limits of refusals 4 to 8, and its constants fit its
//! version. Locations are below [`MOST_LOCATIONS`] and fit a byte, which is always inside a table with an entry for each
//! of them.

use std::cmp::Ordering;

use crate::limits::{MOST_LOCATIONS, MOST_STARTS, MOST_TESTS, MOST_TIMERS, MOST_TRANSITIONS, NOWHERE};
use crate::refusal::{Answer, Refusal};
use crate::sets::{LocationSet, TimerSet};
use crate::version::Version;

/// How a timer's count is compared with a test's constant. The values are the file's codes.
#[derive(Clone, Copy, Debug, PartialEq, Eq)]
#[repr(u8)]
pub enum Comparison {
    AtMost = 0,
    Below = 1,
    AtLeast = 2,
    Above = 3,
    Equal = 4,
}

/// Whether a comparison is met, by its code and by a count below, at or above the constant.
const MET: [[bool; 3]; 5] =
    [[true, true, false], [true, false, false], [false, true, true], [false, false, true], [false, true, false]];

impl Comparison {
    /// The comparison of a code; none for a code over 4.
    #[inline]
    pub const fn from_code(code: u8) -> Option<Self> {
        match code {
            0 => Some(Comparison::AtMost),
            1 => Some(Comparison::Below),
            2 => Some(Comparison::AtLeast),
            3 => Some(Comparison::Above),
            4 => Some(Comparison::Equal),
            5..=255 => None,
        }
    }

    /// The comparison in document 01's words.
    pub const fn words(self) -> &'static str {
        match self {
            Comparison::AtMost => "at most",
            Comparison::Below => "below",
            Comparison::AtLeast => "at least",
            Comparison::Above => "above",
            Comparison::Equal => "equal",
        }
    }

    /// Whether `count` compares so with `constant`.
    #[inline]
    pub fn met(self, count: u32, constant: u32) -> bool {
        let order = match count.cmp(&constant) {
            Ordering::Less => 0,
            Ordering::Equal => 1,
            Ordering::Greater => 2,
        };
        MET[self as usize][order]
    }
}

/// A test: a timer, a comparison and a constant.
#[derive(Clone, Copy, Debug, PartialEq, Eq)]
pub struct Test {
    pub timer: u8,
    pub comparison: Comparison,
    pub constant: u32,
}

/// A transition. Its tests stand in the chart's list of tests: [`Chart::tests`].
#[derive(Clone, Copy, Debug, PartialEq, Eq)]
pub struct Transition {
    /// The timers that it starts.
    pub starts: TimerSet,
    /// The timers that its tests name.
    pub tested: TimerSet,
    first_test: u16,
    test_count: u8,
    pub source: u8,
    pub target: u8,
    pub event: u8,
}

/// A chart that keeps the limits of the file.
#[derive(Clone, Debug, PartialEq, Eq)]
pub struct Chart {
    version: Version,
    locations: u16,
    initial: u8,
    timers: u8,
    accepting: LocationSet,
    transitions: Vec<Transition>,
    tests: Vec<Test>,
}

impl Chart {
    /// The version of its file.
    #[inline]
    pub fn version(&self) -> Version {
        self.version
    }

    /// The number of locations, 1 to [`MOST_LOCATIONS`].
    #[inline]
    pub fn locations(&self) -> u16 {
        self.locations
    }

    #[inline]
    pub fn initial(&self) -> u8 {
        self.initial
    }

    /// The number of timers, 0 to [`MOST_TIMERS`].
    #[inline]
    pub fn timers(&self) -> u8 {
        self.timers
    }

    #[inline]
    pub fn accepting(&self) -> &LocationSet {
        &self.accepting
    }

    #[inline]
    pub fn transitions(&self) -> &[Transition] {
        &self.transitions
    }

    /// The transitions that leave a location of the set.
    pub fn transitions_from<'a>(&'a self, locations: &'a LocationSet) -> impl Iterator<Item = &'a Transition> {
        self.transitions.iter().filter(|transition| locations.has(transition.source))
    }

    /// The tests of one of this chart's transitions.
    #[inline]
    pub fn tests(&self, transition: &Transition) -> &[Test] {
        let first = usize::from(transition.first_test);
        &self.tests[first..first + usize::from(transition.test_count)]
    }

    /// Whether no transition has a test.
    pub fn has_no_tests(&self) -> bool {
        self.tests.is_empty()
    }

    /// The largest constant of all tests; none if there is no test.
    pub fn largest_constant(&self) -> Option<u32> {
        self.tests.iter().map(|test| test.constant).max()
    }

    /// Reads a chart file. Judges 1 to 8.
    pub fn read(file: &[u8]) -> Answer<Chart> {
        let Some((&[version, length @ ..], body)) = file.split_first_chunk::<5>() else {
            return Err(Refusal::nowhere(1));
        };
        if u64::from(u32::from_be_bytes(length)) != body.len() as u64 {
            return Err(Refusal::nowhere(1));
        }
        let Some(version) = Version::from_byte(version) else {
            return Err(Refusal::nowhere(2));
        };
        read_body(version, &mut Fields { rest: body })
    }

    /// The number of bytes of the chart's file.
    pub fn file_length(&self) -> usize {
        self.file_length_with(|transition| (transition.starts.len(), self.tests(transition)))
    }

    /// Writes the chart's file to the front of `out` and returns its length. Judges 21; a chart of this type is free of
    /// 2 to 8 and 17, which [`crate::lists::write`] judges.
    pub fn write(&self, out: &mut [u8]) -> Answer<usize> {
        let length = self.file_length();
        let Some(file) = out.get_mut(..length) else {
            return Err(Refusal::nowhere(21));
        };
        self.write_with(
            file,
            self.timers,
            |transition| transition.starts,
            |transition| self.tests(transition),
            |_, timer| timer,
        );
        Ok(length)
    }

    /// The length of the file in which each transition has so many starts and these tests.
    pub(crate) fn file_length_with<'a>(&'a self, kept: impl Fn(&'a Transition) -> (u32, &'a [Test])) -> usize {
        let test_length = usize::from(self.version.test_length());
        let record = |transition| {
            let (starts, tests) = kept(transition);
            9 + starts as usize + test_length * tests.len()
        };
        14 + 2 * usize::from(self.accepting.count()) + self.transitions.iter().map(record).sum::<usize>()
    }

    /// Writes the chart with other timers into `file`, which has exactly the length that is due: `timers` of them, each
    /// transition's starts as `starts` gives them and its tests as `tests` does, each test's timer as `timer` gives it.
    /// The version stays.
    pub(crate) fn write_with<'a>(
        &'a self,
        file: &mut [u8],
        timers: u8,
        starts: impl Fn(&Transition) -> TimerSet,
        tests: impl Fn(&'a Transition) -> &'a [Test],
        timer: impl Fn(&Transition, u8) -> u8,
    ) {
        let body = (file.len() - 5) as u32;
        let mut output = Output::new(file);
        output.put([self.version as u8]);
        output.put(body.to_be_bytes());
        output.put(self.locations.to_be_bytes());
        output.put([0, self.initial]);
        output.put([timers]);
        output.put(self.accepting.count().to_be_bytes());
        for location in self.accepting.iter() {
            output.put([0, location]);
        }
        output.put((self.transitions.len() as u16).to_be_bytes());
        for transition in &self.transitions {
            let started = starts(transition);
            let count = started.len() as u8;
            let tests = tests(transition);
            let test_count = tests.len() as u8;
            let [high, low] = self.version.record_length(count, test_count).to_be_bytes();
            output.put([high, low, 0, transition.source, 0, transition.target, transition.event, count]);
            for start in started {
                output.put([start]);
            }
            output.put([test_count]);
            for test in tests {
                let timer = timer(transition, test.timer);
                output.put_test(self.version, timer, test.comparison as u8, test.constant);
            }
        }
        debug_assert!(output.rest.is_empty());
    }
}

/// The part of a file that is still to be written.
pub(crate) struct Output<'a> {
    rest: &'a mut [u8],
}

impl<'a> Output<'a> {
    pub(crate) fn new(file: &'a mut [u8]) -> Self {
        Output { rest: file }
    }

    #[inline]
    pub(crate) fn put<const N: usize>(&mut self, bytes: [u8; N]) {
        let (place, rest) =
            std::mem::take(&mut self.rest).split_first_chunk_mut::<N>().expect("the length was counted");
        *place = bytes;
        self.rest = rest;
    }

    /// Puts a test whose constant the version holds.
    #[inline]
    pub(crate) fn put_test(&mut self, version: Version, timer: u8, code: u8, constant: u32) {
        match version {
            Version::One => {
                let constant = u16::try_from(constant).expect("a constant of version 1 has two bytes");
                let [high, low] = constant.to_be_bytes();
                self.put([timer, code, high, low]);
            }
            Version::Two | Version::Three => {
                let [a, b, c, d] = constant.to_be_bytes();
                self.put([timer, code, a, b, c, d]);
            }
        }
    }
}

const CUT: Refusal = Refusal::nowhere(3);

/// The fields that are still to be read, front to back.
struct Fields<'a> {
    rest: &'a [u8],
}

impl Fields<'_> {
    #[inline]
    fn byte(&mut self) -> Answer<u8> {
        let Some((&byte, rest)) = self.rest.split_first() else {
            return Err(CUT);
        };
        self.rest = rest;
        Ok(byte)
    }

    #[inline]
    fn bytes<const N: usize>(&mut self) -> Answer<[u8; N]> {
        let Some((&bytes, rest)) = self.rest.split_first_chunk() else {
            return Err(CUT);
        };
        self.rest = rest;
        Ok(bytes)
    }

    #[inline]
    fn number(&mut self) -> Answer<u16> {
        self.bytes().map(u16::from_be_bytes)
    }

    #[inline]
    fn constant(&mut self, version: Version) -> Answer<u32> {
        match version {
            Version::One => self.number().map(u32::from),
            Version::Two | Version::Three => self.bytes().map(u32::from_be_bytes),
        }
    }

    #[inline]
    fn location(&mut self, locations: u16, place: u64) -> Answer<u8> {
        location(self.number()?, locations, place)
    }
}

/// Judges a location number (5); one below the number of locations fits a byte.
#[inline]
pub(crate) fn location(number: u16, locations: u16, place: u64) -> Answer<u8> {
    if number < locations {
        Ok(number as u8)
    } else {
        Err(Refusal::at(5, place))
    }
}

/// Judges a number against its limit (4).
#[inline]
pub(crate) fn limited<N: PartialOrd>(number: N, limit: N, place: u64) -> Answer<N> {
    if number <= limit {
        Ok(number)
    } else {
        Err(Refusal::at(4, place))
    }
}

/// Judges a timer number (6).
#[inline]
pub(crate) fn timer(number: u8, timers: u8, place: u64) -> Answer<u8> {
    if number < timers {
        Ok(number)
    } else {
        Err(Refusal::at(6, place))
    }
}

/// Judges the number of locations (4).
pub(crate) fn locations(number: u16) -> Answer<u16> {
    if number == 0 {
        return Err(Refusal::nowhere(4));
    }
    limited(number, MOST_LOCATIONS, NOWHERE)
}

/// Reads what follows the version and the length, up to the last byte.
fn read_body(version: Version, fields: &mut Fields) -> Answer<Chart> {
    let locations = locations(fields.number()?)?;
    let initial = fields.location(locations, NOWHERE)?;
    let timers = limited(fields.byte()?, MOST_TIMERS, NOWHERE)?;
    let accepting = read_accepting(fields, locations)?;
    let count = limited(fields.number()?, MOST_TRANSITIONS, NOWHERE)?;
    // No more tests can follow than the bytes allow.
    let most = usize::from(MOST_TESTS) * usize::from(count);
    let tests = fields.rest.len().saturating_sub(9 * usize::from(count)) / usize::from(version.test_length());
    let mut chart = Chart {
        version,
        locations,
        initial,
        timers,
        accepting,
        transitions: Vec::with_capacity(usize::from(count)),
        tests: Vec::with_capacity(tests.min(most)),
    };
    for place in 0..u64::from(count) {
        let transition = read_transition(fields, &mut chart, place)?;
        chart.transitions.push(transition);
    }
    if fields.rest.is_empty() {
        Ok(chart)
    } else {
        Err(CUT)
    }
}

/// Reads the accepting locations, strictly rising.
fn read_accepting(fields: &mut Fields, locations: u16) -> Answer<LocationSet> {
    let mut accepting = LocationSet::EMPTY;
    let mut lowest = 0;
    for _ in 0..fields.number()? {
        let location = fields.location(locations, NOWHERE)?;
        if u16::from(location) < lowest {
            return Err(Refusal::nowhere(7));
        }
        accepting.add(location);
        lowest = u16::from(location) + 1;
    }
    Ok(accepting)
}

/// Reads one transition; its tests go to the end of the chart's list.
#[inline]
fn read_transition(fields: &mut Fields, chart: &mut Chart, place: u64) -> Answer<Transition> {
    let length = fields.number()?;
    let source = fields.location(chart.locations, place)?;
    let target = fields.location(chart.locations, place)?;
    let event = fields.byte()?;
    let start_count = limited(fields.byte()?, MOST_STARTS, place)?;
    let mut starts = TimerSet::EMPTY;
    for _ in 0..start_count {
        let start = timer(fields.byte()?, chart.timers, place)?;
        if starts.reaches(start) {
            return Err(Refusal::at(7, place));
        }
        starts = starts.with(start);
    }
    let test_count = fields.byte()?;
    // The record's length is judged here, before the limit of tests: 3 is the lower number.
    if length != chart.version.record_length(start_count, test_count) {
        return Err(CUT);
    }
    limited(test_count, MOST_TESTS, place)?;
    let first_test = chart.tests.len() as u16;
    let mut tested = TimerSet::EMPTY;
    for _ in 0..test_count {
        let timer = timer(fields.byte()?, chart.timers, place)?;
        let comparison = Comparison::from_code(fields.byte()?).ok_or(Refusal::at(8, place))?;
        let constant = fields.constant(chart.version)?;
        tested = tested.with(timer);
        chart.tests.push(Test { timer, comparison, constant });
    }
    Ok(Transition { starts, tested, first_test, test_count, source, target, event })
}
