//! The reader and the writer over lent lists, in the layout of docs/LISTS.md: a header and nine lists.

use crate::chart::{limited, location, locations, timer, Chart, Comparison, Output};
use crate::limits::{LOCATIONS, MOST_TESTS, MOST_TIMERS, MOST_TRANSITIONS, NOWHERE, TRANSITIONS};
use crate::refusal::{Answer, Refusal};
use crate::sets::TimerSet;
use crate::version::Version;

/// The refusal of a constant that is to be written into fewer bytes than it takes.
const CONSTANT_TOO_LARGE: Refusal = Refusal::nowhere(17);

/// The chart's header, which travels beside its lists: its version, its numbers and its initial location.
#[derive(Clone, Copy, Debug, PartialEq, Eq)]
pub struct Header {
    pub version: u8,
    pub locations: u16,
    pub initial: u16,
    pub timers: u8,
    pub accepting: u16,
    pub transitions: u16,
}

/// The nine lists of a chart, for the writer.
#[derive(Clone, Copy, Debug)]
pub struct Lists<'a> {
    pub accepting: &'a [u16],
    pub sources: &'a [u16],
    pub targets: &'a [u16],
    pub events: &'a [u8],
    /// Of each transition the set of the timers that it starts: timer j is bit j.
    pub starts: &'a [u64],
    /// Of each transition the number of its tests; the tests of all transitions stand packed in the last three lists.
    pub test_counts: &'a [u8],
    pub timers: &'a [u8],
    pub codes: &'a [u8],
    pub constants: &'a [u32],
}

/// The nine lists, lent to the reader.
#[derive(Debug)]
pub struct LentLists<'a> {
    pub accepting: &'a mut [u16],
    pub sources: &'a mut [u16],
    pub targets: &'a mut [u16],
    pub events: &'a mut [u8],
    pub starts: &'a mut [u64],
    pub test_counts: &'a mut [u8],
    pub timers: &'a mut [u8],
    pub codes: &'a mut [u8],
    pub constants: &'a mut [u32],
}

/// The nine lists of a chart, with memory of their own.
#[derive(Clone, Debug, Default, PartialEq, Eq)]
pub struct OwnedLists {
    pub accepting: Vec<u16>,
    pub sources: Vec<u16>,
    pub targets: Vec<u16>,
    pub events: Vec<u8>,
    pub starts: Vec<u64>,
    pub test_counts: Vec<u8>,
    pub timers: Vec<u8>,
    pub codes: Vec<u8>,
    pub constants: Vec<u32>,
}

impl OwnedLists {
    /// Lists with room for every chart, all entries this number.
    pub fn room(entry: u8) -> OwnedLists {
        let tests = usize::from(MOST_TESTS) * TRANSITIONS;
        OwnedLists {
            accepting: vec![entry.into(); LOCATIONS],
            sources: vec![entry.into(); TRANSITIONS],
            targets: vec![entry.into(); TRANSITIONS],
            events: vec![entry; TRANSITIONS],
            starts: vec![entry.into(); TRANSITIONS],
            test_counts: vec![entry; TRANSITIONS],
            timers: vec![entry; tests],
            codes: vec![entry; tests],
            constants: vec![entry.into(); tests],
        }
    }

    /// The lists, lent to a reader.
    pub fn lent(&mut self) -> LentLists<'_> {
        LentLists {
            accepting: &mut self.accepting,
            sources: &mut self.sources,
            targets: &mut self.targets,
            events: &mut self.events,
            starts: &mut self.starts,
            test_counts: &mut self.test_counts,
            timers: &mut self.timers,
            codes: &mut self.codes,
            constants: &mut self.constants,
        }
    }

    /// The lists, for a writer.
    pub fn lists(&self) -> Lists<'_> {
        Lists {
            accepting: &self.accepting,
            sources: &self.sources,
            targets: &self.targets,
            events: &self.events,
            starts: &self.starts,
            test_counts: &self.test_counts,
            timers: &self.timers,
            codes: &self.codes,
            constants: &self.constants,
        }
    }
}

/// Reads a chart file into lent lists. Judges 1 to 8, then 21.
pub fn read(file: &[u8], lent: &mut LentLists) -> Answer<Header> {
    let chart = Chart::read(file)?;
    let accepting = chart.accepting().count();
    let transitions = chart.transitions().len();
    let tests: usize = chart.transitions().iter().map(|transition| chart.tests(transition).len()).sum();
    let per_transition =
        [lent.sources.len(), lent.targets.len(), lent.events.len(), lent.starts.len(), lent.test_counts.len()];
    let per_test = [lent.timers.len(), lent.codes.len(), lent.constants.len()];
    if lent.accepting.len() < usize::from(accepting)
        || per_transition.iter().any(|&length| length < transitions)
        || per_test.iter().any(|&length| length < tests)
    {
        return Err(Refusal::nowhere(21));
    }
    for (entry, location) in lent.accepting.iter_mut().zip(chart.accepting().iter()) {
        *entry = u16::from(location);
    }
    let mut next = 0;
    for (index, transition) in chart.transitions().iter().enumerate() {
        let tests = chart.tests(transition);
        lent.sources[index] = u16::from(transition.source);
        lent.targets[index] = u16::from(transition.target);
        lent.events[index] = transition.event;
        lent.starts[index] = transition.starts.word();
        lent.test_counts[index] = tests.len() as u8;
        for test in tests {
            lent.timers[next] = test.timer;
            lent.codes[next] = test.comparison as u8;
            lent.constants[next] = test.constant;
            next += 1;
        }
    }
    Ok(Header {
        version: chart.version() as u8,
        locations: chart.locations(),
        initial: u16::from(chart.initial()),
        timers: chart.timers(),
        accepting,
        transitions: transitions as u16,
    })
}

/// The entry of a list that is due next (3 where the list has ended).
#[inline]
fn due<T: Copy>(list: &[T], index: usize) -> Answer<T> {
    list.get(index).copied().ok_or(Refusal::nowhere(3))
}

/// Judges 2, then the lists in the order of the file's fields, 3 to 8, then 17; returns the version and the length of
/// the file.
fn judge(header: &Header, lists: &Lists) -> Answer<(Version, usize)> {
    let version = Version::from_byte(header.version).ok_or(Refusal::nowhere(2))?;
    let locations = locations(header.locations)?;
    location(header.initial, locations, NOWHERE)?;
    let timers = limited(header.timers, MOST_TIMERS, NOWHERE)?;
    let mut lowest = 0;
    for index in 0..usize::from(header.accepting) {
        let accepting = u16::from(location(due(lists.accepting, index)?, locations, NOWHERE)?);
        if accepting < lowest {
            return Err(Refusal::nowhere(7));
        }
        lowest = accepting + 1;
    }
    limited(header.transitions, MOST_TRANSITIONS, NOWHERE)?;
    let mut length = 14 + 2 * usize::from(header.accepting);
    let mut next = 0;
    for index in 0..usize::from(header.transitions) {
        let place = index as u64;
        location(due(lists.sources, index)?, locations, place)?;
        location(due(lists.targets, index)?, locations, place)?;
        due(lists.events, index)?;
        let starts = TimerSet::from_word(due(lists.starts, index)?);
        if !starts.minus(TimerSet::below(timers)).is_empty() {
            return Err(Refusal::at(6, place));
        }
        let count = limited(due(lists.test_counts, index)?, MOST_TESTS, place)?;
        for test in next..next + usize::from(count) {
            timer(due(lists.timers, test)?, timers, place)?;
            Comparison::from_code(due(lists.codes, test)?).ok_or(Refusal::at(8, place))?;
            due(lists.constants, test)?;
        }
        next += usize::from(count);
        length += 2 + usize::from(version.record_length(starts.len() as u8, count));
    }
    // 17 waits until all fields are judged: a later 3 to 8 counts.
    if lists.constants[..next].iter().any(|&constant| constant > version.largest_constant()) {
        return Err(CONSTANT_TOO_LARGE);
    }
    Ok((version, length))
}

/// Writes a chart's lists as a file to the front of `out` and returns its length. Judges 2, then 3 to 8 in the order of
/// the file's fields, then 17 and 21, all before the first byte is written.
pub fn write(header: &Header, lists: &Lists, out: &mut [u8]) -> Answer<usize> {
    let (version, length) = judge(header, lists)?;
    let Some(file) = out.get_mut(..length) else {
        return Err(Refusal::nowhere(21));
    };
    put_file(version, header, lists, file);
    Ok(length)
}

/// Writes lists that are judged into `file`, which has exactly the length that is due.
fn put_file(version: Version, header: &Header, lists: &Lists, file: &mut [u8]) {
    let body = (file.len() - 5) as u32;
    let mut output = Output::new(file);
    output.put([version as u8]);
    output.put(body.to_be_bytes());
    output.put(header.locations.to_be_bytes());
    output.put(header.initial.to_be_bytes());
    output.put([header.timers]);
    output.put(header.accepting.to_be_bytes());
    for accepting in &lists.accepting[..usize::from(header.accepting)] {
        output.put(accepting.to_be_bytes());
    }
    output.put(header.transitions.to_be_bytes());
    let mut next = 0;
    for index in 0..usize::from(header.transitions) {
        let starts = TimerSet::from_word(lists.starts[index]);
        let count = lists.test_counts[index];
        output.put(version.record_length(starts.len() as u8, count).to_be_bytes());
        output.put(lists.sources[index].to_be_bytes());
        output.put(lists.targets[index].to_be_bytes());
        output.put([lists.events[index], starts.len() as u8]);
        for start in starts {
            output.put([start]);
        }
        output.put([count]);
        for test in next..next + usize::from(count) {
            output.put_test(version, lists.timers[test], lists.codes[test], lists.constants[test]);
        }
        next += usize::from(count);
    }
}
