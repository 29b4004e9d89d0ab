//! Which field of a chart file fails, in words: a second walk over the fields, front to back, beside the reader's own. The
//! reader answers with a number and a place; this walk finds the two again and says what stands in the field.

use std::fmt::{Arguments, Display};

use crate::limits::{MOST_LOCATIONS, MOST_STARTS, MOST_TESTS, MOST_TIMERS, MOST_TRANSITIONS, NOWHERE};
use crate::reasons::{counted, numbered, Cause};
use crate::version::Version;

/// What a field holds, or why the file is refused there.
type Found<T> = Result<T, Cause>;

/// Why the reader refuses a file (1 to 8); none if it does not.
pub fn of_file(file: &[u8]) -> Option<Cause> {
    let judged = opened(file).and_then(|(version, body)| Walk { version, rest: body }.body());
    judged.err()
}

/// The version of a file and what follows its length. Judges 1 and 2.
fn opened(file: &[u8]) -> Found<(Version, &[u8])> {
    let Some((&[version, length @ ..], body)) = file.split_first_chunk::<5>() else {
        let words = match file.len() {
            0 => "the file is empty".to_string(),
            bytes => format!("the file has {}; a chart file has at least 5", counted(bytes, "byte", "bytes")),
        };
        return Err(Cause::nowhere(1, words));
    };
    let length = u32::from_be_bytes(length);
    if u64::from(length) != body.len() as u64 {
        let follow = counted(body.len(), "byte follows", "bytes follow");
        return Err(Cause::nowhere(1, format!("the length in the file is {length}; {follow} it")));
    }
    match Version::from_byte(version) {
        Some(version) => Ok((version, body)),
        None => Err(Cause::nowhere(2, format!("the version byte is {version}; there are versions 1 to 3"))),
    }
}

/// The refusal of a number over its limit (4).
fn too_many(place: u64, what: impl Display, limit: impl Display) -> Cause {
    Cause::at(4, place, format!("{what}; at most {limit} are allowed"))
}

/// The fields that the walk has not come to.
struct Walk<'a> {
    version: Version,
    rest: &'a [u8],
}

impl Walk<'_> {
    /// The bytes of a field (3 where the file ends inside it).
    fn bytes<const N: usize>(&mut self, field: Arguments) -> Found<[u8; N]> {
        let Some((&bytes, rest)) = self.rest.split_first_chunk() else {
            return Err(Cause::nowhere(3, format!("the file ends inside {field}")));
        };
        self.rest = rest;
        Ok(bytes)
    }

    fn byte(&mut self, field: Arguments) -> Found<u8> {
        self.bytes(field).map(|[byte]| byte)
    }

    fn number(&mut self, field: Arguments) -> Found<u16> {
        self.bytes(field).map(u16::from_be_bytes)
    }

    /// A location in a field; `what` begins the sentence if there is no such location (5).
    fn location(&mut self, field: Arguments, what: Arguments, locations: u16, place: u64) -> Found<u16> {
        let location = self.number(field)?;
        if location < locations {
            return Ok(location);
        }
        let there = numbered(locations, "location");
        Err(Cause::at(5, place, format!("{what} is {location}; {there}")))
    }

    /// A timer in a field; `what` begins the sentence if there is no such timer (6).
    fn timer(&mut self, field: Arguments, what: Arguments, timers: u8, place: u64) -> Found<u8> {
        let timer = self.byte(field)?;
        if timer < timers {
            return Ok(timer);
        }
        let there = numbered(timers, "timer");
        Err(Cause::at(6, place, format!("{what} timer {timer}; {there}")))
    }

    /// All that follows the length, up to the last byte.
    fn body(mut self) -> Found<()> {
        let locations = self.number(format_args!("the number of locations"))?;
        if !(1..=MOST_LOCATIONS).contains(&locations) {
            let words = format!("the number of locations is {locations}; 1 to {MOST_LOCATIONS} are allowed");
            return Err(Cause::nowhere(4, words));
        }
        let initial = format_args!("the initial location");
        self.location(initial, initial, locations, NOWHERE)?;
        let timers = self.byte(format_args!("the number of timers"))?;
        if timers > MOST_TIMERS {
            return Err(too_many(NOWHERE, format_args!("the number of timers is {timers}"), MOST_TIMERS));
        }
        self.accepting(locations)?;
        let transitions = self.number(format_args!("the count of transitions"))?;
        if transitions > MOST_TRANSITIONS {
            let what = format_args!("the count of transitions is {transitions}");
            return Err(too_many(NOWHERE, what, MOST_TRANSITIONS));
        }
        for transition in 0..transitions {
            self.transition(transition, locations, timers)?;
        }
        match self.rest.len() {
            0 => Ok(()),
            left => {
                let remain = counted(left, "byte remains", "bytes remain");
                Err(Cause::nowhere(3, format!("{remain} after the last transition")))
            }
        }
    }

    /// The accepting locations with their count.
    fn accepting(&mut self, locations: u16) -> Found<()> {
        let mut last = None;
        for _ in 0..self.number(format_args!("the count of accepting locations"))? {
            let field = format_args!("the list of accepting locations");
            let location = self.location(field, format_args!("an accepting location"), locations, NOWHERE)?;
            if let Some(last) = last.filter(|&last| location <= last) {
                let words = format!("accepting location {location} comes after {last}; they must rise");
                return Err(Cause::nowhere(7, words));
            }
            last = Some(location);
        }
        Ok(())
    }

    /// A transition's record.
    fn transition(&mut self, number: u16, locations: u16, timers: u8) -> Found<()> {
        let place = u64::from(number);
        let length = self.number(format_args!("the length of transition {number}"))?;
        let source = format_args!("the source of transition {number}");
        self.location(source, source, locations, place)?;
        let target = format_args!("the target of transition {number}");
        self.location(target, target, locations, place)?;
        self.byte(format_args!("the event of transition {number}"))?;
        let starts = self.starts(number, timers)?;
        let tests = self.byte(format_args!("the count of tests of transition {number}"))?;
        let due = self.version.record_length(starts, tests);
        if length != due {
            let [starts, tests] = [counted(starts, "start", "starts"), counted(tests, "test", "tests")];
            let words = format!("the length of transition {number} is {length}; with {starts} and {tests} it is {due}");
            return Err(Cause::nowhere(3, words));
        }
        if tests > MOST_TESTS {
            return Err(too_many(place, format_args!("transition {number} has {tests} tests"), MOST_TESTS));
        }
        (0..tests).try_for_each(|_| self.test(number, timers))
    }

    /// The starts of a transition with their count, which it returns.
    fn starts(&mut self, number: u16, timers: u8) -> Found<u8> {
        let place = u64::from(number);
        let count = self.byte(format_args!("the count of starts of transition {number}"))?;
        if count > MOST_STARTS {
            return Err(too_many(place, format_args!("transition {number} has {count} starts"), MOST_STARTS));
        }
        let mut last = None;
        for _ in 0..count {
            let field = format_args!("the starts of transition {number}");
            let timer = self.timer(field, format_args!("transition {number} starts"), timers, place)?;
            if let Some(last) = last.filter(|&last| timer <= last) {
                let words = format!("transition {number} starts timer {timer} after timer {last}; they must rise");
                return Err(Cause::at(7, place, words));
            }
            last = Some(timer);
        }
        Ok(count)
    }

    /// A test of a transition: its timer, its code and its constant.
    fn test(&mut self, number: u16, timers: u8) -> Found<()> {
        let place = u64::from(number);
        let field = format_args!("the tests of transition {number}");
        self.timer(field, format_args!("transition {number} tests"), timers, place)?;
        let code = self.byte(field)?;
        if code > 4 {
            let words = format!("transition {number} has a test with comparison code {code}; there are codes 0 to 4");
            return Err(Cause::at(8, place, words));
        }
        match self.version {
            Version::One => self.bytes::<2>(field).map(drop),
            Version::Two | Version::Three => self.bytes::<4>(field).map(drop),
        }
    }
}
