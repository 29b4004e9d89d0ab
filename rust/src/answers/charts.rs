//! A chart on its way between the lines of the command and the lists of the library's reader and writer. In between it is
//! a drawing, which holds whatever the one or the other says.

use super::{number, numbers, words};
use crate::chart::Comparison;
use crate::drawing::{Arrow, Drawing};
use crate::json::Json;
use crate::limits::MOST_TIMERS;
use crate::lists::{Header, OwnedLists};
use crate::sets::TimerSet;

impl OwnedLists {
    /// The lists of a drawing, whose starts are timers that a chart can have.
    pub fn of(drawing: &Drawing) -> OwnedLists {
        let mut lists = OwnedLists { accepting: drawing.accepting.clone(), ..OwnedLists::default() };
        for transition in &drawing.transitions {
            lists.sources.push(transition.source);
            lists.targets.push(transition.target);
            lists.events.push(transition.event);
            lists.starts.push(transition.starts.iter().copied().collect::<TimerSet>().word());
            lists.test_counts.push(u8::try_from(transition.tests.len()).expect("at most 255 tests"));
            for &(timer, code, constant) in &transition.tests {
                lists.timers.push(timer);
                lists.codes.push(code);
                lists.constants.push(constant);
            }
        }
        lists
    }

    /// The drawing that the header and the lists say: of each list the entries that are due.
    pub fn drawing(&self, header: &Header) -> Drawing {
        let mut tests =
            self.timers.iter().zip(&self.codes).zip(&self.constants).map(|((&timer, &code), &of)| (timer, code, of));
        let transition = |index: usize| Arrow {
            source: self.sources[index],
            target: self.targets[index],
            event: self.events[index],
            starts: TimerSet::from_word(self.starts[index]).into_iter().collect(),
            tests: tests.by_ref().take(usize::from(self.test_counts[index])).collect(),
        };
        Drawing {
            version: header.version,
            locations: header.locations,
            initial: header.initial,
            timers: header.timers,
            accepting: self.accepting[..usize::from(header.accepting)].to_vec(),
            transitions: (0..usize::from(header.transitions)).map(transition).collect(),
        }
    }
}

/// The header of a drawing.
pub fn header_of(drawing: &Drawing) -> Header {
    let length = |length: usize| u16::try_from(length).expect("a list of the chart has at most 65535 entries");
    Header {
        version: drawing.version,
        locations: drawing.locations,
        initial: drawing.initial,
        timers: drawing.timers,
        accepting: length(drawing.accepting.len()),
        transitions: length(drawing.transitions.len()),
    }
}

/// A drawing without a wrong code, as the answers show it.
pub fn drawing_json(drawing: &Drawing) -> Json {
    Json::object([
        ("accepting", numbers(&drawing.accepting)),
        ("initial", number(drawing.initial)),
        ("locations", number(drawing.locations)),
        ("timers", number(drawing.timers)),
        ("transitions", Json::List(drawing.transitions.iter().map(transition_json).collect())),
        ("version", number(drawing.version)),
    ])
}

fn transition_json(transition: &Arrow) -> Json {
    let tests = transition.tests.iter().map(|&(timer, code, constant)| {
        let comparison = Comparison::from_code(code).expect("the chart was read");
        Json::object([
            ("comparison", Json::of_text(words(comparison))),
            ("constant", number(constant)),
            ("timer", number(timer)),
        ])
    });
    Json::object([
        ("event", number(transition.event)),
        ("source", number(transition.source)),
        ("starts", numbers(&transition.starts)),
        ("target", number(transition.target)),
        ("tests", Json::List(tests.collect())),
    ])
}

/// The drawing that a request has. Its starts are put in order, since the lists hold them as a set.
pub fn drawing_of_json(chart: &Json) -> Drawing {
    Drawing {
        version: chart.number_as("version"),
        locations: chart.number_as("locations"),
        initial: chart.number_as("initial"),
        timers: chart.number_as("timers"),
        accepting: chart.numbers("accepting"),
        transitions: chart.list("transitions").iter().map(transition_of_json).collect(),
    }
}

fn transition_of_json(transition: &Json) -> Arrow {
    let starts: Vec<u8> = transition.numbers("starts");
    assert!(starts.iter().all(|&timer| timer < MOST_TIMERS), "a set has no timer over 63: {starts:?}");
    Arrow {
        source: transition.number_as("source"),
        target: transition.number_as("target"),
        event: transition.number_as("event"),
        starts: starts.into_iter().collect::<TimerSet>().into_iter().collect(),
        tests: transition.list("tests").iter().map(test_of_json).collect(),
    }
}

fn test_of_json(test: &Json) -> (u8, u8, u32) {
    let asked = test.text("comparison");
    let code = (0..5).find(|&code| Comparison::from_code(code).is_some_and(|comparison| words(comparison) == asked));
    let code = code.unwrap_or_else(|| panic!("no such comparison: {asked}"));
    (test.number_as("timer"), code, test.number_as("constant"))
}
