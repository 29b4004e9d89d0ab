//! Drawings: charts as plain data, put into files without being judged, so that files which must be refused can be made
//! too. For tests and measurements, and for charts that the command hands to the writer.

use crate::chart::{Chart, Test, Transition};

/// A chart as drawn. Nothing is known of its numbers.
#[derive(Clone, Debug, PartialEq, Eq)]
pub struct Drawing {
    pub version: u8,
    pub locations: u16,
    pub initial: u16,
    pub timers: u8,
    pub accepting: Vec<u16>,
    pub transitions: Vec<Arrow>,
}

/// A transition as drawn.
#[derive(Clone, Debug, Default, PartialEq, Eq)]
pub struct Arrow {
    pub source: u16,
    pub target: u16,
    pub event: u8,
    pub starts: Vec<u8>,
    /// Timer, comparison code, constant.
    pub tests: Vec<(u8, u8, u32)>,
}

pub const AT_MOST: u8 = 0;
pub const BELOW: u8 = 1;
pub const AT_LEAST: u8 = 2;
pub const ABOVE: u8 = 3;
pub const EQUAL: u8 = 4;

impl Arrow {
    /// A transition with event 0, no starts and no tests.
    pub fn new(source: u16, target: u16) -> Self {
        Arrow { source, target, ..Arrow::default() }
    }

    pub fn event(mut self, event: u8) -> Self {
        self.event = event;
        self
    }

    pub fn starts(mut self, timers: &[u8]) -> Self {
        self.starts = timers.to_vec();
        self
    }

    pub fn tests(mut self, timer: u8, code: u8, constant: u32) -> Self {
        self.tests.push((timer, code, constant));
        self
    }

    /// The record's length without its first two bytes, if a constant has so many bytes.
    fn length(&self, width: usize) -> u16 {
        (7 + self.starts.len() + (2 + width) * self.tests.len()) as u16
    }

    /// Whether the transition starts a timer.
    pub fn is_start(&self, timer: u8) -> bool {
        self.starts.contains(&timer)
    }

    /// Whether a test of the transition names a timer.
    pub fn is_test(&self, timer: u8) -> bool {
        self.tests.iter().any(|test| test.0 == timer)
    }
}

/// A drawing of version 1 with nothing in it.
impl Default for Drawing {
    fn default() -> Self {
        Drawing { version: 1, locations: 0, initial: 0, timers: 0, accepting: Vec::new(), transitions: Vec::new() }
    }
}

impl Drawing {
    /// A drawing of version 1 whose location 0 is initial and whose last location accepts.
    pub fn new(locations: u16, timers: u8, transitions: Vec<Arrow>) -> Self {
        Drawing { locations, timers, accepting: vec![locations - 1], transitions, ..Drawing::default() }
    }

    pub fn version(mut self, version: u8) -> Self {
        self.version = version;
        self
    }

    /// The same chart with its transitions written last to first.
    pub fn last_to_first(mut self) -> Self {
        self.transitions.reverse();
        self
    }

    /// The same chart with transitions from the initial location to itself that tell all timers apart, so that none has a
    /// twin: each is for a binary digit of the timers' numbers, and starts the timers that have a 1 there; six for 64
    /// timers. Nothing is tested on them, and in an accepted chart nothing is live at the initial location: so live sets
    /// and rounds stay, and families and numbers are what they are if each timer counts for itself.
    pub fn told_apart(mut self) -> Self {
        let digits = u8::BITS - self.timers.saturating_sub(1).leading_zeros();
        for digit in 0..digits {
            let starts: Vec<u8> = (0..self.timers).filter(|timer| timer >> digit & 1 == 1).collect();
            self.transitions.push(Arrow::new(self.initial, self.initial).starts(&starts));
        }
        self
    }

    /// The bytes of a constant: two in version 1, four in versions 2 and 3 and in those that there are not.
    fn width(&self) -> usize {
        match self.version {
            1 => 2,
            _ => 4,
        }
    }

    /// The drawing's file. Numbers too large for their field are cut.
    pub fn file(&self) -> Vec<u8> {
        self.file_with(|_, length| length)
    }

    /// The drawing's file, with the length of each record as `length` gives it from its number and its true length.
    pub fn file_with(&self, length: impl Fn(usize, u16) -> u16) -> Vec<u8> {
        let width = self.width();
        let mut body = Vec::new();
        body.extend(self.locations.to_be_bytes());
        body.extend(self.initial.to_be_bytes());
        body.push(self.timers);
        body.extend((self.accepting.len() as u16).to_be_bytes());
        for location in &self.accepting {
            body.extend(location.to_be_bytes());
        }
        body.extend((self.transitions.len() as u16).to_be_bytes());
        for (index, transition) in self.transitions.iter().enumerate() {
            body.extend(length(index, transition.length(width)).to_be_bytes());
            body.extend(transition.source.to_be_bytes());
            body.extend(transition.target.to_be_bytes());
            body.push(transition.event);
            body.push(transition.starts.len() as u8);
            body.extend(&transition.starts);
            body.push(transition.tests.len() as u8);
            for (timer, code, constant) in &transition.tests {
                body.extend([*timer, *code]);
                body.extend(&constant.to_be_bytes()[4 - width..]);
            }
        }
        enclosed(self.version, &body)
    }
}

impl From<&Chart> for Drawing {
    fn from(chart: &Chart) -> Self {
        let numbers = |test: &Test| (test.timer, test.comparison as u8, test.constant);
        let arrow = |transition: &Transition| Arrow {
            source: transition.source.into(),
            target: transition.target.into(),
            event: transition.event,
            starts: transition.starts.into_iter().collect(),
            tests: chart.tests(transition).iter().map(numbers).collect(),
        };
        Drawing {
            version: chart.version() as u8,
            locations: chart.locations(),
            initial: chart.initial().into(),
            timers: chart.timers(),
            accepting: chart.accepting().iter().map(u16::from).collect(),
            transitions: chart.transitions().iter().map(arrow).collect(),
        }
    }
}

/// A file of that version with this body.
pub fn enclosed(version: u8, body: &[u8]) -> Vec<u8> {
    let mut file = vec![version];
    file.extend((body.len() as u32).to_be_bytes());
    file.extend(body);
    file
}

/// The drawing of a chart file of the repository, which the reader must accept.
fn drawn(file: &[u8]) -> Drawing {
    Drawing::from(&Chart::read(file).expect("a chart file of charts/ is read"))
}

/// Chart A of document 01: used 3, floor 3 (document 02, P1), at most 2 timers live at once.
pub fn chart_a() -> Drawing {
    drawn(include_bytes!("../../charts/a.chart"))
}

/// Chart B of document 01: its second transition tests board timer 0 and starts it.
pub fn chart_b() -> Drawing {
    drawn(include_bytes!("../../charts/b.chart"))
}

/// Chart C of document 01: drawn timer 0 gets two board numbers.
pub fn chart_c() -> Drawing {
    drawn(include_bytes!("../../charts/c.chart"))
}

/// The chart of one location and nothing else, 14 bytes; no location accepts.
pub fn one_location() -> Drawing {
    drawn(include_bytes!("../../charts/one_location.chart"))
}

/// One location with a transition to itself that starts timer 0, no tests: used 0.
pub fn self_loop() -> Drawing {
    drawn(include_bytes!("../../charts/self_loop.chart"))
}

/// Two locations, 0→0 starts 0; 0→1 tests 0 at least 0: refused 10, place 1.
pub fn never_started() -> Drawing {
    drawn(include_bytes!("../../charts/never_started.chart"))
}

/// Three locations, version 2: 0→1 starts 0; 1→2 tests 0, by that code and constant.
pub fn dwell(code: u8, constant: u32) -> Drawing {
    Drawing::new(3, 1, vec![Arrow::new(0, 1).starts(&[0]), Arrow::new(1, 2).tests(0, code, constant)]).version(2)
}

/// Four locations, version 2: 0→1 starts 0; 1→2; then 2→3 tests 0 above that constant, 2→3 equal to it, 2→3 at most it;
/// and 1→1.
pub fn three_tests(constant: u32) -> Drawing {
    Drawing::new(
        4,
        1,
        vec![
            Arrow::new(0, 1).starts(&[0]),
            Arrow::new(1, 2),
            Arrow::new(2, 3).tests(0, ABOVE, constant),
            Arrow::new(2, 3).tests(0, EQUAL, constant),
            Arrow::new(2, 3).tests(0, AT_MOST, constant),
            Arrow::new(1, 1),
        ],
    )
    .version(2)
}

/// First fit uses 3 timers, and 2 would do: families 128, 130, 192 and 193 get 0, 1, 0 and 2.
pub fn over_floor() -> Drawing {
    Drawing::new(
        5,
        3,
        vec![
            Arrow::new(0, 3).starts(&[0, 1]),
            Arrow::new(3, 1).tests(0, AT_MOST, 3),
            Arrow::new(3, 4).starts(&[2]),
            Arrow::new(4, 2).tests(1, AT_MOST, 5).starts(&[0]),
            Arrow::new(2, 1).tests(0, AT_MOST, 3).tests(2, AT_MOST, 9),
        ],
    )
}

/// So many transitions one after the other from a location where timer 0 was started: each tests the one of timers 0 and
/// 1 that the transition before it has started, and starts the other. That is a family each, and none meets another.
fn alternating(from: u16, transitions: u16) -> Vec<Arrow> {
    let arrow = |index: u16| {
        let (tested, started) = if index.is_multiple_of(2) { (0, 1) } else { (1, 0) };
        Arrow::new(from + index, from + index + 1).tests(tested, AT_LEAST, 0).starts(&[started])
    };
    (0..transitions).map(arrow).collect()
}

/// So many families that meet none.
pub fn lone_families(count: u16) -> Drawing {
    let mut transitions = vec![Arrow::new(0, 1).starts(&[0])];
    transitions.extend(alternating(1, count));
    Drawing::new(count + 2, 2, transitions)
}

/// Chart A with so many families more that meet none: used 3, floor 3 as long as the floor is searched.
pub fn chart_a_continued(count: u16) -> Drawing {
    let mut transitions = chart_a().transitions;
    transitions[6].starts = vec![0];
    transitions.extend(alternating(6, count));
    Drawing::new(7 + count, 3, transitions)
}

/// A row of so many locations, at least 2, each of which leads to the next; 0→1 starts 0.
fn row(locations: u16) -> Vec<Arrow> {
    let mut transitions: Vec<Arrow> = (1..locations).map(|target| Arrow::new(target - 1, target)).collect();
    transitions[0].starts = vec![0];
    transitions
}

/// A chain of so many locations, at least 3: 0→1 starts 0, the last transition tests it. Its live sets take one round
/// fewer than it has locations.
pub fn chain(locations: u16) -> Drawing {
    let mut transitions = row(locations - 1);
    transitions.push(Arrow::new(locations - 2, locations - 1).tests(0, AT_LEAST, 1));
    Drawing::new(locations, 1, transitions)
}

/// A chain of so many locations, at least 2, with a loop at its end: 0→1 starts 0, the loop tests it. Its live sets
/// take as many rounds as it has locations; no accepted chart of as many locations takes more.
pub fn looped_chain(locations: u16) -> Drawing {
    let mut transitions = row(locations);
    transitions.push(Arrow::new(locations - 1, locations - 1).tests(0, AT_LEAST, 1));
    Drawing::new(locations, 1, transitions)
}

/// Of the traps of document 01: timer 0 tested and started anew on 1→2, so that families 64 and 128 are apart.
pub fn started_anew() -> Drawing {
    Drawing::new(
        4,
        1,
        vec![
            Arrow::new(0, 1).starts(&[0]),
            Arrow::new(1, 2).tests(0, AT_LEAST, 1).starts(&[0]),
            Arrow::new(2, 3).tests(0, AT_LEAST, 1),
        ],
    )
}

/// Twins 0 and 1: 0→1 starts both; 1→2 tests 0 at least 2; 2→3 tests 1 at most 9. One board timer serves both.
pub fn two_twins() -> Drawing {
    Drawing::new(
        4,
        2,
        vec![
            Arrow::new(0, 1).starts(&[0, 1]),
            Arrow::new(1, 2).tests(0, AT_LEAST, 2),
            Arrow::new(2, 3).tests(1, AT_MOST, 9),
        ],
    )
}

/// Twins 0 and 2, and timer 1 between them: 0→1 starts 0, 2; 1→2 tests 0 at least 1, starts 1; 2→3 tests 2 at most 4, 1 at
/// most 4.
pub fn twins_around() -> Drawing {
    Drawing::new(
        4,
        3,
        vec![
            Arrow::new(0, 1).starts(&[0, 2]),
            Arrow::new(1, 2).tests(0, AT_LEAST, 1).starts(&[1]),
            Arrow::new(2, 3).tests(2, AT_MOST, 4).tests(1, AT_MOST, 4),
        ],
    )
}

/// Twins 0 and 2, of which 0 is tested nowhere, and yet names their family, so that it comes before timer 1's: 0→2 starts
/// 0, 2; 2→1 starts 1; 1→3 tests 1 at most 4, 2 at most 4.
pub fn lowest_untested() -> Drawing {
    Drawing::new(
        4,
        3,
        vec![
            Arrow::new(0, 2).starts(&[0, 2]),
            Arrow::new(2, 1).starts(&[1]),
            Arrow::new(1, 3).tests(1, AT_MOST, 4).tests(2, AT_MOST, 4),
        ],
    )
}

/// Twins 0 and 1, both live at location 1, and 1 alone at 3: 0→1 starts both; 1→2 tests 0 at least 1; 1→3; 3→4 tests 1 at
/// most 3. That is one family.
pub fn twins_on_two_ways() -> Drawing {
    Drawing::new(
        5,
        2,
        vec![
            Arrow::new(0, 1).starts(&[0, 1]),
            Arrow::new(1, 2).tests(0, AT_LEAST, 1),
            Arrow::new(1, 3),
            Arrow::new(3, 4).tests(1, AT_MOST, 3),
        ],
    )
}

/// Spare location 4, twins 0 and 1, version 3: 0→1 starts both; 1→2 tests 0 at least 2; 2→3 tests 1 at most 9; 4→1 tests 1
/// at most 5 and starts 0, which would tell the twins apart if it counted.
pub fn spare_beside_twins() -> Drawing {
    let mut drawing = two_twins().version(3);
    drawing.locations = 5;
    drawing.transitions.push(Arrow::new(4, 1).tests(1, AT_MOST, 5).starts(&[0]));
    drawing
}

/// Spare locations 4 and 5, which lead to each other, version 3: 0→1 starts 0; 1→2 tests 0 at least 1; 4→5; 5→4 tests 0 at
/// least 1; 2→3.
pub fn spare_cycle() -> Drawing {
    let transitions = vec![
        Arrow::new(0, 1).starts(&[0]),
        Arrow::new(1, 2).tests(0, AT_LEAST, 1),
        Arrow::new(4, 5),
        Arrow::new(5, 4).tests(0, AT_LEAST, 1),
        Arrow::new(2, 3),
    ];
    Drawing { accepting: vec![3], ..Drawing::new(6, 1, transitions) }.version(3)
}

/// Spare location 2, which accepts and tests a timer that nothing starts, version 3: 0→1; 2→1 tests 0 at least 0.
pub fn spare_unstarted() -> Drawing {
    Drawing::new(3, 1, vec![Arrow::new(0, 1), Arrow::new(2, 1).tests(0, AT_LEAST, 0)]).version(3)
}

/// Spare locations 2 to 5 in a row, whose last has a loop, version 3: 0→1 starts 0; 1→1 tests 0 at least 1; 2→3; 3→4; 4→5;
/// 5→5 tests 0 at least 1. If they counted, the live sets would take 5 rounds.
pub fn spare_row() -> Drawing {
    let mut transitions = vec![Arrow::new(0, 1).starts(&[0]), Arrow::new(1, 1).tests(0, AT_LEAST, 1)];
    transitions.extend([2, 3, 4].map(|source| Arrow::new(source, source + 1)));
    transitions.push(Arrow::new(5, 5).tests(0, AT_LEAST, 1));
    Drawing::new(6, 1, transitions).version(3)
}

/// Spare location 0, before the initial one, version 3: 1→2.
pub fn spare_first() -> Drawing {
    Drawing { initial: 1, ..Drawing::new(3, 0, vec![Arrow::new(1, 2)]) }.version(3)
}
