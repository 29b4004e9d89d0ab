//! Why a call is refused: one sentence with the numbers in it, found by this crate. A [`Cause`] has its refusal beside the
//! words, so that it can be held against the refusal that was answered.

use std::fmt::Display;

use crate::analysis::judge;
use crate::chart::{Chart, Test, Transition};
use crate::controller::{Start, State};
use crate::diagnosis;
use crate::drawing::Drawing;
use crate::limits::{
    COUNTER_LARGEST_CONSTANT, LARGEST_CONSTANT_VERSION_1, MOST_HEADS, MOST_TICKS, MOST_TIMERS, NOWHERE,
};
use crate::paths::shortest;
use crate::refusal::Refusal;
use crate::traces::{FailedTest, Moment, Off, RefusedStep, Wrong};

/// A refusal, and why it comes.
#[derive(Clone, Debug, PartialEq, Eq)]
pub struct Cause {
    pub refusal: Refusal,
    words: String,
}

impl Cause {
    /// The refusal `number` at `place`, in words.
    pub(crate) fn at(number: u64, place: u64, words: impl Into<String>) -> Cause {
        Cause { refusal: Refusal::at(number, place), words: words.into() }
    }

    /// The refusal `number` without a place, in words.
    pub(crate) fn nowhere(number: u64, words: impl Into<String>) -> Cause {
        Cause::at(number, NOWHERE, words)
    }

    /// The same, as the cause of one head among several.
    fn of_head(self, head: usize) -> Cause {
        Cause { words: format!("head {head}: {}", self.words), ..self }
    }

    /// The sentence, with the refusal's number before it.
    pub fn sentence(&self) -> String {
        format!("{}: {}", self.refusal.number, self.words)
    }
}

/// So many things: the number, and the words for one or for several.
pub(crate) fn counted<N: Display + PartialEq + From<u8>>(count: N, one: &str, several: &str) -> String {
    let words = if count == N::from(1) { one } else { several };
    format!("{count} {words}")
}

/// Which things there are, numbered from 0.
pub(crate) fn numbered(count: impl Into<usize>, thing: &str) -> String {
    match count.into() {
        0 => format!("there are no {thing}s"),
        1 => format!("there is {thing} 0"),
        count => format!("there are {thing}s 0 to {}", count - 1),
    }
}

/// Why a file is refused with 1 to 10; none if this crate finds no such cause.
pub fn of_file(file: &[u8], refusal: Refusal) -> Option<String> {
    cause_of_file(file).filter(|cause| cause.refusal == refusal).map(|cause| cause.sentence())
}

/// Why a board of `k` timers is refused (11).
pub fn of_board(k: u32) -> String {
    cause_of_board(k).sentence()
}

/// Why a file is refused (1 to 10); none if it is not.
pub fn cause_of_file(file: &[u8]) -> Option<Cause> {
    diagnosis::of_file(file).or_else(|| cause_of_chart(&Chart::read(file).ok()?))
}

/// Why a chart is refused (9 and 10); none if it is not.
fn cause_of_chart(chart: &Chart) -> Option<Cause> {
    let refusal = judge(chart).err()?;
    match refusal.number {
        9 => {
            let (initial, location) = (chart.initial(), refusal.place);
            let words = format!("no path from the initial location {initial} reaches location {location}");
            Some(Cause::at(9, location, words))
        }
        _ => cause_of_test(chart, refusal.place),
    }
}

/// Why a transition's test is refused (10): the lowest of the timers that it tests to which there is a path that starts
/// it nowhere, with a shortest such path.
fn cause_of_test(chart: &Chart, place: u64) -> Option<Cause> {
    let transition = chart.transitions().get(usize::try_from(place).ok()?)?;
    let path_without = |timer: u8| {
        let leaves_alone = |other: &Transition| !other.starts.has(timer);
        shortest(chart, chart.initial(), transition.source, leaves_alone)
    };
    let (timer, path) =
        transition.tested.into_iter().find_map(|timer| path_without(timer).map(|path| (timer, path)))?;
    let numbers: Vec<String> = path.iter().map(u16::to_string).collect();
    let path = if path.is_empty() { "the empty path".to_string() } else { format!("the path {}", numbers.join(", ")) };
    let words = format!("transition {place} tests timer {timer}; {path} reaches it and starts timer {timer} nowhere");
    Some(Cause::at(10, place, words))
}

/// Why a board of `k` timers is refused (11).
fn cause_of_board(k: u32) -> Cause {
    Cause::nowhere(11, format!("K is {k}; a board has at most {MOST_TIMERS} timers"))
}

/// Why the writer refuses a chart (2 to 8, 17); none if it does not. The fields that it judges are those of the chart's
/// file, in the same order; constants that the file has no room for are cut there, and looked at last.
pub fn cause_of_drawing(drawing: &Drawing) -> Option<Cause> {
    diagnosis::of_file(&drawing.file()).or_else(|| cause_of_version_1(drawing))
}

/// Why a chart cannot be written in version 1, if that is its version (17): its first constant that is too large.
fn cause_of_version_1(drawing: &Drawing) -> Option<Cause> {
    let constants = drawing
        .transitions
        .iter()
        .enumerate()
        .flat_map(|(number, transition)| transition.tests.iter().map(move |&(_, _, constant)| (number, constant)));
    let largest = LARGEST_CONSTANT_VERSION_1;
    let (number, constant) = constants.into_iter().find(|&(_, constant)| drawing.version == 1 && constant > largest)?;
    let limit = format!("the largest constant of version 1 is {largest}");
    Some(Cause::nowhere(17, format!("transition {number} has a test with constant {constant}; {limit}")))
}

/// Why the counter board refuses a chart (18): its first constant that is too large; none if it does not.
pub fn cause_of_constants(chart: &Chart) -> Option<Cause> {
    let too_large = |test: &&Test| test.constant > COUNTER_LARGEST_CONSTANT;
    let first = |transition: &Transition| chart.tests(transition).iter().find(too_large).map(|test| test.constant);
    let mut transitions = chart.transitions().iter().enumerate();
    let (number, constant) = transitions.find_map(|(number, transition)| Some((number, first(transition)?)))?;
    let limit = format!("the largest constant of the counter board is {COUNTER_LARGEST_CONSTANT}");
    Some(Cause::nowhere(18, format!("transition {number} has a test with constant {constant}; {limit}")))
}

/// Why starting counts are refused (12); none if they are not.
pub fn cause_of_counts(chart: &Chart, counts: &[u32]) -> Option<Cause> {
    if counts.len() != usize::from(chart.timers()) {
        let given = match counts.len() {
            0 => "there are no starting counts".to_string(),
            1 => "there is 1 starting count".to_string(),
            number => format!("there are {number} starting counts"),
        };
        let timers = match chart.timers() {
            0 => "no timers".to_string(),
            timers => counted(timers, "timer", "timers"),
        };
        return Some(Cause::nowhere(12, format!("{given}; the chart has {timers}")));
    }
    let timer = counts.iter().position(|&count| count > MOST_TICKS)?;
    let count = counts[timer];
    let words = format!("the starting count of timer {timer} is {count}; at most {MOST_TICKS} is allowed");
    Some(Cause::at(12, timer as u64, words))
}

/// Why a step list is refused whose lists differ in length (13).
pub fn cause_of_lengths(transitions: usize, times: usize) -> Cause {
    Cause::nowhere(13, format!("there are {transitions} transitions and {times} times"))
}

/// Why lent memory is refused (21).
pub fn cause_of_room() -> Cause {
    Cause::nowhere(21, "there is no room")
}

/// Why a controller's state is refused (32).
pub fn cause_of_state() -> Cause {
    Cause::nowhere(32, "the state handed in cannot be")
}

/// Why a step is refused (14, 15, 22, 23, 24).
pub fn cause_of_step(refused: &RefusedStep) -> Cause {
    let RefusedStep { step, transition, moment, wrong } = refused;
    let at = match moment {
        Moment::Time(time) => format!("at {time}"),
        Moment::Reading(reading) => format!("at the reading {reading}"),
    };
    let words = match wrong {
        Wrong::NoTransition { transitions } => {
            format!("step {step} names transition {transition}; {}", numbered(*transitions, "transition"))
        }
        Wrong::TooLate => format!("step {step} is {at}; {}", largest_time()),
        Wrong::OtherSource { source, location } => {
            let leaves = format!("takes transition {transition}, which leaves location {source}");
            format!("step {step} {leaves}; the present location is {location}")
        }
        Wrong::Early { time } => format!("step {step} is {at}; the present time is {time}"),
        Wrong::NotMet(tests) => {
            let tests: Vec<String> = tests.iter().map(words_of_test).collect();
            format!("step {step} takes transition {transition} {at}: {}", tests.join("; "))
        }
    };
    Cause::at(wrong.number(), *step as u64, words)
}

/// A test that is not met: the count, what is asked, and how far the count is off.
fn words_of_test(failed: &FailedTest) -> String {
    let FailedTest { test, count } = failed;
    let Test { timer, comparison, constant } = test;
    let off = match failed.off() {
        Off::TooMany(ticks) => format!("{ticks} too many"),
        Off::TooFew(ticks) => format!("{ticks} too few"),
        Off::Never => "which no count is".to_string(),
    };
    format!("timer {timer} is at {count}, {} {constant} is asked, {off}", comparison.words())
}

fn largest_time() -> String {
    format!("the largest time is {MOST_TICKS}")
}

/// Why a controller's set-up is refused (25, 1 to 12); none if it is not. Judged head by head.
pub fn cause_of_set_up(heads: &[Start], k: u32) -> Option<Cause> {
    let first = |cause: &dyn Fn(&Start) -> Option<Cause>| {
        heads.iter().enumerate().find_map(|(number, head)| Some(cause(head)?.of_head(number)))
    };
    cause_of_number(heads.len())
        .or_else(|| first(&|head| cause_of_file(head.file)))
        .or_else(|| (k > u32::from(MOST_TIMERS)).then(|| cause_of_board(k)))
        .or_else(|| first(&|head| cause_of_counts(&Chart::read(head.file).ok()?, head.counts)))
        .or_else(|| cause_of_blocks(heads, k))
}

/// Why so many heads are refused (25); none if they are not.
fn cause_of_number(heads: usize) -> Option<Cause> {
    let given = match heads {
        0 => "there are no heads".to_string(),
        1..=MOST_HEADS => return None,
        _ => format!("there are {heads} heads"),
    };
    Some(Cause::nowhere(25, format!("{given}; 1 to {MOST_HEADS} are allowed")))
}

/// Why the blocks of heads with accepted charts are refused (25); none if they are not.
fn cause_of_blocks(heads: &[Start], k: u32) -> Option<Cause> {
    let mut together = 0;
    for (number, head) in heads.iter().enumerate() {
        let timers = Chart::read(head.file).ok()?.timers();
        let block = head.block;
        if block < u64::from(timers) {
            let block = counted(block, "timer", "timers");
            return Some(Cause::nowhere(25, format!("the block of head {number} has {block}; its chart has {timers}")));
        }
        together += u128::from(block);
        if together > u128::from(k) {
            let timers = counted(together, "timer", "timers");
            let words = format!("the blocks up to head {number} have {timers} together; K is {k}");
            return Some(Cause::nowhere(25, words));
        }
    }
    None
}

/// Why an event for a head of so many is refused, in a state that can be (26, 15, 23); none if it is not.
pub fn cause_of_event(state: &State, heads: usize, head: u32, time: u64) -> Option<Cause> {
    let Some(named) = state.heads[..heads].get(head as usize) else {
        return Some(Cause::nowhere(26, format!("there is no head {head}; {}", numbered(heads, "head"))));
    };
    if named.waiting != 0 {
        return Some(Cause::nowhere(26, format!("an event waits at head {head} already")));
    }
    if time > u64::from(MOST_TICKS) {
        return Some(Cause::nowhere(15, format!("the event's time is {time}; {}", largest_time())));
    }
    let present = named.time;
    let words = format!("the event's time is {time}; the time of head {head} is {present}");
    (time < present).then(|| Cause::nowhere(23, words))
}
