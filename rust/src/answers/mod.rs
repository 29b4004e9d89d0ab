//! The answers that the command words for people. A request is one JSON object, and so is its answer. Each answer is the
//! proved library's; this crate's own implementation is asked the same, the two are compared, and what the library does
//! not tell (paths, families, links, counts, reasons) comes from this crate. Where the two differ there is no answer but a
//! fault.

mod charts;
mod check;
mod counter;
mod derive;
mod drive;
mod play;
mod read;
mod write;

use std::fmt::Debug;

use crate::chart::{Chart, Comparison};
use crate::drawing::Drawing;
use crate::json::Json;
use crate::reasons::Cause;
use crate::refusal::{Answer, Refusal};

/// What a call comes to: a result, or what ends it before there is one.
pub type Answered = Result<Json, End>;

/// What ends a call before its result.
#[derive(Clone, Debug, PartialEq)]
pub enum End {
    /// The library and this crate differ, or what this crate adds does not fit the library's answer.
    Fault(String),
    /// The library refuses, and this crate does too, for this reason; `beside` has the entries that the answer has then.
    Refused { refusal: Refusal, reason: String, beside: Vec<(&'static str, Json)> },
}

/// The answer to a request.
pub fn answer(request: &Json) -> Json {
    let answered = match request.text("call") {
        "check" => check::answer(request),
        "counter" => counter::answer(request),
        "derive" => derive::answer(request),
        "drive" => drive::answer(request),
        "play" => play::answer(request),
        "read" => read::answer(request),
        "write" => write::answer(request),
        call => panic!("no such call: {call}"),
    };
    match answered {
        Ok(result) => result,
        Err(End::Fault(sentence)) => Json::object([("fault", Json::of_text(sentence))]),
        Err(End::Refused { refusal, reason, beside }) => {
            let refused = numbers(&[refusal.number, refusal.place]);
            Json::object(beside).with("refused", refused).with("reason", Json::of_text(reason))
        }
    }
}

/// The library's answer, if this crate's is the same.
pub(crate) fn agreed<T: Debug + PartialEq>(call: &str, library: Answer<T>, own: Answer<T>) -> Result<Answer<T>, End> {
    if library == own {
        Ok(library)
    } else {
        let sentence = format!("{call}: the library answers {library:?}, the independent implementation {own:?}");
        Err(End::Fault(sentence))
    }
}

/// A fault if what the library left in lent memory is not what this crate did.
pub(crate) fn same<T: Debug + PartialEq>(memory: &str, library: &T, own: &T) -> Result<(), End> {
    agreed(memory, Ok(library), Ok(own)).map(drop)
}

/// A refusal that the library and this crate agree on, with the cause that this crate finds; a fault if that is another.
/// `beside` has the entries that the answer has then.
pub(crate) fn refused(refusal: Refusal, cause: Option<Cause>, beside: Vec<(&'static str, Json)>) -> End {
    match cause.filter(|cause| cause.refusal == refusal) {
        Some(cause) => End::Refused { refusal, reason: cause.sentence(), beside },
        None => End::Fault(format!("{refusal}: the independent implementation finds no cause for it")),
    }
}

/// A chart as the answers show it.
pub fn chart_json(chart: &Chart) -> Json {
    charts::drawing_json(&Drawing::from(chart))
}

/// A comparison in document 01's words.
pub(crate) fn words(comparison: Comparison) -> &'static str {
    comparison.words()
}

fn flag(value: bool) -> Json {
    Json::Bool(value)
}

fn number(number: impl Into<u64>) -> Json {
    Json::Number(number.into())
}

fn numbers<T: Copy + Into<u64>>(numbers: &[T]) -> Json {
    Json::of_numbers(numbers.iter().copied())
}

/// The starting counts of a request; where it has none, 0 for each of so many timers.
fn starting_counts(request: &Json, timers: u8) -> Vec<u32> {
    match request.get("counts") {
        Some(Json::Null) => vec![0; usize::from(timers)],
        _ => request.numbers("counts"),
    }
}

/// The two numbers of each entry, as two lists: what the library is handed for a step list.
fn pairs<A: TryFrom<u64>, B: TryFrom<u64>>(entries: &[Json]) -> (Vec<A>, Vec<B>) {
    let pair = |entry: &Json| match entry.as_numbers()[..] {
        [first, second] => Some((A::try_from(first).ok()?, B::try_from(second).ok()?)),
        _ => None,
    };
    entries.iter().map(|entry| pair(entry).unwrap_or_else(|| panic!("no step: {entry}"))).unzip()
}

#[cfg(test)]
mod tests {
    use super::*;

    /// The sentence of a fault.
    fn fault<T: Debug>(end: Result<T, End>) -> String {
        match end {
            Err(End::Fault(sentence)) => sentence,
            other => panic!("no fault: {other:?}"),
        }
    }

    #[test]
    fn a_difference_is_a_fault() {
        let refusals = [Refusal::at(10, 3), Refusal::at(10, 4)];
        assert_eq!(agreed("play", Ok(7), Ok(7)), Ok(Ok(7)));
        assert_eq!(agreed::<u8>("play", Err(refusals[0]), Err(refusals[0])), Ok(Err(refusals[0])));
        let sentence = "play: the library answers Ok(7), the independent implementation Ok(8)";
        assert_eq!(fault(agreed("play", Ok(7), Ok(8))), sentence);
        assert!(fault(agreed("play", Ok(7), Err(refusals[0]))).starts_with("play: the library answers Ok(7), "));
        assert!(fault(agreed("play", Err(refusals[0]), Ok(7))).starts_with("play: the library answers Err(Refusal"));
        assert!(fault(agreed::<u8>("play", Err(refusals[0]), Err(refusals[1]))).starts_with("play: "));
        assert_eq!(same("the live sets", &[1, 2], &[1, 2]), Ok(()));
        let sentence = "the live sets: the library answers Ok([1, 2]), the independent implementation Ok([1, 3])";
        assert_eq!(fault(same("the live sets", &[1, 2], &[1, 3])), sentence);
    }

    #[test]
    fn a_refusal_without_its_cause_is_a_fault() {
        let refusal = Refusal::at(10, 3);
        let of = |cause: Option<Cause>| refused(refusal, cause, vec![]);
        let reason = "10: transition 3 tests timer 1".to_string();
        let found = of(Some(Cause::at(10, 3, "transition 3 tests timer 1")));
        assert_eq!(found, End::Refused { refusal, reason, beside: vec![] });
        let sentence = "refused 10 3: the independent implementation finds no cause for it";
        for cause in [None, Some(Cause::at(10, 4, "")), Some(Cause::at(9, 3, ""))] {
            assert_eq!(fault(Err::<(), End>(of(cause))), sentence);
        }
    }
}
