//! A step list on the counter board, with a row for each step. Location and acceptance of a row are the library's answer
//! for the steps so far; the ticks passed and the counts are those of this crate's trace.

use super::{agreed, flag, number, numbers, pairs, read, refused, starting_counts, Answered};
use crate::counter::{self, CounterPlaying};
use crate::json::Json;
use crate::library;
use crate::reasons::{cause_of_constants, cause_of_counts, cause_of_file, cause_of_step};
use crate::refusal::Answer;
use crate::traces::{self, CounterStep};

/// Judges 1 to 10, 12 and 18, then of each step 14, 22 and 24.
pub fn answer(request: &Json) -> Answered {
    let file = request.bytes("file");
    let (chart, shown) = read::chart(&file)?;
    let counts = starting_counts(request, chart.timers());
    let first = request.number_as("first");
    let (transitions, readings): (Vec<u32>, Vec<u16>) = pairs(request.list("steps"));
    let library =
        |steps: usize| library::play_counter(&file, &counts, &transitions[..steps], first, &readings[..steps]);
    let own = counter::play_counter(&file, &counts, &transitions, first, &readings);
    let whole = agreed("play_counter", library(readings.len()), own)?;
    let before = cause_of_file(&file).or_else(|| cause_of_counts(&chart, &counts));
    let before = before.or_else(|| cause_of_constants(&chart));
    if let (Err(refusal), Some(_)) = (whole, &before) {
        return Err(refused(refusal, before, vec![]));
    }
    let trace = traces::play_counter(&chart, &counts, &transitions, first, &readings);
    let mut rows = Vec::new();
    for (index, step) in trace.steps.iter().enumerate() {
        rows.push(row(transitions[index], readings[index], library(index + 1), step)?);
    }
    let mut entries = vec![("chart", shown), ("counts", numbers(&counts)), ("steps", Json::List(rows))];
    match whole {
        Ok(CounterPlaying { location, accepting }) => {
            entries.extend([("accepting", flag(accepting)), ("location", number(location))]);
            Ok(Json::object(entries))
        }
        Err(refusal) => Err(refused(refusal, trace.refused.as_ref().map(cause_of_step), entries)),
    }
}

/// The row of a step: the library's answer for the steps up to it, if it is the trace's.
fn row(transition: u32, reading: u16, library: Answer<CounterPlaying>, step: &CounterStep) -> Answered {
    let played = agreed("play_counter of the steps so far", library, Ok(step.playing))?;
    let CounterPlaying { location, accepting } = played.expect("the trace has taken the step");
    Ok(Json::object([
        ("accepting", flag(accepting)),
        ("counts", numbers(&step.counts)),
        ("location", number(location)),
        ("passed", number(step.passed)),
        ("reading", number(reading)),
        ("transition", number(transition)),
    ]))
}
