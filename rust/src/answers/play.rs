//! A step list on a file, with a row for each step. Location, time and acceptance of a row are the library's answer for the
//! steps so far; the counts are those of this crate's trace.

use super::{agreed, flag, number, numbers, pairs, read, refused, starting_counts, Answered};
use crate::json::Json;
use crate::library;
use crate::player::{self, Playing};
use crate::reasons::{cause_of_counts, cause_of_file, cause_of_step};
use crate::refusal::Answer;
use crate::traces::{self, PlayedStep};

/// Judges 1 to 10 and 12, then of each step 14, 15, 22, 23 and 24.
pub fn answer(request: &Json) -> Answered {
    let file = request.bytes("file");
    let (chart, shown) = read::chart(&file)?;
    let counts = starting_counts(request, chart.timers());
    let (transitions, times): (Vec<u32>, Vec<u64>) = pairs(request.list("steps"));
    let library = |steps: usize| library::play(&file, &counts, &transitions[..steps], &times[..steps]);
    let whole = agreed("play", library(times.len()), player::play(&file, &counts, &transitions, &times))?;
    let before = cause_of_file(&file).or_else(|| cause_of_counts(&chart, &counts));
    if let (Err(refusal), Some(_)) = (whole, &before) {
        return Err(refused(refusal, before, vec![]));
    }
    let trace = traces::play(&chart, &counts, &transitions, &times);
    let mut rows = Vec::new();
    for (index, step) in trace.steps.iter().enumerate() {
        rows.push(row(transitions[index], library(index + 1), step)?);
    }
    let mut entries = vec![("chart", shown), ("counts", numbers(&counts)), ("steps", Json::List(rows))];
    match whole {
        Ok(Playing { location, time, accepting }) => {
            entries.extend([("accepting", flag(accepting)), ("location", number(location)), ("time", number(time))]);
            Ok(Json::object(entries))
        }
        Err(refusal) => Err(refused(refusal, trace.refused.as_ref().map(cause_of_step), entries)),
    }
}

/// The row of a step: the library's answer for the steps up to it, if it is the trace's.
fn row(transition: u32, library: Answer<Playing>, step: &PlayedStep) -> Answered {
    let played = agreed("play of the steps so far", library, Ok(step.playing))?;
    let Playing { location, time, accepting } = played.expect("the trace has taken the step");
    Ok(Json::object([
        ("accepting", flag(accepting)),
        ("counts", numbers(&step.counts)),
        ("location", number(location)),
        ("time", number(time)),
        ("transition", number(transition)),
    ]))
}
