//! The derivation of a chart's board numbers: the call `derive`.
//!
//! The library gives the live sets, used, floor, searched, rounds and the rewritten file. The derivation is this crate's. It
//! is gone over once more by the definitions, its live timers are held against the library's live sets, and each board
//! number against the timer that the library's file reads in the test at the end of that live timer's path.

use super::{agreed, read, Answered, End};
use crate::analysis::{self, Analysis};
use crate::chart::{Chart, Test};
use crate::derivation::{Derivation, Family, LiveTimer, Meeting};
use crate::json::Json;
use crate::library;
use crate::limits::{LARGEST_FILE, LOCATIONS, MOST_SEARCHED};
use crate::reasons;
use crate::refusal::{Answer, Refusal};
use crate::rewriting;
use crate::sets::TimerSet;

/// Entries of an object.
type Entries = Vec<(&'static str, Json)>;

/// The derivation of the chart of `file` for a board of `k` timers; where `k` is null, for one with as many as are used.
pub fn answer(request: &Json) -> Answered {
    let file = request.bytes("file");
    let k = match request.get("k") {
        Some(Json::Null) => None,
        _ => Some(u32::try_from(request.number("k")).expect("a number of the call's type")),
    };
    let (figures, live) = analysed(&file)?;
    let board = match k {
        Some(k) => Some(rewritten(&file, k)?),
        None => None,
    };
    let (chart, shown) = read::chart(&file)?;
    let derivation = derived(&chart, k)?;
    compare(&derivation, &chart, k, &figures, &live)?;
    let mut entries = entries(&chart, shown, &figures, k, &derivation);
    match (board, derivation.reason()) {
        (None, None) => {}
        (Some(Ok(file)), None) => entries.extend(on_board(&chart, &derivation, &file)?),
        (Some(Err(refusal)), Some(reason)) => return Err(End::Refused { refusal, reason, beside: entries }),
        (Some(Err(refusal)), None) => return Err(fault(format!("{refusal}, but every family finds a number"))),
        (_, Some(reason)) => return Err(fault(format!("not refused, but {reason}"))),
    }
    Ok(entries.into_iter().fold(Json::object([]), |answer, (name, value)| answer.with(name, value)))
}

fn fault(what: impl std::fmt::Display) -> End {
    End::Fault(format!("derive: {what}"))
}

/// The figures of the analysis and the live sets. Judges 1 to 10.
fn analysed(file: &[u8]) -> Result<(Analysis, [u64; LOCATIONS]), End> {
    let (mut live, mut own) = ([0; LOCATIONS], [0; LOCATIONS]);
    let answers = (library::analyse(file, &mut live), analysis::analyse(file, &mut own));
    let figures = match agreed("analyse", answers.0, answers.1)? {
        Ok(figures) => figures,
        Err(refusal) => {
            let reason = reasons::of_file(file, refusal).ok_or_else(|| fault(format!("{refusal} for no cause")))?;
            return Err(End::Refused { refusal, reason, beside: Vec::new() });
        }
    };
    match (0..LOCATIONS).find(|&location| live[location] != own[location]) {
        None => Ok((figures, live)),
        Some(location) => Err(fault(format!("two live sets at location {location}"))),
    }
}

/// The file rewritten for a board of `k` timers, or the refusal 20. Judges 11.
fn rewritten(file: &[u8], k: u32) -> Result<Answer<Vec<u8>>, End> {
    let (mut out, mut own) = (vec![0; LARGEST_FILE], vec![0; LARGEST_FILE]);
    let answers = (library::rewrite(file, k, &mut out), rewriting::rewrite(file, k, &mut own));
    match agreed("rewrite", answers.0, answers.1)? {
        Ok(_) if out != own => Err(fault("two rewritten files")),
        Ok(rewriting) => {
            out.truncate(rewriting.length as usize);
            Ok(Ok(out))
        }
        Err(refusal @ Refusal { number: 11, .. }) => {
            Err(End::Refused { refusal, reason: reasons::of_board(k), beside: Vec::new() })
        }
        Err(refusal @ Refusal { number: 20, .. }) => Ok(Err(refusal)),
        Err(refusal) => Err(fault(format!("{refusal} by the rewriting alone"))),
    }
}

/// The derivation of a chart that is free of 9 and 10.
fn derived(chart: &Chart, k: Option<u32>) -> Result<Derivation, End> {
    Derivation::of(chart, k).map_err(|refusal| fault(format!("{refusal} by the derivation alone")))
}

/// Goes over the derivation by the definitions, and compares it with the library's figures and live sets.
fn compare(
    derivation: &Derivation,
    chart: &Chart,
    k: Option<u32>,
    figures: &Analysis,
    live: &[u64; LOCATIONS],
) -> Result<(), End> {
    derivation.check(chart, k).map_err(fault)?;
    let mut derived = [TimerSet::EMPTY; LOCATIONS];
    for LiveTimer { location, timer, .. } in &derivation.live {
        derived[usize::from(*location)] = derived[usize::from(*location)].with(*timer);
    }
    if let Some(location) = (0..LOCATIONS).find(|&location| derived[location].word() != live[location]) {
        return Err(fault(format!("the live timers of location {location} are not its live set")));
    }
    if derivation.stuck.is_none() && derivation.used() != figures.used {
        return Err(fault(format!("the families use {} timers, the library {}", derivation.used(), figures.used)));
    }
    match (derivation.families.len() <= MOST_SEARCHED) == figures.searched {
        true => Ok(()),
        false => Err(fault(format!("with {} families searched is {}", derivation.families.len(), figures.searched))),
    }
}

/// What the answer has for every chart that is not refused with 1 to 11; `shown` is the chart as the library reads it.
fn entries(chart: &Chart, shown: Json, figures: &Analysis, k: Option<u32>, derivation: &Derivation) -> Entries {
    let families = derivation.families.iter().map(|family| family_json(chart, derivation, family));
    let mut entries = vec![
        ("chart", shown),
        ("used", Json::Number(figures.used)),
        ("floor", Json::Number(figures.floor)),
        ("searched", Json::Bool(figures.searched)),
        ("rounds", Json::Number(figures.rounds)),
        ("k", k.map_or(Json::Null, |k| Json::Number(u64::from(k)))),
        ("spare", Json::of_numbers(derivation.spare.iter())),
        ("live", Json::List(derivation.live.iter().map(live_json).collect())),
        ("twins", Json::List(derivation.twins.iter().map(|&twins| Json::of_numbers(twins)).collect())),
        ("families", Json::List(families.collect())),
    ];
    let stuck = derivation.stuck.as_ref().map(|stuck| &derivation.families[stuck.family]);
    entries.extend(stuck.map(|family| ("stuck", Json::Number(u64::from(family.number)))));
    entries
}

fn live_json(live: &LiveTimer) -> Json {
    Json::object([
        ("location", Json::Number(u64::from(live.location))),
        ("timer", Json::Number(u64::from(live.timer))),
        ("path", Json::of_numbers(live.path.iter().copied())),
    ])
}

fn board_json(board: Option<u16>) -> Json {
    board.map_or(Json::Null, |number| Json::Number(u64::from(number)))
}

fn family_json(chart: &Chart, derivation: &Derivation, family: &Family) -> Json {
    let links = family.links.iter().map(|&number| {
        let transition = &chart.transitions()[usize::from(number)];
        Json::object([
            ("transition", Json::Number(u64::from(number))),
            ("source", Json::Number(u64::from(transition.source))),
            ("target", Json::Number(u64::from(transition.target))),
        ])
    });
    let meets = family.meets.iter().map(|Meeting { family, at }| {
        let earlier = &derivation.families[*family];
        Json::object([
            ("family", Json::Number(u64::from(earlier.number))),
            ("at", Json::of_numbers(at.iter())),
            ("board", board_json(earlier.board)),
        ])
    });
    Json::object([
        ("number", Json::Number(u64::from(family.number))),
        ("timer", Json::Number(u64::from(family.timer))),
        ("timers", Json::of_numbers(family.timers)),
        ("locations", Json::of_numbers(family.locations.iter())),
        ("links", Json::List(links.collect())),
        ("meets", Json::List(meets.collect())),
        ("later", Json::of_numbers(family.later.iter().map(|&place| derivation.families[place].number))),
        ("board", board_json(family.board)),
    ])
}

/// What the answer has where all families find a number: the numbers, and the library's file with its chart.
fn on_board(chart: &Chart, derivation: &Derivation, file: &[u8]) -> Result<Entries, End> {
    let (rewritten, shown) = read::chart(file).map_err(|end| match end {
        End::Refused { refusal, .. } => fault(format!("{refusal}: the rewritten file")),
        end => end,
    })?;
    let mut numbers = vec![Vec::new(); usize::from(chart.locations())];
    for live in &derivation.live {
        let number = derivation.board(live);
        if read_at_end(chart, &rewritten, live) != number {
            let LiveTimer { location, timer, .. } = live;
            return Err(fault(format!("the library's file has another number for timer {timer} at {location}")));
        }
        numbers[usize::from(live.location)]
            .push(Json::List(vec![Json::Number(u64::from(live.timer)), board_json(number)]));
    }
    Ok(vec![
        ("numbers", Json::List(numbers.into_iter().map(Json::List).collect())),
        ("file", Json::of_bytes(file)),
        ("rewritten", shown),
    ])
}

/// The board timer that the rewritten chart reads in place of a live timer, at the end of the path that shows it live.
fn read_at_end(chart: &Chart, rewritten: &Chart, live: &LiveTimer) -> Option<u16> {
    let last = usize::from(*live.path.last()?);
    let drawn = chart.tests(chart.transitions().get(last)?);
    let index = drawn.iter().position(|test: &Test| test.timer == live.timer)?;
    let read = rewritten.tests(rewritten.transitions().get(last)?);
    read.get(index).map(|test| u16::from(test.timer))
}

#[cfg(test)]
mod tests {
    use super::*;
    use crate::drawing::{chart_a, chart_c, Drawing};

    fn derived_for(drawing: &Drawing, k: u32) -> (Chart, Derivation, Analysis, [u64; LOCATIONS]) {
        let (figures, live) = analysed(&drawing.file()).expect("the chart is accepted");
        let (chart, _) = read::chart(&drawing.file()).expect("the chart is read");
        let derivation = derived(&chart, Some(k)).expect("the chart is accepted");
        (chart, derivation, figures, live)
    }

    #[test]
    fn a_difference_is_a_fault() {
        let (chart, derivation, figures, live) = derived_for(&chart_a(), 3);
        let compared = |derivation: &Derivation, figures: Analysis, live: [u64; LOCATIONS]| {
            matches!(compare(derivation, &chart, Some(3), &figures, &live), Err(End::Fault(_)))
        };
        assert!(!compared(&derivation, figures, live));
        let (mut fewer, mut more) = (live, live);
        (fewer[2], more[6]) = (1, 1);
        assert!(compared(&derivation, figures, fewer) && compared(&derivation, figures, more));
        assert!(compared(&derivation, Analysis { used: 2, ..figures }, live));
        assert!(compared(&derivation, Analysis { searched: false, ..figures }, live));
        let mut wrong = derivation.clone();
        wrong.live[0].path = vec![1, 3];
        assert!(compared(&wrong, figures, live));
    }

    #[test]
    fn another_number_in_the_rewritten_file_is_a_fault() {
        let (chart, derivation, ..) = derived_for(&chart_c(), 2);
        let file = rewritten(&chart_c().file(), 2).expect("both answer alike").expect("two timers suffice");
        assert!(on_board(&chart, &derivation, &file).is_ok());
        // As drawn, transition 2 tests timer 0, which has board number 1 there.
        assert!(matches!(on_board(&chart, &derivation, &chart_c().file()), Err(End::Fault(_))));
        let mut bare = chart_c();
        bare.transitions.iter_mut().for_each(|transition| transition.tests.clear());
        assert!(matches!(on_board(&chart, &derivation, &bare.file()), Err(End::Fault(_))));
        assert!(matches!(on_board(&chart, &derivation, &[]), Err(End::Fault(_))));
    }
}
