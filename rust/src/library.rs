//! The proved library, with the signatures of this crate's own functions.
//!
//! The library needs nothing of its caller but slices, which Rust always hands over as valid pointers with their length,
//! and lent memory that nothing else reads or writes meanwhile, which `&mut` says.

#![allow(unsafe_code)]

use crate::analysis::Analysis;
use crate::controller::{Board, Parts, Report, SetUp, Start, State, Turn};
use crate::counter::CounterPlaying;
use crate::ffi;
use crate::lists::{Header, LentLists, Lists};
use crate::player::Playing;
use crate::refusal::{Answer, Refusal};
use crate::rewriting::Rewriting;

/// The result, or the refusal if the library's number is not 0.
fn answer<T>(number: u64, place: u64, result: T) -> Answer<T> {
    match number {
        0 => Ok(result),
        _ => Err(Refusal { number, place }),
    }
}

/// [`crate::analysis::analyse`] by the proved library.
pub fn analyse(file: &[u8], live: &mut [u64]) -> Answer<Analysis> {
    // SAFETY: both slices are valid for their lengths during the call, and `live` is lent to it alone.
    let answered = unsafe { ffi::chart_analyse(file.as_ptr(), file.len(), live.as_mut_ptr(), live.len()) };
    let ffi::ChartAnalysis { number, place, used, floor, searched, rounds } = answered;
    answer(number, place, Analysis { used, floor, searched: searched != 0, rounds })
}

/// [`crate::rewriting::rewrite`] by the proved library.
pub fn rewrite(file: &[u8], k: u32, out: &mut [u8]) -> Answer<Rewriting> {
    // SAFETY: both slices are valid for their lengths during the call, and `out` is lent to it alone.
    let answered = unsafe { ffi::chart_rewrite(file.as_ptr(), file.len(), k, out.as_mut_ptr(), out.len()) };
    let ffi::ChartRewriting { number, place, used, length } = answered;
    answer(number, place, Rewriting { used, length })
}

/// [`crate::player::play`] by the proved library.
pub fn play(file: &[u8], counts: &[u32], transitions: &[u32], times: &[u64]) -> Answer<Playing> {
    // SAFETY: the slices are valid for their lengths during the call.
    let answered = unsafe {
        ffi::chart_play(
            file.as_ptr(),
            file.len(),
            counts.as_ptr(),
            counts.len(),
            transitions.as_ptr(),
            transitions.len(),
            times.as_ptr(),
            times.len(),
        )
    };
    let ffi::ChartPlaying { number, place, location, time, accepting } = answered;
    answer(number, place, Playing { location, time, accepting: accepting != 0 })
}

/// [`crate::counter::play_counter`] by the proved library.
pub fn play_counter(
    file: &[u8],
    counts: &[u32],
    transitions: &[u32],
    first: u16,
    readings: &[u16],
) -> Answer<CounterPlaying> {
    // SAFETY: the slices are valid for their lengths during the call.
    let answered = unsafe {
        ffi::chart_play_counter(
            file.as_ptr(),
            file.len(),
            counts.as_ptr(),
            counts.len(),
            transitions.as_ptr(),
            transitions.len(),
            first,
            readings.as_ptr(),
            readings.len(),
        )
    };
    let ffi::ChartCounterPlaying { number, place, location, accepting } = answered;
    answer(number, place, CounterPlaying { location, accepting: accepting != 0 })
}

/// [`crate::lists::read`] by the proved library.
pub fn read(file: &[u8], lent: &mut LentLists) -> Answer<Header> {
    // SAFETY: all slices are valid for their lengths during the call, and the lists are lent to it alone.
    let answered = unsafe {
        ffi::chart_read(
            file.as_ptr(),
            file.len(),
            lent.accepting.as_mut_ptr(),
            lent.accepting.len(),
            lent.sources.as_mut_ptr(),
            lent.sources.len(),
            lent.targets.as_mut_ptr(),
            lent.targets.len(),
            lent.events.as_mut_ptr(),
            lent.events.len(),
            lent.starts.as_mut_ptr(),
            lent.starts.len(),
            lent.test_counts.as_mut_ptr(),
            lent.test_counts.len(),
            lent.timers.as_mut_ptr(),
            lent.timers.len(),
            lent.codes.as_mut_ptr(),
            lent.codes.len(),
            lent.constants.as_mut_ptr(),
            lent.constants.len(),
        )
    };
    let ffi::ChartReading { number, place, version, locations, initial, timers, accepting, transitions } = answered;
    let header = Header {
        version: fitting(version),
        locations: fitting(locations),
        initial: fitting(initial),
        timers: fitting(timers),
        accepting: fitting(accepting),
        transitions: fitting(transitions),
    };
    answer(number, place, header)
}

/// A number of a chart's header or the length of its file, in the type that it fits.
fn fitting<T: TryFrom<u64>>(number: u64) -> T {
    T::try_from(number).unwrap_or_else(|_| panic!("no chart has this: {number}"))
}

/// [`crate::lists::write`] by the proved library.
pub fn write(header: &Header, lists: &Lists, out: &mut [u8]) -> Answer<usize> {
    // SAFETY: all slices are valid for their lengths during the call, and `out` is lent to it alone.
    let answered = unsafe {
        ffi::chart_write(
            header.version,
            header.locations,
            header.initial,
            header.timers,
            header.accepting,
            header.transitions,
            lists.accepting.as_ptr(),
            lists.accepting.len(),
            lists.sources.as_ptr(),
            lists.sources.len(),
            lists.targets.as_ptr(),
            lists.targets.len(),
            lists.events.as_ptr(),
            lists.events.len(),
            lists.starts.as_ptr(),
            lists.starts.len(),
            lists.test_counts.as_ptr(),
            lists.test_counts.len(),
            lists.timers.as_ptr(),
            lists.timers.len(),
            lists.codes.as_ptr(),
            lists.codes.len(),
            lists.constants.as_ptr(),
            lists.constants.len(),
            out.as_mut_ptr(),
            out.len(),
        )
    };
    let ffi::ChartWriting { number, place, length } = answered;
    answer(number, place, fitting(length))
}

/// [`crate::controller::set_up`] by the proved library.
pub fn set_up(state: &mut State, board: &Board, counts: &[u32], parts: &Parts) -> Answer<()> {
    let Board { files, heads, k } = board;
    // SAFETY: the slices are valid for their lengths during the call, and `state` is lent to it alone.
    let ffi::ChartCalled { number, place } = unsafe {
        ffi::chart_controller_set_up(
            state,
            files.as_ptr(),
            files.len(),
            *heads,
            *k,
            counts.as_ptr(),
            counts.len(),
            *parts,
        )
    };
    answer(number, place, ())
}

/// [`crate::controller::event`] by the proved library.
pub fn event(state: &mut State, board: &Board, head: u32, event: u8, time: u64) -> Answer<()> {
    let Board { files, heads, k } = board;
    // SAFETY: `files` is valid for its length during the call, and `state` is lent to it alone.
    let ffi::ChartCalled { number, place } =
        unsafe { ffi::chart_controller_event(state, files.as_ptr(), files.len(), *heads, *k, head, event, time) };
    answer(number, place, ())
}

/// [`crate::controller::turn`] by the proved library.
pub fn turn(state: &mut State, board: &Board) -> Answer<Turn> {
    let Board { files, heads, k } = board;
    // SAFETY: `files` is valid for its length during the call, and `state` is lent to it alone.
    let answered = unsafe { ffi::chart_controller_turn(state, files.as_ptr(), files.len(), *heads, *k) };
    let ffi::ChartTurned { number, place, head, served, taken, transition } = answered;
    let report = match (served, taken, transition) {
        (0, 0, 0) => Report::Nothing,
        (1, 0, 0) => Report::NoneTaken,
        (1, 1, _) => Report::Taken(transition),
        _ => panic!("a turn never answers this: {answered:?}"),
    };
    answer(number, place, Turn { head, report })
}

/// A controller that the proved library drives. It keeps charts, blocks and state to itself, so that nothing else can
/// change them: from set-up on, the calls are refused with 26, 15 and 23 alone.
#[derive(Clone, Debug)]
pub struct Controller {
    board: Board,
    state: State,
}

impl Controller {
    /// Sets a controller up, with these heads on a board of `k` timers.
    pub fn set_up(heads: &[Start], k: u32) -> Answer<Controller> {
        let SetUp { board, counts, parts } = SetUp::of(heads, k);
        let mut state = State::ZERO;
        set_up(&mut state, &board, &counts, &parts)?;
        Ok(Controller { board, state })
    }

    /// Receives an event for a head.
    pub fn event(&mut self, head: u32, event: u8, time: u64) -> Answer<()> {
        self::event(&mut self.state, &self.board, head, event, time)
    }

    /// Takes a turn.
    pub fn turn(&mut self) -> Answer<Turn> {
        turn(&mut self.state, &self.board)
    }

    /// The present state.
    pub fn state(&self) -> &State {
        &self.state
    }
}

#[cfg(test)]
mod tests {
    use super::ffi;
    use crate::controller::{set_up, SetUp, Start, State};
    use crate::drawing::{chart_a, chart_b};

    #[test]
    fn the_figures_of_a_refused_analysis_are_0() {
        for (file, number) in [(chart_a().file(), 21), (Vec::new(), 1)] {
            // SAFETY: the file is valid for its length during the call, and the lent list has no entries.
            let answered = unsafe { ffi::chart_analyse(file.as_ptr(), file.len(), std::ptr::null_mut(), 0) };
            let ffi::ChartAnalysis { used, floor, searched, rounds, .. } = answered;
            assert_eq!((answered.number, [used, floor, searched, rounds]), (number, [0; 4]));
        }
    }

    #[test]
    fn the_figures_of_a_refused_step_list_are_0() {
        let (file, counts, transitions) = (chart_b().file(), [0; 2], [0, 1]);
        let play = |first: u16, readings: &[u16]| {
            // SAFETY: the slices are valid for their lengths during the call.
            let answered = unsafe {
                ffi::chart_play_counter(
                    file.as_ptr(),
                    file.len(),
                    counts.as_ptr(),
                    counts.len(),
                    transitions.as_ptr(),
                    transitions.len(),
                    first,
                    readings.as_ptr(),
                    readings.len(),
                )
            };
            let ffi::ChartCounterPlaying { number, place, location, accepting } = answered;
            [number, place, location, accepting]
        };
        assert_eq!(play(65_530, &[65_535, 2]), [24, 1, 0, 0]);
        assert_eq!(play(65_530, &[65_535]), [13, 65_535, 0, 0]);
        assert_eq!(play(65_530, &[65_535, 1]), [0, 0, 2, 0]);
    }

    #[test]
    fn the_figures_of_a_refused_reading_or_writing_are_0() {
        use std::ptr::{null, null_mut};
        let file = chart_a().file();
        for (length, refused) in [(file.len(), 21), (4, 1)] {
            // SAFETY: the file is valid for its length during the call, and the lent lists have no entries.
            let answered = unsafe {
                ffi::chart_read(
                    file.as_ptr(),
                    length,
                    null_mut(),
                    0,
                    null_mut(),
                    0,
                    null_mut(),
                    0,
                    null_mut(),
                    0,
                    null_mut(),
                    0,
                    null_mut(),
                    0,
                    null_mut(),
                    0,
                    null_mut(),
                    0,
                    null_mut(),
                    0,
                )
            };
            let ffi::ChartReading { number, place, version, locations, initial, timers, accepting, transitions } =
                answered;
            assert_eq!([number, place], [refused, 65_535]);
            assert_eq!([version, locations, initial, timers, accepting, transitions], [0; 6]);
        }
        // One location, and the lists of its accepting locations, its transitions and the buffer are empty.
        for (version, accepting, refused) in [(0, 0, 2), (1, 1, 3), (1, 0, 21)] {
            // SAFETY: the lists and the buffer have no entries.
            let answered = unsafe {
                ffi::chart_write(
                    version,
                    1,
                    0,
                    0,
                    accepting,
                    0,
                    null(),
                    0,
                    null(),
                    0,
                    null(),
                    0,
                    null(),
                    0,
                    null(),
                    0,
                    null(),
                    0,
                    null(),
                    0,
                    null(),
                    0,
                    null(),
                    0,
                    null_mut(),
                    0,
                )
            };
            let ffi::ChartWriting { number, place, length } = answered;
            assert_eq!([number, place, length], [refused, 65_535, 0]);
        }
    }

    #[test]
    fn the_figures_of_a_turn_that_has_none_are_0() {
        let file = chart_b().file();
        let SetUp { board, counts, parts } = SetUp::of(&[Start { file: &file, block: 2, counts: &[7, 7] }], 4);
        let mut state = State::ZERO;
        let take_turn = |state: &mut State, k| {
            // SAFETY: the files are valid for their length during the call, and `state` is lent to it alone.
            let answered =
                unsafe { ffi::chart_controller_turn(state, board.files.as_ptr(), board.files.len(), board.heads, k) };
            let ffi::ChartTurned { number, place, head, served, taken, transition } = answered;
            [number, place, head, served, taken, transition]
        };
        assert_eq!(set_up(&mut state, &board, &counts, &parts), Ok(()));
        assert_eq!(take_turn(&mut state, 65), [11, 65_535, 0, 0, 0, 0]);
        assert_eq!(take_turn(&mut state, 4), [0; 6]);
        for (event, figures) in [(1, [0, 0, 0, 1, 0, 0]), (0, [0, 0, 0, 1, 1, 0]), (0, [0, 0, 0, 1, 1, 1])] {
            state.heads[0].waiting = 1;
            state.heads[0].event = event;
            assert_eq!(take_turn(&mut state, 4), figures);
        }
    }
}
