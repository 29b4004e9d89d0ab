//! The controller: one to eight heads on one board. Each head has a chart, a block of the board's timers, a time of its
//! own and at most one event that waits; turns go round the heads, and a head serves its event when its turn comes.
//!
//! The caller keeps the [`State`] and hands it in at each call, with the heads' files and blocks. Each call judges all of
//! this anew and, where it refuses, leaves the state as it was.

use std::ops::Range;

use crate::analysis::judged_chart;
use crate::chart::{Chart, Transition};
use crate::limits::{MOST_HEADS, MOST_TICKS, TIMERS};
use crate::player::judge_counts;
use crate::refusal::{Answer, Refusal};
use crate::rewriting::judge_board;

/// Where a head stands, and the event that waits at it.
#[repr(C)]
#[derive(Clone, Copy, Debug, Default, PartialEq, Eq)]
pub struct Head {
    pub location: u64,
    pub time: u64,
    /// 0 where no event waits; the next two say nothing then.
    pub waiting: u64,
    pub event: u64,
    pub waiting_time: u64,
}

/// The state of a controller: whose turn it is, the heads, and the counts of the board's timers, a head's from the
/// beginning of its block on. It has no padding, so that equal states have equal bytes.
#[repr(C)]
#[derive(Clone, Copy, Debug, PartialEq, Eq)]
pub struct State {
    pub turn: u64,
    pub heads: [Head; MOST_HEADS],
    pub counts: [u32; TIMERS],
}

/// How many heads there are, and of each the length of its file and of its block. Entries beyond that number are not
/// looked at.
#[repr(C)]
#[derive(Clone, Copy, Debug)]
pub struct Heads {
    pub number: u64,
    pub lengths: [u64; MOST_HEADS],
    pub blocks: [u64; MOST_HEADS],
}

/// Of a list with a part for each head, one after another: the length of each part.
#[repr(C)]
#[derive(Clone, Copy, Debug)]
pub struct Parts {
    pub lengths: [u64; MOST_HEADS],
}

const _: () = assert!(size_of::<Head>() == 40 && size_of::<State>() == 584);
const _: () = assert!(size_of::<Heads>() == 136 && size_of::<Parts>() == 64);

/// What each call is handed beside the state: the heads' files one after another, the heads, and K. A file that reaches
/// beyond the end of `files` is cut there; bytes beyond the last file are not looked at.
#[derive(Clone, Debug)]
pub struct Board {
    pub files: Vec<u8>,
    pub heads: Heads,
    pub k: u32,
}

/// What one head is set up with: its chart's file, the length of its block, and a starting count for each timer.
#[derive(Clone, Copy, Debug)]
pub struct Start<'a> {
    pub file: &'a [u8],
    pub block: u64,
    pub counts: &'a [u32],
}

/// What set-up is handed: a board, the starting counts of the heads one after another, and how many each head has.
#[derive(Clone, Debug)]
pub struct SetUp {
    pub board: Board,
    pub counts: Vec<u32>,
    pub parts: Parts,
}

/// What a turn tells: whose it was, and what came of it.
#[derive(Clone, Copy, Debug, PartialEq, Eq)]
pub struct Turn {
    pub head: u64,
    pub report: Report,
}

/// What became of the event that waited at a head.
#[derive(Clone, Copy, Debug, PartialEq, Eq)]
pub enum Report {
    /// There was none.
    Nothing,
    /// It was served, and no transition was taken.
    NoneTaken,
    /// It was served, and this transition was taken.
    Taken(u64),
}

/// The parts of a list, one after another; they are cut where the list ends.
pub(crate) fn parts_of<'a, T>(list: &'a [T], lengths: &'a [u64]) -> impl Iterator<Item = &'a [T]> {
    lengths.iter().scan(list, |rest, &length| {
        let length = usize::try_from(length).unwrap_or(usize::MAX).min(rest.len());
        let (part, after) = rest.split_at(length);
        *rest = after;
        Some(part)
    })
}

impl Parts {
    /// The parts of these lengths; only [`MOST_HEADS`] of them are kept.
    fn of(lengths: impl Iterator<Item = u64>) -> Parts {
        let mut parts = Parts { lengths: [0; MOST_HEADS] };
        parts.lengths.iter_mut().zip(lengths).for_each(|(entry, length)| *entry = length);
        parts
    }
}

impl SetUp {
    /// These heads on a board of `k` timers. Of more than [`MOST_HEADS`] the number is kept, which is refused.
    pub fn of(heads: &[Start], k: u32) -> SetUp {
        let lengths = Parts::of(heads.iter().map(|head| head.file.len() as u64)).lengths;
        let blocks = Parts::of(heads.iter().map(|head| head.block)).lengths;
        let counts = heads.iter().flat_map(|head| head.counts).copied().collect();
        let parts = Parts::of(heads.iter().map(|head| head.counts.len() as u64));
        let files = heads.iter().flat_map(|head| head.file).copied().collect();
        let heads = Heads { number: heads.len() as u64, lengths, blocks };
        SetUp { board: Board { files, heads, k }, counts, parts }
    }
}

impl Board {
    /// The heads' charts. Judges 25 (the number of heads), each chart in turn 1 to 10, then 11.
    fn charts(&self) -> Answer<Vec<Chart>> {
        let number = self.heads.judged_number()?;
        let files = parts_of(&self.files, &self.heads.lengths[..number]);
        let charts = files.map(judged_chart).collect::<Answer<_>>()?;
        judge_board(self.k)?;
        Ok(charts)
    }

    /// Lays the blocks of these charts end to end on the board, which has at most [`TIMERS`] timers. Judges 25 (the
    /// blocks).
    fn place(&self, charts: Vec<Chart>) -> Answer<Vec<Placed>> {
        let board = u64::from(self.k);
        let mut begin = 0;
        let place = |(chart, block): (Chart, u64)| {
            let timers = u64::from(chart.timers());
            // Compared with what is left of the board, so that no sum of blocks is ever over K.
            if block < timers || block > board - begin {
                return Err(Refusal::nowhere(25));
            }
            let timers = begin as usize..(begin + timers) as usize;
            begin += block;
            Ok(Placed { chart, timers })
        };
        charts.into_iter().zip(self.heads.blocks).map(place).collect()
    }

    /// The heads on the board, for a call after set-up on this state. Judges as [`set_up`] does, without 12, then 32.
    fn placed(&self, state: &State) -> Answer<Vec<Placed>> {
        let heads = self.place(self.charts()?)?;
        if state.is_of(&heads) {
            Ok(heads)
        } else {
            Err(Refusal::nowhere(32))
        }
    }
}

impl Heads {
    /// The number of heads, judged (25): 1 to [`MOST_HEADS`].
    fn judged_number(&self) -> Answer<usize> {
        match usize::try_from(self.number) {
            Ok(number @ 1..=MOST_HEADS) => Ok(number),
            _ => Err(Refusal::nowhere(25)),
        }
    }
}

/// A head on the board.
struct Placed {
    chart: Chart,
    /// Which of the board's timers are the chart's: as many as it has, from the beginning of the head's block on.
    timers: Range<usize>,
}

impl Placed {
    /// Whether the head can stand so, with these counts of its timers (32).
    fn can_be(&self, head: &Head, counts: &[u32]) -> bool {
        let most = u64::from(MOST_TICKS);
        head.location < u64::from(self.chart.locations())
            && head.time <= most
            && (!head.waits() || (head.time..=most).contains(&head.waiting_time))
            && counts.iter().all(|&count| u64::from(count) <= head.time + most)
    }

    /// Serves the event that waits at a head that [`can be`](Placed::can_be) so: its counts grow to the event's time,
    /// the lowest transition that can be taken then is taken, if there is one, and the event is gone.
    fn serve(&self, head: &mut Head, counts: &mut [u32]) -> Report {
        // A count is at most the head's time plus MOST_TICKS, before and after: no more than 2 times MOST_TICKS.
        let passed = (head.waiting_time - head.time) as u32;
        counts.iter_mut().for_each(|count| *count += passed);
        let transitions = self.chart.transitions();
        let taken = transitions.iter().position(|transition| self.can_take(transition, head, counts));
        *head = Head { location: head.location, time: head.waiting_time, ..Head::default() };
        let Some(number) = taken else {
            return Report::NoneTaken;
        };
        let transition = &transitions[number];
        head.location = u64::from(transition.target);
        transition.starts.into_iter().for_each(|timer| counts[usize::from(timer)] = 0);
        Report::Taken(number as u64)
    }

    /// Whether a transition has the event that waits, leaves the head's location, and has all its tests met.
    fn can_take(&self, transition: &Transition, head: &Head, counts: &[u32]) -> bool {
        u64::from(transition.event) == head.event
            && u64::from(transition.source) == head.location
            && self
                .chart
                .tests(transition)
                .iter()
                .all(|test| test.comparison.met(counts[usize::from(test.timer)], test.constant))
    }
}

impl Head {
    /// Whether an event waits.
    fn waits(&self) -> bool {
        self.waiting != 0
    }
}

impl State {
    /// All entries 0.
    pub const ZERO: State = State {
        turn: 0,
        heads: [Head { location: 0, time: 0, waiting: 0, event: 0, waiting_time: 0 }; MOST_HEADS],
        counts: [0; TIMERS],
    };

    /// Whether these heads can be in this state (32). Entries that are no head's are not looked at.
    fn is_of(&self, heads: &[Placed]) -> bool {
        let can_be = |(placed, head): (&Placed, &Head)| placed.can_be(head, &self.counts[placed.timers.clone()]);
        self.turn < heads.len() as u64 && heads.iter().zip(&self.heads).all(can_be)
    }
}

/// Sets the state up, whatever it held: each head at its chart's initial location at tick 0 with its starting counts,
/// and head 0's turn; all other entries are 0. Judges 25 (the number of heads), each chart in turn 1 to 10, 11, each
/// head's counts 12, then 25 (the blocks).
pub fn set_up(state: &mut State, board: &Board, counts: &[u32], parts: &Parts) -> Answer<()> {
    let charts = board.charts()?;
    for (chart, own) in charts.iter().zip(parts_of(counts, &parts.lengths)) {
        judge_counts(chart, own)?;
    }
    let heads = board.place(charts)?;
    *state = State::ZERO;
    for ((placed, head), own) in heads.iter().zip(&mut state.heads).zip(parts_of(counts, &parts.lengths)) {
        head.location = u64::from(placed.chart.initial());
        state.counts[placed.timers.clone()].copy_from_slice(own);
    }
    Ok(())
}

/// Receives an event for a head; it waits there from now on. Judges as [`set_up`] does, without 12, then 32, 26 (no such
/// head, or an event waits there already), 15 and 23.
pub fn event(state: &mut State, board: &Board, head: u32, event: u8, time: u64) -> Answer<()> {
    let number = board.placed(state)?.len();
    let named = state.heads[..number].get_mut(head as usize);
    let Some(head) = named.filter(|head| !head.waits()) else {
        return Err(Refusal::nowhere(26));
    };
    if time > u64::from(MOST_TICKS) {
        return Err(Refusal::nowhere(15));
    }
    if time < head.time {
        return Err(Refusal::nowhere(23));
    }
    *head = Head { waiting: 1, event: u64::from(event), waiting_time: time, ..*head };
    Ok(())
}

/// Takes a turn: the head whose turn it is serves the event that waits at it, if there is one, and the turn goes to the
/// next head. Judges as [`set_up`] does, without 12, then 32.
pub fn turn(state: &mut State, board: &Board) -> Answer<Turn> {
    let heads = board.placed(state)?;
    let turn = state.turn;
    // The turn was judged: there is such a head.
    let (placed, head) = (&heads[turn as usize], &mut state.heads[turn as usize]);
    let report =
        if head.waits() { placed.serve(head, &mut state.counts[placed.timers.clone()]) } else { Report::Nothing };
    state.turn = (turn + 1) % heads.len() as u64;
    Ok(Turn { head: turn, report })
}
