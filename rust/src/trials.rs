//! Trials of the controller: two implementations are handed the same random heads, calls and states, good ones and spoilt
//! ones, and must answer alike and leave the same states; and what document 02 promises of a controller from set-up on is
//! asked of every list of calls. For tests.

use std::fmt::{Debug, Display, Formatter};

use crate::analysis::judge;
use crate::chart::Chart;
use crate::controller::{self, parts_of, Board, Head, Parts, Report, SetUp, State, Turn};
use crate::generator::{Random, Steps};
use crate::heads::{any_state, largest, Call, DrawnHeads};
#[cfg(feature = "library")]
use crate::library;
use crate::limits::{MOST_HEADS, MOST_TICKS};
use crate::player::{self, Playing};
use crate::refusal::{Answer, Refusal};
use crate::sets::LocationSet;
use crate::tally::{number_of, ByNumber};
use crate::version::Version;
use crate::NOWHERE;

/// The player.
pub type Play = fn(&[u8], &[u32], &[u32], &[u64]) -> Answer<Playing>;

/// One implementation of the controller's calls, and of the player.
#[derive(Clone, Copy)]
pub struct Calls {
    pub set_up: fn(&mut State, &Board, &[u32], &Parts) -> Answer<()>,
    pub event: fn(&mut State, &Board, u32, u8, u64) -> Answer<()>,
    pub turn: fn(&mut State, &Board) -> Answer<Turn>,
    pub play: Play,
}

impl Calls {
    /// This crate's.
    pub const RUST: Calls =
        Calls { set_up: controller::set_up, event: controller::event, turn: controller::turn, play: player::play };

    /// The proved library's.
    #[cfg(feature = "library")]
    pub const PROVED: Calls =
        Calls { set_up: library::set_up, event: library::event, turn: library::turn, play: library::play };
}

/// The refusals of each call: all of these must come, and no others.
const OF_SET_UP: [usize; 13] = [1, 2, 3, 4, 5, 6, 7, 8, 9, 10, 11, 12, 25];
const OF_EVENT: [usize; 16] = [1, 2, 3, 4, 5, 6, 7, 8, 9, 10, 11, 25, 32, 26, 15, 23];
const OF_TURN: [usize; 13] = [1, 2, 3, 4, 5, 6, 7, 8, 9, 10, 11, 25, 32];

/// Why a call is refused, where one number has several reasons. Each must come alone.
const REASONS: [&str; 15] = [
    "12: a wrong number of counts",
    "12: a count too large",
    "25: no head",
    "25: more than 8 heads",
    "25: blocks longer than the board",
    "25: blocks whose lengths exceed 64 bits",
    "25: a block too short",
    "26: no such head",
    "26: an event waits already",
    "32: turn",
    "32: location",
    "32: time",
    "32: waiting time too large",
    "32: waiting time before the head's",
    "32: count",
];

/// How often what came.
#[derive(Default)]
pub struct Tally {
    pub set_ups: ByNumber,
    pub events: ByNumber,
    pub turns: ByNumber,
    reasons: [u64; REASONS.len()],
    /// Turns at which nothing waited, no transition was taken, one was.
    reports: [u64; 3],
    /// Of those at which none was taken: the waiting event was over 255 and had the low byte of a transition's, which
    /// leaves the head's location and can be taken then.
    cut_events: u64,
    /// Controllers by their number of heads.
    heads: [u64; MOST_HEADS],
    /// Heads with spare locations; turns at which such a head served an event at a reached location, and took a transition.
    spare_heads: u64,
    beside_spare: u64,
    /// Turns at which a head that nobody set up stood at a spare location and served an event: no transition was taken, one
    /// was.
    at_spare: [u64; 2],
}

impl Tally {
    /// What should have come and did not.
    pub fn missing(&self) -> Vec<String> {
        let mut missing = Vec::new();
        for (call, counts, expected) in [
            ("set-up", &self.set_ups, &OF_SET_UP[..]),
            ("event", &self.events, &OF_EVENT[..]),
            ("turn", &self.turns, &OF_TURN[..]),
        ] {
            for &number in expected.iter().chain(&[0]).filter(|&&number| counts[number] == 0) {
                missing.push(format!("{number} from {call}"));
            }
        }
        let named = REASONS.into_iter().zip(&self.reasons).filter(|(_, &count)| count == 0);
        missing.extend(named.map(|(name, _)| name.to_string()));
        let others = [self.cut_events, self.spare_heads, self.beside_spare];
        if self.reports.iter().chain(&self.heads).chain(&self.at_spare).chain(&others).any(|&count| count == 0) {
            missing.push(self.to_string());
        }
        missing
    }

    fn count_reason(&mut self, name: &str) {
        let index = REASONS.iter().position(|&other| other == name);
        self.reasons[index.expect("each reason is listed")] += 1;
    }
}

impl Display for Tally {
    fn fmt(&self, f: &mut Formatter<'_>) -> std::fmt::Result {
        let Tally { heads, reports: [nothing, none_taken, taken], cut_events, reasons, .. } = self;
        let Tally { spare_heads, beside_spare, at_spare: [stays, leaves], .. } = self;
        write!(f, "controllers of 1 to 8 heads: {heads:?}; turns with nothing waiting: {nothing}, ")?;
        write!(f, "no transition taken: {none_taken} (with the event's low byte one would be: {cut_events}), ")?;
        write!(
            f,
            "a transition taken: {taken}; heads with spare locations: {spare_heads}, transitions that they took "
        )?;
        write!(f, "from reached ones: {beside_spare}, from spare ones: {leaves}, none taken there: {stays}; ")?;
        write!(f, "refused alone for")?;
        REASONS.iter().zip(reasons).try_for_each(|(name, count)| write!(f, " {name}: {count};"))
    }
}

/// What a trial finds: nothing, or what is wrong.
pub type Found<T> = Result<T, String>;

fn ensure(holds: bool, what: impl FnOnce() -> String) -> Found<()> {
    if holds {
        Ok(())
    } else {
        Err(what())
    }
}

/// A board, its files in hex.
fn describe(board: &Board) -> String {
    let files: String = board.files.iter().map(|byte| format!("{byte:02x}")).collect();
    format!("{:?}, K {}, files {files}", board.heads, board.k)
}

/// A random source, two implementations, and what came so far.
pub struct Trials {
    pub random: Random,
    pub calls: [Calls; 2],
    pub tally: Tally,
}

impl Trials {
    pub fn new(seed: u64, calls: [Calls; 2]) -> Self {
        Trials { random: Random::new(seed), calls, tally: Tally::default() }
    }

    /// Has both implementations make a call on a state, and steps it if they agree on a result or on one of the call's
    /// refusals.
    fn compare<T: PartialEq + Debug + Copy>(
        &self,
        state: &mut State,
        what: impl Fn() -> String,
        refusals: &[usize],
        call: impl Fn(Calls, &mut State) -> Answer<T>,
    ) -> Found<Answer<T>> {
        let before = *state;
        let [first, second] = self.calls.map(|calls| {
            let mut state = before;
            let answer = call(calls, &mut state);
            (answer, state)
        });
        let agree = first == second && (first.0.is_ok() || first.1 == before);
        let expected = first.0.is_ok() || refusals.contains(&number_of(&first.0));
        let both = || format!("{}\nbefore {before:?}\nfirst  {first:?}\nsecond {second:?}", what());
        ensure(agree, || format!("a difference in {}", both()))?;
        ensure(expected, || format!("no refusal of {}", both()))?;
        *state = first.1;
        Ok(first.0)
    }

    fn set_up(&mut self, state: &mut State, handed: &SetUp) -> Found<Answer<()>> {
        let SetUp { board, counts, parts } = handed;
        let what = || format!("set-up, counts {counts:?}, {parts:?}, {}", describe(board));
        let answer =
            self.compare(state, what, &OF_SET_UP, |calls, state| (calls.set_up)(state, board, counts, parts))?;
        self.tally.set_ups[number_of(&answer)] += 1;
        if let Err(refusal) = answer {
            let reason = set_up_reason(board, refusal);
            reason.into_iter().for_each(|name| self.tally.count_reason(name));
        }
        Ok(answer)
    }

    /// A call after set-up. An event answers with no turn.
    fn call(&mut self, state: &mut State, board: &Board, call: Call) -> Found<Answer<Option<Turn>>> {
        let before = *state;
        let what = || format!("{call:?}, {}", describe(board));
        let refusals = if call == Call::Turn { &OF_TURN[..] } else { &OF_EVENT[..] };
        let answer = self.compare(state, what, refusals, |calls, state| match call {
            Call::Event { head, event, time } => (calls.event)(state, board, head, event, time).map(|()| None),
            Call::Turn => (calls.turn)(state, board).map(Some),
        })?;
        let numbers = if call == Call::Turn { &mut self.tally.turns } else { &mut self.tally.events };
        numbers[number_of(&answer)] += 1;
        match answer {
            Err(refusal) => {
                let reason = later_reason(board, &before, call, refusal);
                reason.into_iter().for_each(|name| self.tally.count_reason(name));
            }
            Ok(Some(Turn { head, report })) => {
                self.count_spare(board, &before, head as usize, report);
                let index = match report {
                    Report::Nothing => 0,
                    Report::NoneTaken => 1,
                    Report::Taken(_) => 2,
                };
                self.tally.reports[index] += 1;
                let is_cut = report == Report::NoneTaken && takes_low_byte(board, &before);
                self.tally.cut_events += u64::from(is_cut);
            }
            Ok(None) => {}
        }
        Ok(answer)
    }

    /// Counts a turn of a head whose chart has spare locations.
    fn count_spare(&mut self, board: &Board, before: &State, head: usize, report: Report) {
        let taken = match report {
            Report::Nothing => return,
            Report::NoneTaken => false,
            Report::Taken(_) => true,
        };
        let file = parts_of(&board.files, &board.heads.lengths).nth(head).expect("the head has a file");
        if let Some(reached) = reached_beside_spare(file) {
            match reached.has(before.heads[head].location as u8) {
                true => self.tally.beside_spare += u64::from(taken),
                false => self.tally.at_spare[usize::from(taken)] += 1,
            }
        }
    }

    /// One controller: set-up, also with what is spoilt; a list of so many calls from there on; and calls on states that
    /// nobody set up.
    pub fn run(&mut self, most_calls: u64) -> Found<()> {
        let random = &mut self.random;
        let heads = if random.chance(1, 300) {
            let drawings = (0..MOST_HEADS).map(|_| largest(random)).collect();
            DrawnHeads::of(random, drawings, 0)
        } else {
            DrawnHeads::random(random)
        };
        let handed = heads.set_up(random);
        let mut state = any_state(random);
        self.tally.heads[heads.number() - 1] += 1;
        self.tally.spare_heads += heads.files.iter().filter_map(|file| reached_beside_spare(file)).count() as u64;
        for _ in 0..3 {
            let spoilt = self.spoilt(&heads, &handed);
            let _ = self.set_up(&mut state.clone(), &spoilt)?;
        }
        let answer = self.set_up(&mut state, &handed)?;
        ensure(answer.is_ok(), || format!("good heads are refused: {answer:?}, {}", describe(&handed.board)))?;
        let calls = self.random.below(most_calls + 1);
        self.calls_from_set_up(&heads, &handed, state, calls)?;
        for _ in 0..4 {
            let mut state = heads.state(&mut self.random);
            self.spoilt_call(&heads, &handed, state)?;
            for _ in 0..self.random.between(1, 4) {
                let call = self.any_call(&heads, &state);
                let _ = self.call(&mut state, &handed.board, call)?;
            }
        }
        Ok(())
    }

    /// What set-up is handed, with something wrong; often with several things.
    fn spoilt(&mut self, heads: &DrawnHeads, handed: &SetUp) -> SetUp {
        let mut spoilt = handed.clone();
        for _ in 0..self.random.pick(&[1, 1, 1, 2, 3]) {
            heads.spoil(&mut self.random, &mut spoilt);
        }
        spoilt
    }

    fn any_call(&mut self, heads: &DrawnHeads, state: &State) -> Call {
        if self.random.chance(1, 6) {
            heads.wrong_call(&mut self.random, state)
        } else {
            heads.call(&mut self.random, state)
        }
    }

    /// A call with a spoilt board, a spoilt state, or both.
    fn spoilt_call(&mut self, heads: &DrawnHeads, handed: &SetUp, mut state: State) -> Found<()> {
        let call = self.any_call(heads, &state);
        let kind = self.random.below(5);
        let board = if kind < 3 { self.spoilt(heads, handed).board } else { handed.board.clone() };
        if kind > 1 {
            for _ in 0..self.random.pick(&[1, 1, 1, 2]) {
                heads.spoil_state(&mut self.random, &mut state);
            }
        }
        self.call(&mut state, &board, call).map(drop)
    }

    /// A list of calls from set-up on, with spoilt ones beside them; and what is promised of it.
    fn calls_from_set_up(&mut self, heads: &DrawnHeads, handed: &SetUp, start: State, calls: u64) -> Found<()> {
        let mut state = start;
        let mut history = History::new(heads);
        for _ in 0..calls {
            if self.random.chance(1, 10) {
                self.spoilt_call(heads, handed, state)?;
            }
            let call = self.any_call(heads, &state);
            let before = state;
            let answer = self.call(&mut state, &handed.board, call)?;
            history.add(&before, &state, call, answer).map_err(|wrong| {
                let board = describe(&handed.board);
                format!("{wrong}: {call:?} {answer:?}, {board}\nbefore {before:?}\nafter  {state:?}")
            })?;
        }
        for play in self.calls.map(|calls| calls.play) {
            history.play(&state, play).map_err(|wrong| format!("{wrong}: {state:?}\n{}", describe(&handed.board)))?;
        }
        Ok(())
    }
}

/// What became of a controller's heads since set-up.
struct History<'a> {
    heads: &'a DrawnHeads,
    /// The steps that each head took.
    steps: Vec<Steps>,
    /// For how many turns each head's event has waited.
    waited: Vec<usize>,
}

impl<'a> History<'a> {
    fn new(heads: &'a DrawnHeads) -> Self {
        History { heads, steps: vec![Steps::default(); heads.number()], waited: vec![0; heads.number()] }
    }

    /// Adds a call, and asks: it is refused for itself alone; it changes one head, its timers and the turn alone, or, if
    /// nothing waited, the turn alone; no event waits for as many turns as there are heads.
    fn add(&mut self, before: &State, after: &State, call: Call, answer: Answer<Option<Turn>>) -> Found<()> {
        let number = self.heads.number();
        let (head, served) = match (call, answer) {
            (Call::Event { .. }, Err(Refusal { number: 26 | 15 | 23, place: NOWHERE })) => return Ok(()),
            (_, Err(_)) => return Err("refused".to_string()),
            (Call::Event { head, .. }, Ok(_)) => (head as usize, true),
            (Call::Turn, Ok(turn)) => {
                let Turn { head, report } = turn.ok_or("a turn tells whose it was")?;
                (head as usize, report != Report::Nothing)
            }
        };
        let mut others = *after;
        if served {
            let begin = self.heads.begin(head);
            let own = begin..begin + usize::from(self.heads.drawings[head].timers);
            others.heads[head] = before.heads[head];
            others.counts[own.clone()].copy_from_slice(&before.counts[own]);
        }
        if call == Call::Turn {
            ensure(before.turn == head as u64 && after.turn == (before.turn + 1) % number as u64, || {
                "turn".to_string()
            })?;
            others.turn = before.turn;
            for (waited, head) in self.waited.iter_mut().zip(&after.heads) {
                *waited = if head.waiting == 0 { 0 } else { *waited + 1 };
                ensure(*waited < number, || "an event waits too long".to_string())?;
            }
        }
        ensure(others == *before, || "something else changed".to_string())?;
        if let Ok(Some(Turn { report: Report::Taken(transition), .. })) = answer {
            self.steps[head].push(transition as u32, before.heads[head].waiting_time);
        }
        self.shows(head, after)
    }

    /// Whether the head's timers show the counts of its steps.
    fn shows(&self, head: usize, state: &State) -> Found<()> {
        let (drawing, steps, begin) = (&self.heads.drawings[head], &self.steps[head], self.heads.begin(head));
        let Head { location, time, .. } = state.heads[head];
        let last = steps.transitions.last().map(|&last| &drawing.transitions[last as usize]);
        let stands = last.map_or(drawing.initial, |transition| transition.target);
        ensure(location == u64::from(stands), || "the head stands elsewhere".to_string())?;
        for (timer, &start) in self.heads.counts[head].iter().enumerate() {
            let starts =
                |&(&transition, _): &(&u32, &u64)| drawing.transitions[transition as usize].is_start(timer as u8);
            let started = steps.transitions.iter().zip(&steps.times).rev().find(starts);
            let count = started.map_or(u64::from(start) + time, |(_, &step)| time - step);
            ensure(u64::from(state.counts[begin + timer]) == count, || format!("timer {timer} shows another count"))?;
        }
        Ok(())
    }

    /// Whether the player takes each head's steps, on its file and from its starting counts, to where the head stands.
    fn play(&self, state: &State, play: Play) -> Found<()> {
        for (index, (steps, head)) in self.steps.iter().zip(&state.heads).enumerate() {
            let (file, counts) = (&self.heads.files[index], &self.heads.counts[index]);
            let played = play(file, counts, &steps.transitions, &steps.times);
            let arrives = played.is_ok_and(|end| end.location == head.location && end.time <= head.time);
            ensure(arrives, || format!("the player does not take the steps of head {index}: {steps:?} {played:?}"))?;
        }
        Ok(())
    }
}

/// Whether the event of the head whose turn it is is over 255, and a transition is taken if it is cut to its low byte.
fn takes_low_byte(board: &Board, state: &State) -> bool {
    let mut cut = *state;
    cut.heads[state.turn as usize].event &= 255;
    cut != *state && matches!(controller::turn(&mut cut, board), Ok(Turn { report: Report::Taken(_), .. }))
}

/// The reached locations of a good file's chart, if it has spare ones too.
fn reached_beside_spare(file: &[u8]) -> Option<LocationSet> {
    if file[0] != Version::Three as u8 {
        return None;
    }
    let chart = Chart::read(file).expect("the file is good");
    let reached = *judge(&chart).expect("the chart is accepted").reached();
    (reached.count() < chart.locations()).then_some(reached)
}

/// Why set-up refuses, if the number has several reasons and only one of them holds.
fn set_up_reason(board: &Board, refusal: Refusal) -> Option<&'static str> {
    match refusal.number {
        12 if refusal.place == NOWHERE => Some("12: a wrong number of counts"),
        12 => Some("12: a count too large"),
        25 => heads_reason(board),
        _ => None,
    }
}

/// The same for a call after set-up.
fn later_reason(board: &Board, state: &State, call: Call, refusal: Refusal) -> Option<&'static str> {
    match (refusal.number, call) {
        (25, _) => heads_reason(board),
        (26, Call::Event { head, .. }) if u64::from(head) >= board.heads.number => Some("26: no such head"),
        (26, _) => Some("26: an event waits already"),
        (32, _) => state_reason(board, state),
        _ => None,
    }
}

/// The charts of a board whose files are good.
fn charts(board: &Board) -> Vec<Chart> {
    let files = parts_of(&board.files, &board.heads.lengths).take(board.heads.number as usize);
    files.map(|file| Chart::read(file).expect("the files were judged")).collect()
}

fn heads_reason(board: &Board) -> Option<&'static str> {
    let number = board.heads.number;
    if number == 0 || number > MOST_HEADS as u64 {
        return Some(if number == 0 { "25: no head" } else { "25: more than 8 heads" });
    }
    let charts = charts(board);
    let blocks = &board.heads.blocks[..charts.len()];
    let total: u128 = blocks.iter().map(|&block| u128::from(block)).sum();
    let is_short = charts.iter().zip(blocks).any(|(chart, &block)| block < u64::from(chart.timers()));
    match (total > u128::from(board.k), is_short) {
        (true, false) if total > u128::from(u64::MAX) => Some("25: blocks whose lengths exceed 64 bits"),
        (true, false) => Some("25: blocks longer than the board"),
        (false, true) => Some("25: a block too short"),
        _ => None,
    }
}

fn state_reason(board: &Board, state: &State) -> Option<&'static str> {
    let most = u64::from(MOST_TICKS);
    let mut reasons = Vec::new();
    if state.turn >= board.heads.number {
        reasons.push("32: turn");
    }
    let mut begin = 0;
    for ((chart, head), block) in charts(board).iter().zip(&state.heads).zip(board.heads.blocks) {
        let counts = &state.counts[begin..begin + usize::from(chart.timers())];
        let waits = head.waiting != 0;
        let holds = [
            ("32: location", head.location >= u64::from(chart.locations())),
            ("32: time", head.time > most),
            ("32: waiting time too large", waits && head.waiting_time > most),
            ("32: waiting time before the head's", waits && head.waiting_time < head.time),
            ("32: count", counts.iter().any(|&count| u64::from(count) > head.time.saturating_add(most))),
        ];
        reasons.extend(holds.iter().filter(|(_, holds)| *holds).map(|(name, _)| *name));
        begin += block as usize;
    }
    if let [reason] = reasons[..] {
        Some(reason)
    } else {
        None
    }
}
