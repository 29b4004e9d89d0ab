//! Random heads for a controller, calls on them, states that nobody set up, and what spoils all of these. For tests and
//! measurements.

use crate::controller::{Board, Head, SetUp, Start, State};
use crate::drawing::{chart_a, chart_b, chart_c, one_location, self_loop, Drawing};
use crate::generator::{accepted, add_spare, counts, damaged, spoilt, store_large, Random, Shape};
use crate::limits::{MOST_HEADS, MOST_LOCATIONS, MOST_TICKS, MOST_TIMERS, TIMERS};
use crate::version::Version;

/// The largest time.
const MOST: u64 = MOST_TICKS as u64;

/// Heads as they are drawn, with their blocks and starting counts, on a board of k timers. Nothing is wrong with them.
#[derive(Clone, Debug)]
pub struct DrawnHeads {
    pub drawings: Vec<Drawing>,
    pub files: Vec<Vec<u8>>,
    pub blocks: Vec<u64>,
    pub counts: Vec<Vec<u32>>,
    pub k: u32,
}

/// A call after set-up.
#[derive(Clone, Copy, Debug, PartialEq, Eq)]
pub enum Call {
    Event { head: u32, event: u8, time: u64 },
    Turn,
}

/// A chart with at most so many timers, some with spare locations, whose events are few, so that often several transitions
/// leave at the same one.
fn drawing(random: &mut Random, most_timers: u8) -> Drawing {
    let most = random.pick(&[2, 4, 8, 8, 16, 40]);
    let shape = Shape::random(random, most);
    let mut drawing = match random.below(8) {
        0 => random.pick(&[chart_a as fn() -> Drawing, chart_b, chart_c, one_location, self_loop])(),
        _ => accepted(random, &Shape { timers: shape.timers.min(most_timers), ..shape }),
    };
    if drawing.timers > most_timers {
        drawing = one_location();
    }
    if random.chance(1, 6) {
        drawing.version = Version::Three as u8;
        add_spare(random, &mut drawing);
    }
    if random.chance(1, 8) {
        store_large(random, &mut drawing, 4);
    }
    let events = random.pick(&[1, 1, 2, 3, 256]);
    drawing
        .transitions
        .iter_mut()
        .for_each(|transition| transition.event = (u16::from(transition.event) % events) as u8);
    drawing
}

/// The largest chart of eight timers, of version 2; its runs do not end.
pub fn largest(random: &mut Random) -> Drawing {
    let most = MOST_TIMERS / MOST_HEADS as u8;
    let shape = Shape { version: Version::Two, timers: most, starts: (most, most), starting: 100, ..Shape::LARGEST };
    let mut drawing = accepted(random, &Shape { cycle: true, lenient: true, ..shape });
    drawing.accepting = (0..MOST_LOCATIONS).collect();
    drawing
}

impl DrawnHeads {
    /// Heads with these charts, whose timers fit a board, and blocks that are longer by `spare` where there is room.
    pub fn of(random: &mut Random, drawings: Vec<Drawing>, spare: u64) -> Self {
        let mut rest = u64::from(MOST_TIMERS) - drawings.iter().map(|drawing| u64::from(drawing.timers)).sum::<u64>();
        let mut block = |drawing: &Drawing| {
            let spare = random.below(spare + 1).min(rest);
            rest -= spare;
            u64::from(drawing.timers) + spare
        };
        let blocks: Vec<u64> = drawings.iter().map(&mut block).collect();
        let least = blocks.iter().sum::<u64>();
        let any = random.between(least, u64::from(MOST_TIMERS));
        let k = random.pick(&[least, any, u64::from(MOST_TIMERS)]) as u32;
        let counts = drawings.iter().map(|drawing| counts(random, usize::from(drawing.timers), true)).collect();
        let files = drawings.iter().map(Drawing::file).collect();
        DrawnHeads { drawings, files, blocks, counts, k }
    }

    pub fn random(random: &mut Random) -> Self {
        let number = random.between(1, MOST_HEADS as u64);
        let mut rest = MOST_TIMERS;
        let mut next = |random: &mut Random| {
            let drawing = drawing(random, rest);
            rest -= drawing.timers;
            drawing
        };
        let drawings = (0..number).map(|_| next(random)).collect();
        let spare = random.pick(&[0, 1, 4, u64::from(MOST_TIMERS)]);
        DrawnHeads::of(random, drawings, spare)
    }

    pub fn number(&self) -> usize {
        self.drawings.len()
    }

    /// The first of a head's timers among the board's.
    pub fn begin(&self, head: usize) -> usize {
        self.blocks[..head].iter().sum::<u64>() as usize
    }

    /// A head's chart and its counts.
    fn own<'a>(&'a self, state: &'a State, head: usize) -> (&'a Drawing, &'a [u32]) {
        let (drawing, begin) = (&self.drawings[head], self.begin(head));
        (drawing, &state.counts[begin..begin + usize::from(drawing.timers)])
    }

    /// What set-up is handed. What no call looks at holds anything.
    pub fn set_up(&self, random: &mut Random) -> SetUp {
        let start =
            |head: usize| Start { file: &self.files[head], block: self.blocks[head], counts: &self.counts[head] };
        let starts: Vec<Start> = (0..self.number()).map(start).collect();
        let SetUp { mut board, mut counts, mut parts } = SetUp::of(&starts, self.k);
        for unused in self.number()..MOST_HEADS {
            board.heads.lengths[unused] = random.pick(&[0, 53, 1 << 32, u64::MAX]);
            board.heads.blocks[unused] = random.pick(&[0, 1, 1 << 32, u64::MAX]);
            parts.lengths[unused] = random.pick(&[0, 1, 1 << 32, u64::MAX]);
        }
        let beyond = random.pick(&[0, 0, 1, 60]);
        board.files.extend(random.bytes(beyond));
        counts.extend(random.bytes(beyond).into_iter().map(|byte| u32::from(byte) << 24));
        SetUp { board, counts, parts }
    }

    /// A call that is likely not to be refused, and at which a transition is likely to be taken.
    pub fn call(&self, random: &mut Random, state: &State) -> Call {
        let head = random.below(self.number() as u64) as usize;
        if state.heads[head].waiting != 0 || random.chance(1, 3) {
            return Call::Turn;
        }
        let Head { location, time: now, .. } = state.heads[head];
        let (drawing, counts) = self.own(state, head);
        let leaving = drawing.transitions.iter().filter(|transition| u64::from(transition.source) == location);
        let leaving: Vec<_> = leaving.collect();
        let wait = random.pick(&[0, 2, 20, 100, 70_000]);
        let mut time = now + random.below(wait + 1);
        let mut event = random.below(3) as u8;
        if !leaving.is_empty() && random.chance(9, 10) {
            let transition = random.pick(&leaving);
            event = transition.event;
            if !transition.tests.is_empty() && random.chance(2, 3) {
                // A tick before, at or after the one at which the count is the constant; rarely a late one.
                let (timer, _, constant) = random.pick(&transition.tests);
                let due = (now + u64::from(constant) + random.below(3)).saturating_sub(1);
                let due = due.saturating_sub(u64::from(counts[usize::from(timer)])).clamp(now, MOST);
                time = if due > now + 100_000 && random.chance(19, 20) { time } else { due };
            }
        }
        Call::Event { head: head as u32, event, time: time.min(MOST) }
    }

    /// A call that is likely to be refused: an event that names no head or one that waits, or whose time is wrong; often
    /// two of these.
    pub fn wrong_call(&self, random: &mut Random, state: &State) -> Call {
        let number = self.number() as u64;
        let any = random.below(number);
        let waiting = (0..number).find(|&head| state.heads[head as usize].waiting != 0).unwrap_or(any);
        let beyond = random.pick(&[number, number + 1, 8, 1 << 8 | any, 1 << 16 | any, 1 << 31, u64::from(u32::MAX)]);
        let head = random.pick(&[any, any, waiting, beyond]);
        let now = state.heads[any as usize].time;
        let early = now.saturating_sub(random.between(1, 3));
        let time = random.pick(&[early, now, now + 1, MOST + 1, 1 << 24 | now, 1 << 32 | now, u64::MAX]);
        Call::Event { head: head as u32, event: random.below(3) as u8, time }
    }

    /// A state that nobody set up and that 32 passes. What no call looks at holds anything.
    pub fn state(&self, random: &mut Random) -> State {
        let mut state = any_state(random);
        state.turn = random.below(self.number() as u64);
        for head in 0..self.number() {
            let drawing = &self.drawings[head];
            let any = random.between(0, MOST);
            let time = random.pick(&[0, 5, any, MOST - 1, MOST]);
            let waiting = random.pick(&[0, 1, 1, 2, 1 << 32, u64::MAX]);
            let mut event = random.pick(&[0, 0, 1, 255, 256, 1 << 32, u64::MAX]);
            let mut location = random.below(u64::from(drawing.locations));
            if !drawing.transitions.is_empty() && random.chance(2, 3) {
                let transition = random.below(drawing.transitions.len() as u64) as usize;
                let transition = &drawing.transitions[transition];
                location = u64::from(transition.source);
                // Over 255 an event is no transition's, whatever its low byte.
                event = random.pick(&[0, 0, 0, 256, 1 << 32]) | u64::from(transition.event);
            }
            let due = random.between(time, MOST);
            let late = random.pick(&[time, (time + 2).min(MOST), due, MOST]);
            let waiting_time = if waiting == 0 { random.word() } else { late };
            state.heads[head] = Head { location, time, waiting, event, waiting_time };
            let begin = self.begin(head);
            for count in &mut state.counts[begin..begin + usize::from(drawing.timers)] {
                let any = random.between(0, time + MOST);
                *count = random.pick(&[0, 2, any, time + MOST - 1, time + MOST]) as u32;
            }
        }
        state
    }

    /// Spoils a state, so that 32 refuses it.
    pub fn spoil_state(&self, random: &mut Random, state: &mut State) {
        let number = self.number() as u64;
        let index = random.below(number) as usize;
        let drawing = &self.drawings[index];
        let head = &mut state.heads[index];
        match random.below(6) {
            0 => state.turn = random.pick(&[number, number + 1, 8, 1 << 32, u64::MAX]),
            1 => {
                let locations = u64::from(drawing.locations);
                head.location = random.pick(&[locations, locations + 1, 1 << 16 | head.location, u64::MAX]);
            }
            2 => {
                head.time = random.pick(&[MOST + 1, 1 << 32 | head.time, u64::MAX]);
                head.waiting = random.pick(&[0, 0, 1]);
            }
            3 => {
                head.waiting = random.pick(&[1, 2]);
                head.waiting_time = random.pick(&[MOST + 1, 1 << 32 | head.time, u64::MAX]);
            }
            4 => {
                head.time = head.time.max(1);
                head.waiting = random.pick(&[1, 1 << 32]);
                head.waiting_time = random.pick(&[0, head.time - 1]);
            }
            _ => {
                let time = head.time.min(MOST);
                let begin = self.begin(index);
                if drawing.timers > 0 {
                    let timer = begin + random.below(u64::from(drawing.timers)) as usize;
                    state.counts[timer] = random.pick(&[(time + MOST) as u32 + 1, 1 << 31, u32::MAX]);
                }
            }
        }
    }

    /// Spoils what set-up is handed: its number of heads, a file, K, a head's counts or a block. Perhaps it is still good.
    pub fn spoil(&self, random: &mut Random, handed: &mut SetUp) {
        let head = random.below(self.number() as u64) as usize;
        match random.below(12) {
            0 => handed.board.heads.number = self.wrong_number(random),
            1..=3 => self.spoil_file(random, head, &mut handed.board),
            4 | 5 => spoil_lengths(random, head, &mut handed.board),
            6 => handed.board.k = random.pick(&[65, 128, 1 << 8 | self.k, 1 << 16 | self.k, u32::MAX]),
            7 | 8 => self.spoil_counts(random, head, handed),
            _ => self.spoil_blocks(random, head, &mut handed.board),
        }
    }

    fn wrong_number(&self, random: &mut Random) -> u64 {
        let number = self.number() as u64;
        random.pick(&[0, 0, 9, 9, number - 1, number + 1, 1 << 8 | number, 1 << 32 | number, u64::MAX])
    }

    /// Puts a damaged file in the place of a head's, or one without starts, so that every test is of an unstarted timer.
    fn spoil_file(&self, random: &mut Random, head: usize, board: &mut Board) {
        let mut drawing = self.drawings[head].clone();
        let mut file = if random.chance(1, 6) {
            drawing.transitions.iter_mut().for_each(|transition| transition.starts.clear());
            drawing.file()
        } else {
            spoilt(random, &drawing)
        };
        if random.chance(1, 4) {
            file = damaged(random, &file);
        }
        let begin: usize = self.files[..head].iter().map(Vec::len).sum();
        let end = (begin + self.files[head].len()).min(board.files.len());
        board.heads.lengths[head] = file.len() as u64;
        board.files.splice(begin.min(end)..end, file);
    }

    /// Makes a head's starting counts too few, too many or too large, or ends the list of all of them early.
    fn spoil_counts(&self, random: &mut Random, head: usize, handed: &mut SetUp) {
        let begin: usize = self.counts[..head].iter().map(Vec::len).sum();
        let own = self.counts[head].len();
        let length = &mut handed.parts.lengths[head];
        match random.below(5) {
            0 => *length = length.saturating_add(1),
            1 => *length = length.saturating_sub(1),
            2 => *length = random.pick(&[1 << 32 | own as u64, u64::MAX]),
            3 => handed.counts.truncate(begin + own / 2),
            _ if own > 0 && begin + own <= handed.counts.len() => {
                let timer = begin + random.below(own as u64) as usize;
                handed.counts[timer] = random.pick(&[MOST_TICKS + 1, 1 << 31, u32::MAX]);
            }
            _ => {}
        }
    }

    /// Makes a block shorter than its chart's timers, or the blocks together longer than the board.
    fn spoil_blocks(&self, random: &mut Random, head: usize, board: &mut Board) {
        let total: u64 = self.blocks.iter().sum();
        let own = self.blocks[head];
        let timers = u64::from(self.drawings[head].timers);
        let block = &mut board.heads.blocks[head];
        match random.below(6) {
            0 if timers > 0 => *block = random.pick(&[0, timers - 1]),
            1 => *block = own + u64::from(self.k) - total + 1,
            2 => *block = random.pick(&[1 << 32 | own, 1 << 63, u64::MAX]),
            // Modulo 2^64 the sum is that of a board which is large enough.
            3 => *block = random.below(2).wrapping_sub(total - own),
            _ if total > 0 => board.k = total as u32 - 1,
            _ => {}
        }
    }
}

/// Changes the length that is given for a head's file, so that those after it begin elsewhere, or ends the files early.
fn spoil_lengths(random: &mut Random, head: usize, board: &mut Board) {
    let length = &mut board.heads.lengths[head];
    match random.below(5) {
        0 => *length = length.saturating_add(1),
        1 => *length = length.saturating_sub(1),
        2 => *length = random.pick(&[0, 4, 5, 1 << 32 | *length, u64::MAX]),
        _ => {
            let kept = random.below(board.files.len() as u64 + 1) as usize;
            board.files.truncate(kept);
        }
    }
}

/// A state that holds anything.
pub fn any_state(random: &mut Random) -> State {
    let mut state = State { turn: random.word(), ..State::ZERO };
    for head in &mut state.heads {
        let [location, time, waiting, event, waiting_time] = [(); 5].map(|()| random.word());
        *head = Head { location, time, waiting, event, waiting_time };
    }
    state.counts = [(); TIMERS].map(|()| random.word() as u32);
    state
}
