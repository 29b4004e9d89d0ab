//! The controller: the cases of document 02, P4, by this crate and, with the feature `library`, by the proved library; and
//! what is promised of it, on random lists of calls. The differential test compares the two at large.

use timing_chart::controller::{Board, Head, Report, SetUp, Start, State, Turn};
use timing_chart::drawing::{chart_b, spare_beside_twins, Arrow, Drawing, AT_LEAST, BELOW};
use timing_chart::limits::{MOST_HEADS, MOST_TICKS};
use timing_chart::trials::{Calls, Trials};
use timing_chart::{Answer, Refusal, NOWHERE};

const MOST: u64 = MOST_TICKS as u64;

fn refused<T>(number: u64) -> Answer<T> {
    Err(Refusal { number, place: NOWHERE })
}

/// A head that stands somewhere, with nothing waiting.
fn at(location: u64, time: u64) -> Head {
    Head { location, time, ..Head::default() }
}

fn told(head: u64, report: Report) -> Answer<Turn> {
    Ok(Turn { head, report })
}

/// Heads that one implementation drives.
#[derive(Clone)]
struct Driven {
    calls: Calls,
    board: Board,
    state: State,
}

impl Driven {
    /// Sets up heads with these files, blocks and starting counts on a board of k timers.
    fn set_up(calls: Calls, k: u32, heads: &[(&[u8], u64, &[u32])]) -> Answer<Driven> {
        let starts: Vec<Start> = heads.iter().map(|&(file, block, counts)| Start { file, block, counts }).collect();
        let SetUp { board, counts, parts } = SetUp::of(&starts, k);
        let head = Head { location: 7, time: 7, waiting: 7, event: 7, waiting_time: 7 };
        let before = State { turn: 7, heads: [head; MOST_HEADS], counts: [7; 64] };
        let mut state = before;
        let answer = (calls.set_up)(&mut state, &board, &counts, &parts);
        assert!(answer.is_ok() || state == before);
        answer.map(|()| Driven { calls, board, state })
    }

    /// Two heads with chart B on a board of four timers.
    fn two(calls: Calls) -> Driven {
        let file = chart_b().file();
        Driven::set_up(calls, 4, &[(&file, 2, &[7, 7]), (&file, 2, &[0, 0])]).unwrap()
    }

    fn event(&mut self, head: u32, event: u8, time: u64) -> Answer<()> {
        let before = self.state;
        let answer = (self.calls.event)(&mut self.state, &self.board, head, event, time);
        assert!(answer.is_ok() || self.state == before);
        answer
    }

    fn turn(&mut self) -> Answer<Turn> {
        let before = self.state;
        let answer = (self.calls.turn)(&mut self.state, &self.board);
        assert!(answer.is_ok() || self.state == before);
        answer
    }

    /// The answers of a turn and of an event for head 0, on the state that `change` makes of this one.
    fn judged(&self, change: impl Fn(&mut State)) -> [Answer<()>; 2] {
        let [mut turning, mut receiving] = [self.clone(), self.clone()];
        change(&mut turning.state);
        change(&mut receiving.state);
        [turning.turn().map(drop), receiving.event(0, 0, MOST)]
    }
}

fn two_heads(calls: Calls) {
    let mut heads = Driven::two(calls);
    let mut expected = State::ZERO;
    expected.counts[..2].copy_from_slice(&[7, 7]);
    assert_eq!(heads.state, expected);

    assert_eq!(heads.event(0, 0, 5), Ok(()));
    expected.heads[0] = Head { location: 0, time: 0, waiting: 1, event: 0, waiting_time: 5 };
    assert_eq!(heads.state, expected);
    assert_eq!(heads.event(0, 0, 6), refused(26));
    assert_eq!(heads.turn(), told(0, Report::Taken(0)));
    expected.turn = 1;
    expected.heads[0] = at(1, 5);
    expected.counts[..2].copy_from_slice(&[0, 12]);
    assert_eq!(heads.state, expected);

    assert_eq!(heads.turn(), told(1, Report::Nothing));
    expected.turn = 0;
    assert_eq!(heads.state, expected);
    assert_eq!(heads.event(0, 0, 4), refused(23));
    assert_eq!(heads.event(2, 0, MOST + 1), refused(26));
    assert_eq!(heads.event(0, 0, MOST + 1), refused(15));

    // No transition is taken, time and counts move on; a second event at the same time is taken too.
    for _ in 0..2 {
        assert_eq!(heads.event(0, 0, 8), Ok(()));
        while heads.state.turn != 0 {
            assert_eq!(heads.turn(), told(1, Report::Nothing));
        }
        assert_eq!(heads.turn(), told(0, Report::NoneTaken));
        expected.turn = 1;
        expected.heads[0] = at(1, 8);
        expected.counts[..2].copy_from_slice(&[3, 15]);
        assert_eq!(heads.state, expected);
    }
    assert_eq!(heads.event(1, 0, MOST), Ok(()));
    assert_eq!(heads.turn(), told(1, Report::Taken(0)));
    expected.turn = 0;
    expected.heads[1] = at(1, MOST);
    expected.counts[2..4].copy_from_slice(&[0, MOST_TICKS]);
    assert_eq!(heads.state, expected);
}

fn lowest_transition(calls: Calls) {
    let transitions = vec![
        Arrow::new(0, 1).starts(&[0]),
        Arrow::new(1, 2).tests(0, BELOW, 3),
        Arrow::new(1, 0).tests(0, AT_LEAST, 2),
        Arrow::new(1, 1).starts(&[0]),
    ];
    let file = Drawing::new(3, 1, transitions).file();
    for (second, transition, location) in [(12, 1, 2), (13, 2, 0)] {
        let mut heads = Driven::set_up(calls, 1, &[(&file, 1, &[0])]).unwrap();
        assert_eq!((heads.event(0, 0, 10), heads.turn()), (Ok(()), told(0, Report::Taken(0))));
        assert_eq!((heads.event(0, 0, second), heads.turn()), (Ok(()), told(0, Report::Taken(transition))));
        assert_eq!((heads.state.heads[0], heads.state.counts[0]), (at(location, second), second as u32 - 10));
    }
    // Another event is no transition's, nor is one over a byte, whatever its low byte.
    let mut heads = Driven::set_up(calls, 1, &[(&file, 1, &[9])]).unwrap();
    assert_eq!((heads.event(0, 1, 4), heads.turn()), (Ok(()), told(0, Report::NoneTaken)));
    heads.state.heads[0] = Head { waiting: 1 << 32, event: 256, waiting_time: 5, ..heads.state.heads[0] };
    assert_eq!(heads.turn(), told(0, Report::NoneTaken));
    assert_eq!((heads.state.heads[0], heads.state.counts[0]), (at(0, 5), 14));
}

fn turns_go_round(calls: Calls) {
    let file = chart_b().file();
    let head: (&[u8], u64, &[u32]) = (&file, 2, &[0, 0]);
    for number in 1..=MOST_HEADS {
        let mut heads = Driven::set_up(calls, 64, &vec![head; number]).unwrap();
        for turn in 0..2 * number as u64 + 1 {
            assert_eq!(heads.state, State { turn: turn % number as u64, ..State::ZERO });
            assert_eq!(heads.turn(), told(turn % number as u64, Report::Nothing));
        }
    }
}

fn set_up_judges(calls: Calls) {
    let file = chart_b().file();
    let b = &file[..];
    let set_up = |k, heads: &[(&[u8], u64, &[u32])]| Driven::set_up(calls, k, heads).map(drop);
    assert_eq!(set_up(65, &[]), refused(25));
    assert_eq!(set_up(65, &[(b, 0, &[][..]); 9]), refused(25));
    assert_eq!(set_up(65, &[(b, 2, &[0, 0]), (&[], 2, &[0, 0])]), refused(1));
    assert_eq!(set_up(65, &[(b, 2, &[]), (b, 2, &[0, 0])]), refused(11));
    assert_eq!(set_up(4, &[(b, 1, &[0]), (b, 1, &[0, 0])]), refused(12));
    assert_eq!(set_up(4, &[(b, 1, &[0, 0]), (b, 1, &[0, MOST_TICKS + 1])]), Err(Refusal { number: 12, place: 1 }));
    assert_eq!(set_up(3, &[(b, 2, &[0, 0]), (b, 2, &[0, 0])]), refused(25));
    assert_eq!(set_up(4, &[(b, 1, &[0, 0]), (b, 3, &[0, 0])]), refused(25));
    assert_eq!(set_up(4, &[(b, 2, &[0, 0]), (b, u64::MAX - 1, &[0, 0])]), refused(25));
    assert_eq!(set_up(4, &[(b, 2, &[MOST_TICKS; 2]), (b, 2, &[0, 0])]), Ok(()));
    // A chart's own place, and the first bad chart.
    let mut late = chart_b();
    late.transitions[0].starts.clear();
    assert_eq!(
        set_up(65, &[(b, 2, &[]), (&late.file(), 0, &[]), (&[], 0, &[])]),
        Err(Refusal { number: 10, place: 1 })
    );
}

fn later_calls_judge(calls: Calls) {
    let heads = Driven::two(calls);
    let good = heads.judged(|_| ());
    assert_eq!(good, [Ok(()); 2]);
    let mut short = heads.clone();
    short.board.heads.blocks = [1, 2, 0, 0, 0, 0, 0, 0];
    assert_eq!(short.judged(|state| state.turn = 9), [refused(25); 2]);
    let mut cut = heads.clone();
    cut.board.files.pop();
    assert_eq!(cut.judged(|state| state.turn = 9), [refused(1); 2]);
    let mut large = short;
    large.board.k = 65;
    assert_eq!(large.judged(|state| state.turn = 9), [refused(11); 2]);

    // The state, before 26; and what is just allowed.
    let state_refused = [refused(32); 2];
    assert_eq!(heads.judged(|state| (state.turn, state.heads[0].waiting) = (2, 1)), state_refused);
    assert_eq!(heads.judged(|state| state.turn = 1), good);
    for head in [0, 1] {
        assert_eq!(heads.judged(|state| state.heads[head].location = 4), state_refused);
        assert_eq!(heads.judged(|state| state.heads[head].location = 3), good);
        assert_eq!(heads.judged(|state| state.heads[head].time = MOST + 1), state_refused);
        assert_eq!(heads.judged(|state| state.heads[head].time = MOST), good);
        let timers = [2 * head, 2 * head + 1];
        for timer in timers {
            assert_eq!(heads.judged(|state| state.counts[timer] = MOST_TICKS + 1), state_refused);
            assert_eq!(heads.judged(|state| state.counts[timer] = MOST_TICKS), good);
            let later = |count| {
                heads.judged(move |state| (state.heads[head].time, state.counts[timer]) = (9, MOST_TICKS + count))
            };
            assert_eq!((later(10), later(9)), (state_refused, good));
        }
    }
    // A waiting time, only where an event waits.
    let waiting = |waiting, waiting_time| {
        let head = Head { location: 0, time: 9, waiting, event: 0, waiting_time };
        heads.judged(move |state| state.heads[1] = head)
    };
    assert_eq!([waiting(1, MOST + 1), waiting(1 << 32, 8)], [state_refused; 2]);
    assert_eq!([waiting(1, MOST), waiting(2, 9), waiting(0, MOST + 1), waiting(0, 8)], [good; 4]);
    // What belongs to no head is not looked at, and stays.
    let mut unused = heads.clone();
    unused.state.heads[2..].fill(Head { location: 999, time: u64::MAX, waiting: 1, event: 999, waiting_time: 0 });
    unused.state.counts[4..].fill(u32::MAX);
    let mut expected = unused.state;
    assert_eq!((unused.event(0, 9, 3), unused.turn()), (Ok(()), told(0, Report::NoneTaken)));
    expected.turn = 1;
    expected.heads[0] = at(0, 3);
    expected.counts[..2].copy_from_slice(&[10, 10]);
    assert_eq!(unused.state, expected);
}

fn spare_locations(calls: Calls) {
    let file = spare_beside_twins().file();
    let heads = Driven::set_up(calls, 2, &[(&file, 2, &[7, 7])]).unwrap();
    // A run comes to no spare location, but a state that nobody set up may have it, and is judged as any other.
    for (count, report, location, counts) in [(4, Report::Taken(3), 1, [0, 5]), (5, Report::NoneTaken, 4, [8, 6])] {
        let mut heads = heads.clone();
        heads.state.heads[0].location = 4;
        heads.state.counts[1] = count;
        assert_eq!((heads.event(0, 0, 1), heads.turn()), (Ok(()), told(0, report)));
        assert_eq!((heads.state.heads[0], &heads.state.counts[..2]), (at(location, 1), &counts[..]));
    }
    assert_eq!(heads.judged(|state| state.heads[0].location = 5), [refused(32); 2]);
    let version_2 = spare_beside_twins().version(2).file();
    let set_up = Driven::set_up(calls, 2, &[(&file, 2, &[7, 7]), (&version_2, 2, &[])]);
    assert_eq!(set_up.map(drop), Err(Refusal { number: 9, place: 4 }));
}

fn all(calls: Calls) {
    two_heads(calls);
    lowest_transition(calls);
    turns_go_round(calls);
    set_up_judges(calls);
    later_calls_judge(calls);
    spare_locations(calls);
}

#[test]
fn cases_by_this_crate() {
    all(Calls::RUST);
}

#[cfg(feature = "library")]
#[test]
fn cases_by_the_proved_library() {
    all(Calls::PROVED);
}

/// The same implementation twice: what is tried is the promise, and that the trials bring every refusal.
#[test]
fn promise() {
    let mut trials = Trials::new(1, [Calls::RUST; 2]);
    for _ in 0..1_000 {
        trials.run(60).unwrap_or_else(|wrong| panic!("{wrong}"));
    }
    assert_eq!(trials.tally.missing(), Vec::<String>::new());
}
