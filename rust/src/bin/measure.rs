//! Measures the proved library beside this crate: analysis, rewriting, player and counter board on small, typical and
//! largest charts, the larger ones as version 2 too, the largest as version 3 without spare locations and with half of its
//! locations spare, and the largest with all timers twins; the analysis where there are most numbers or rounds or the floor
//! is hard to find, growth by transitions, the player's and the counter board's time
//! for a step, and the controller's calls with one and with eight heads.
//!
//! usage: measure [REPETITIONS]

use std::hint::black_box;

use timing_chart::analysis::{self, Analysis};
use timing_chart::chart::Chart;
use timing_chart::controller::{Report, SetUp, State, Turn};
use timing_chart::counter::{self, CounterPlaying};
use timing_chart::drawing::{chart_a, chart_b, looped_chain, Arrow, Drawing, AT_LEAST};
use timing_chart::generator::{
    accepted, five_groups, hardest_floor, longest, many_numbers, run, CounterSteps, Random, Shape, Steps,
};
use timing_chart::heads::{self, DrawnHeads};
use timing_chart::limits::{
    COUNTER_LARGEST_CONSTANT, LOCATIONS, MOST_HEADS, MOST_LOCATIONS, MOST_TIMERS, MOST_TRANSITIONS,
};
use timing_chart::player::{self, Playing};
use timing_chart::rewriting::{self, Rewriting};
use timing_chart::version::Version;
use timing_chart::{library, trials, Answer};

/// The steps of a long list.
const LONG: usize = 100_000;

/// The board of every rewriting.
const K: u32 = MOST_TIMERS as u32;

type Analyse = fn(&[u8], &mut [u64]) -> Answer<Analysis>;
type Rewrite = fn(&[u8], u32, &mut [u8]) -> Answer<Rewriting>;
type Play = fn(&[u8], &[u32], &[u32], &[u64]) -> Answer<Playing>;
type PlayCounter = fn(&[u8], &[u32], &[u32], u16, &[u16]) -> Answer<CounterPlaying>;

/// One implementation of the calls.
#[derive(Clone, Copy)]
struct Calls {
    analyse: Analyse,
    rewrite: Rewrite,
    play: Play,
    play_counter: PlayCounter,
    controller: trials::Calls,
}

const PROVED: Calls = Calls {
    analyse: library::analyse,
    rewrite: library::rewrite,
    play: library::play,
    play_counter: library::play_counter,
    controller: trials::Calls::PROVED,
};
const RUST: Calls = Calls {
    analyse: analysis::analyse,
    rewrite: rewriting::rewrite,
    play: player::play,
    play_counter: counter::play_counter,
    controller: trials::Calls::RUST,
};

/// The processor's time that this thread has taken, in nanoseconds: other programs on the machine do not count.
fn now() -> u64 {
    #[repr(C)]
    struct Time {
        seconds: i64,
        nanoseconds: i64,
    }
    unsafe extern "C" {
        fn clock_gettime(clock: i32, time: *mut Time) -> i32;
    }
    const THREAD: i32 = 3;
    let mut time = Time { seconds: 0, nanoseconds: 0 };
    // SAFETY: `time` has the layout of timespec on 64-bit Linux and is valid during the call.
    assert_eq!(unsafe { clock_gettime(THREAD, &mut time) }, 0, "the thread has a clock");
    time.seconds as u64 * 1_000_000_000 + time.nanoseconds as u64
}

/// The time of one call in nanoseconds, over as many calls as fill some milliseconds.
fn once(call: &mut dyn FnMut()) -> f64 {
    let begin = now();
    let mut calls = 0_u32;
    let mut batch = 1;
    loop {
        for _ in 0..batch {
            call();
        }
        calls += batch;
        let passed = now() - begin;
        if passed >= 5_000_000 {
            return passed as f64 / f64::from(calls);
        }
        batch *= 2;
    }
}

/// The medians of a call by the proved library and by Rust, taken in turns.
fn medians(repetitions: usize, mut call: impl FnMut(Calls)) -> (f64, f64) {
    let mut times = (Vec::new(), Vec::new());
    for _ in 0..repetitions {
        times.0.push(once(&mut || call(PROVED)));
        times.1.push(once(&mut || call(RUST)));
    }
    (median(times.0), median(times.1))
}

fn median(mut times: Vec<f64>) -> f64 {
    times.sort_by(f64::total_cmp);
    times[times.len() / 2]
}

fn row(call: &str, chart: &str, (proved, rust): (f64, f64)) {
    let ratio = proved / rust;
    println!("{call:<26} {chart:<28} {:>12.3} {:>12.3} {ratio:>8.2}", proved / 1_000.0, rust / 1_000.0);
}

fn heading(title: &str) {
    println!("\n{title}");
    println!("{:<26} {:<28} {:>12} {:>12} {:>8}", "call", "chart", "proved µs", "Rust µs", "ratio");
}

/// A chart of the shape that fits the board.
fn fitting(shape: &Shape) -> Drawing {
    let fits = |seed| {
        let drawing = accepted(&mut Random::new(seed), shape);
        let used = analysis::analyse(&drawing.file(), &mut [0; LOCATIONS]).expect("the chart is accepted").used;
        (used <= u64::from(K)).then_some(drawing)
    };
    (1..).find_map(fits).expect("some seed gives such a chart")
}

fn typical() -> Drawing {
    fitting(&Shape {
        locations: 40,
        timers: 12,
        transitions: 80,
        starting: 50,
        starts: (1, 3),
        tests: (1, 3),
        cycle: true,
        lenient: true,
        ..Shape::LARGEST
    })
}

/// The chain of the most locations with a loop at its end: its live sets take as many rounds as there can be.
fn most_rounds() -> Drawing {
    looped_chain(MOST_LOCATIONS)
}

/// A ring of all locations but the initial one, on which 64 timers are tested, each once, four locations apart: its live
/// sets take 256 rounds too, and each round but the last changes 64 of them. All its timers are twins, which makes one
/// family; the rounds are by drawn timers.
fn ring() -> Drawing {
    let last = MOST_LOCATIONS - 1;
    let every: Vec<u8> = (0..MOST_TIMERS).collect();
    let around = |source| Arrow::new(source, if source == last { 1 } else { source + 1 });
    let mut transitions: Vec<Arrow> = (1..=last).map(around).collect();
    for (&timer, transition) in every.iter().zip(transitions.iter_mut().step_by(4)) {
        transition.tests.push((timer, AT_LEAST, 0));
    }
    transitions.push(Arrow::new(0, 1).starts(&every));
    Drawing::new(MOST_LOCATIONS, MOST_TIMERS, transitions)
}

/// The same chart with each transition twice.
fn twice(mut drawing: Drawing) -> Drawing {
    drawing.transitions.extend_from_within(..);
    drawing
}

/// The same chart with all timers twins: each transition that starts a timer starts all.
fn all_twins(mut drawing: Drawing) -> Drawing {
    let every: Vec<u8> = (0..drawing.timers).collect();
    let starting = drawing.transitions.iter_mut().filter(|transition| !transition.starts.is_empty());
    starting.for_each(|transition| transition.starts.clone_from(&every));
    drawing
}

fn largest(transitions: u16) -> Drawing {
    fitting(&Shape { locations: transitions / 2, transitions, cycle: true, lenient: true, ..Shape::LARGEST })
}

/// A chart of version 3 whose locations are half spare: a chart and the same again, which nothing reaches; every second
/// transition there leads to a reached location.
fn half_spare(mut drawing: Drawing) -> Drawing {
    let locations = drawing.locations;
    let again = drawing.transitions.clone().into_iter().enumerate().map(|(index, mut transition)| {
        transition.source += locations;
        transition.target += if index % 2 == 0 { locations } else { 0 };
        transition
    });
    drawing.transitions.extend(again);
    Drawing { locations: 2 * locations, ..drawing }.version(3)
}

fn analyses(repetitions: usize, file: &[u8]) -> (f64, f64) {
    let mut live = [0; LOCATIONS];
    medians(repetitions, |calls| {
        black_box((calls.analyse)(black_box(file), black_box(&mut live)).expect("the chart is accepted"));
    })
}

fn rewritings(repetitions: usize, file: &[u8]) -> (f64, f64) {
    let mut out = vec![0; file.len()];
    medians(repetitions, |calls| {
        black_box((calls.rewrite)(black_box(file), black_box(K), black_box(&mut out)).expect("the chart fits"));
    })
}

fn playings(repetitions: usize, file: &[u8], steps: &Steps) -> (f64, f64) {
    let timers = Chart::read(file).expect("the chart is accepted").timers();
    let counts = vec![7; usize::from(timers)];
    medians(repetitions, |calls| {
        let played = (calls.play)(black_box(file), &counts, black_box(&steps.transitions), black_box(&steps.times));
        black_box(played.expect("the list is a run"));
    })
}

/// The counter board on the same steps; none if it does not take the chart's constants.
fn counter_playings(repetitions: usize, file: &[u8], steps: &Steps) -> Option<(f64, f64)> {
    let chart = Chart::read(file).expect("the chart is accepted");
    if chart.largest_constant() > Some(COUNTER_LARGEST_CONSTANT) {
        return None;
    }
    let counts = vec![7; usize::from(chart.timers())];
    let CounterSteps { first, transitions, readings } = CounterSteps::of(steps, u16::MAX);
    Some(medians(repetitions, |calls| {
        let played =
            (calls.play_counter)(black_box(file), &counts, black_box(&transitions), first, black_box(&readings));
        black_box(played.expect("the list is a run"));
    }))
}

/// The player on a list of steps, and the counter board where it takes the chart.
fn step_rows(repetitions: usize, name: &str, file: &[u8], steps: &Steps, what: &str) {
    row(&format!("player, {what}"), name, playings(repetitions, file, steps));
    let times = counter_playings(repetitions, file, steps);
    times.into_iter().for_each(|times| row(&format!("counter board, {what}"), name, times));
}

/// A call on a long list of steps, and its time for a step.
fn long_rows(call: &str, name: &str, steps: &Steps, times: impl Fn(&Steps) -> (f64, f64)) {
    let (proved, rust) = times(steps);
    row(&format!("{call}, long list"), name, (proved, rust));
    let empty = times(&Steps::default());
    let steps = steps.times.len() as f64;
    row(&format!("{call}, for a step"), name, ((proved - empty.0) / steps, (rust - empty.1) / steps));
}

/// The steps of a small chart.
fn short_list(list: &[(u32, u64)]) -> Steps {
    let mut steps = Steps::default();
    list.iter().for_each(|&(transition, time)| steps.push(transition, time));
    steps
}

/// Steps that the chart takes, mostly without a wait; as many as are asked for.
fn steps_of(drawing: &Drawing, most: usize) -> Steps {
    let mut steps = run(&mut Random::new(1), drawing, most, 0, false);
    assert_eq!(steps.times.len(), most, "the chart's runs do not end");
    for (index, time) in steps.times.iter_mut().enumerate() {
        *time += index as u64 / 10;
    }
    steps
}

/// The controller's calls with heads of these charts: set-up, an event, a turn with nothing waiting, and a turn at which
/// head 0 takes the highest transition that has tests. The state is handed in anew for each call.
fn controllers(repetitions: usize, name: &str, drawings: &[Drawing]) {
    let heads = DrawnHeads::of(&mut Random::new(1), drawings.to_vec(), 0);
    let SetUp { board, counts, parts } = heads.set_up(&mut Random::new(1));
    let mut state = State::ZERO;
    (RUST.controller.set_up)(&mut state, &board, &counts, &parts).expect("the heads are good");
    let mut waiting = state;
    let transitions = &heads.drawings[0].transitions;
    let tested = transitions.iter().rposition(|transition| !transition.tests.is_empty()).expect("there is a test");
    let transition = &transitions[tested];
    waiting.counts.fill(2);
    waiting.heads[0].location = u64::from(transition.source);
    waiting.heads[0].waiting = 1;
    waiting.heads[0].event = u64::from(transition.event);

    let timed = |call: &dyn Fn(trials::Calls, &mut State), state: State| {
        let after = [PROVED, RUST].map(|calls| {
            let mut state = state;
            call(calls.controller, &mut state);
            state
        });
        assert_eq!(after[0], after[1]);
        medians(repetitions, |calls| {
            let mut state = black_box(state);
            call(calls.controller, &mut state);
            black_box(state);
        })
    };
    let set_up = |calls: trials::Calls, state: &mut State| {
        (calls.set_up)(state, black_box(&board), &counts, &parts).expect("the heads are good");
    };
    let event = |calls: trials::Calls, state: &mut State| {
        (calls.event)(state, black_box(&board), 0, 0, 5).expect("head 0 is free");
    };
    let turn = |report: Report| {
        let board = &board;
        move |calls: trials::Calls, state: &mut State| {
            assert_eq!((calls.turn)(state, black_box(board)), Ok(Turn { head: 0, report }));
        }
    };
    row("set-up", name, timed(&set_up, state));
    row("event", name, timed(&event, state));
    row("turn, nothing waiting", name, timed(&turn(Report::Nothing), state));
    row("turn, an event served", name, timed(&turn(Report::Taken(tested as u64)), waiting));
}

/// Both must answer alike, or a comparison of times says nothing.
fn check(file: &[u8]) {
    let (mut a, mut b) = ([0; LOCATIONS], [0; LOCATIONS]);
    assert_eq!(library::analyse(file, &mut a), analysis::analyse(file, &mut b));
    assert_eq!(a, b);
    let (mut a, mut b) = (vec![0; file.len()], vec![0; file.len()]);
    assert_eq!(library::rewrite(file, K, &mut a), rewriting::rewrite(file, K, &mut b));
    assert_eq!(a, b);
}

fn describe(name: &str, drawing: &Drawing) {
    let file = drawing.file();
    let answer = analysis::analyse(&file, &mut [0; LOCATIONS]).expect("the chart is accepted");
    let tests: usize = drawing.transitions.iter().map(|transition| transition.tests.len()).sum();
    println!(
        "{name}: {} locations, {} transitions, {} timers, {tests} tests, {} bytes; used {}, {} {}, rounds {}",
        drawing.locations,
        drawing.transitions.len(),
        drawing.timers,
        file.len(),
        answer.used,
        if answer.searched { "floor" } else { "seen" },
        answer.floor,
        answer.rounds
    );
}

fn main() {
    let repetitions = std::env::args().nth(1).map_or(9, |word| word.parse().expect("a number of repetitions"));
    println!("Medians of {repetitions} repetitions of some milliseconds each, the proved library and Rust in turns.");
    println!("Both are optimised; processor time of one thread; buffers are not cleared between calls.");
    println!("Ratio: the proved library's time by Rust's.");
    println!();

    let small = chart_a();
    let charts = [
        ("small (chart A)", small),
        ("typical", typical()),
        ("largest", largest(MOST_TRANSITIONS)),
        ("longest file", longest(&mut Random::new(1), Version::One)),
        // The same charts with constants of four bytes; the longest file has large ones.
        ("typical, version 2", typical().version(2)),
        ("largest, version 2", largest(MOST_TRANSITIONS).version(2)),
        ("longest file, version 2", longest(&mut Random::new(1), Version::Two)),
        // Version 3, without spare locations and with as many as there are reached ones.
        ("largest, version 3", largest(MOST_TRANSITIONS).version(3)),
        ("largest, half spare", half_spare(largest(MOST_TRANSITIONS / 2))),
        ("largest, all twins", all_twins(largest(MOST_TRANSITIONS))),
    ];
    for (name, drawing) in &charts {
        describe(name, drawing);
    }
    // Of these only the analysis is measured.
    let figures = [
        ("most numbers", many_numbers(17, 32)),
        ("five groups", five_groups()),
        ("hardest floor", hardest_floor()),
        ("most rounds", most_rounds()),
        ("most rounds, last to first", most_rounds().last_to_first()),
        ("most rounds, 512 transitions", twice(most_rounds())),
        ("most rounds, a ring", ring().told_apart()),
        ("ring, all twins", ring()),
        ("ring, 512 transitions", twice(ring())),
    ];
    for (name, drawing) in &figures {
        describe(name, drawing);
    }

    heading("The calls, each from the file's bytes");
    for (name, drawing) in &charts {
        let file = drawing.file();
        check(&file);
        row("analysis", name, analyses(repetitions, &file));
        row("rewriting", name, rewritings(repetitions, &file));
        step_rows(repetitions, name, &file, &Steps::default(), "no steps");
    }
    for (name, drawing) in &figures {
        let file = drawing.file();
        check(&file);
        row("analysis", name, analyses(repetitions, &file));
    }
    let steps = short_list(&[(0, 1), (1, 2), (2, 5), (4, 6), (6, 8)]);
    step_rows(repetitions, charts[0].0, &charts[0].1.file(), &steps, "5 steps");
    let steps = short_list(&[(0, 5), (1, 7), (2, 8)]);
    step_rows(repetitions, "small (chart B)", &chart_b().file(), &steps, "3 steps");

    heading("Growth: locations half the transitions, 64 timers, 8 tests where 10 allows");
    let mut before: Option<[(f64, f64); 4]> = None;
    for transitions in [8, 4, 2, 1].map(|part| MOST_TRANSITIONS / part) {
        let drawing = largest(transitions);
        let file = drawing.file();
        check(&file);
        let times = [
            analyses(repetitions, &file),
            rewritings(repetitions, &file),
            playings(repetitions, &file, &Steps::default()),
            counter_playings(repetitions, &file, &Steps::default()).expect("the chart's constants are small"),
        ];
        let chart = format!("{transitions} transitions");
        let calls = ["analysis", "rewriting", "player, no steps", "counter board, no steps"];
        for (index, call) in calls.into_iter().enumerate() {
            row(call, &chart, times[index]);
            if let Some(before) = before {
                let (proved, rust) = (times[index].0 / before[index].0, times[index].1 / before[index].1);
                println!("{:<26} {:<28} {proved:>11.2}x {rust:>11.2}x", "", "  to half of it");
            }
        }
        before = Some(times);
    }

    heading(&format!(
        "The player and the counter board on {LONG} steps; for a step: the time less that of no steps, by the steps"
    ));
    for (name, drawing) in &charts[1..3] {
        let file = drawing.file();
        let steps = steps_of(drawing, LONG);
        long_rows("player", name, &steps, |steps| playings(repetitions, &file, steps));
        long_rows("counter board", name, &steps, |steps| {
            counter_playings(repetitions, &file, steps).expect("the chart's constants are small")
        });
    }
    let large: Vec<Drawing> = (1..=MOST_HEADS as u64).map(|seed| heads::largest(&mut Random::new(seed))).collect();
    println!();
    describe("head, small (chart B)", &chart_b());
    describe("first head, large", &large[0]);
    heading("The controller");
    controllers(repetitions, "one small head", &[chart_b()]);
    controllers(repetitions, "eight small heads", &[(); MOST_HEADS].map(|()| chart_b()));
    controllers(repetitions, "one large head", &large[..1]);
    controllers(repetitions, "eight large heads", &large);
}
