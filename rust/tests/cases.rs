//! Calls with their answers, computed outside this repository from the documents alone: tests/cases of the repository,
//! one JSON object a line. This crate gives these answers and, with the feature `library`, the proved library and the
//! program do.
//!
//! No case is void: every number of a case fits the type of the call that it is handed to. A block has 64 bits here, and
//! no case has a longer one.

use timing_chart::analysis::{self, Analysis};
use timing_chart::chart::Chart;
use timing_chart::controller::{self, Board, Head, Parts, Report, SetUp, Start, State, Turn};
use timing_chart::counter::{self, CounterPlaying};
use timing_chart::drawing::{Arrow, Drawing};
use timing_chart::json::Json;
use timing_chart::limits::{LARGEST_FILE, LOCATIONS};
use timing_chart::listing::listing;
use timing_chart::lists::{self, Header, Lists};
use timing_chart::player::{self, Playing};
use timing_chart::rewriting::{self, Rewriting};
use timing_chart::twins::Twins;
use timing_chart::{Answer, Refusal, NOWHERE};

/// The cases that hold now, but for those of [`SUPERSEDED`]: of each file how many there are, and how many of them expect
/// a number of rounds.
const CASES: [(&str, usize, usize); 7] = [
    ("p01.jsonl", 48, 0),
    ("p02.jsonl", 125, 0),
    ("p03.jsonl", 52, 52),
    ("p04.jsonl", 81, 0),
    ("p05.jsonl", 86, 0),
    ("p06.jsonl", 53, 15),
    ("p07.jsonl", 98, 16),
];

/// The cases whose answers a later request has changed, with what holds now. They were computed for the request of their
/// file, and stand there as they were.
const SUPERSEDED: [Superseded; 12] = [
    Superseded { file: "p01.jsonl", line: 46, now: Now::Figures { used: 10, floor: 10, searched: true } },
    Superseded { file: "p01.jsonl", line: 47, now: Now::Figures { used: 10, floor: 10, searched: true } },
    Superseded { file: "p01.jsonl", line: 48, now: Now::Figures { used: 10, floor: 10, searched: true } },
    Superseded { file: "p02.jsonl", line: 92, now: Now::Written { length: 51 } },
    Superseded { file: "p02.jsonl", line: 119, now: Now::Written { length: 99 } },
    Superseded { file: "p02.jsonl", line: 121, now: Now::NoRoom },
    Superseded { file: "p02.jsonl", line: 124, now: Now::Written { length: 40 } },
    Superseded { file: "p03.jsonl", line: 13, now: Now::Figures { used: 10, floor: 10, searched: true } },
    Superseded { file: "p03.jsonl", line: 25, now: Now::Figures { used: 4, floor: 4, searched: true } },
    Superseded { file: "p03.jsonl", line: 27, now: Now::Figures { used: 10, floor: 10, searched: false } },
    Superseded { file: "p03.jsonl", line: 28, now: Now::Figures { used: 9, floor: 9, searched: true } },
    Superseded { file: "p03.jsonl", line: 36, now: Now::Figures { used: 20, floor: 20, searched: false } },
];

/// A case by its file and its line, and what holds now.
struct Superseded {
    file: &'static str,
    line: usize,
    now: Now,
}

enum Now {
    /// By document 02, P6, since the chart has twins: other figures; of the rewriting `used` alone counts.
    Figures { used: u64, floor: u64, searched: bool },
    /// By document 02, P7, since there is a version 3: a chart of it is written, to a file of so many bytes; before, it was
    /// refused 2.
    Written { length: usize },
    /// The same where the file finds no room: 21.
    NoRoom,
}

impl Superseded {
    /// The case with the answer that holds now.
    fn now(&self, case: &Json) -> Json {
        match self.now {
            Now::Figures { used, floor, searched } => with_figures(case, used, floor, searched),
            Now::Written { length } => {
                was_wrong_version(case);
                // The file as tests draw it, which is not done by the writer.
                let file = drawing_of(case).file();
                assert_eq!(file.len(), length);
                case.clone().without("refused").with("answer", Json::of_bytes(&file))
            }
            Now::NoRoom => {
                was_wrong_version(case);
                assert!(case.number("room") < drawing_of(case).file().len() as u64);
                case.clone().with("refused", Json::List([21, NOWHERE].map(Json::Number).to_vec()))
            }
        }
    }
}

/// Asserts that the case is of the writer and of version 3, and that it was refused for this.
fn was_wrong_version(case: &Json) {
    assert_eq!((case.text("call"), case.number("version")), ("write", 3));
    assert_eq!(case.numbers::<u64>("refused"), [2, NOWHERE]);
}

/// A case whose chart has twins, with the answer that holds now. What twins do not change stays the case's: the live sets
/// and the rounds, and which timers the program lists. The board numbers and the rewritten file are this crate's, which
/// tests/definitions.rs compares with the definitions.
fn with_figures(case: &Json, used: u64, floor: u64, searched: bool) -> Json {
    let chart = Chart::read(&case.bytes("file")).expect("the chart is accepted");
    let graph = analysis::judge(&chart).expect("the chart is accepted");
    assert_ne!(Twins::of(&chart, graph.reached()), Twins::NONE);
    let now = match case.text("call") {
        "analysis" => {
            let answer = case.get("answer").expect("a result").clone();
            let figures = answer.with("used", Json::Number(used)).with("floor", Json::Number(floor));
            figures.with("searched", Json::Bool(searched))
        }
        "program" => {
            let text = listing(&program_input(case));
            let word = if searched { "floor" } else { "seen" };
            let figures = format!("used {used} {word} {floor} limit {}\n", case.number("k"));
            assert!(text.starts_with(&figures));
            assert_eq!(listed(&text), listed(case.text("answer")));
            Json::Text(text)
        }
        "rewriting" => {
            let mut out = vec![0; LARGEST_FILE];
            let answer = rewriting::rewrite(&case.bytes("file"), case.number("k") as u32, &mut out);
            let length = answer.expect("the chart fits the board").length as usize;
            let answer = case.get("answer").expect("a result").clone();
            answer.with("used", Json::Number(used)).with("file", Json::of_bytes(&out[..length]))
        }
        call => panic!("no figures of {call}"),
    };
    assert_ne!(Some(&now), case.get("answer"));
    case.clone().with("answer", now)
}

/// The locations of the program's text with the timers that are listed there, without their board numbers.
fn listed(text: &str) -> Vec<Vec<&str>> {
    let timer = |word| str::split(word, '>').next().expect("a word has a first part");
    text.lines().skip(1).map(|line| line.split(' ').map(timer).collect()).collect()
}

/// What a case expects.
trait Case {
    /// The number of rounds that a case of the analysis expects; none in the cases from before it was asked for.
    fn rounds(&self) -> Option<u64>;

    /// The answer that a case expects: a refusal, or what is made of its answer.
    fn expected<T>(&self, answer: impl FnOnce(&Json) -> T) -> Answer<T>;
}

impl Case for Json {
    fn rounds(&self) -> Option<u64> {
        match self.get("answer") {
            Some(answer @ Json::Object(entries)) if entries.contains_key("rounds") => Some(answer.number("rounds")),
            _ => None,
        }
    }

    fn expected<T>(&self, answer: impl FnOnce(&Json) -> T) -> Answer<T> {
        match self.get("refused") {
            Some(_) => {
                let refused: Vec<u64> = self.numbers("refused");
                Err(Refusal { number: refused[0], place: refused[1] })
            }
            None => Ok(answer(self.get("answer").expect("an answer or a refusal"))),
        }
    }
}

type Analyse = fn(&[u8], &mut [u64]) -> Answer<Analysis>;
type Rewrite = fn(&[u8], u32, &mut [u8]) -> Answer<Rewriting>;
type Play = fn(&[u8], &[u32], &[u32], &[u64]) -> Answer<Playing>;
type PlayCounter = fn(&[u8], &[u32], &[u32], u16, &[u16]) -> Answer<CounterPlaying>;
type Receive = fn(&mut State, &Board, u32, u8, u64) -> Answer<()>;
type TakeTurn = fn(&mut State, &Board) -> Answer<Turn>;
type Write = fn(&Header, &Lists, &mut [u8]) -> Answer<usize>;

/// One implementation of the calls.
struct Calls {
    analyse: Analyse,
    rewrite: Rewrite,
    play: Play,
    play_counter: PlayCounter,
    set_up: fn(&mut State, &Board, &[u32], &Parts) -> Answer<()>,
    event: Receive,
    turn: TakeTurn,
    print: fn(&[u8]) -> String,
    write: Write,
}

impl Calls {
    fn check(&self, case: &Json) {
        match case.text("call") {
            "program" => self.check_program(case),
            "analysis" => self.check_analysis(case),
            "rewriting" => self.check_rewriting(case),
            "play" => self.check_play(case),
            "cheap" => self.check_play_counter(case),
            "controller" => self.check_controller(case),
            "turn" => {
                self.check_turn(case, case, state_of(case, case.get("state").expect("a state")));
            }
            "write" => check_write(self.write, case),
            call => panic!("no such call: {call}"),
        }
    }

    fn check_program(&self, case: &Json) {
        let input = program_input(case);
        let expected = case.expected(|_| case.text("answer").to_string());
        assert_eq!((self.print)(&input), expected.unwrap_or_else(|refusal| format!("{refusal}\n")));
    }

    fn check_analysis(&self, case: &Json) {
        let mut live = [77; LOCATIONS];
        let answer = (self.analyse)(&case.bytes("file"), &mut live);
        let word = |entry: &Json| match entry {
            Json::Text(word) => u64::from_str_radix(word, 16).expect("a word in hex"),
            _ => panic!("no word: {entry:?}"),
        };
        let mut words = Vec::new();
        let expected = case.expected(|expected| {
            words.extend(expected.list("live").iter().map(word));
            let (used, floor) = (expected.number("used"), expected.number("floor"));
            // A number that the case does not give is not compared.
            let rounds = case.rounds().unwrap_or(answer.map_or(0, |analysis| analysis.rounds));
            Analysis { used, floor, searched: expected.is("searched"), rounds }
        });
        words.resize(LOCATIONS, 77);
        assert_eq!((answer, live.to_vec()), (expected, words));
    }

    fn check_rewriting(&self, case: &Json) {
        let k = u32::try_from(case.number("k")).expect("K has 32 bits");
        let mut out = vec![0xAA; LARGEST_FILE];
        let answer = (self.rewrite)(&case.bytes("file"), k, &mut out);
        let mut file = Vec::new();
        let expected = case.expected(|answer| {
            file = answer.bytes("file");
            Rewriting { used: answer.number("used"), length: file.len() as u64 }
        });
        file.resize(LARGEST_FILE, 0xAA);
        assert_eq!(answer, expected);
        assert!(out == file);
    }

    fn check_play(&self, case: &Json) {
        let (counts, transitions) = (case.numbers::<u32>("counts"), case.numbers::<u32>("transitions"));
        let answer = (self.play)(&case.bytes("file"), &counts, &transitions, &case.numbers::<u64>("times"));
        let expected = case.expected(|answer| {
            let (location, time) = (answer.number("location"), answer.number("time"));
            Playing { location, time, accepting: answer.is("accepting") }
        });
        assert_eq!(answer, expected);
    }

    fn check_play_counter(&self, case: &Json) {
        let (counts, transitions) = (case.numbers::<u32>("counts"), case.numbers::<u32>("transitions"));
        let (first, readings) = (case.number("first"), case.numbers::<u16>("readings"));
        let first = u16::try_from(first).expect("a reading has 16 bits");
        let answer = (self.play_counter)(&case.bytes("file"), &counts, &transitions, first, &readings);
        let expected = case.expected(|answer| {
            let location = answer.number("location");
            CounterPlaying { location, accepting: answer.is("accepting") }
        });
        assert_eq!(answer, expected);
    }

    /// Set-up over a state that nobody made, and then the calls, each with the state that it leaves.
    fn check_controller(&self, case: &Json) {
        let SetUp { board, counts, parts } = set_up_of(case);
        let head = Head { location: 77, time: 77, waiting: 77, event: 77, waiting_time: 77 };
        let before = State { turn: 77, heads: [head; 8], counts: [77; 64] };
        let mut state = before;
        let answer = (self.set_up)(&mut state, &board, &counts, &parts);
        let expected = case.expected(|answer| state_of(case, answer));
        assert_eq!(answer, expected.map(|_| ()));
        let Ok(at_end) = expected else {
            assert_eq!(state, before);
            return;
        };
        for call in case.list("calls") {
            let check = if call.get("event").is_some() { Calls::check_event } else { Calls::check_turn };
            state = check(self, case, call, state);
        }
        assert_eq!(state, at_end);
    }

    /// A call of a case on a state, an event; returns the state that it leaves.
    fn check_event(&self, case: &Json, call: &Json, before: State) -> State {
        let [head, event, time] = call.numbers("event")[..] else { panic!("an event has three numbers") };
        let head = u32::try_from(head).expect("a head has 32 bits");
        let event = u8::try_from(event).expect("an event is a byte");
        let mut state = before;
        let answer = (self.event)(&mut state, &set_up_of(case).board, head, event, time);
        let expected = call.expected(|answer| state_of(case, answer));
        assert_eq!((answer, state), (expected.map(|_| ()), expected.unwrap_or(before)));
        state
    }

    /// The same for a turn.
    fn check_turn(&self, case: &Json, call: &Json, before: State) -> State {
        let mut state = before;
        let answer = (self.turn)(&mut state, &set_up_of(case).board);
        let expected = call.expected(|answer| {
            let report = match (answer.is("served"), answer.get("transition")) {
                (false, Some(Json::Null)) => Report::Nothing,
                (true, Some(Json::Null)) => Report::NoneTaken,
                (served, _) => {
                    assert!(served);
                    Report::Taken(answer.number("transition"))
                }
            };
            (Turn { head: before.turn, report }, state_of(case, answer))
        });
        assert_eq!(answer, expected.map(|(turn, _)| turn));
        assert_eq!(state, expected.map_or(before, |(_, state)| state));
        state
    }

    fn check_all(&self) {
        for (name, count, with_rounds) in CASES {
            let path = format!("{}/../tests/cases/{name}", env!("CARGO_MANIFEST_DIR"));
            let text = std::fs::read_to_string(&path).expect(&path);
            let cases: Vec<Json> = text.lines().map(Json::read).collect();
            assert_eq!(cases.len(), count);
            assert_eq!(cases.iter().filter(|case| case.rounds().is_some()).count(), with_rounds);
            for (line, case) in (1..).zip(&cases) {
                println!("{name}, line {line}");
                match SUPERSEDED.iter().find(|superseded| superseded.file == name && superseded.line == line) {
                    Some(superseded) => self.check(&superseded.now(case)),
                    None => self.check(case),
                }
            }
        }
    }
}

/// The program's input of a case: K, then the file.
fn program_input(case: &Json) -> Vec<u8> {
    let k = u8::try_from(case.number("k")).expect("K is a byte");
    [vec![k], case.bytes("file")].concat()
}

/// The heads of a case on their board, with their starting counts.
fn set_up_of(case: &Json) -> SetUp {
    let files: Vec<Vec<u8>> = case.list("files").iter().map(Json::as_bytes).collect();
    let counts: Vec<Vec<u32>> = case.list("counts").iter().map(Json::as_numbers).collect();
    let blocks = case.numbers::<u64>("blocks");
    assert_eq!([files.len(), counts.len()], [blocks.len(); 2]);
    let start = |head: usize| Start { file: &files[head], block: blocks[head], counts: &counts[head] };
    let heads: Vec<Start> = (0..blocks.len()).map(start).collect();
    SetUp::of(&heads, u32::try_from(case.number("k")).expect("K has 32 bits"))
}

/// A state as a case gives it: of each head its own counts, which stand from the beginning of its block on. What the case
/// does not give is 0.
fn state_of(case: &Json, given: &Json) -> State {
    let mut state = State { turn: given.number("turn"), ..State::ZERO };
    let mut begin = 0;
    for ((head, given), block) in state.heads.iter_mut().zip(given.list("heads")).zip(case.numbers::<usize>("blocks")) {
        *head = Head { location: given.number("location"), time: given.number("time"), ..Head::default() };
        if let Some(Json::List(_)) = given.get("waiting") {
            let [event, waiting_time] = given.numbers("waiting")[..] else { panic!("two numbers wait") };
            *head = Head { waiting: 1, event, waiting_time, ..*head };
        }
        let counts = given.numbers::<u32>("counts");
        state.counts[begin..begin + counts.len()].copy_from_slice(&counts);
        begin += block;
    }
    state
}

/// The chart that a case hands to the writer.
fn drawing_of(case: &Json) -> Drawing {
    let [sources, targets, accepting] = ["source", "target", "accepting"].map(|name| case.numbers::<u16>(name));
    let [timers, codes, starts] = ["test_timer", "test_code", "starts"].map(|name| case.numbers::<u8>(name));
    let mut starts = starts.into_iter();
    let mut tests = timers.into_iter().zip(codes).zip(case.numbers::<u32>("test_constant"));
    let mut counts = case.numbers::<usize>("start_count").into_iter().zip(case.numbers::<usize>("test_count"));
    let mut arrow = |((source, target), event)| {
        let (start_count, test_count) = counts.next().expect("each transition has these numbers");
        let starts = starts.by_ref().take(start_count).collect();
        let test = |((timer, code), constant)| (timer, code, constant);
        let tests = tests.by_ref().take(test_count).map(test).collect();
        Arrow { source, target, event, starts, tests }
    };
    let transitions = sources.into_iter().zip(targets).zip(case.numbers::<u8>("event")).map(&mut arrow).collect();
    let [locations, initial] = ["locations", "initial"].map(|name| case.number(name) as u16);
    let [version, timers] = ["version", "timers"].map(|name| case.number(name) as u8);
    Drawing { version, locations, initial, timers, accepting, transitions }
}

/// The starts of each transition as one word, from the timers of all of them and how many each transition has.
fn start_words(case: &Json) -> Vec<u64> {
    let timers = case.numbers::<u8>("starts");
    let mut left = timers.as_slice();
    let mut word = |count: u8| {
        let (own, rest) = left.split_at(usize::from(count));
        left = rest;
        // A word has no order: only starts that rise strictly can be handed over in one.
        assert!(own.is_sorted_by(|a, b| a < b));
        own.iter().fold(0, |word, timer| word | 1 << timer)
    };
    let words = case.numbers::<u8>("start_count").into_iter().map(&mut word).collect();
    assert!(left.is_empty());
    words
}

fn check_write(write: Write, case: &Json) {
    let number = |name: &str| u16::try_from(case.number(name)).expect("a number of 16 bits");
    let byte = |name: &str| u8::try_from(case.number(name)).expect("a byte");
    let header = Header {
        version: byte("version"),
        locations: number("locations"),
        initial: number("initial"),
        timers: byte("timers"),
        accepting: number("accepting_count"),
        transitions: number("transition_count"),
    };
    let lists = Lists {
        accepting: &case.numbers("accepting"),
        sources: &case.numbers("source"),
        targets: &case.numbers("target"),
        events: &case.numbers("event"),
        starts: &start_words(case),
        test_counts: &case.numbers("test_count"),
        timers: &case.numbers("test_timer"),
        codes: &case.numbers("test_code"),
        constants: &case.numbers("test_constant"),
    };
    let room = match case.get("room") {
        Some(Json::Null) => LARGEST_FILE,
        _ => case.number("room") as usize,
    };
    let mut out = vec![0xAA; room];
    let answer = write(&header, &lists, &mut out);
    let mut file = Vec::new();
    let expected = case.expected(|_| {
        file = case.bytes("answer");
        file.len()
    });
    file.resize(room, 0xAA);
    assert_eq!(answer, expected);
    assert!(out == file);
}

#[test]
fn this_crate_answers_so() {
    let (analyse, rewrite, play, write) = (analysis::analyse, rewriting::rewrite, player::play, lists::write);
    let play_counter = counter::play_counter;
    let (set_up, event, turn) = (controller::set_up, controller::event, controller::turn);
    Calls { analyse, rewrite, play, play_counter, set_up, event, turn, print: listing, write }.check_all();
}

#[cfg(feature = "library")]
#[test]
fn the_proved_library_and_the_program_answer_so() {
    use timing_chart::library::{analyse, event, play, play_counter, rewrite, set_up, turn, write};
    let print = print_by_program;
    Calls { analyse, rewrite, play, play_counter, set_up, event, turn, print, write }.check_all();
}

/// What the program prints for an input that is no longer than it reads.
#[cfg(feature = "library")]
fn print_by_program(input: &[u8]) -> String {
    use std::io::Write;
    use std::process::{Command, Stdio};
    let default = format!("{}/../target/bin/allocate", env!("CARGO_MANIFEST_DIR"));
    let program = std::env::var_os("CHART_PROGRAM").unwrap_or_else(|| default.into());
    let child = Command::new(&program).stdin(Stdio::piped()).stdout(Stdio::piped()).spawn();
    let mut child = child.unwrap_or_else(|error| panic!("{}: {error}", program.display()));
    child.stdin.take().expect("the input is piped").write_all(input).expect("the program reads all");
    let output = child.wait_with_output().expect("the program ends");
    String::from_utf8(output.stdout).expect("the program prints text")
}
