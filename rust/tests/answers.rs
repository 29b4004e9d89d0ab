//! The answers to the command's requests: charts A, B and C of document 01, files and calls that are refused, and random
//! ones, on which the library and this crate agree.

#![cfg(feature = "library")]

use std::collections::BTreeMap;

use timing_chart::answers::{answer, chart_json};
use timing_chart::chart::Chart;
use timing_chart::controller::Start;
use timing_chart::drawing::*;
use timing_chart::generator::*;
use timing_chart::heads::{Call, DrawnHeads};
use timing_chart::json::Json;
use timing_chart::library::Controller;
use timing_chart::version::Version;

const CHART_A: &str = r#"{"version":1,"locations":7,"initial":0,"timers":3,"accepting":[6],"transitions":[
    {"source":0,"target":1,"event":0,"starts":[0],"tests":[]},
    {"source":1,"target":2,"event":0,"starts":[1],"tests":[]},
    {"source":2,"target":3,"event":0,"starts":[2],"tests":[{"timer":0,"comparison":"at least","constant":3}]},
    {"source":2,"target":4,"event":0,"starts":[2],"tests":[{"timer":1,"comparison":"at most","constant":7}]},
    {"source":3,"target":5,"event":0,"starts":[],"tests":[{"timer":1,"comparison":"below","constant":9}]},
    {"source":4,"target":5,"event":0,"starts":[],"tests":[{"timer":0,"comparison":"equal","constant":4}]},
    {"source":5,"target":6,"event":0,"starts":[],"tests":[{"timer":2,"comparison":"above","constant":2}]}]}"#;

const CHART_B: &str = r#"{"version":1,"locations":4,"initial":0,"timers":2,"accepting":[3],"transitions":[
    {"source":0,"target":1,"event":0,"starts":[0],"tests":[]},
    {"source":1,"target":2,"event":0,"starts":[1],"tests":[{"timer":0,"comparison":"at most","constant":2}]},
    {"source":2,"target":3,"event":0,"starts":[],"tests":[{"timer":1,"comparison":"at least","constant":1}]}]}"#;

const CHART_C: &str = r#"{"version":1,"locations":6,"initial":0,"timers":2,"accepting":[5],"transitions":[
    {"source":0,"target":1,"event":0,"starts":[1],"tests":[]},
    {"source":1,"target":2,"event":0,"starts":[0],"tests":[]},
    {"source":2,"target":3,"event":0,"starts":[],"tests":[{"timer":0,"comparison":"at least","constant":1}]},
    {"source":3,"target":4,"event":0,"starts":[0],"tests":[{"timer":1,"comparison":"at most","constant":9}]},
    {"source":4,"target":5,"event":0,"starts":[],"tests":[{"timer":0,"comparison":"at least","constant":2}]}]}"#;

/// JSON with line ends and indents in it.
fn json(text: &str) -> Json {
    Json::read(&text.lines().map(str::trim_start).collect::<String>())
}

fn hex(file: &[u8]) -> String {
    file.iter().map(|byte| format!("{byte:02x}")).collect()
}

/// The answer to a request.
fn asked(request: &str) -> Json {
    answer(&json(request))
}

/// The answer to a call on a file.
fn called(call: &str, file: &[u8]) -> Json {
    asked(&format!(r#"{{"call":"{call}","file":"{}"}}"#, hex(file)))
}

/// A refusal with nothing beside it.
fn refused(number: u64, place: u64, reason: &str) -> Json {
    Json::object([("refused", Json::of_numbers([number, place])), ("reason", Json::of_text(reason))])
}

#[test]
fn charts_are_read_and_written() {
    for (text, drawing) in [(CHART_A, chart_a()), (CHART_B, chart_b()), (CHART_C, chart_c())] {
        let (chart, file) = (json(text), drawing.file());
        assert_eq!(chart_json(&Chart::read(&file).unwrap()), chart);
        assert_eq!(called("read", &file), Json::object([("chart", chart.clone())]));
        let write = Json::object([("call", Json::of_text("write")), ("chart", chart)]);
        assert_eq!(answer(&write), Json::object([("file", Json::of_bytes(&file))]));
    }
    let one = r#"{"version":1,"locations":1,"initial":0,"timers":0,"accepting":[],"transitions":[]}"#;
    let written = asked(&format!(r#"{{"call":"write","chart":{one}}}"#));
    assert_eq!(written.to_string(), r#"{"file":"0100000009000100000000000000"}"#);
}

#[test]
fn files_that_the_reader_refuses() {
    let file = chart_a().file();
    let cut = refused(1, 65_535, "1: the length in the file is 98; 97 bytes follow it");
    assert_eq!(called("read", &file[..102]), cut);
    assert_eq!(called("check", &file[..102]), cut);
    assert_eq!(called("read", &[]), refused(1, 65_535, "1: the file is empty"));
    let mut wrong = chart_b();
    wrong.transitions[2].target = 4;
    let reason = "5: the target of transition 2 is 4; there are locations 0 to 3";
    assert_eq!(called("read", &wrong.file()), refused(5, 2, reason));
    // 9 and 10 are not the reader's.
    assert_eq!(called("read", &never_started().file()).get("refused"), None);
}

#[test]
fn charts_that_the_writer_refuses() {
    let written = |change: &dyn Fn(Json) -> Json| {
        let chart = change(json(CHART_B));
        answer(&Json::object([("call", Json::of_text("write")), ("chart", chart)]))
    };
    let version = refused(2, 65_535, "2: the version byte is 4; there are versions 1 to 3");
    assert_eq!(written(&|chart| chart.with("version", Json::Number(4))), version);
    let initial = refused(5, 65_535, "5: the initial location is 4; there are locations 0 to 3");
    assert_eq!(written(&|chart| chart.with("initial", Json::Number(4))), initial);
    let timer = refused(6, 1, "6: transition 1 starts timer 1; there is timer 0");
    assert_eq!(written(&|chart| chart.with("timers", Json::Number(1))), timer);
    let falling = refused(7, 65_535, "7: accepting location 1 comes after 3; they must rise");
    assert_eq!(written(&|chart| chart.with("accepting", Json::of_numbers([3u64, 1]))), falling);
    let constant = |chart: Json| Json::read(&chart.to_string().replace(r#""constant":1,"#, r#""constant":65536,"#));
    let reason = "17: transition 2 has a test with constant 65536; the largest constant of version 1 is 65535";
    assert_eq!(written(&constant), refused(17, 65_535, reason));
    let mut wide = chart_b().version(2);
    wide.transitions[2].tests[0].2 = 65_536;
    let version_2 = written(&|chart| constant(chart).with("version", Json::Number(2)));
    assert_eq!(version_2, Json::object([("file", Json::of_bytes(&wide.file()))]));
}

#[test]
fn files_are_checked() {
    let figures = r#"{"used":3,"floor":3,"searched":true,"rounds":3,"live":[[],[0],[0,1],[1,2],[0,2],[2],[]]}"#;
    assert_eq!(called("check", &chart_a().file()), json(figures).with("chart", json(CHART_A)));
    let figures = r#"{"used":1,"floor":1,"searched":true,"rounds":2,"live":[[],[0],[1],[]]}"#;
    assert_eq!(called("check", &chart_b().file()), json(figures).with("chart", json(CHART_B)));
    let unreached = refused(9, 0, "9: no path from the initial location 1 reaches location 0");
    let chart = json(CHART_B).with("initial", Json::Number(1));
    assert_eq!(called("check", &Drawing { initial: 1, ..chart_b() }.file()), unreached.with("chart", chart));
    let reason = "10: transition 1 tests timer 0; the empty path reaches it and starts timer 0 nowhere";
    let chart = r#"{"version":1,"locations":2,"initial":0,"timers":1,"accepting":[1],"transitions":[
        {"source":0,"target":0,"event":0,"starts":[0],"tests":[]},
        {"source":0,"target":1,"event":0,"starts":[],"tests":[{"timer":0,"comparison":"at least","constant":0}]}]}"#;
    let unstarted = refused(10, 1, reason).with("chart", json(chart));
    assert_eq!(called("check", &never_started().file()), unstarted);
    // More families than are searched.
    let seen = called("check", &lone_families(21).file());
    assert_eq!((seen.is("searched"), seen.number("floor")), (false, 1));
}

/// The answer to a step list on chart B.
fn played(counts: &str, steps: &str) -> Json {
    let file = hex(&chart_b().file());
    asked(&format!(r#"{{"call":"play","file":"{file}","counts":{counts},"steps":{steps}}}"#))
}

#[test]
fn step_lists_are_played() {
    let end = r#"{"counts":[0,0],"steps":[
        {"transition":0,"time":5,"location":1,"accepting":false,"counts":[0,5]},
        {"transition":1,"time":7,"location":2,"accepting":false,"counts":[2,0]},
        {"transition":2,"time":8,"location":3,"accepting":true,"counts":[3,1]}],
        "location":3,"time":8,"accepting":true}"#;
    assert_eq!(played("null", "[[0,5],[1,7],[2,8]]"), json(end).with("chart", json(CHART_B)));
    let none = r#"{"counts":[7,16777215],"steps":[],"location":0,"time":0,"accepting":false}"#;
    assert_eq!(played("[7,16777215]", "[]"), json(none).with("chart", json(CHART_B)));
    let grown = r#"{"counts":[0,16777215],"steps":[
        {"transition":0,"time":16777215,"location":1,"accepting":false,"counts":[0,33554430]}],
        "location":1,"time":16777215,"accepting":false}"#;
    assert_eq!(played("[0,16777215]", "[[0,16777215]]"), json(grown).with("chart", json(CHART_B)));
}

#[test]
fn step_lists_that_are_refused() {
    let counts = "12: there is 1 starting count; the chart has 2 timers";
    assert_eq!(played("[0]", "[[9,9]]"), refused(12, 65_535, counts));
    let large = "12: the starting count of timer 0 is 16777216; at most 16777215 is allowed";
    assert_eq!(played("[16777216,0]", "[[9,9]]"), refused(12, 0, large));
    let stopped = |number, place, reason, taken: &str| {
        let beside = json(&format!(r#"{{"counts":[0,0],"steps":[{taken}]}}"#)).with("chart", json(CHART_B));
        beside.with("refused", Json::of_numbers([number, place])).with("reason", Json::of_text(reason))
    };
    let first = r#"{"transition":0,"time":5,"location":1,"accepting":false,"counts":[0,5]}"#;
    let test = "24: step 1 takes transition 1 at 8: timer 0 is at 3, at most 2 is asked, 1 too many";
    assert_eq!(played("null", "[[0,5],[1,8],[9,9]]"), stopped(24u64, 1, test, first));
    let early = "23: step 1 is at 4; the present time is 5";
    assert_eq!(played("null", "[[0,5],[1,4]]"), stopped(23, 1, early, first));
    let source = "22: step 0 takes transition 1, which leaves location 1; the present location is 0";
    assert_eq!(played("null", "[[1,4]]"), stopped(22, 0, source, ""));
    let late = "15: step 0 is at 18446744073709551615; the largest time is 16777215";
    assert_eq!(played("null", "[[1,18446744073709551615]]"), stopped(15, 0, late, ""));
    let named = "14: step 0 names transition 4294967295; there are transitions 0 to 2";
    assert_eq!(played("null", "[[4294967295,0]]"), stopped(14, 0, named, ""));
    let file = hex(&never_started().file());
    let request = format!(r#"{{"call":"play","file":"{file}","counts":null,"steps":[]}}"#);
    let reason = "10: transition 1 tests timer 0; the empty path reaches it and starts timer 0 nowhere";
    assert_eq!(asked(&request), refused(10, 1, reason));
}

/// The answer to a step list on the counter board.
fn counted(drawing: &Drawing, counts: &str, first: u16, steps: &str) -> Json {
    let file = hex(&drawing.file());
    asked(&format!(r#"{{"call":"counter","file":"{file}","counts":{counts},"first":{first},"steps":{steps}}}"#))
}

#[test]
fn step_lists_on_the_counter_board() {
    let wrapped = r#"{"counts":[0,16777215],"steps":[
        {"transition":0,"reading":65535,"passed":5,"location":1,"accepting":false,"counts":[0,65536]},
        {"transition":1,"reading":1,"passed":2,"location":2,"accepting":false,"counts":[2,0]},
        {"transition":2,"reading":2,"passed":1,"location":3,"accepting":true,"counts":[3,1]}],
        "location":3,"accepting":true}"#;
    let answered = counted(&chart_b(), "[0,16777215]", 65_530, "[[0,65535],[1,1],[2,2]]");
    assert_eq!(answered, json(wrapped).with("chart", json(CHART_B)));
    let test = "24: step 1 takes transition 1 at the reading 2: timer 0 is at 3, at most 2 is asked, 1 too many";
    let stopped = r#"{"counts":[0,0],"refused":[24,1],"steps":[
        {"transition":0,"reading":65535,"passed":5,"location":1,"accepting":false,"counts":[0,5]}]}"#;
    let stopped = json(stopped).with("chart", json(CHART_B)).with("reason", Json::of_text(test));
    assert_eq!(counted(&chart_b(), "null", 65_530, "[[0,65535],[1,2]]"), stopped);
    let constant =
        "18: transition 2 has a test with constant 65536; the largest constant of the counter board is 65535";
    assert_eq!(counted(&three_tests(65_536), "null", 0, "[]"), refused(18, 65_535, constant));
    let counts = "12: there are 2 starting counts; the chart has 1 timer";
    assert_eq!(counted(&three_tests(65_536), "[0,0]", 0, "[]"), refused(12, 65_535, counts));
}

/// The answer to a list of calls of a controller with two heads of chart B, the second with another block and counts.
fn driven(k: u32, calls: &str) -> Json {
    let file = hex(&chart_b().file());
    let heads =
        format!(r#"{{"file":"{file}","block":null,"counts":null}},{{"file":"{file}","block":3,"counts":[7,8]}}"#);
    asked(&format!(r#"{{"call":"drive","k":{k},"heads":[{heads}],"calls":{calls}}}"#))
}

/// What the answers show of these heads.
fn heads_shown() -> Json {
    let first = json(r#"{"block":2,"counts":[0,0]}"#).with("chart", json(CHART_B));
    let second = json(r#"{"block":3,"counts":[7,8]}"#).with("chart", json(CHART_B));
    Json::List(vec![first, second])
}

const EVENTS_AND_TURNS: &str = r#"[{"event":[0,0,12]},{"turn":true},{"turn":true},{"event":[0,7,13]},{"turn":true},
    {"event":[0,0,14]},{"turn":true},{"turn":true}"#;

const CALLS_SHOWN: &str = r#"{"calls":[
    {"call":"event","head":0,"event":0,"time":12},
    {"call":"turn","head":0,"event":0,"time":12,"report":"taken","transition":0,"source":0,"location":1,"counts":[0,12]},
    {"call":"turn","head":1,"report":"nothing"},
    {"call":"event","head":0,"event":7,"time":13},
    {"call":"turn","head":0,"event":7,"time":13,"report":"none","location":1,"counts":[1,13]},
    {"call":"event","head":0,"event":0,"time":14},
    {"call":"turn","head":1,"report":"nothing"},
    {"call":"turn","head":0,"event":0,"time":14,"report":"taken","transition":1,"source":1,"location":2,"counts":[2,0]}],
    "state":{"turn":1,"heads":[
    {"location":2,"time":14,"waiting":null,"counts":[2,0]},{"location":0,"time":0,"waiting":null,"counts":[7,8]}]}}"#;

#[test]
fn controllers_are_driven() {
    let shown = json(CALLS_SHOWN).with("heads", heads_shown());
    assert_eq!(driven(5, &format!("{EVENTS_AND_TURNS}]")), shown);
    let early = driven(5, &format!(r#"{EVENTS_AND_TURNS},{{"event":[0,1,13]}},{{"turn":true}}]"#));
    let reason = Json::of_text("23: the event's time is 13; the time of head 0 is 14");
    assert_eq!(early, shown.with("refused", Json::of_numbers([23u64, 65_535])).with("reason", reason));
}

#[test]
fn calls_of_controllers_that_are_refused() {
    let state = r#"{"state":{"turn":0,"heads":[
        {"location":0,"time":0,"waiting":null,"counts":[0,0]},
        {"location":0,"time":0,"waiting":{"event":255,"time":16777215},"counts":[7,8]}]}}"#;
    let waits = json(state)
        .with("heads", heads_shown())
        .with("calls", json(r#"[{"call":"event","head":1,"event":255,"time":16777215}]"#));
    let waits = |number: u64, reason: &str| {
        waits.clone().with("refused", Json::of_numbers([number, 65_535])).with("reason", Json::of_text(reason))
    };
    let call = |event: &str| driven(5, &format!(r#"[{{"event":[1,255,16777215]}},{{"event":{event}}}]"#));
    assert_eq!(call("[1,0,0]"), waits(26, "26: an event waits at head 1 already"));
    assert_eq!(call("[2,0,0]"), waits(26, "26: there is no head 2; there are heads 0 to 1"));
    let late = "15: the event's time is 16777216; the largest time is 16777215";
    assert_eq!(call("[0,0,16777216]"), waits(15, late));
    let blocks = "25: the blocks up to head 1 have 5 timers together; K is 4";
    assert_eq!(driven(4, "[]"), refused(25, 65_535, blocks));
    assert_eq!(driven(65, "[]"), refused(11, 65_535, "11: K is 65; a board has at most 64 timers"));
    let none = r#"{"call":"drive","k":4,"heads":[],"calls":[]}"#;
    assert_eq!(asked(none), refused(25, 65_535, "25: there are no heads; 1 to 8 are allowed"));
}

/// How often each number came, 0 where there was a result.
#[derive(Default)]
struct Came(BTreeMap<u64, u64>);

impl Came {
    /// Counts an answer, which is no fault, and whose reason, if it is refused, begins with its number.
    fn count(&mut self, answer: &Json) {
        assert_eq!(answer.get("fault"), None);
        let number = answer.get("refused").map_or(0, |refused| refused.as_numbers::<u64>()[0]);
        assert!(number == 0 || answer.text("reason").starts_with(&format!("{number}: ")), "{answer}");
        *self.0.entry(number).or_default() += 1;
    }

    /// Exactly these numbers came.
    fn all(&self, numbers: &[u64]) {
        let came: Vec<u64> = self.0.keys().copied().collect();
        assert_eq!(came, numbers, "{:?}", self.0);
    }
}

/// A chart of some kind, which is accepted but where a transition was changed.
fn random_drawing(random: &mut Random) -> Drawing {
    let most = random.pick(&[4, 8, 8, 16, 40]);
    let shape = Shape::random(random, most);
    let mut drawing = match random.below(8) {
        0 => random.pick(&[chart_a as fn() -> Drawing, chart_b, chart_c, never_started, spare_cycle, two_twins])(),
        _ => accepted(random, &shape),
    };
    if random.chance(1, 6) {
        drawing.version = random.pick(&Version::ALL) as u8;
        add_spare(random, &mut drawing);
    }
    if random.chance(1, 4) {
        store_large(random, &mut drawing, 4);
    }
    if !drawing.transitions.is_empty() && random.chance(1, 3) {
        let index = random.below(drawing.transitions.len() as u64) as usize;
        let transition = &mut drawing.transitions[index];
        match random.below(3) {
            0 => transition.target = transition.source,
            1 => std::mem::swap(&mut transition.source, &mut transition.target),
            _ => transition.starts.clear(),
        }
    }
    drawing
}

/// The file of a chart, perhaps spoilt.
fn random_file(random: &mut Random, drawing: &Drawing) -> Vec<u8> {
    let mut file = if random.chance(1, 3) { spoilt(random, drawing) } else { drawing.file() };
    if random.chance(1, 4) {
        file = damaged(random, &file);
    }
    if !file.is_empty() && random.chance(1, 10) {
        file = relabelled(random, &file);
    }
    file
}

#[test]
fn random_files_bring_no_fault() {
    let mut random = Random::new(1);
    let [mut reads, mut checks] = [Came::default(), Came::default()];
    for _ in 0..5000 {
        let drawing = random_drawing(&mut random);
        let file = random_file(&mut random, &drawing);
        let [read, checked] = ["read", "check"].map(|call| called(call, &file));
        reads.count(&read);
        checks.count(&checked);
        // What is read is shown by both, and written back.
        if let Some(chart) = read.get("chart") {
            assert_eq!(checked.get("chart"), Some(chart));
            let write = Json::object([("call", Json::of_text("write")), ("chart", chart.clone())]);
            assert_eq!(answer(&write), Json::object([("file", Json::of_bytes(&file))]));
        }
    }
    reads.all(&[0, 1, 2, 3, 4, 5, 6, 7, 8]);
    checks.all(&[0, 1, 2, 3, 4, 5, 6, 7, 8, 9, 10]);
}

/// A drawing as a request has it, whatever its numbers are.
fn request_chart(drawing: &Drawing) -> String {
    let words = ["at most", "below", "at least", "above", "equal"];
    let transitions = drawing.transitions.iter().map(|Arrow { source, target, event, starts, tests }| {
        let tests = tests.iter().map(|&(timer, code, constant)| {
            let comparison = words[usize::from(code)];
            format!(r#"{{"timer":{timer},"comparison":"{comparison}","constant":{constant}}}"#)
        });
        let (starts, tests) = (Json::of_numbers(starts.iter().copied()), tests.collect::<Vec<_>>().join(","));
        format!(r#"{{"source":{source},"target":{target},"event":{event},"starts":{starts},"tests":[{tests}]}}"#)
    });
    let transitions = transitions.collect::<Vec<_>>().join(",");
    let Drawing { version, locations, initial, timers, accepting, .. } = drawing;
    let accepting = Json::of_numbers(accepting.iter().copied());
    let numbers = format!(r#""version":{version},"locations":{locations},"initial":{initial},"timers":{timers}"#);
    format!(r#"{{{numbers},"accepting":{accepting},"transitions":[{transitions}]}}"#)
}

#[test]
fn random_charts_are_written_or_refused() {
    let mut random = Random::new(2);
    let mut came = Came::default();
    for _ in 0..3000 {
        let mut drawing = random_drawing(&mut random);
        let index = random.below(drawing.transitions.len().max(1) as u64) as usize;
        let transition = drawing.transitions.get_mut(index);
        match (random.below(10), transition) {
            (0, _) => drawing.version = random.below(5) as u8,
            (1, _) => drawing.locations = random.pick(&[0, 1, 2, 257, 65_535]),
            (2, _) => drawing.timers = random.pick(&[0, 1, 2, 65, 255]),
            (3, _) => drawing.accepting = vec![random.below(4) as u16, random.below(4) as u16],
            (4, _) => drawing.transitions.resize(513, Arrow::new(0, 0)),
            (5, Some(transition)) => transition.tests.push((0, ABOVE, random.pick(&[65_535, 65_536, u32::MAX]))),
            (6, Some(transition)) => transition.tests.resize(9, (0, ABOVE, 0)),
            (7, Some(transition)) => transition.target = random.below(300) as u16,
            (8, Some(transition)) => transition.starts = vec![random.below(64) as u8],
            _ => drawing.initial = random.below(5) as u16,
        }
        let written = asked(&format!(r#"{{"call":"write","chart":{}}}"#, request_chart(&drawing)));
        came.count(&written);
        if written.get("refused").is_none() {
            assert_eq!(written.bytes("file"), drawing.file());
        }
    }
    came.all(&[0, 2, 4, 5, 6, 7, 17]);
}

/// The counts after each of these rows, found anew: each timer is as far as the ticks since the row that started it last
/// say, or since tick 0, and stops at `most`.
fn counts_after(drawing: &Drawing, counts: &[u32], rows: &[Json], ticks: &str, most: u64) -> Vec<Vec<u64>> {
    let mut counts: Vec<u64> = counts.iter().copied().map(u64::from).collect();
    let mut last = 0;
    let mut after = Vec::new();
    for row in rows {
        let passed = if ticks == "time" { row.number("time") - last } else { row.number(ticks) };
        last += passed;
        counts.iter_mut().for_each(|count| *count = (*count + passed).min(most));
        for &timer in &drawing.transitions[row.number("transition") as usize].starts {
            counts[usize::from(timer)] = 0;
        }
        after.push(counts.clone());
    }
    after
}

/// Asks for a step list, checks the counts of its rows, and returns the answer. The request but for the file and the counts
/// is `rest`; `ticks` names the entry of a row that tells its ticks.
fn counts_checked(drawing: &Drawing, counts: &[u32], rest: &str, ticks: &str, most: u64) -> Json {
    let (file, given) = (hex(&drawing.file()), Json::of_numbers(counts.iter().copied()));
    let answered = asked(&format!(r#"{{"file":"{file}","counts":{given},{rest}}}"#));
    if answered.get("steps").is_some() {
        let rows = answered.list("steps");
        let shown: Vec<Vec<u64>> = rows.iter().map(|row| row.numbers("counts")).collect();
        assert_eq!(shown, counts_after(drawing, counts, rows, ticks, most));
    }
    answered
}

#[test]
fn random_step_lists_bring_no_fault() {
    let mut random = Random::new(3);
    let [mut plays, mut counters] = [Came::default(), Came::default()];
    for _ in 0..3000 {
        let mut drawing = random_drawing(&mut random);
        if random.chance(1, 4) {
            store_about_counter(&mut random, &mut drawing, 4);
        }
        let (timers, good) = (usize::from(drawing.timers), random.chance(7, 8));
        let counts = counts(&mut random, timers, good);
        let wait = random.pick(&[0, 2, 20, 70_000]);
        let mut steps = run(&mut random, &drawing, 20, wait, true);
        if random.chance(1, 2) {
            lengthen(&mut random, &drawing, &mut steps);
        }
        if random.chance(1, 2) {
            spoil_steps(&mut random, &mut steps, drawing.transitions.len() as u32);
        }
        let pairs = |moments: &mut dyn Iterator<Item = u64>| {
            let pairs =
                steps.transitions.iter().zip(moments).map(|(transition, moment)| format!("[{transition},{moment}]"));
            pairs.collect::<Vec<_>>().join(",")
        };
        let played = format!(r#""call":"play","steps":[{}]"#, pairs(&mut steps.times.iter().copied()));
        plays.count(&counts_checked(&drawing, &counts, &played, "time", u64::MAX));
        let first = first_reading(&mut random);
        let readings = CounterSteps::of(&steps, first).readings;
        let read = pairs(&mut readings.into_iter().map(u64::from));
        let counted = format!(r#""call":"counter","first":{first},"steps":[{read}]"#);
        counters.count(&counts_checked(&drawing, &counts, &counted, "passed", 65_536));
    }
    plays.all(&[0, 9, 10, 12, 14, 15, 22, 23, 24]);
    counters.all(&[0, 9, 10, 12, 14, 18, 22, 24]);
}

/// Heads, of which one may be spoilt, as a request has them; and K.
fn request_heads(random: &mut Random, heads: &DrawnHeads) -> (Vec<String>, u32) {
    let mut k = heads.k;
    let mut head = |index: usize| {
        let (mut file, mut counts, mut block) =
            (heads.files[index].clone(), heads.counts[index].clone(), heads.blocks[index]);
        match random.below(30) {
            0 => file = random_file(random, &heads.drawings[index]),
            1 => counts.push(0),
            2 => counts.iter_mut().for_each(|count| *count += 16_777_215),
            3 => block = random.pick(&[0, block + 64, u64::MAX]),
            4 => k = random.pick(&[0, 65]),
            _ => {}
        }
        format!(r#"{{"file":"{}","block":{block},"counts":{}}}"#, hex(&file), Json::of_numbers(counts))
    };
    let mut requested: Vec<String> = (0..heads.number()).map(&mut head).collect();
    if random.chance(1, 30) {
        requested.resize(random.pick(&[0, 9]), requested[0].clone());
    }
    (requested, k)
}

/// Calls that are not refused, but perhaps the last.
fn request_calls(random: &mut Random, heads: &DrawnHeads) -> String {
    let start =
        |head: usize| Start { file: &heads.files[head], block: heads.blocks[head], counts: &heads.counts[head] };
    let starts: Vec<Start> = (0..heads.number()).map(start).collect();
    let mut controller = Controller::set_up(&starts, heads.k).expect("nothing is wrong with the heads");
    let mut calls = Vec::new();
    for left in (0..random.below(20)).rev() {
        let call = match left {
            0 if random.chance(1, 2) => heads.wrong_call(random, controller.state()),
            _ => heads.call(random, controller.state()),
        };
        calls.push(match call {
            Call::Event { head, event, time } => {
                let _ = controller.event(head, event, time);
                format!(r#"{{"event":[{head},{event},{time}]}}"#)
            }
            Call::Turn => {
                let _ = controller.turn();
                r#"{"turn":true}"#.to_string()
            }
        });
    }
    calls.join(",")
}

#[test]
fn random_controllers_bring_no_fault() {
    let mut random = Random::new(4);
    let mut came = Came::default();
    for _ in 0..1500 {
        let heads = DrawnHeads::random(&mut random);
        let calls = request_calls(&mut random, &heads);
        let (requested, k) = request_heads(&mut random, &heads);
        let heads = requested.join(",");
        came.count(&asked(&format!(r#"{{"call":"drive","k":{k},"heads":[{heads}],"calls":[{calls}]}}"#)));
    }
    assert!([0, 1, 9, 11, 12, 15, 23, 25, 26].iter().all(|number| came.0.contains_key(number)), "{:?}", came.0);
}
