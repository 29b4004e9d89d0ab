//! The sentence of every refusal, and that a sentence is found for a file exactly where the reader and the judgement refuse
//! it.

use timing_chart::analysis::analyse;
use timing_chart::chart::Chart;
use timing_chart::controller::{Head, Start, State};
use timing_chart::drawing::*;
use timing_chart::generator::{accepted, damaged, relabelled, spoilt, Random, Shape};
use timing_chart::reasons::*;
use timing_chart::traces;
use timing_chart::{Refusal, NOWHERE};

/// The file is refused with this number at this place, for this reason, and no reason is found for a refusal at another.
#[track_caller]
fn refused_at(file: &[u8], number: u64, place: u64, sentence: &str) {
    let refusal = Refusal { number, place };
    assert_eq!(analyse(file, &mut [0; 256]).err(), Some(refusal));
    assert_eq!(of_file(file, refusal).as_deref(), Some(sentence));
    assert_eq!(of_file(file, Refusal { number: number + 1, place }), None);
    assert_eq!(of_file(file, Refusal { number, place: place ^ 1 }), None);
}

#[track_caller]
fn refused(file: &[u8], number: u64, sentence: &str) {
    refused_at(file, number, NOWHERE, sentence);
}

/// Chart A with another number in it.
fn changed(change: impl FnOnce(&mut Drawing)) -> Vec<u8> {
    let mut drawing = chart_a();
    change(&mut drawing);
    drawing.file()
}

#[test]
fn an_accepted_file_has_no_cause() {
    for drawing in [chart_a(), chart_b(), chart_c(), spare_unstarted()] {
        assert_eq!(cause_of_file(&drawing.file()), None);
    }
}

#[test]
fn the_length_of_a_file() {
    refused(&[], 1, "1: the file is empty");
    refused(&[1], 1, "1: the file has 1 byte; a chart file has at least 5");
    refused(&[1, 0, 0, 0], 1, "1: the file has 4 bytes; a chart file has at least 5");
    let file = one_location().file();
    refused(&file[..13], 1, "1: the length in the file is 9; 8 bytes follow it");
    refused(&file[..6], 1, "1: the length in the file is 9; 1 byte follows it");
    refused(&file[..5], 1, "1: the length in the file is 9; 0 bytes follow it");
    refused(&[file, vec![0]].concat(), 1, "1: the length in the file is 9; 10 bytes follow it");
    refused(&[4, 255, 255, 255, 255], 1, "1: the length in the file is 4294967295; 0 bytes follow it");
}

#[test]
fn the_version() {
    refused(&chart_a().version(4).file(), 2, "2: the version byte is 4; there are versions 1 to 3");
    refused(&chart_a().version(0).file(), 2, "2: the version byte is 0; there are versions 1 to 3");
}

#[test]
fn a_file_that_ends_inside_a_field() {
    let transitions = vec![Arrow::new(0, 1).starts(&[0]), Arrow::new(1, 1).tests(0, AT_LEAST, 1).starts(&[0])];
    let drawing = Drawing { accepting: vec![0, 1], ..Drawing::new(2, 1, transitions) };
    // How many bytes each field has.
    let fields = [
        (2, "the number of locations"),
        (2, "the initial location"),
        (1, "the number of timers"),
        (2, "the count of accepting locations"),
        (4, "the list of accepting locations"),
        (2, "the count of transitions"),
        (2, "the length of transition 0"),
        (2, "the source of transition 0"),
        (2, "the target of transition 0"),
        (1, "the event of transition 0"),
        (1, "the count of starts of transition 0"),
        (1, "the starts of transition 0"),
        (1, "the count of tests of transition 0"),
        (2, "the length of transition 1"),
        (2, "the source of transition 1"),
        (2, "the target of transition 1"),
        (1, "the event of transition 1"),
        (1, "the count of starts of transition 1"),
        (1, "the starts of transition 1"),
        (1, "the count of tests of transition 1"),
    ];
    for (version, tests) in [(1, 4), (2, 6), (3, 6)] {
        let file = drawing.clone().version(version).file();
        let mut kept = 5;
        for (bytes, field) in fields.into_iter().chain([(tests, "the tests of transition 1")]) {
            for _ in 0..bytes {
                let cut = enclosed(version, &file[5..kept]);
                refused(&cut, 3, &format!("3: the file ends inside {field}"));
                kept += 1;
            }
        }
        assert_eq!(kept, file.len());
        assert_eq!(cause_of_file(&file), None);
    }
}

#[test]
fn bytes_that_remain_and_lengths_of_transitions() {
    let body = &chart_b().file()[5..];
    refused(&enclosed(1, &[body, &[0]].concat()), 3, "3: 1 byte remains after the last transition");
    refused(&enclosed(1, &[body, &[0, 7]].concat()), 3, "3: 2 bytes remain after the last transition");
    let wrong = |drawing: Drawing, of: usize, wrong: u16| {
        drawing.file_with(|transition, length| if transition == of { wrong } else { length })
    };
    let file = wrong(chart_b(), 1, 9);
    refused(&file, 3, "3: the length of transition 1 is 9; with 1 start and 1 test it is 12");
    let file = wrong(chart_b(), 0, 7);
    refused(&file, 3, "3: the length of transition 0 is 7; with 1 start and 0 tests it is 8");
    let file = wrong(two_twins(), 0, 0);
    refused(&file, 3, "3: the length of transition 0 is 0; with 2 starts and 0 tests it is 9");
    let file = wrong(twins_around().version(2), 2, 15);
    refused(&file, 3, "3: the length of transition 2 is 15; with 0 starts and 2 tests it is 19");
}

#[test]
fn limits() {
    refused(&changed(|a| a.locations = 0), 4, "4: the number of locations is 0; 1 to 256 are allowed");
    refused(&changed(|a| a.locations = 257), 4, "4: the number of locations is 257; 1 to 256 are allowed");
    refused(&changed(|a| a.timers = 65), 4, "4: the number of timers is 65; at most 64 are allowed");
    let many = changed(|a| a.transitions.resize(513, Arrow::new(0, 0)));
    refused(&many, 4, "4: the count of transitions is 513; at most 512 are allowed");
    let starts = changed(|a| a.transitions[5].starts = (0..65).collect());
    refused_at(&starts, 4, 5, "4: transition 5 has 65 starts; at most 64 are allowed");
    let tests = changed(|a| a.transitions[6].tests = vec![(2, ABOVE, 2); 9]);
    refused_at(&tests, 4, 6, "4: transition 6 has 9 tests; at most 8 are allowed");
}

#[test]
fn locations_that_there_are_not() {
    refused(&changed(|a| a.initial = 9), 5, "5: the initial location is 9; there are locations 0 to 6");
    refused(&changed(|a| a.accepting = vec![9]), 5, "5: an accepting location is 9; there are locations 0 to 6");
    let source = changed(|a| a.transitions[3].source = 7);
    refused_at(&source, 5, 3, "5: the source of transition 3 is 7; there are locations 0 to 6");
    let target = changed(|a| a.transitions[4].target = 65_535);
    refused_at(&target, 5, 4, "5: the target of transition 4 is 65535; there are locations 0 to 6");
    let one = Drawing { initial: 1, ..one_location() };
    refused(&one.file(), 5, "5: the initial location is 1; there is location 0");
}

#[test]
fn timers_that_there_are_not() {
    let starts = changed(|a| a.transitions[1].starts = vec![1, 5]);
    refused_at(&starts, 6, 1, "6: transition 1 starts timer 5; there are timers 0 to 2");
    let tests = changed(|a| a.transitions[2].tests.push((5, AT_MOST, 0)));
    refused_at(&tests, 6, 2, "6: transition 2 tests timer 5; there are timers 0 to 2");
    let one = Drawing { timers: 1, ..chart_b() };
    refused_at(&one.file(), 6, 1, "6: transition 1 starts timer 1; there is timer 0");
    let none = Drawing { timers: 0, ..chart_b() };
    refused_at(&none.file(), 6, 0, "6: transition 0 starts timer 0; there are no timers");
}

#[test]
fn what_must_rise_and_codes() {
    let accepting = changed(|a| a.accepting = vec![5, 3]);
    refused(&accepting, 7, "7: accepting location 3 comes after 5; they must rise");
    let accepting = changed(|a| a.accepting = vec![0, 6, 6]);
    refused(&accepting, 7, "7: accepting location 6 comes after 6; they must rise");
    let starts = changed(|a| a.transitions[0].starts = vec![0, 2, 1]);
    refused_at(&starts, 7, 0, "7: transition 0 starts timer 1 after timer 2; they must rise");
    let starts = changed(|a| a.transitions[2].starts = vec![2, 2]);
    refused_at(&starts, 7, 2, "7: transition 2 starts timer 2 after timer 2; they must rise");
    let code = changed(|a| a.transitions[3].tests[0].1 = 7);
    refused_at(&code, 8, 3, "8: transition 3 has a test with comparison code 7; there are codes 0 to 4");
}

#[test]
fn locations_that_no_path_reaches() {
    let file = changed(|a| a.transitions[3].target = 3);
    refused_at(&file, 9, 4, "9: no path from the initial location 0 reaches location 4");
    let file = Drawing { initial: 1, ..chart_b() }.file();
    refused_at(&file, 9, 0, "9: no path from the initial location 1 reaches location 0");
}

#[test]
fn tests_of_timers_that_a_path_starts_nowhere() {
    let empty = "10: transition 1 tests timer 0; the empty path reaches it and starts timer 0 nowhere";
    refused_at(&never_started().file(), 10, 1, empty);
    let transitions = vec![
        Arrow::new(0, 1).starts(&[0]),
        Arrow::new(1, 2).starts(&[1]),
        Arrow::new(1, 2),
        Arrow::new(2, 3).tests(1, AT_LEAST, 0).tests(0, AT_LEAST, 0),
    ];
    let path = "10: transition 3 tests timer 1; the path 0, 2 reaches it and starts timer 1 nowhere";
    refused_at(&Drawing::new(4, 2, transitions).file(), 10, 3, path);
}

#[test]
fn of_several_paths_and_timers_the_shortest_and_lowest() {
    // To location 3 lead 4 alone, which starts 0 and 1; 0, 1, 2 and 3, 2, which start 0; and 5, 6, which starts nothing.
    let transitions = vec![
        Arrow::new(0, 1),
        Arrow::new(1, 2),
        Arrow::new(2, 3).starts(&[0]),
        Arrow::new(0, 2),
        Arrow::new(0, 3).starts(&[0, 1]),
        Arrow::new(0, 4),
        Arrow::new(4, 3),
        Arrow::new(3, 5).tests(2, AT_LEAST, 0).tests(1, AT_LEAST, 0).tests(0, AT_LEAST, 0),
    ];
    let mut drawing = Drawing::new(6, 3, transitions);
    let lowest = "10: transition 7 tests timer 0; the path 5, 6 reaches it and starts timer 0 nowhere";
    refused_at(&drawing.file(), 10, 7, lowest);
    // Of 3, 2 and 5, 6, which are equally long, 3, 2 comes first.
    drawing.transitions[7].tests.pop();
    let first = "10: transition 7 tests timer 1; the path 3, 2 reaches it and starts timer 1 nowhere";
    refused_at(&drawing.file(), 10, 7, first);
    drawing.transitions[7].tests.pop();
    let shortest = "10: transition 7 tests timer 2; the path 4 reaches it and starts timer 2 nowhere";
    refused_at(&drawing.file(), 10, 7, shortest);
}

#[test]
fn boards() {
    assert_eq!(of_board(65), "11: K is 65; a board has at most 64 timers");
    assert_eq!(of_board(u32::MAX), "11: K is 4294967295; a board has at most 64 timers");
}

#[test]
fn starting_counts() {
    let cause = |drawing: Drawing, counts: &[u32]| {
        let cause = cause_of_counts(&Chart::read(&drawing.file()).unwrap(), counts)?;
        Some((cause.refusal.number, cause.refusal.place, cause.sentence()))
    };
    let wrong = |sentence: &str| Some((12, NOWHERE, sentence.to_string()));
    assert_eq!(cause(chart_b(), &[0; 3]), wrong("12: there are 3 starting counts; the chart has 2 timers"));
    assert_eq!(cause(chart_b(), &[0]), wrong("12: there is 1 starting count; the chart has 2 timers"));
    assert_eq!(cause(chart_b(), &[]), wrong("12: there are no starting counts; the chart has 2 timers"));
    assert_eq!(cause(self_loop(), &[u32::MAX; 2]), wrong("12: there are 2 starting counts; the chart has 1 timer"));
    assert_eq!(cause(one_location(), &[0]), wrong("12: there is 1 starting count; the chart has no timers"));
    let large = "12: the starting count of timer 1 is 16777216; at most 16777215 is allowed";
    assert_eq!(cause(chart_a(), &[16_777_215, 16_777_216, 16_777_217]), Some((12, 1, large.to_string())));
    assert_eq!(cause(chart_a(), &[16_777_215; 3]), None);
}

#[test]
fn what_no_file_brings() {
    assert_eq!(cause_of_lengths(3, 2).sentence(), "13: there are 3 transitions and 2 times");
    assert_eq!(cause_of_room().sentence(), "21: there is no room");
    assert_eq!(cause_of_state().sentence(), "32: the state handed in cannot be");
}

/// The reason why the last of these steps of the player is refused.
fn step_reason(drawing: Drawing, steps: &[(u32, u64)]) -> String {
    let chart = Chart::read(&drawing.file()).unwrap();
    let (transitions, times): (Vec<u32>, Vec<u64>) = steps.iter().copied().unzip();
    let counts = vec![0; usize::from(chart.timers())];
    let trace = traces::play(&chart, &counts, &transitions, &times);
    let cause = cause_of_step(&trace.refused.expect("a step is refused"));
    assert_eq!((trace.steps.len(), cause.refusal.place), (steps.len() - 1, steps.len() as u64 - 1));
    cause.sentence()
}

#[test]
fn steps_of_the_player() {
    let reason = |steps: &[(u32, u64)]| step_reason(chart_b(), steps);
    assert_eq!(reason(&[(0, 5), (3, 6)]), "14: step 1 names transition 3; there are transitions 0 to 2");
    assert_eq!(step_reason(self_loop(), &[(9, 0)]), "14: step 0 names transition 9; there is transition 0");
    assert_eq!(step_reason(one_location(), &[(0, 0)]), "14: step 0 names transition 0; there are no transitions");
    assert_eq!(reason(&[(0, 16_777_216)]), "15: step 0 is at 16777216; the largest time is 16777215");
    assert_eq!(reason(&[(2, u64::MAX)]), "15: step 0 is at 18446744073709551615; the largest time is 16777215");
    let source = "22: step 1 takes transition 2, which leaves location 2; the present location is 1";
    assert_eq!(reason(&[(0, 5), (2, 4)]), source);
    assert_eq!(reason(&[(0, 5), (1, 4)]), "23: step 1 is at 4; the present time is 5");
}

#[test]
fn tests_that_a_step_does_not_meet() {
    let reason = |steps: &[(u32, u64)]| step_reason(chart_b(), steps);
    let at_most = "24: step 1 takes transition 1 at 8: timer 0 is at 3, at most 2 is asked, 1 too many";
    assert_eq!(reason(&[(0, 5), (1, 8)]), at_most);
    let at_least = "24: step 2 takes transition 2 at 7: timer 1 is at 0, at least 1 is asked, 1 too few";
    assert_eq!(reason(&[(0, 5), (1, 7), (2, 7)]), at_least);
    let dwelt = |code, constant, count: u64| step_reason(dwell(code, constant), &[(0, 10), (1, 10 + count)]);
    let asked = |count: u64, words: &str| {
        format!("24: step 1 takes transition 1 at {}: timer 0 is at {count}, {words}", 10 + count)
    };
    assert_eq!(dwelt(BELOW, 9, 9), asked(9, "below 9 is asked, 1 too many"));
    assert_eq!(dwelt(BELOW, 9, 20), asked(20, "below 9 is asked, 12 too many"));
    assert_eq!(dwelt(BELOW, 1, 1), asked(1, "below 1 is asked, 1 too many"));
    assert_eq!(dwelt(BELOW, 0, 0), asked(0, "below 0 is asked, which no count is"));
    assert_eq!(dwelt(BELOW, 0, 7), asked(7, "below 0 is asked, which no count is"));
    assert_eq!(dwelt(ABOVE, 2, 0), asked(0, "above 2 is asked, 3 too few"));
    assert_eq!(dwelt(ABOVE, 2, 2), asked(2, "above 2 is asked, 1 too few"));
    assert_eq!(dwelt(ABOVE, u32::MAX, 5), asked(5, "above 4294967295 is asked, 4294967291 too few"));
    assert_eq!(dwelt(AT_LEAST, 70_000, 1), asked(1, "at least 70000 is asked, 69999 too few"));
    assert_eq!(dwelt(AT_MOST, 0, 4), asked(4, "at most 0 is asked, 4 too many"));
    assert_eq!(dwelt(EQUAL, 4, 3), asked(3, "equal 4 is asked, 1 too few"));
    assert_eq!(dwelt(EQUAL, 4, 9), asked(9, "equal 4 is asked, 5 too many"));
}

#[test]
fn several_tests_that_a_step_does_not_meet() {
    let tests = Arrow::new(1, 2).tests(0, AT_MOST, 2).tests(1, AT_LEAST, 3).tests(2, ABOVE, 2).tests(0, AT_MOST, 2);
    let transitions = vec![Arrow::new(0, 0).starts(&[0, 1]), Arrow::new(0, 1).starts(&[0, 1, 2]), tests];
    let mut drawing = Drawing::new(3, 3, transitions);
    let [zero, two] =
        ["timer 0 is at 3, at most 2 is asked, 1 too many", "timer 2 is at 0, above 2 is asked, 3 too few"];
    // Timer 2 is started again between; the test of timer 1 is met.
    drawing.transitions.push(Arrow::new(1, 1).starts(&[2]));
    let reason = step_reason(drawing, &[(1, 5), (3, 8), (2, 8)]);
    assert_eq!(reason, format!("24: step 2 takes transition 2 at 8: {zero}; {two}; {zero}"));
}

#[test]
fn steps_of_the_counter_board() {
    let reason = |first: u16, steps: &[(u32, u16)]| {
        let chart = Chart::read(&three_tests(65_535).file()).unwrap();
        let (transitions, readings): (Vec<u32>, Vec<u16>) = steps.iter().copied().unzip();
        let trace = traces::play_counter(&chart, &[16_777_215], &transitions, first, &readings);
        cause_of_step(&trace.refused.expect("a step is refused")).sentence()
    };
    assert_eq!(reason(0, &[(6, 0)]), "14: step 0 names transition 6; there are transitions 0 to 5");
    let source = "22: step 0 takes transition 2, which leaves location 2; the present location is 0";
    assert_eq!(reason(0, &[(2, 7)]), source);
    let stopped =
        "24: step 3 takes transition 4 at the reading 65534: timer 0 is at 65536, at most 65535 is asked, 1 too many";
    assert_eq!(reason(0, &[(0, 0), (5, 65_535), (1, 65_534), (4, 65_534)]), stopped);
    let wrapped =
        "24: step 2 takes transition 3 at the reading 1: timer 0 is at 7, equal 65535 is asked, 65528 too few";
    assert_eq!(reason(65_530, &[(0, 65_530), (1, 65_535), (3, 1)]), wrapped);
}

#[test]
fn constants_that_are_too_large() {
    let mut drawing = chart_a();
    drawing.transitions[3].tests.push((0, AT_MOST, 65_536));
    drawing.transitions[4].tests[0].2 = 70_000;
    let version_1 = "17: transition 3 has a test with constant 65536; the largest constant of version 1 is 65535";
    let cause = cause_of_drawing(&drawing).unwrap();
    assert_eq!((cause.refusal, cause.sentence().as_str()), (Refusal { number: 17, place: NOWHERE }, version_1));
    // A later wrong field counts before.
    drawing.transitions[6].target = 7;
    let target = "5: the target of transition 6 is 7; there are locations 0 to 6";
    assert_eq!(cause_of_drawing(&drawing).map(|cause| cause.sentence()).as_deref(), Some(target));
    drawing.transitions[6].target = 6;
    drawing.version = 2;
    assert_eq!(cause_of_drawing(&drawing), None);
    let cause = cause_of_constants(&Chart::read(&drawing.file()).unwrap()).unwrap();
    let counter = "18: transition 3 has a test with constant 65536; the largest constant of the counter board is 65535";
    assert_eq!((cause.refusal, cause.sentence().as_str()), (Refusal { number: 18, place: NOWHERE }, counter));
    assert_eq!(cause_of_constants(&Chart::read(&three_tests(65_535).file()).unwrap()), None);
}

#[test]
fn heads_that_are_refused() {
    let [a, b, wrong] = [chart_a(), chart_b(), never_started()].map(|drawing| drawing.file());
    let head = |file, block, counts| Start { file, block, counts };
    let reason = |heads: &[Start], k| cause_of_set_up(heads, k).map(|cause| cause.sentence());
    let good = head(&b, 2, &[0, 0]);
    assert_eq!(reason(&[good, good], 4), None);
    let told = |sentence: &str| Some(sentence.to_string());
    assert_eq!(reason(&[good; 9], 65), told("25: there are 9 heads; 1 to 8 are allowed"));
    assert_eq!(reason(&[], 65), told("25: there are no heads; 1 to 8 are allowed"));
    let unstarted = "10: head 1: transition 1 tests timer 0; the empty path reaches it and starts timer 0 nowhere";
    assert_eq!(reason(&[good, head(&wrong, 0, &[]), head(&[], 0, &[])], 65), told(unstarted));
    assert_eq!(reason(&[head(&[], 0, &[])], 65), told("1: head 0: the file is empty"));
    assert_eq!(reason(&[head(&b, 1, &[0])], 65), told("11: K is 65; a board has at most 64 timers"));
    let counts = "12: head 1: there is 1 starting count; the chart has 2 timers";
    assert_eq!(reason(&[head(&b, 1, &[0, 0]), head(&b, 2, &[0])], 4), told(counts));
    let large = "12: head 0: the starting count of timer 1 is 16777216; at most 16777215 is allowed";
    assert_eq!(reason(&[head(&b, 2, &[0, 16_777_216]), head(&b, 2, &[0])], 4), told(large));
    let short = "25: the block of head 1 has 1 timer; its chart has 2";
    assert_eq!(reason(&[good, head(&b, 1, &[0, 0])], 4), told(short));
    assert_eq!(reason(&[head(&a, 0, &[0; 3])], 0), told("25: the block of head 0 has 0 timers; its chart has 3"));
    let long = "25: the blocks up to head 2 have 9 timers together; K is 8";
    assert_eq!(reason(&[good, head(&a, 4, &[0; 3]), head(&a, 3, &[0; 3])], 8), told(long));
    let loop_file = Drawing { timers: 0, ..one_location() }.file();
    assert_eq!(
        reason(&[head(&loop_file, 1, &[])], 0),
        told("25: the blocks up to head 0 have 1 timer together; K is 0")
    );
    let sum = "25: the blocks up to head 1 have 18446744073709551617 timers together; K is 64";
    assert_eq!(reason(&[good, head(&b, u64::MAX, &[0, 0])], 64), told(sum));
}

#[test]
fn events_that_are_refused() {
    let mut state = State::ZERO;
    state.heads[0] = Head { time: 9, ..Head::default() };
    state.heads[1] = Head { waiting: 1, ..Head::default() };
    let reason = |heads, head, time| cause_of_event(&state, heads, head, time).map(|cause| cause.sentence());
    let told = |sentence: &str| Some(sentence.to_string());
    assert_eq!(reason(2, 3, 0), told("26: there is no head 3; there are heads 0 to 1"));
    assert_eq!(reason(1, 1, 0), told("26: there is no head 1; there is head 0"));
    assert_eq!(reason(2, 1, u64::MAX), told("26: an event waits at head 1 already"));
    assert_eq!(reason(2, 0, 16_777_216), told("15: the event's time is 16777216; the largest time is 16777215"));
    assert_eq!(reason(2, 0, 8), told("23: the event's time is 8; the time of head 0 is 9"));
    assert_eq!(reason(2, 0, 9), None);
}

#[test]
fn a_file_has_a_cause_exactly_where_it_is_refused() {
    let mut random = Random::new(18);
    let mut came = [0; 11];
    for _ in 0..4000 {
        let shape = Shape::random(&mut random, 12);
        let drawing = accepted(&mut random, &shape);
        let mut file = if random.chance(1, 2) { spoilt(&mut random, &drawing) } else { drawing.file() };
        if random.chance(1, 3) {
            file = damaged(&mut random, &file);
        }
        if random.chance(1, 8) && !file.is_empty() {
            file = relabelled(&mut random, &file);
        }
        let refusal = analyse(&file, &mut [0; 256]).err();
        assert_eq!(cause_of_file(&file).map(|cause| cause.refusal), refusal);
        came[refusal.map_or(0, |refusal| refusal.number) as usize] += 1;
    }
    assert!(came.iter().all(|&times| times > 0), "{came:?}");
}
