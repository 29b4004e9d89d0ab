//! The proved library through its wrapper: a few cases of documents 01 and 02, values and lent memory. The differential test
//! compares it with this crate at large.

#![cfg(feature = "library")]

use timing_chart::analysis::Analysis;
use timing_chart::controller::{Head, Report, Start, State, Turn};
use timing_chart::counter::CounterPlaying;
use timing_chart::drawing::{
    chain, chart_a, chart_a_continued, chart_b, dwell, looped_chain, lowest_untested, never_started, over_floor,
    self_loop, spare_beside_twins, spare_unstarted, two_twins, Arrow, Drawing, AT_LEAST, AT_MOST,
};
use timing_chart::library::{analyse, play, play_counter, read, rewrite, write, Controller};
use timing_chart::lists::{Header, LentLists, Lists};
use timing_chart::player::Playing;
use timing_chart::rewriting::Rewriting;
use timing_chart::{Refusal, NOWHERE};

#[test]
fn analysis() {
    let mut live = [77; 9];
    assert_eq!(analyse(&chart_a().file(), &mut live[..6]), Err(Refusal { number: 21, place: NOWHERE }));
    assert_eq!(live, [77; 9]);
    assert_eq!(analyse(&chart_a().file(), &mut live), Ok(Analysis { used: 3, floor: 3, searched: true, rounds: 3 }));
    assert_eq!(live, [0, 1, 3, 6, 5, 4, 0, 77, 77]);
    assert_eq!(analyse(&over_floor().file(), &mut live), Ok(Analysis { used: 3, floor: 2, searched: true, rounds: 3 }));
    let continued = |count| analyse(&chart_a_continued(count).file(), &mut [0; 25]);
    assert_eq!(continued(17), Ok(Analysis { used: 3, floor: 3, searched: true, rounds: 3 }));
    assert_eq!(continued(18), Ok(Analysis { used: 3, floor: 2, searched: false, rounds: 3 }));
    // The order of the transitions does not matter, and the rounds need more than a byte.
    let rounds = |drawing: Drawing| analyse(&drawing.file(), &mut [0; 256]).map(|analysis| analysis.rounds);
    assert_eq!(rounds(chart_a().last_to_first()), Ok(3));
    assert_eq!([rounds(self_loop()), rounds(chain(256))], [Ok(1), Ok(255)]);
    assert_eq!([rounds(looped_chain(256)), rounds(looped_chain(256).last_to_first())], [Ok(256); 2]);
    assert_eq!(analyse(&never_started().file(), &mut []), Err(Refusal { number: 10, place: 1 }));
    assert_eq!(analyse(&[], &mut []), Err(Refusal { number: 1, place: NOWHERE }));
}

#[test]
fn rewriting() {
    let mut out = [0xAA; 200];
    assert_eq!(rewrite(&chart_a().file(), 2, &mut out), Err(Refusal { number: 20, place: NOWHERE }));
    for k in [65, 256 + 3, 65_536 + 3, u32::MAX] {
        assert_eq!(rewrite(&chart_a().file(), k, &mut out), Err(Refusal { number: 11, place: NOWHERE }));
    }
    assert_eq!(out, [0xAA; 200]);
    assert_eq!(rewrite(&chart_a().file(), 3, &mut out), Ok(Rewriting { used: 3, length: 103 }));
    assert_eq!(out[..103], chart_a().file());
    assert_eq!(out[103..], [0xAA; 97]);
    let mut expected = self_loop();
    expected.timers = 0;
    expected.transitions[0].starts.clear();
    assert_eq!(rewrite(&self_loop().file(), 0, &mut out), Ok(Rewriting { used: 0, length: 25 }));
    assert_eq!(out[..25], expected.file());
}

#[test]
fn twins() {
    // Each is live for itself, and they share board timer 0, which is started once.
    let mut live = [77; 5];
    let figures = Analysis { used: 1, floor: 1, searched: true, rounds: 3 };
    assert_eq!(analyse(&two_twins().file(), &mut live), Ok(figures));
    assert_eq!(live, [0, 3, 2, 0, 77]);
    let mut out = [0xAA; 60];
    assert_eq!(rewrite(&two_twins().file(), 0, &mut out), Err(Refusal { number: 20, place: NOWHERE }));
    assert_eq!(rewrite(&two_twins().file(), 1, &mut out[..51]), Err(Refusal { number: 21, place: NOWHERE }));
    assert_eq!(out, [0xAA; 60]);
    let mut expected = two_twins();
    expected.timers = 1;
    expected.transitions[0].starts = vec![0];
    expected.transitions[2].tests[0].0 = 0;
    assert_eq!(rewrite(&two_twins().file(), 1, &mut out[..52]), Ok(Rewriting { used: 1, length: 52 }));
    assert_eq!(out[..52], expected.file());
    // Told apart they take two.
    let figures = Analysis { used: 2, floor: 2, searched: true, rounds: 3 };
    assert_eq!(analyse(&two_twins().told_apart().file(), &mut live), Ok(figures));
    // Timer 0 is tested nowhere, and yet its twin, timer 2, has number 0 and comes before timer 1.
    let mut expected = lowest_untested();
    expected.timers = 2;
    expected.transitions[0].starts = vec![0];
    expected.transitions[2].tests = vec![(1, AT_MOST, 4), (0, AT_MOST, 4)];
    let length = expected.file().len();
    let answer = Rewriting { used: 2, length: length as u64 };
    assert_eq!(rewrite(&lowest_untested().file(), 2, &mut out), Ok(answer));
    assert_eq!(out[..length], expected.file());
}

#[test]
fn player() {
    let file = chart_b().file();
    let counts = [16_777_215; 2];
    assert_eq!(play(&file, &counts, &[0, 1, 2], &[5, 7, 8]), Ok(Playing { location: 3, time: 8, accepting: true }));
    assert_eq!(play(&file, &counts, &[], &[]), Ok(Playing { location: 0, time: 0, accepting: false }));
    assert_eq!(play(&file, &counts, &[0, 1], &[5, 8]), Err(Refusal { number: 24, place: 1 }));
    assert_eq!(play(&file, &counts, &[0, 1], &[5, 4]), Err(Refusal { number: 23, place: 1 }));
    assert_eq!(play(&file, &counts, &[0, 1, 2], &[5, 7, 7]), Err(Refusal { number: 24, place: 2 }));
    assert_eq!(play(&file, &counts, &[0], &[1 << 32]), Err(Refusal { number: 15, place: 0 }));
    assert_eq!(play(&file, &counts, &[0], &[]), Err(Refusal { number: 13, place: NOWHERE }));
    assert_eq!(play(&file, &[16_777_216, 0], &[], &[]), Err(Refusal { number: 12, place: 0 }));
}

#[test]
fn counter_board() {
    let file = chart_b().file();
    let played = |transitions: &[u32], first, readings: &[u16]| {
        play_counter(&file, &[16_777_215; 2], transitions, first, readings)
    };
    let ends = |location, accepting| Ok(CounterPlaying { location, accepting });
    assert_eq!(played(&[0, 1, 2], 65_530, &[65_535, 1, 2]), ends(3, true));
    assert_eq!(played(&[], 65_530, &[]), ends(0, false));
    assert_eq!(played(&[0, 1], 0, &[5, 8]), Err(Refusal { number: 24, place: 1 }));
    // A reading one lower than the last is a wait of 65,535 ticks.
    assert_eq!(played(&[0, 1], 0, &[5, 4]), Err(Refusal { number: 24, place: 1 }));
    assert_eq!(played(&[0, 0], 0, &[5, 5]), Err(Refusal { number: 22, place: 1 }));
    assert_eq!(played(&[3], 0, &[5]), Err(Refusal { number: 14, place: 0 }));
    assert_eq!(played(&[0], 0, &[]), Err(Refusal { number: 13, place: NOWHERE }));
    assert_eq!(play_counter(&file, &[16_777_216, 0], &[], 0, &[]), Err(Refusal { number: 12, place: 0 }));

    // Counts stop at 65,536, and no constant is larger than 65,535.
    let ends_or = |code, constant, readings: &[u16]| {
        play_counter(&dwell(code, constant).file(), &[0], &[0, 1], 0, readings).map(|end| end.location)
    };
    assert_eq!(ends_or(AT_MOST, 65_535, &[1, 0]), Ok(2));
    assert_eq!(ends_or(AT_LEAST, 65_535, &[1, 65_535]), Err(Refusal { number: 24, place: 1 }));
    assert_eq!(ends_or(AT_LEAST, 65_536, &[1, 0]), Err(Refusal { number: 18, place: NOWHERE }));
}

#[test]
fn version_2() {
    let file = chart_b().version(2).file();
    let mut live = [77; 5];
    assert_eq!(analyse(&file, &mut live), Ok(Analysis { used: 1, floor: 1, searched: true, rounds: 2 }));
    assert_eq!(live, [0, 1, 2, 0, 77]);
    let mut expected = chart_b().version(2);
    expected.timers = 1;
    expected.transitions[1].starts = vec![0];
    expected.transitions[2].tests[0].0 = 0;
    let mut out = [0xAA; 60];
    assert_eq!(rewrite(&file, 16, &mut out[..56]), Err(Refusal { number: 21, place: NOWHERE }));
    assert_eq!(out, [0xAA; 60]);
    assert_eq!(rewrite(&file, 16, &mut out), Ok(Rewriting { used: 1, length: 57 }));
    assert_eq!(out[..57], expected.file());
    assert_eq!(out[57..], [0xAA; 3]);

    // Constants are compared whole.
    let played = |code, constant, times: &[u64]| play(&dwell(code, constant).file(), &[16_777_215], &[0, 1], times);
    let ends = |time| Ok(Playing { location: 2, time, accepting: true });
    let not_met = Err(Refusal { number: 24, place: 1 });
    assert_eq!(played(AT_LEAST, 65_537, &[10, 65_546]), not_met);
    assert_eq!(played(AT_LEAST, 65_537, &[10, 65_547]), ends(65_547));
    assert_eq!(played(AT_LEAST, 33_554_431, &[0, 16_777_215]), not_met);
    assert_eq!(played(AT_MOST, 4_294_967_295, &[0, 16_777_215]), ends(16_777_215));

    // Files of one version under the other's byte, and under one that is no version's.
    for (drawing, answer) in [(chart_b(), Err(3)), (chart_b().version(2), Err(3)), (self_loop(), Ok(()))] {
        let mut file = drawing.file();
        file[0] = 3 - file[0];
        let refusal = |number| Refusal { number, place: NOWHERE };
        assert_eq!(analyse(&file, &mut [0; 4]).map(|_| ()), answer.map_err(refusal));
        file[0] = 4;
        assert_eq!(analyse(&file, &mut [0; 4]), Err(refusal(2)));
    }
}

#[test]
fn version_3() {
    let drawing = spare_beside_twins();
    let file = drawing.file();
    let mut live = [77; 6];
    assert_eq!(analyse(&file, &mut live), Ok(Analysis { used: 1, floor: 1, searched: true, rounds: 3 }));
    assert_eq!(live, [0, 3, 2, 0, 0, 77]);
    let mut expected = drawing.clone();
    expected.timers = 1;
    expected.transitions[0].starts = vec![0];
    expected.transitions[2].tests[0].0 = 0;
    expected.transitions[3] = Arrow::new(4, 1);
    let mut out = [0xAA; 70];
    assert_eq!(rewrite(&file, 1, &mut out[..64]), Err(Refusal { number: 21, place: NOWHERE }));
    assert_eq!(out, [0xAA; 70]);
    assert_eq!(rewrite(&file, 1, &mut out), Ok(Rewriting { used: 1, length: 65 }));
    assert_eq!(out[..65], expected.file());
    assert_eq!(out[65..], [0xAA; 5]);
    let ends = Ok(Playing { location: 3, time: 10, accepting: true });
    assert_eq!(play(&file, &[9, 9], &[0, 1, 2], &[1, 3, 10]), ends);
    assert_eq!(play(&out[..65], &[9], &[0, 1, 2], &[1, 3, 10]), ends);
    assert_eq!(play(&file, &[9, 9], &[3], &[1]), Err(Refusal { number: 22, place: 0 }));
    let version_2 = drawing.version(2).file();
    assert_eq!(analyse(&version_2, &mut live), Err(Refusal { number: 9, place: 4 }));
    // Tests on no path are not unstarted.
    assert_eq!(rewrite(&spare_unstarted().file(), 0, &mut out), Ok(Rewriting { used: 0, length: 34 }));
}

#[test]
fn reader_and_writer() {
    let file = chart_b().file();
    let header = Header { version: 1, locations: 4, initial: 0, timers: 2, accepting: 1, transitions: 3 };
    let no_room = Refusal { number: 21, place: NOWHERE };
    let (mut accepting, mut sources, mut targets) = ([77; 2], [77; 4], [77; 4]);
    let (mut events, mut starts, mut test_counts) = ([77; 4], [77; 4], [77; 4]);
    let (mut timers, mut codes, mut constants) = ([77; 3], [77; 3], [77; 3]);
    let mut read_with = |file: &[u8], tests: usize| {
        let mut lent = LentLists {
            accepting: &mut accepting,
            sources: &mut sources,
            targets: &mut targets,
            events: &mut events,
            starts: &mut starts,
            test_counts: &mut test_counts,
            timers: &mut timers,
            codes: &mut codes[..tests],
            constants: &mut constants,
        };
        let answer = read(file, &mut lent);
        (answer, lent.accepting[0], lent.constants[0])
    };
    assert_eq!(read_with(&file, 1), (Err(no_room), 77, 77));
    assert_eq!(read_with(&file[..52], 3), (Err(Refusal { number: 1, place: NOWHERE }), 77, 77));
    assert_eq!(read_with(&file, 3), (Ok(header), 3, 2));
    assert_eq!((accepting, sources, targets), ([3, 77], [0, 1, 2, 77], [1, 2, 3, 77]));
    assert_eq!((events, starts, test_counts), ([0, 0, 0, 77], [1, 2, 0, 77], [0, 1, 1, 77]));
    assert_eq!((timers, codes, constants), ([0, 1, 77], [0, 2, 77], [2, 1, 77]));

    let mut out = [0xAA; 60];
    let mut write_with = |header: Header, constants: &[u32], room: usize| {
        let lists = Lists {
            accepting: &accepting,
            sources: &sources,
            targets: &targets,
            events: &events,
            starts: &starts,
            test_counts: &test_counts,
            timers: &timers,
            codes: &codes,
            constants,
        };
        (write(&header, &lists, &mut out[..room]), out)
    };
    let refused = |number, place| (Err(Refusal { number, place }), [0xAA; 60]);
    assert_eq!(write_with(header, &constants, 52), refused(21, NOWHERE));
    assert_eq!(write_with(header, &[2], 60), refused(3, NOWHERE));
    assert_eq!(write_with(header, &[65_536, 1], 60), refused(17, NOWHERE));
    assert_eq!(write_with(Header { version: 4, ..header }, &constants, 60), refused(2, NOWHERE));
    assert_eq!(write_with(Header { timers: 1, ..header }, &constants, 60), refused(6, 1));
    assert_eq!(write_with(Header { locations: 3, ..header }, &constants, 60), refused(5, NOWHERE));
    let (answer, out) = write_with(header, &constants, 60);
    assert_eq!((answer, &out[..53], &out[53..]), (Ok(53), file.as_slice(), &[0xAA; 7][..]));
}

#[test]
fn controller() {
    let file = chart_b().file();
    let head = |block, counts| Start { file: &file, block, counts };
    let refused = |number| Refusal { number, place: NOWHERE };
    let set_up = |heads: &[Start], k| Controller::set_up(heads, k).map(|controller| *controller.state());
    assert_eq!(set_up(&[], 4), Err(refused(25)));
    assert_eq!(set_up(&[head(2, &[0, 0]); 9], 4), Err(refused(25)));
    assert_eq!(set_up(&[head(2, &[0, 0]), head(2, &[0])], 4), Err(refused(12)));
    assert_eq!(set_up(&[head(2, &[0, 0]), head(2, &[0, 0])], 3), Err(refused(25)));

    let mut controller = Controller::set_up(&[head(2, &[7, 7]), head(2, &[0, 0])], 4).unwrap();
    assert_eq!(controller.event(0, 0, 5), Ok(()));
    assert_eq!(controller.event(0, 0, 6), Err(refused(26)));
    assert_eq!(controller.event(1, 0, 16_777_216), Err(refused(15)));
    assert_eq!(controller.turn(), Ok(Turn { head: 0, report: Report::Taken(0) }));
    assert_eq!(controller.event(0, 0, 4), Err(refused(23)));
    assert_eq!(controller.turn(), Ok(Turn { head: 1, report: Report::Nothing }));
    assert_eq!(controller.event(0, 0, 8), Ok(()));
    assert_eq!(controller.turn(), Ok(Turn { head: 0, report: Report::NoneTaken }));
    let mut expected = State { turn: 1, ..State::ZERO };
    expected.heads[0] = Head { location: 1, time: 8, ..Head::default() };
    expected.counts[..2].copy_from_slice(&[3, 15]);
    assert_eq!(*controller.state(), expected);
}
