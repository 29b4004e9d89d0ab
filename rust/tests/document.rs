//! The cases of document 01: its charts, places, orders and traps; and those of document 02 that have landed.

use timing_chart::analysis::{self, analyse, Analysis};
use timing_chart::chart::{Chart, Comparison};
use timing_chart::counter::{play_counter, CounterPlaying};
use timing_chart::drawing::*;
use timing_chart::generator::{
    five_groups, hardest_floor, largest_spare, longest, many_numbers, meetings, pairs, sixty_five_numbers, Random,
};
use timing_chart::limits::{LARGEST_FILE, LARGEST_FILE_VERSION_1};
use timing_chart::listing::listing;
use timing_chart::lists::{self, Header, Lists};
use timing_chart::player::{play, Playing};
use timing_chart::rewriting::{rewrite, Rewriting};
use timing_chart::sets::LocationSet;
use timing_chart::twins::Twins;
use timing_chart::version::Version;
use timing_chart::{Answer, Refusal, NOWHERE};

fn refused<T>(number: u64, place: u64) -> Answer<T> {
    Err(Refusal { number, place })
}

fn live_of(file: &[u8]) -> (Vec<Vec<u8>>, Analysis) {
    let mut live = [u64::MAX; 256];
    let answer = analyse(file, &mut live).unwrap();
    let locations = usize::from(Chart::read(file).unwrap().locations());
    assert!(live[locations..].iter().all(|&word| word == u64::MAX));
    let sets = live[..locations].iter().map(|word| (0..64).filter(|j| word >> j & 1 == 1).collect()).collect();
    (sets, answer)
}

/// The figures where the floor is searched.
fn searched(used: u64, floor: u64, rounds: u64) -> Analysis {
    Analysis { used, floor, searched: true, rounds }
}

/// The figures where there are too many families for that.
fn seen(used: u64, floor: u64, rounds: u64) -> Analysis {
    Analysis { used, floor, searched: false, rounds }
}

/// The families' numbers with their board numbers, by rising number.
fn families(drawing: &Drawing) -> Vec<(usize, u16)> {
    let chart = Chart::read(&drawing.file()).unwrap();
    let graph = analysis::judge(&chart).unwrap();
    let twins = Twins::of(&chart, graph.reached());
    let families = analysis::Families::of(&chart, &analysis::Liveness::of(&chart, graph), &twins);
    let numbers = families.first_fit(usize::MAX).unwrap();
    let number = |family: &analysis::Family| {
        let lowest = family.locations.iter().next().unwrap();
        64 * usize::from(lowest) + usize::from(family.timer)
    };
    families.list().iter().map(number).zip(numbers).collect()
}

/// The twins of a chart without spare locations.
fn twins_of(drawing: &Drawing) -> Twins {
    let chart = Chart::read(&drawing.file()).unwrap();
    Twins::of(&chart, &LocationSet::below(chart.locations()))
}

fn rewritten(drawing: &Drawing, k: u32) -> Answer<Vec<u8>> {
    let mut out = vec![0xAA; 70_000];
    let answer = rewrite(&drawing.file(), k, &mut out)?;
    let length = answer.length as usize;
    assert!(out[length..].iter().all(|&byte| byte == 0xAA));
    out.truncate(length);
    assert_eq!(u64::from(Chart::read(&out).unwrap().timers()), answer.used);
    Ok(out)
}

fn read(file: &[u8]) -> Answer<()> {
    Chart::read(file).map(|_| ())
}

#[test]
fn chart_a_is_analysed() {
    let (live, answer) = live_of(&chart_a().file());
    assert_eq!(live, [vec![], vec![0], vec![0, 1], vec![1, 2], vec![0, 2], vec![2], vec![]]);
    assert_eq!(answer, searched(3, 3, 3));
    assert_eq!(families(&chart_a()), [(64, 0), (129, 1), (194, 2)]);
}

#[test]
fn chart_a_is_rewritten_for_three_timers_and_not_for_two() {
    assert_eq!(rewritten(&chart_a(), 3), Ok(chart_a().file()));
    assert_eq!(rewritten(&chart_a(), 2), refused(20, NOWHERE));
}

#[test]
fn chart_b_shares_one_timer() {
    let mut expected = chart_b();
    expected.timers = 1;
    expected.transitions[1] = Arrow::new(1, 2).tests(0, AT_MOST, 2).starts(&[0]);
    expected.transitions[2] = Arrow::new(2, 3).tests(0, AT_LEAST, 1);
    assert_eq!(rewritten(&chart_b(), 16), Ok(expected.file()));
    assert_eq!(live_of(&chart_b().file()).1, searched(1, 1, 2));
}

#[test]
fn chart_c_gives_timer_0_two_numbers() {
    assert_eq!(families(&chart_c()), [(65, 0), (128, 1), (256, 0)]);
    let expected = Drawing::new(
        6,
        2,
        vec![
            Arrow::new(0, 1).starts(&[0]),
            Arrow::new(1, 2).starts(&[1]),
            Arrow::new(2, 3).tests(1, AT_LEAST, 1),
            Arrow::new(3, 4).tests(0, AT_MOST, 9).starts(&[0]),
            Arrow::new(4, 5).tests(0, AT_LEAST, 2),
        ],
    );
    assert_eq!(rewritten(&chart_c(), 2), Ok(expected.file()));
}

#[test]
fn a_start_that_is_not_born_is_left_out() {
    let mut expected = self_loop();
    expected.timers = 0;
    expected.transitions[0].starts.clear();
    assert_eq!(rewritten(&self_loop(), 0), Ok(expected.file()));
    assert_eq!(live_of(&self_loop().file()), (vec![vec![]], searched(0, 0, 1)));
}

#[test]
fn events_are_kept() {
    // Timer 0 is live nowhere; timer 2 is live at location 1 and has number 0 there; timer 1 is started where it is not
    // live.
    let drawing = Drawing::new(
        3,
        3,
        vec![
            Arrow::new(0, 1).event(7).starts(&[0, 2]),
            Arrow::new(1, 1).event(255).tests(2, AT_LEAST, 3).starts(&[2]),
            Arrow::new(1, 2).event(1).tests(2, BELOW, 300).starts(&[1]),
        ],
    );
    let expected = [
        &[1, 0, 0, 0, 48, 0, 3, 0, 0, 1, 0, 1, 0, 2, 0, 3][..],
        &[0, 8, 0, 0, 0, 1, 7, 1, 0, 0],
        &[0, 12, 0, 1, 0, 1, 255, 1, 0, 1, 0, 2, 0, 3],
        &[0, 11, 0, 1, 0, 2, 1, 0, 1, 0, 1, 1, 44],
    ];
    assert_eq!(rewritten(&drawing, 1), Ok(expected.concat()));
}

#[test]
fn a_start_on_another_path_does_not_help() {
    let file = never_started().file();
    assert_eq!(analyse(&file, &mut [0; 2]), refused(10, 1));
    assert_eq!(rewrite(&file, 64, &mut [0; 99]), refused(10, 1));
    assert_eq!(play(&file, &[0], &[], &[]), refused(10, 1));
}

#[test]
fn a_start_on_the_same_transition_comes_after_its_test() {
    let drawing = Drawing::new(2, 1, vec![Arrow::new(0, 1).tests(0, AT_LEAST, 0).starts(&[0])]);
    assert_eq!(analyse(&drawing.file(), &mut [0; 2]), refused(10, 0));
}

#[test]
fn families_are_apart_where_the_timer_is_started_anew() {
    assert_eq!(families(&started_anew()), [(64, 0), (128, 0)]);
    // A parallel transition that does not start the timer links them.
    let mut linked = started_anew();
    linked.transitions.push(Arrow::new(1, 2));
    assert_eq!(families(&linked), [(64, 0)]);
}

#[test]
fn chart_b_is_played() {
    let file = chart_b().file();
    let board = rewritten(&chart_b(), 1).unwrap();
    for (file, counts) in [(&file, vec![0, 0]), (&file, vec![16_777_215; 2]), (&board, vec![16_777_215])] {
        let played = |transitions: &[u32], times: &[u64]| play(file, &counts, transitions, times);
        let end = Playing { location: 3, time: 8, accepting: true };
        assert_eq!(played(&[0, 1, 2], &[5, 7, 8]), Ok(end));
        assert_eq!(played(&[0, 1], &[5, 8]), refused(24, 1));
        assert_eq!(played(&[0, 1], &[5, 4]), refused(23, 1));
        assert_eq!(played(&[0, 1, 2], &[5, 7, 7]), refused(24, 2));
        assert_eq!(played(&[], &[]), Ok(Playing { location: 0, time: 0, accepting: false }));
        assert_eq!(played(&[0, 1], &[5, 7]), Ok(Playing { location: 2, time: 7, accepting: false }));
        assert_eq!(played(&[1], &[0]), refused(22, 0));
        assert_eq!(played(&[3], &[0]), refused(14, 0));
        assert_eq!(played(&[0], &[]), refused(13, NOWHERE));
        assert_eq!(played(&[], &[0]), refused(13, NOWHERE));
    }
    assert_eq!(play(&file, &[16_777_216, 0], &[], &[]), refused(12, 0));
    assert_eq!(play(&file, &[0, u32::MAX], &[], &[]), refused(12, 1));
    assert_eq!(play(&file, &[u32::MAX, u32::MAX], &[], &[]), refused(12, 0));
    assert_eq!(play(&file, &[16_777_216], &[], &[]), refused(12, NOWHERE));
    assert_eq!(play(&file, &[0, 0, 0], &[], &[]), refused(12, NOWHERE));
    // 12 comes before 13.
    assert_eq!(play(&file, &[0], &[0], &[]), refused(12, NOWHERE));
    assert_eq!(play(&file, &[16_777_216, 0], &[0], &[]), refused(12, 0));
}

#[test]
fn a_step_is_judged_in_the_order_14_15_22_23_24() {
    let file = chart_b().file();
    let played = |transitions: &[u32], times: &[u64]| play(&file, &[0, 0], transitions, times);
    assert_eq!(played(&[9], &[16_777_216]), refused(14, 0));
    assert_eq!(played(&[u32::MAX], &[u64::MAX]), refused(14, 0));
    assert_eq!(played(&[2], &[16_777_216]), refused(15, 0));
    assert_eq!(played(&[0, 0], &[5, 4]), refused(22, 1));
    assert_eq!(played(&[0, 1], &[5, 1 << 32 | 6]), refused(15, 1));
    assert_eq!(
        played(&[0, 1], &[16_777_215, 16_777_215]),
        Ok(Playing { location: 2, time: 16_777_215, accepting: false })
    );
    assert_eq!(played(&[0, 1], &[16_777_215, 0]), refused(23, 1));
    // A later step is not looked at before its turn.
    assert_eq!(played(&[1, 99], &[5, u64::MAX]), refused(22, 0));
    // The same transition is no way on from its own target.
    assert_eq!(played(&[0, 0], &[5, 5]), refused(22, 1));
}

#[test]
fn the_first_step_counts_from_tick_0_and_counts_do_not_wrap() {
    let drawing = Drawing::new(2, 1, vec![Arrow::new(0, 1).starts(&[0]), Arrow::new(1, 0).tests(0, ABOVE, 65_535)]);
    let played = |times: &[u64]| play(&drawing.file(), &[16_777_215], &[0, 1], times);
    assert_eq!(played(&[3, 65_538]), refused(24, 1));
    assert_eq!(played(&[3, 65_539]), Ok(Playing { location: 0, time: 65_539, accepting: false }));
    assert_eq!(played(&[3, 16_777_215]), Ok(Playing { location: 0, time: 16_777_215, accepting: false }));
}

#[test]
fn places_of_steps_are_not_cut() {
    let drawing = Drawing::new(1, 0, vec![Arrow::new(0, 0)]);
    let mut transitions = vec![0; 70_000];
    let times = vec![7; 70_000];
    let end = Playing { location: 0, time: 7, accepting: true };
    assert_eq!(play(&drawing.file(), &[], &transitions, &times), Ok(end));
    transitions[65_535] = 1;
    assert_eq!(play(&drawing.file(), &[], &transitions, &times), refused(14, 65_535));
    transitions[65_535] = 0;
    transitions[69_999] = 1;
    assert_eq!(play(&drawing.file(), &[], &transitions, &times), refused(14, 69_999));
}

/// Where a step list ends on the counter board.
fn at(location: u64, accepting: bool) -> Answer<CounterPlaying> {
    Ok(CounterPlaying { location, accepting })
}

#[test]
fn chart_b_is_played_by_the_counter_board() {
    let file = chart_b().file();
    let board = rewritten(&chart_b(), 1).unwrap();
    for (file, counts) in [(&file, vec![0, 0]), (&file, vec![16_777_215; 2]), (&board, vec![16_777_215])] {
        let played = |transitions: &[u32], first: u16, readings: &[u16]| {
            play_counter(file, &counts, transitions, first, readings)
        };
        // Ticks 5, 2 and 1, whatever the counter shows at tick 0.
        assert_eq!(played(&[0, 1, 2], 0, &[5, 7, 8]), at(3, true));
        assert_eq!(played(&[0, 1, 2], 65_530, &[65_535, 1, 2]), at(3, true));
        assert_eq!(played(&[0, 1, 2], 65_531, &[0, 2, 3]), at(3, true));
        assert_eq!(played(&[0, 1, 2], 65_528, &[65_533, 65_535, 0]), at(3, true));
        assert_eq!(played(&[0, 1], 0, &[5, 8]), refused(24, 1));
        assert_eq!(played(&[0, 1], 65_530, &[65_535, 2]), refused(24, 1));
        assert_eq!(played(&[0, 1, 2], 65_530, &[65_535, 1, 1]), refused(24, 2));
        // A reading one lower than the last is 65,535 ticks later. (The player refuses times that fall.)
        assert_eq!(played(&[0, 1], 0, &[5, 4]), refused(24, 1));
        assert_eq!(played(&[0, 1, 2], 0, &[5, 7, 6]), at(3, true));
        // The reading at tick 0 is no entry of the list.
        assert_eq!(played(&[], 7, &[]), at(0, false));
        assert_eq!(played(&[0], 7, &[]), refused(13, NOWHERE));
        assert_eq!(played(&[0], 7, &[7, 8]), refused(13, NOWHERE));
        assert_eq!(played(&[0], 7, &[8]), at(1, false));
    }
}

#[test]
fn the_counter_board_judges_as_the_player_without_15_and_23() {
    let file = chart_b().file();
    let played =
        |counts: &[u32], transitions: &[u32], readings: &[u16]| play_counter(&file, counts, transitions, 0, readings);
    assert_eq!(played(&[16_777_216, 0], &[], &[]), refused(12, 0));
    assert_eq!(played(&[16_777_216], &[], &[]), refused(12, NOWHERE));
    assert_eq!(played(&[0, 0, 0], &[], &[]), refused(12, NOWHERE));
    assert_eq!(played(&[0, u32::MAX], &[0], &[]), refused(12, 1));
    assert_eq!(played(&[0, 0], &[9], &[]), refused(13, NOWHERE));
    assert_eq!(played(&[0, 0], &[3], &[0]), refused(14, 0));
    assert_eq!(played(&[0, 0], &[u32::MAX], &[0]), refused(14, 0));
    assert_eq!(played(&[0, 0], &[0, 0], &[5, 5]), refused(22, 1));
    // 22 comes before 24, and a later step is not looked at before its turn.
    assert_eq!(played(&[0, 0], &[0, 2], &[5, 5]), refused(22, 1));
    assert_eq!(played(&[0, 0], &[1, 99], &[5, 5]), refused(22, 0));
    assert_eq!(played(&[0, 0], &[0, 1, 99], &[5, 8, 9]), refused(24, 1));
    // 1 to 10 come before the counts.
    assert_eq!(play_counter(&[], &[], &[0], 0, &[]), refused(1, NOWHERE));
    assert_eq!(play_counter(&chart_b().version(4).file(), &[], &[0], 0, &[]), refused(2, NOWHERE));
    assert_eq!(play_counter(&never_started().file(), &[], &[0], 0, &[]), refused(10, 1));
}

#[test]
fn counts_of_the_counter_board_stop_at_65_536() {
    // The last step takes one of the transitions that test above, equal and at most 65,535.
    let played = |readings: [u16; 3]| {
        [2, 3, 4].map(|last| {
            let [one, two, three] = [1, 2, 3].map(|version| {
                let file = three_tests(65_535).version(version).file();
                play_counter(&file, &[16_777_215], &[0, 1, last], 0, &readings)
            });
            assert_eq!([two, three], [one; 2]);
            one
        })
    };
    let (taken, not_met) = (at(3, true), refused(24, 2));
    assert_eq!(played([0, 65_535, 65_535]), [not_met, taken, taken]);
    assert_eq!(played([0, 65_534, 65_534]), [not_met, not_met, taken]);
    assert_eq!(played([0, 65_535, 0]), [taken, not_met, not_met]);
    // 80,000 ticks in two steps.
    assert_eq!(played([0, 40_000, 14_464]), [taken, not_met, not_met]);
    assert_eq!(played([0, 65_535, 65_534]), [taken, not_met, not_met]);
    // 65,536 ticks in one step look like none.
    assert_eq!(played([9, 9, 9]), [not_met, not_met, taken]);
}

#[test]
fn counts_of_the_counter_board_stay_where_they_stop() {
    let file = three_tests(65_535).file();
    for around in [2, 3, 255, 256, 257, 258, 259, 513, 514, 515, 65_537, 70_000] {
        for wait in [0, 1, 5] {
            // 65,535 ticks each time around; the transition after them is tried `wait` ticks later.
            let mut transitions = vec![5; around];
            transitions.splice(0..0, [0]);
            transitions.push(1);
            let mut readings: Vec<u16> = (0..=around).map(|step| 0_u16.wrapping_sub(step as u16)).collect();
            readings.push(readings[around].wrapping_add(wait));
            let last = |transition: u32| {
                let (mut transitions, mut readings) = (transitions.clone(), readings.clone());
                transitions.push(transition);
                readings.push(readings[around + 1]);
                play_counter(&file, &[0], &transitions, 0, &readings)
            };
            let not_met = refused(24, around as u64 + 2);
            assert_eq!([2, 3, 4].map(last), [at(3, true), not_met, not_met], "{around} {wait}");
        }
    }
}

#[test]
fn a_constant_over_65_535_is_18_on_the_counter_board() {
    for constant in [65_536, 65_537, 131_072, 16_777_216, 4_294_967_295] {
        let file = three_tests(constant).file();
        let played = |counts: &[u32], transitions: &[u32], readings: &[u16]| {
            play_counter(&file, counts, transitions, 0, readings)
        };
        assert_eq!(played(&[0], &[], &[]), refused(18, NOWHERE));
        // It comes before the steps, after 12 and 13.
        assert_eq!(played(&[0], &[99], &[0]), refused(18, NOWHERE));
        assert_eq!(played(&[0], &[0], &[]), refused(13, NOWHERE));
        assert_eq!(played(&[], &[0], &[]), refused(12, NOWHERE));
        assert_eq!(played(&[16_777_216], &[0], &[]), refused(12, 0));
        // One such constant is enough, wherever it stands.
        for transition in [2, 3, 4] {
            let mut drawing = three_tests(65_535);
            drawing.transitions[transition].tests[0].2 = constant;
            assert_eq!(play_counter(&drawing.file(), &[0], &[0], 0, &[0]), refused(18, NOWHERE));
        }
    }
    // 10 comes before it, and the player knows no such limit.
    let unstarted = Drawing::new(2, 1, vec![Arrow::new(0, 1).tests(0, AT_LEAST, 65_536)]).version(2);
    assert_eq!(play_counter(&unstarted.file(), &[0], &[], 0, &[]), refused(10, 0));
    assert_eq!(play_counter(&three_tests(65_535).file(), &[0], &[], 0, &[]), at(0, false));
    let end = Playing { location: 0, time: 0, accepting: false };
    assert_eq!(play(&three_tests(65_536).file(), &[0], &[], &[]), Ok(end));
}

#[test]
fn starting_counts_of_the_counter_board_have_the_players_limit() {
    let file = three_tests(65_535).file();
    for count in [0, 65_535, 65_536, 65_537, 16_777_215] {
        assert_eq!(play_counter(&file, &[count], &[0], 100, &[50]), at(1, false));
    }
    assert_eq!(play_counter(&file, &[16_777_216], &[0], 100, &[50]), refused(12, 0));
}

#[test]
fn places_of_steps_are_not_cut_on_the_counter_board() {
    let file = Drawing::new(1, 0, vec![Arrow::new(0, 0)]).file();
    let mut transitions = vec![0; 70_000];
    let readings: Vec<u16> = (0..70_000).map(|step| (step * 3) as u16).collect();
    assert_eq!(play_counter(&file, &[], &transitions, 9, &readings), at(0, true));
    for step in [69_999, 65_536, 65_535] {
        transitions[step] = 1;
        assert_eq!(play_counter(&file, &[], &transitions, 9, &readings), refused(14, step as u64));
    }
}

#[test]
fn comparisons_by_table() {
    let rows = [
        (Comparison::AtMost, [true, true, false]),
        (Comparison::Below, [true, false, false]),
        (Comparison::AtLeast, [false, true, true]),
        (Comparison::Above, [false, false, true]),
        (Comparison::Equal, [false, true, false]),
    ];
    for (code, (comparison, met)) in rows.into_iter().enumerate() {
        assert_eq!(Comparison::from_code(code as u8), Some(comparison));
        assert_eq!([4, 5, 6].map(|count| comparison.met(count, 5)), met);
        assert_eq!([0, 33_554_430].map(|count| comparison.met(count, 65_535)), [met[0], met[2]]);
        // Constants are compared whole: the low bytes of these two are small.
        for constant in [65_541, 16_777_221] {
            let counts = [5, constant - 1, constant, constant + 1];
            assert_eq!(counts.map(|count| comparison.met(count, constant)), [met[0], met[0], met[1], met[2]]);
        }
        for constant in [33_554_431, 4_294_967_295] {
            assert_eq!([0, 65_535, 33_554_430].map(|count| comparison.met(count, constant)), [met[0]; 3]);
        }
    }
    assert!((5..=255).all(|code| Comparison::from_code(code).is_none()));
}

#[test]
fn the_smallest_chart() {
    let file = [1, 0, 0, 0, 9, 0, 1, 0, 0, 0, 0, 0, 0, 0];
    assert_eq!(one_location().file(), file);
    assert_eq!(read(&file), Ok(()));
    assert_eq!(read(&file[..13]), refused(1, NOWHERE));
    assert_eq!(play(&file, &[], &[], &[]), Ok(Playing { location: 0, time: 0, accepting: false }));
    assert_eq!(analyse(&file, &mut []), refused(21, NOWHERE));
    assert_eq!(rewrite(&file, 0, &mut [0; 14]), Ok(Rewriting { used: 0, length: 14 }));
}

#[test]
fn k_of_64_is_judged_and_65_refused() {
    let file = chart_b().file();
    let mut out = [0; 100];
    assert_eq!(rewrite(&file, 64, &mut out).map(|answer| answer.used), Ok(1));
    for k in [65, 255, 256, 65_536 + 3, u32::MAX] {
        assert_eq!(rewrite(&file, k, &mut out), refused(11, NOWHERE));
    }
}

#[test]
fn version_and_length() {
    let good = chart_b().file();
    let mut file = good.clone();
    for version in [0, 4, 5, 255] {
        file[0] = version;
        assert_eq!(read(&file), refused(2, NOWHERE));
        assert_eq!(read(&chart_b().version(version).file()), refused(2, NOWHERE));
    }
    file.push(0);
    assert_eq!(read(&file), refused(1, NOWHERE));
    for length in 0..5 {
        assert_eq!(read(&good[..length]), refused(1, NOWHERE));
    }
    assert_eq!(read(&[1, 0, 0, 0, 0]), refused(3, NOWHERE));
    assert_eq!(read(&[2, 0, 0, 0, 0]), refused(3, NOWHERE));
    assert_eq!(read(&[3, 0, 0, 0, 0]), refused(3, NOWHERE));
    assert_eq!(read(&[0, 0, 0, 0, 0]), refused(2, NOWHERE));
    assert_eq!(read(&[4, 0, 0, 0, 0]), refused(2, NOWHERE));
    assert_eq!(read(&[1, 0, 0, 0, 1]), refused(1, NOWHERE));
    // All 32 bits of the length count.
    for byte in 1..4 {
        let mut file = good.clone();
        file[byte] += 1;
        assert_eq!(read(&file), refused(1, NOWHERE));
    }
    assert_eq!(read(&[1, 0xFF, 0xFF, 0xFF, 0xFB]), refused(1, NOWHERE));
}

#[test]
fn every_cut_is_3_without_a_place() {
    for drawing in [chart_a(), chart_b(), chart_c(), self_loop(), one_location()] {
        for version in [1, 2, 3] {
            let file = drawing.clone().version(version).file();
            let body = &file[5..];
            for length in 0..body.len() {
                assert_eq!(read(&enclosed(version, &body[..length])), refused(3, NOWHERE), "{length}");
            }
            let mut longer = body.to_vec();
            longer.push(0);
            assert_eq!(read(&enclosed(version, &longer)), refused(3, NOWHERE));
        }
    }
}

/// The answer to chart B with a change, in all versions.
fn changed(change: impl FnOnce(&mut Drawing)) -> Answer<()> {
    let mut drawing = chart_b();
    change(&mut drawing);
    let answer = read(&drawing.file());
    assert_eq!(read(&drawing.clone().version(2).file()), answer);
    assert_eq!(read(&drawing.version(3).file()), answer);
    answer
}

#[test]
fn fields_before_the_transitions() {
    assert_eq!(changed(|d| d.locations = 0), refused(4, NOWHERE));
    assert_eq!(changed(|d| d.locations = 257), refused(4, NOWHERE));
    assert_eq!(changed(|d| d.locations = 256), Ok(()));
    assert_eq!(changed(|d| d.initial = 4), refused(5, NOWHERE));
    assert_eq!(changed(|d| d.initial = 256), refused(5, NOWHERE));
    assert_eq!(changed(|d| d.timers = 65), refused(4, NOWHERE));
    assert_eq!(changed(|d| d.timers = 64), Ok(()));
    assert_eq!(changed(|d| d.accepting = vec![4]), refused(5, NOWHERE));
    assert_eq!(changed(|d| d.accepting = vec![1, 1]), refused(7, NOWHERE));
    assert_eq!(changed(|d| d.accepting = vec![2, 1]), refused(7, NOWHERE));
    assert_eq!(changed(|d| d.accepting = vec![0, 1, 2, 3]), Ok(()));
    // More accepting locations than there are fail at an entry.
    assert_eq!(changed(|d| d.accepting = vec![0, 1, 2, 3, 0]), refused(7, NOWHERE));
    assert_eq!(changed(|d| d.accepting = vec![0, 1, 2, 3, 4]), refused(5, NOWHERE));
    assert_eq!(changed(|d| d.transitions.resize(512, Arrow::new(0, 0))), Ok(()));
    assert_eq!(changed(|d| d.transitions.resize(513, Arrow::new(0, 0))), refused(4, NOWHERE));
    // 513 transitions are refused at the count, even if none follow.
    assert_eq!(read(&enclosed(1, &[0, 1, 0, 0, 0, 0, 0, 2, 1])), refused(4, NOWHERE));
    assert_eq!(read(&enclosed(1, &[0, 1, 0, 0, 0, 0, 0, 2, 0])), refused(3, NOWHERE));
}

#[test]
fn fields_of_a_transition() {
    assert_eq!(changed(|d| d.transitions[1].source = 4), refused(5, 1));
    assert_eq!(changed(|d| d.transitions[2].target = 4), refused(5, 2));
    assert_eq!(changed(|d| d.transitions[2].target = 256), refused(5, 2));
    assert_eq!(changed(|d| d.transitions[1].starts = vec![2]), refused(6, 1));
    assert_eq!(changed(|d| d.transitions[1].starts = vec![1, 1]), refused(7, 1));
    assert_eq!(changed(|d| d.transitions[1].starts = vec![1, 0]), refused(7, 1));
    assert_eq!(changed(|d| d.transitions[1].starts = (0..65).collect()), refused(4, 1));
    assert_eq!(changed(|d| d.transitions[1].starts = (0..64).collect()), refused(6, 1));
    assert_eq!(changed(|d| d.transitions[1].tests = vec![(0, 0, 0); 8]), Ok(()));
    assert_eq!(changed(|d| d.transitions[1].tests = vec![(0, 0, 0); 9]), refused(4, 1));
    assert_eq!(changed(|d| d.transitions[1].tests = vec![(2, 9, 0)]), refused(6, 1));
    assert_eq!(changed(|d| d.transitions[1].tests = vec![(0, 5, 0)]), refused(8, 1));
    assert_eq!(changed(|d| d.transitions[1].tests = vec![(0, 255, 0)]), refused(8, 1));
    assert_eq!(changed(|d| d.transitions[1].event = 255), Ok(()));
    // Equal tests and transitions are allowed.
    assert_eq!(changed(|d| d.transitions[0] = d.transitions[1].clone()), Ok(()));
}

#[test]
fn the_first_field_that_fails_counts() {
    assert_eq!(changed(|d| (d.locations, d.initial) = (0, 9)), refused(4, NOWHERE));
    assert_eq!(changed(|d| (d.initial, d.timers) = (9, 99)), refused(5, NOWHERE));
    assert_eq!(changed(|d| (d.timers, d.accepting) = (99, vec![9])), refused(4, NOWHERE));
    // An early 8 comes before a late 6.
    let early = |d: &mut Drawing| {
        d.transitions[1].tests = vec![(0, 7, 0)];
        d.transitions[2].tests = vec![(9, 0, 0)];
    };
    assert_eq!(changed(early), refused(8, 1));
    // An early 8 with bytes left over is 8.
    let mut drawing = chart_b();
    early(&mut drawing);
    let mut body = drawing.file()[5..].to_vec();
    body.push(0);
    assert_eq!(read(&enclosed(1, &body)), refused(8, 1));
    // Within a test the timer comes before the code.
    assert_eq!(changed(|d| d.transitions[1].tests = vec![(0, 0, 0), (9, 9, 0)]), refused(6, 1));
}

#[test]
fn a_records_length_is_judged_at_its_count_of_tests() {
    let with_length = |change: &dyn Fn(&mut Drawing), length: u16| {
        let mut drawing = chart_b();
        change(&mut drawing);
        read(&drawing.file_with(|index, true_length| if index == 1 { length } else { true_length }))
    };
    assert_eq!(with_length(&|_| {}, 12), Ok(()));
    for length in [0, 11, 13, 65_535] {
        assert_eq!(with_length(&|_| {}, length), refused(3, NOWHERE));
        assert_eq!(with_length(&|d| d.transitions[1].source = 4, length), refused(5, 1));
        assert_eq!(with_length(&|d| d.transitions[1].target = 4, length), refused(5, 1));
        assert_eq!(with_length(&|d| d.transitions[1].starts = vec![2], length), refused(6, 1));
        assert_eq!(with_length(&|d| d.transitions[1].starts = vec![1, 0], length), refused(7, 1));
        // A bad test comes after the length.
        assert_eq!(with_length(&|d| d.transitions[1].tests = vec![(9, 9, 9)], length), refused(3, NOWHERE));
    }
    // Nine tests are 4 only where the length is right, and 3 is the lower number where it is not.
    let nine = |d: &mut Drawing| d.transitions[1].tests = vec![(0, 0, 0); 9];
    assert_eq!(with_length(&nine, 7 + 1 + 36), refused(4, 1));
    assert_eq!(with_length(&nine, 12), refused(3, NOWHERE));
    // Nine in the last byte of the file is no cut field.
    let last =
        |version: u8, length: u8| enclosed(version, &[0, 1, 0, 0, 0, 0, 0, 0, 1, 0, length, 0, 0, 0, 0, 0, 0, 9]);
    assert_eq!(read(&last(1, 7 + 36)), refused(4, 0));
    assert_eq!(read(&last(1, 7)), refused(3, NOWHERE));
    assert_eq!(read(&last(2, 7 + 54)), refused(4, 0));
    assert_eq!(read(&last(2, 7 + 36)), refused(3, NOWHERE));
    assert_eq!(read(&last(3, 7 + 54)), refused(4, 0));
    assert_eq!(read(&last(3, 7 + 36)), refused(3, NOWHERE));
}

/// The largest file that the reader accepts.
fn largest_file(version: Version) -> Vec<u8> {
    let mut transition = Arrow::new(255, 255).starts(&(0..64).collect::<Vec<_>>());
    transition.tests = vec![(63, EQUAL, version.largest_constant()); 8];
    let drawing = Drawing {
        version: version as u8,
        locations: 256,
        initial: 0,
        timers: 64,
        accepting: (0..256).collect(),
        transitions: vec![transition; 512],
    };
    drawing.file()
}

#[test]
fn the_largest_files_have_54_286_and_62_478_bytes() {
    assert_eq!((LARGEST_FILE_VERSION_1, LARGEST_FILE), (54_286, 62_478));
    // The longest ones without spare locations that are judged to the end are shorter: the initial location's transition
    // cannot have tests.
    let versions = [(Version::One, 54_286, 54_254), (Version::Two, 62_478, 62_430), (Version::Three, 62_478, 62_430)];
    for (version, length, judged) in versions {
        let file = largest_file(version);
        assert_eq!(file.len(), length);
        let chart = Chart::read(&file).unwrap();
        let mut out = vec![0; length];
        assert_eq!(chart.write(&mut out), Ok(length));
        assert_eq!(out, file);
        // All its transitions leave location 255, which is spare: version 3 allows that. The program's input is not too
        // long by it.
        let (answer, text) = (analyse(&file, &mut [0; 256]), with_k(64, file));
        if version == Version::Three {
            assert_eq!(answer, Ok(searched(0, 0, 1)));
            let bare: String = (0..256).map(|location| format!("at {location}\n")).collect();
            assert_eq!(text, format!("used 0 floor 0 limit 64\n{bare}"));
        } else {
            assert_eq!((answer, text), (refused(9, 1), "refused 9 1\n".to_string()));
        }
        let longest = longest(&mut Random::new(1), version);
        assert_eq!(longest.file().len(), judged);
        assert_eq!(rewritten(&longest, 64).map(|file| file[0]), Ok(version as u8));
    }
}

/// Chart B as version 2.
const B_2: [&[u8]; 4] = [
    &[2, 0, 0, 0, 52, 0, 4, 0, 0, 2, 0, 1, 0, 3, 0, 3],
    &[0, 8, 0, 0, 0, 1, 0, 1, 0, 0],
    &[0, 14, 0, 1, 0, 2, 0, 1, 1, 1, 0, 0, 0, 0, 0, 2],
    &[0, 13, 0, 2, 0, 3, 0, 0, 1, 1, 2, 0, 0, 0, 1],
];

#[test]
fn chart_b_as_version_2() {
    let file = B_2.concat();
    assert_eq!(file.len(), 57);
    assert_eq!(chart_b().version(2).file(), file);
    assert_eq!(Chart::read(&file).map(|chart| chart.version()), Ok(Version::Two));
    assert_eq!(live_of(&file), live_of(&chart_b().file()));
    // One timer, started and tested throughout; the version is that of the chart read.
    let expected = [
        &[2, 0, 0, 0, 52, 0, 4, 0, 0, 1, 0, 1, 0, 3, 0, 3][..],
        &[0, 8, 0, 0, 0, 1, 0, 1, 0, 0],
        &[0, 14, 0, 1, 0, 2, 0, 1, 0, 1, 0, 0, 0, 0, 0, 2],
        &[0, 13, 0, 2, 0, 3, 0, 0, 1, 0, 2, 0, 0, 0, 1],
    ];
    assert_eq!(rewritten(&chart_b().version(2), 16), Ok(expected.concat()));
    for times in [[5, 7, 8], [5, 8, 8], [5, 4, 8], [5, 7, 7]] {
        let played = |file: &[u8]| play(file, &[3, 16_777_215], &[0, 1, 2], &times);
        assert_eq!(played(&file), played(&chart_b().file()));
    }
    let text = "used 1 floor 1 limit 16\nat 0\nat 1 0>0\nat 2 1>0\nat 3\n";
    assert_eq!(listing(&[vec![16], file].concat()), text);
}

#[test]
fn a_file_under_another_version() {
    let relabelled = |drawing: &Drawing, (from, to): (u8, u8)| {
        let mut file = drawing.clone().version(from).file();
        file[0] = to;
        read(&file)
    };
    let mut early = chart_b();
    early.transitions[1].target = 4;
    let mut late = chart_b();
    late.transitions[1].tests[0].1 = 5;
    for versions in [(1, 2), (2, 1), (1, 3), (3, 1)] {
        // The length of the first record with tests is wrong then, whatever these are; what fails before it counts.
        assert_eq!(relabelled(&chart_b(), versions), refused(3, NOWHERE));
        assert_eq!(relabelled(&late, versions), refused(3, NOWHERE));
        assert_eq!(relabelled(&early, versions), refused(5, 1));
        assert_eq!(relabelled(&self_loop(), versions), Ok(()));
    }
    for versions in [(2, 3), (3, 2)] {
        // Files of versions 2 and 3 are read alike.
        assert_eq!(relabelled(&chart_b(), versions), Ok(()));
        assert_eq!(relabelled(&late, versions), refused(8, 1));
        assert_eq!(relabelled(&early, versions), refused(5, 1));
    }
    let file = [2, 0, 0, 0, 9, 0, 1, 0, 0, 0, 0, 0, 0, 0];
    assert_eq!(Chart::read(&file).map(|chart| chart.version()), Ok(Version::Two));
    let mut out = [0; 14];
    assert_eq!(rewrite(&file, 0, &mut out), Ok(Rewriting { used: 0, length: 14 }));
    assert_eq!(out, file);
}

/// What the writer answers for a chart of two locations and one timer: 0→1 starts 0; then for each code 1→1, which
/// tests 0 by that code and the constant at the same place.
fn written(version: u8, codes: &[u8], constants: &[u32], out: &mut [u8]) -> Answer<usize> {
    let count = 1 + codes.len();
    let header = Header { version, locations: 2, initial: 0, timers: 1, accepting: 0, transitions: count as u16 };
    let (mut sources, mut starts, mut test_counts) = (vec![1; count], vec![0; count], vec![1; count]);
    (sources[0], starts[0], test_counts[0]) = (0, 1, 0);
    let lists = Lists {
        accepting: &[],
        sources: &sources,
        targets: &vec![1; count],
        events: &vec![0; count],
        starts: &starts,
        test_counts: &test_counts,
        timers: &vec![0; codes.len()],
        codes,
        constants,
    };
    lists::write(&header, &lists, out)
}

#[test]
fn a_constant_too_large_for_version_1_is_17() {
    for constant in [65_536, 65_537, 16_777_216, 4_294_967_295] {
        let mut out = [8; 60];
        assert_eq!(written(1, &[0], &[constant], &mut out), refused(17, NOWHERE));
        // 17 comes before 21.
        assert_eq!(written(1, &[0], &[constant], &mut []), refused(17, NOWHERE));
        assert_eq!(written(1, &[0, 1, 2], &[0, 7, constant], &mut out), refused(17, NOWHERE));
        // It is not judged at its field: a later 8 counts, and so does a list that ends later.
        assert_eq!(written(1, &[0, 5], &[constant, 0], &mut out), refused(8, 2));
        assert_eq!(written(1, &[0, 0], &[constant], &mut out), refused(3, NOWHERE));
        assert_eq!(out, [8; 60]);
        // An entry that is not due is ignored.
        assert_eq!(written(1, &[0], &[0, constant], &mut out), Ok(14 + 10 + 13));
        // Version 2 holds it.
        assert_eq!(written(2, &[0], &[constant], &mut out[..38]), refused(21, NOWHERE));
        assert_eq!(written(2, &[0], &[constant], &mut out), Ok(14 + 10 + 15));
        let chart = Chart::read(&out[..39]).unwrap();
        assert_eq!(chart.tests(&chart.transitions()[1])[0].constant, constant);
    }
    assert_eq!(written(1, &[0], &[65_535], &mut [0; 60]), Ok(14 + 10 + 13));
    assert_eq!(written(1, &[0], &[65_535], &mut []), refused(21, NOWHERE));
    // Version 3 has constants of four bytes too.
    assert_eq!(written(3, &[0], &[4_294_967_295], &mut [0; 39]), Ok(14 + 10 + 15));
    assert_eq!(written(3, &[0], &[4_294_967_295], &mut [0; 38]), refused(21, NOWHERE));
}

#[test]
fn the_writer_judges_the_version_first() {
    let header = Header { version: 2, locations: 0, initial: 9, timers: 99, accepting: 9, transitions: 999 };
    let lists = Lists {
        accepting: &[],
        sources: &[],
        targets: &[],
        events: &[],
        starts: &[],
        test_counts: &[],
        timers: &[],
        codes: &[],
        constants: &[],
    };
    assert_eq!(lists::write(&header, &lists, &mut []), refused(4, NOWHERE));
    for version in [0, 4, 5, 255] {
        assert_eq!(lists::write(&Header { version, ..header }, &lists, &mut []), refused(2, NOWHERE));
        assert_eq!(written(version, &[5], &[65_536], &mut []), refused(2, NOWHERE));
    }
}

#[test]
fn long_dwell_times_are_played() {
    // The chart as drawn and as rewritten, from different counts.
    let played = |code: u8, constant: u32, times: [u64; 2]| {
        let drawing = dwell(code, constant);
        let answer = play(&drawing.file(), &[0], &[0, 1], &times);
        for file in [drawing.file(), rewritten(&drawing, 1).unwrap()] {
            assert_eq!(file[0], 2);
            assert_eq!(play(&file, &[16_777_215], &[0, 1], &times), answer);
        }
        answer
    };
    let ends = |time| Ok(Playing { location: 2, time, accepting: true });
    assert_eq!(played(AT_LEAST, 65_537, [10, 65_546]), refused(24, 1));
    assert_eq!(played(AT_LEAST, 65_537, [10, 65_547]), ends(65_547));
    assert_eq!(played(AT_LEAST, 65_537, [10, 11]), refused(24, 1));
    assert_eq!(played(EQUAL, 65_536, [0, 0]), refused(24, 1));
    assert_eq!(played(EQUAL, 65_536, [0, 65_536]), ends(65_536));
    assert_eq!(played(AT_MOST, 65_536, [0, 65_536]), ends(65_536));
    assert_eq!(played(BELOW, 65_536, [0, 65_536]), refused(24, 1));
    assert_eq!(played(AT_LEAST, 16_777_215, [0, 16_777_215]), ends(16_777_215));
    assert_eq!(played(ABOVE, 16_777_215, [0, 16_777_215]), refused(24, 1));
    // No count is over 33,554,430: such tests are never met, or always.
    assert_eq!(played(AT_LEAST, 33_554_431, [0, 16_777_215]), refused(24, 1));
    assert_eq!(played(AT_MOST, 4_294_967_295, [0, 16_777_215]), ends(16_777_215));
    assert_eq!(played(EQUAL, 4_294_967_295, [0, 16_777_215]), refused(24, 1));
    // The limits of the player's time stand.
    assert_eq!(played(AT_LEAST, 16_777_216, [0, 16_777_216]), refused(15, 1));
}

/// What is drawn of a chart file of the repository is the whole chart: it makes the same file again.
#[test]
fn the_chart_files_of_the_repository() {
    let files: [(&[u8], Drawing); 6] = [
        (include_bytes!("../../charts/a.chart"), chart_a()),
        (include_bytes!("../../charts/b.chart"), chart_b()),
        (include_bytes!("../../charts/c.chart"), chart_c()),
        (include_bytes!("../../charts/one_location.chart"), one_location()),
        (include_bytes!("../../charts/self_loop.chart"), self_loop()),
        (include_bytes!("../../charts/never_started.chart"), never_started()),
    ];
    for (file, drawing) in files {
        assert_eq!(drawing.file(), file, "{drawing:?}");
    }
}

#[test]
fn place_of_9_is_the_lowest_location() {
    let drawing = |initial, arrows: &[(u16, u16)]| Drawing {
        locations: 4,
        initial,
        transitions: arrows.iter().map(|&(source, target)| Arrow::new(source, target)).collect(),
        ..Drawing::default()
    };
    let judged = |initial, arrows: &[(u16, u16)]| analyse(&drawing(initial, arrows).file(), &mut [0; 4]).err();
    assert_eq!(judged(0, &[(0, 1), (1, 2), (2, 3)]), None);
    assert_eq!(judged(0, &[(0, 1), (3, 2)]), Some(Refusal { number: 9, place: 2 }));
    assert_eq!(judged(0, &[(0, 2), (1, 3), (3, 1)]), Some(Refusal { number: 9, place: 1 }));
    assert_eq!(judged(3, &[(3, 1), (1, 2)]), Some(Refusal { number: 9, place: 0 }));
    assert_eq!(judged(3, &[(3, 2), (2, 1), (1, 0)]), None);
    assert_eq!(judged(0, &[]), Some(Refusal { number: 9, place: 1 }));
}

#[test]
fn place_of_10_is_the_lowest_transition() {
    // Unstarted are transition 2 by timer 0, and transition 1 by timer 1: at the higher location.
    let drawing = Drawing::new(
        3,
        2,
        vec![Arrow::new(0, 1), Arrow::new(2, 0).tests(1, AT_LEAST, 0), Arrow::new(1, 2).tests(0, AT_LEAST, 0)],
    );
    assert_eq!(analyse(&drawing.file(), &mut [0; 3]), refused(10, 1));
    // A loop back to a location without the start leaves nothing unstarted behind it.
    let around = Drawing::new(
        3,
        1,
        vec![Arrow::new(0, 1).starts(&[0]), Arrow::new(1, 2).tests(0, AT_LEAST, 1), Arrow::new(2, 1)],
    );
    assert_eq!(analyse(&around.file(), &mut [0; 3]).map(|answer| answer.used), Ok(1));
}

#[test]
fn the_lowest_number_counts_past_the_reading() {
    // 9 before 10.
    let drawing = Drawing::new(3, 1, vec![Arrow::new(0, 1).tests(0, AT_LEAST, 0)]);
    assert_eq!(analyse(&drawing.file(), &mut []), refused(9, 2));
    // 10 before 11, 20 and 21.
    assert_eq!(rewrite(&never_started().file(), 65, &mut []), refused(10, 1));
    // 8 before 11, 12 and 13.
    let mut bad = chart_b();
    bad.transitions[2].tests[0].1 = 9;
    assert_eq!(rewrite(&bad.file(), 65, &mut []), refused(8, 2));
    assert_eq!(play(&bad.file(), &[], &[0], &[]), refused(8, 2));
    // 10 before 12.
    assert_eq!(play(&never_started().file(), &[], &[0], &[]), refused(10, 1));
    // 11 before 20 and 21, 20 before 21.
    assert_eq!(rewrite(&chart_a().file(), 65, &mut []), refused(11, NOWHERE));
    assert_eq!(rewrite(&chart_a().file(), 2, &mut []), refused(20, NOWHERE));
    assert_eq!(rewrite(&chart_a().file(), 3, &mut []), refused(21, NOWHERE));
    assert_eq!(rewrite(&chart_a().file(), 0, &mut []), refused(20, NOWHERE));
}

#[test]
fn lent_memory_is_untouched_on_a_refusal_and_beyond_the_result() {
    let file = chart_a().file();
    let mut live = [77; 9];
    assert_eq!(analyse(&file, &mut live[..6]), refused(21, NOWHERE));
    assert_eq!(live, [77; 9]);
    assert_eq!(analyse(&file, &mut live), Ok(searched(3, 3, 3)));
    assert_eq!(live, [0, 1, 3, 6, 5, 4, 0, 77, 77]);

    // The room that is needed is the rewritten file's, which here is shorter than the drawn one's.
    let drawn = self_loop().file();
    let short = drawn.len() - 1;
    let mut out = [0xAA; 64];
    assert_eq!(rewrite(&drawn, 0, &mut out[..short - 1]), refused(21, NOWHERE));
    assert_eq!(out, [0xAA; 64]);
    let answer = Rewriting { used: 0, length: short as u64 };
    assert_eq!(rewrite(&drawn, 0, &mut out[..short]), Ok(answer));
    assert!(out[short..].iter().all(|&byte| byte == 0xAA));
    let mut out = [0xAA; 64];
    assert_eq!(rewrite(&drawn, 65, &mut out), refused(11, NOWHERE));
    assert_eq!(out, [0xAA; 64]);
}

#[test]
fn starts_are_sorted_by_board_number() {
    // Timer 1 gets number 0 at location 1; then timer 0 is started with it and gets 1. Both are started anew on 2→2.
    let drawing = Drawing::new(
        4,
        2,
        vec![
            Arrow::new(0, 1).starts(&[1]),
            Arrow::new(1, 2).starts(&[0]),
            Arrow::new(2, 2).tests(0, AT_LEAST, 1).tests(1, AT_LEAST, 1).starts(&[0, 1]),
            Arrow::new(2, 3).tests(1, ABOVE, 1).tests(0, ABOVE, 1),
        ],
    );
    let expected = Drawing::new(
        4,
        2,
        vec![
            Arrow::new(0, 1).starts(&[0]),
            Arrow::new(1, 2).starts(&[1]),
            Arrow::new(2, 2).tests(1, AT_LEAST, 1).tests(0, AT_LEAST, 1).starts(&[0, 1]),
            Arrow::new(2, 3).tests(0, ABOVE, 1).tests(1, ABOVE, 1),
        ],
    );
    assert_eq!(rewritten(&drawing, 2), Ok(expected.file()));
}

#[test]
fn the_floor_may_be_below_used() {
    assert_eq!(families(&over_floor()), [(128, 0), (130, 1), (192, 0), (193, 2)]);
    assert_eq!(live_of(&over_floor().file()).1, searched(3, 2, 3));
    assert_eq!(rewritten(&over_floor(), 2), refused(20, NOWHERE));
    assert!(rewritten(&over_floor(), 3).is_ok());
}

#[test]
fn the_floor_is_searched_up_to_20_families() {
    let figures = |drawing: Drawing| live_of(&drawing.file()).1;
    assert_eq!(figures(one_location()), searched(0, 0, 1));
    for count in [1, 19, 20] {
        assert_eq!(figures(lone_families(count)), searched(1, 1, 2));
    }
    assert_eq!(figures(lone_families(21)), seen(1, 1, 2));
    assert_eq!(families(&chart_a_continued(17)).len(), 20);
    assert_eq!(figures(chart_a_continued(17)), searched(3, 3, 3));
    assert_eq!(families(&chart_a_continued(18)).len(), 21);
    assert_eq!(figures(chart_a_continued(18)), seen(3, 2, 3));
}

#[test]
fn floors_above_the_fullest_set() {
    // In these charts every timer is tested wherever it is live: the second round changes nothing.
    // Families that meet pairwise, but nowhere more than two at once; fifteen that meet none come before them.
    let lone_then_five = pairs(20, |a, _| a >= 15);
    let figures = |timers: &[u8], sets: &[Vec<usize>]| live_of(&meetings(timers, sets).file()).1;
    let timers: Vec<u8> = (0..21).map(|family: u8| family.saturating_sub(15)).collect();
    assert_eq!(figures(&timers[..20], &lone_then_five), searched(5, 5, 2));
    assert_eq!(figures(&timers, &lone_then_five), seen(5, 2, 2));
    // Circles: two timers suffice for an even one.
    let all: Vec<u8> = (0..20).collect();
    for count in 3..=20 {
        let circle = pairs(count, |a, b| b == a + 1 || b + 1 == a + count);
        let used = if count.is_multiple_of(2) { 2 } else { 3 };
        assert_eq!(figures(&all[..count], &circle), searched(used, used, 2));
    }
    // All of twenty meet.
    assert_eq!(figures(&all, &pairs(20, |_, _| true)), searched(20, 20, 2));
    // Two rows of ten, each family meets all of the other row but the one across: first fit takes a timer for each
    // column, and two suffice, one for each row.
    let rows = pairs(20, |a, b| a % 2 != b % 2 && a / 2 != b / 2);
    assert_eq!(figures(&all, &rows), searched(10, 2, 2));
    assert_eq!(live_of(&five_groups().file()).1.floor, 10);
    assert_eq!(live_of(&hardest_floor().file()).1, searched(10, 10, 2));
}

#[test]
fn rounds_of_the_live_sets() {
    // The order of the transitions in the file does not matter. (For A written last to first, sweeps that read what they
    // have changed already would end after 2.)
    let rounds = |drawing: Drawing| {
        let rounds = live_of(&drawing.file()).1.rounds;
        assert_eq!(live_of(&drawing.last_to_first().file()).1.rounds, rounds);
        rounds
    };
    assert_eq!(rounds(chart_a()), 3);
    assert_eq!(rounds(chart_a().version(2)), 3);
    assert_eq!(rounds(chart_a().version(3)), 3);
    assert_eq!(rounds(chart_b()), 2);
    assert_eq!(rounds(chart_c()), 4);
    // Nothing is tested: the first round changes nothing, and counts.
    assert_eq!(rounds(one_location()), 1);
    assert_eq!(rounds(self_loop()), 1);
    // Both tests are seen in the first round.
    assert_eq!(rounds(started_anew()), 2);
    // Locations 2 and 3 change in the second round, and 2 leads to 1: what 2 gains in it comes to 3 in the third.
    let transitions = vec![
        Arrow::new(0, 3).starts(&[0, 1]),
        Arrow::new(3, 2),
        Arrow::new(2, 1),
        Arrow::new(1, 4).tests(0, AT_LEAST, 0),
        Arrow::new(2, 4).tests(1, AT_LEAST, 0),
    ];
    assert_eq!(rounds(Drawing::new(5, 2, transitions)), 4);
    // A test is seen one location further away in each round, but never at location 0.
    for (locations, expected) in [(3, 2), (4, 3), (255, 254), (256, 255)] {
        assert_eq!(rounds(chain(locations)), expected);
    }
    for (locations, expected) in [(2, 2), (3, 3), (255, 255), (256, 256)] {
        assert_eq!(rounds(looped_chain(locations)), expected);
    }
}

#[test]
fn used_may_exceed_64() {
    let small = sixty_five_numbers(5);
    let (live, answer) = live_of(&small.file());
    assert_eq!(answer, seen(65, 64, 3));
    assert_eq!(live[3], (0..64).collect::<Vec<_>>());
    assert_eq!(families(&small).len(), 66);
    assert!((0..=64).all(|k| rewritten(&small, k) == refused(20, NOWHERE)));
    // Without the six transitions that tell its timers apart, 62 of them are twins.
    let mut twins = small.clone();
    twins.transitions.retain(|transition| transition.source != transition.target);
    assert_eq!(twins.transitions.len() + 6, small.transitions.len());
    assert_eq!(families(&twins), [(69, 0), (128, 0), (129, 1), (133, 2), (192, 3)]);
    assert_eq!(live_of(&twins.file()), (live, searched(4, 3, 3)));
    for (levels, half) in [(3, 8), (4, 16), (8, 32), (17, 5), (17, 32)] {
        let drawing = many_numbers(levels, half);
        let answer = live_of(&drawing.file()).1;
        // A timer goes round a cycle of its group's locations: the longest has one fewer than there are levels.
        let used = u64::from(levels) * u64::from(half);
        assert_eq!(answer, seen(used, 2 * u64::from(half), u64::from(levels)));
        let fits = answer.used <= 64;
        assert_eq!(rewritten(&drawing, 64).is_ok(), fits);
        assert_eq!(rewritten(&drawing, 64).err(), (!fits).then_some(Refusal { number: 20, place: NOWHERE }));
    }
}

/// The program's text for a board of K timers and a chart.
fn with_k(k: u8, file: Vec<u8>) -> String {
    listing(&[vec![k], file].concat())
}

#[test]
fn all_64_timers_at_once() {
    let all: Vec<u8> = (0..64).collect();
    let mut transitions = vec![Arrow::new(0, 1).starts(&all)];
    for timers in all.chunks(8) {
        let mut transition = Arrow::new(1, 1);
        transition.tests = timers.iter().map(|&timer| (timer, AT_LEAST, 0)).collect();
        transitions.push(transition);
    }
    let twins = Drawing::new(2, 64, transitions);
    let drawing = twins.clone().told_apart();
    assert_eq!(live_of(&drawing.file()).1, seen(64, 64, 2));
    let mut board = drawing.clone();
    board.transitions[9..].iter_mut().for_each(|transition| transition.starts.clear());
    assert_eq!(rewritten(&drawing, 64), Ok(board.file()));
    assert_eq!(rewritten(&drawing, 63), refused(20, NOWHERE));
    let text = with_k(64, drawing.file());
    assert!(text.starts_with("used 64 seen 64 limit 64\nat 0\nat 1 0>0 1>1 "));
    assert!(text.ends_with(" 62>62 63>63\n"));

    // As twins they take one timer, and are live each for itself.
    let (live, answer) = live_of(&twins.file());
    assert_eq!((&live[1], answer), (&all, searched(1, 1, 2)));
    let mut board = twins.clone();
    board.timers = 1;
    board.transitions[0].starts = vec![0];
    board.transitions.iter_mut().flat_map(|transition| &mut transition.tests).for_each(|test| test.0 = 0);
    assert_eq!(rewritten(&twins, 1), Ok(board.file()));
    assert_eq!(rewritten(&twins, 0), refused(20, NOWHERE));
    let text = with_k(1, twins.file());
    assert!(text.starts_with("used 1 floor 1 limit 1\nat 0\nat 1 0>0 1>0 "));
    assert!(text.ends_with(" 62>0 63>0\n"));
}

#[test]
fn twins_share_a_number() {
    let drawing = two_twins();
    assert_eq!(live_of(&drawing.file()), (vec![vec![], vec![0, 1], vec![1], vec![]], searched(1, 1, 3)));
    assert_eq!(families(&drawing), [(64, 0)]);
    assert_eq!(with_k(2, drawing.file()), "used 1 floor 1 limit 2\nat 0\nat 1 0>0 1>0\nat 2 1>0\nat 3\n");
    // Both tests read board timer 0, which is started once.
    let mut board = drawing.clone();
    board.timers = 1;
    board.transitions[0].starts = vec![0];
    board.transitions[2].tests[0].0 = 0;
    assert_eq!(rewritten(&drawing, 1), Ok(board.file()));
    assert_eq!(rewritten(&drawing, 0), refused(20, NOWHERE));
    for (times, answer) in [
        ([3, 5, 12], Ok(Playing { location: 3, time: 12, accepting: true })),
        ([3, 4, 12], refused(24, 1)),
        ([3, 5, 13], refused(24, 2)),
    ] {
        assert_eq!(play(&drawing.file(), &[7, 9], &[0, 1, 2], &times), answer);
        assert_eq!(play(&board.file(), &[16_777_215], &[0, 1, 2], &times), answer);
    }
    // A loop that starts one of the two for itself: they are twins no longer.
    let apart = drawing.told_apart();
    assert_eq!(families(&apart), [(64, 0), (65, 1)]);
    assert_eq!(with_k(2, apart.file()), "used 2 floor 2 limit 2\nat 0\nat 1 0>0 1>1\nat 2 1>1\nat 3\n");
}

#[test]
fn twins_need_not_be_neighbours() {
    let drawing = twins_around();
    assert_eq!(families(&drawing), [(64, 0), (129, 1)]);
    let text = "used 2 floor 2 limit 3\nat 0\nat 1 0>0 2>0\nat 2 1>1 2>0\nat 3\n";
    assert_eq!(with_k(3, drawing.file()), text);
    let mut board = drawing.clone();
    board.timers = 2;
    board.transitions[0].starts = vec![0];
    board.transitions[2].tests = vec![(0, AT_MOST, 4), (1, AT_MOST, 4)];
    assert_eq!(rewritten(&drawing, 2), Ok(board.file()));
}

#[test]
fn the_lowest_twin_names_the_family_though_it_is_tested_nowhere() {
    let drawing = lowest_untested();
    assert_eq!(live_of(&drawing.file()), (vec![vec![], vec![1, 2], vec![2], vec![]], searched(2, 2, 3)));
    // By timer 2 itself, the families were 65 and 66, and the numbers the other way round.
    assert_eq!(families(&drawing), [(64, 0), (65, 1)]);
    assert_eq!(with_k(3, drawing.file()), "used 2 floor 2 limit 3\nat 0\nat 1 1>1 2>0\nat 2 2>0\nat 3\n");
    let apart = drawing.clone().told_apart();
    assert_eq!(families(&apart), [(65, 0), (66, 1)]);
    let mut board = drawing.clone();
    board.timers = 2;
    board.transitions[0].starts = vec![0];
    board.transitions[2].tests = vec![(1, AT_MOST, 4), (0, AT_MOST, 4)];
    assert_eq!(rewritten(&drawing, 2), Ok(board.file()));
}

#[test]
fn the_lowest_twin_is_live_where_any_of_them_is() {
    let drawing = twins_on_two_ways();
    assert_eq!(families(&drawing), [(64, 0)]);
    assert_eq!(with_k(1, drawing.file()), "used 1 floor 1 limit 1\nat 0\nat 1 0>0 1>0\nat 2\nat 3 1>0\nat 4\n");
}

#[test]
fn timers_that_nothing_starts_are_twins() {
    // Timers 0 and 3 are started nowhere, 1 and 2 together.
    let drawing = Drawing::new(
        3,
        4,
        vec![Arrow::new(0, 1).starts(&[1, 2]), Arrow::new(1, 2).tests(2, AT_LEAST, 1), Arrow::new(2, 2)],
    );
    let twins = twins_of(&drawing);
    assert_eq!([0, 1, 2, 3].map(|timer| twins.lowest(timer)), [0, 1, 1, 0]);
    assert_eq!(families(&drawing), [(65, 0)]);
    // 10 goes by the drawn timer.
    let mut unstarted = drawing.clone();
    unstarted.transitions[2].tests = vec![(3, AT_LEAST, 0)];
    assert_eq!(analyse(&unstarted.file(), &mut [0; 3]), refused(10, 2));
}

#[test]
fn twins_count_once_in_the_20_families() {
    // Each family of the row twice, by timer 0 or 1 and by its twin 2 or 3.
    let doubled = |count| {
        let mut drawing = lone_families(count);
        drawing.timers = 4;
        for transition in &mut drawing.transitions {
            transition.starts.extend(transition.starts.clone().iter().map(|timer| timer + 2));
            transition.tests.extend(transition.tests.clone().iter().map(|test| (test.0 + 2, test.1, test.2)));
        }
        drawing
    };
    let figures = |drawing: Drawing| live_of(&drawing.file()).1;
    assert_eq!(families(&doubled(20)).len(), 20);
    assert_eq!(figures(doubled(20)), searched(1, 1, 2));
    assert_eq!(figures(doubled(21)), seen(1, 1, 2));
    assert_eq!(families(&doubled(11).told_apart()).len(), 22);
    assert_eq!(figures(doubled(11).told_apart()), seen(2, 2, 2));
    assert_eq!(figures(doubled(11)), searched(1, 1, 2));
}

/// The program's text for a chart of version 3; as version 1 and 2 it is refused by 9 at this location.
fn text_of_spare(drawing: &Drawing, k: u8, lowest: u64) -> String {
    for version in [1, 2] {
        let file = drawing.clone().version(version).file();
        assert_eq!(read(&file), Ok(()));
        assert_eq!(analyse(&file, &mut [0; 256]), refused(9, lowest));
        assert_eq!(rewrite(&file, 65, &mut []), refused(9, lowest));
        assert_eq!(play(&file, &[], &[], &[0]), refused(9, lowest));
        assert_eq!(play_counter(&file, &[], &[], 0, &[0]), refused(9, lowest));
    }
    with_k(k, drawing.file())
}

#[test]
fn spare_transitions_are_passed_over_for_twins() {
    let drawing = spare_beside_twins();
    let text = "used 1 floor 1 limit 2\nat 0\nat 1 0>0 1>0\nat 2 1>0\nat 3\nat 4\n";
    assert_eq!(text_of_spare(&drawing, 2, 4), text);
    assert_eq!(families(&drawing), [(64, 0)]);
    assert_eq!(live_of(&drawing.file()).1, searched(1, 1, 3));
    // Transition 3 keeps source, target and event, and nothing else.
    let file = drawing.file();
    let board = rewritten(&drawing, 1).unwrap();
    assert_eq!((file.len(), board.len()), (73, 65));
    let expected = [
        &[3, 0, 0, 0, 60, 0, 5, 0, 0, 1, 0, 1, 0, 3, 0, 4][..],
        &[0, 8, 0, 0, 0, 1, 0, 1, 0, 0],
        &[0, 13, 0, 1, 0, 2, 0, 0, 1, 0, 2, 0, 0, 0, 2],
        &[0, 13, 0, 2, 0, 3, 0, 0, 1, 0, 0, 0, 0, 0, 9],
        &[0, 7, 0, 4, 0, 1, 0, 0, 0],
    ];
    assert_eq!(board, expected.concat());
    // What is bare already stays so.
    let mut again = vec![0; board.len()];
    assert_eq!(rewrite(&board, 1, &mut again), Ok(Rewriting { used: 1, length: 65 }));
    assert_eq!(again, board);
    // Without the transition nothing else changes.
    let mut without = drawing.clone();
    without.transitions.pop();
    assert_eq!(with_k(2, without.file()), text);
    for (file, counts) in [(&file, &[5, 5][..]), (&board, &[5])] {
        let played = |transitions: &[u32], times: &[u64]| play(file, counts, transitions, times);
        assert_eq!(played(&[0, 1, 2], &[1, 3, 10]), Ok(Playing { location: 3, time: 10, accepting: true }));
        assert_eq!(played(&[0, 1, 2], &[1, 3, 11]), refused(24, 2));
        assert_eq!(played(&[3], &[1]), refused(22, 0));
        assert_eq!(played(&[0, 3], &[1, 1]), refused(22, 1));
        assert_eq!(played(&[0, 4], &[1, 1]), refused(14, 1));
    }
}

#[test]
fn what_counts_for_no_path() {
    // A cycle that nothing leads to is spare, though each of its locations is entered.
    let text = "used 1 floor 1 limit 1\nat 0\nat 1 0>0\nat 2\nat 3\nat 4\nat 5\n";
    assert_eq!(text_of_spare(&spare_cycle(), 1, 4), text);
    // A test on no path is not unstarted; the timer is in no family.
    let drawing = spare_unstarted();
    assert_eq!(text_of_spare(&drawing, 0, 2), "used 0 floor 0 limit 0\nat 0\nat 1\nat 2\n");
    assert_eq!(play(&drawing.file(), &[0], &[1], &[0]), refused(22, 0));
    assert_eq!(rewritten(&drawing, 0).map(|file| file.len()), Ok(34));
    // Of reached ones the lowest counts, whatever the spare ones test.
    let mut unstarted = drawing.clone();
    unstarted.transitions.extend([Arrow::new(1, 1).tests(0, AT_LEAST, 0), Arrow::new(1, 0).tests(0, AT_LEAST, 0)]);
    assert_eq!(analyse(&unstarted.file(), &mut []), refused(10, 2));
    assert_eq!(rewrite(&unstarted.file(), 65, &mut []), refused(10, 2));
    // No rounds are made for spare locations.
    let row = spare_row();
    assert_eq!(text_of_spare(&row, 1, 2), "used 1 floor 1 limit 1\nat 0\nat 1 0>0\nat 2\nat 3\nat 4\nat 5\n");
    assert_eq!(live_of(&row.file()).1, searched(1, 1, 2));
    // The initial location is reached, wherever it stands, and though nothing enters or leaves it.
    assert_eq!(text_of_spare(&spare_first(), 0, 0), "used 0 floor 0 limit 0\nat 0\nat 1\nat 2\n");
    let mut alone = spare_first();
    alone.transitions.clear();
    assert_eq!(text_of_spare(&alone, 0, 0), "used 0 floor 0 limit 0\nat 0\nat 1\nat 2\n");
    assert_eq!(play(&alone.file(), &[], &[], &[]), Ok(Playing { location: 1, time: 0, accepting: false }));
    // The list of live sets has an entry for spare locations too.
    assert_eq!(analyse(&alone.file(), &mut [0; 2]), refused(21, NOWHERE));
}

#[test]
fn the_counter_board_looks_at_all_constants() {
    let mut drawing = spare_unstarted();
    assert_eq!(play_counter(&drawing.file(), &[0], &[0], 0, &[0]), at(1, false));
    drawing.transitions[1].tests[0].2 = 65_536;
    assert_eq!(play_counter(&drawing.file(), &[0], &[0], 0, &[0]), refused(18, NOWHERE));
    // In the rewritten file the test is gone.
    let board = rewritten(&drawing, 0).unwrap();
    assert_eq!(play_counter(&board, &[], &[0], 0, &[0]), at(1, false));
}

#[test]
fn the_largest_file_with_spare_locations_is_judged_to_the_end() {
    let drawing = largest_spare(&mut Random::new(1));
    assert_eq!(drawing.file().len(), LARGEST_FILE);
    assert_eq!(live_of(&drawing.file()).1, searched(0, 0, 1));
    // Its 512 records are bare.
    assert_eq!(rewritten(&drawing, 0).map(|file| file.len()), Ok(14 + 512 + 512 * 9));
}

#[test]
fn the_charts_of_document_01_have_no_twins() {
    for drawing in [chart_a(), chart_b(), chart_c(), one_location(), self_loop(), never_started(), started_anew()] {
        assert_eq!(twins_of(&drawing), Twins::NONE);
    }
}

#[test]
fn the_programs_text() {
    assert_eq!(with_k(16, chart_b().file()), "used 1 floor 1 limit 16\nat 0\nat 1 0>0\nat 2 1>0\nat 3\n");
    assert_eq!(
        with_k(3, chart_a().file()),
        "used 3 floor 3 limit 3\nat 0\nat 1 0>0\nat 2 0>0 1>1\nat 3 1>1 2>2\nat 4 0>0 2>2\nat 5 2>2\nat 6\n"
    );
    assert_eq!(with_k(2, chart_a().file()), "refused 20 65535\n");
    assert_eq!(with_k(65, chart_a().file()), "refused 11 65535\n");
    assert_eq!(with_k(255, never_started().file()), "refused 10 1\n");
    assert_eq!(with_k(0, one_location().file()), "used 0 floor 0 limit 0\nat 0\n");
    assert_eq!(with_k(64, over_floor().file()).lines().next(), Some("used 3 floor 2 limit 64"));
    assert_eq!(with_k(3, chart_a_continued(17).file()).lines().next(), Some("used 3 floor 3 limit 3"));
    assert_eq!(with_k(3, chart_a_continued(18).file()).lines().next(), Some("used 3 seen 2 limit 3"));
    assert_eq!(listing(&[]), "refused 1 65535\n");
    assert_eq!(listing(&[64]), "refused 1 65535\n");
    assert_eq!(listing(&vec![0; 65_537]), "refused 16 65535\n");
    assert_eq!(listing(&vec![0; 65_536]), "refused 1 65535\n");
    // An input of 65,536 bytes is judged further: here leftover bytes.
    let mut body = chart_b().file()[5..].to_vec();
    body.resize(65_530, 0);
    assert_eq!(with_k(16, enclosed(1, &body)), "refused 3 65535\n");
}
