//! The proved library's functions as C sees them: a slice is a pointer and a length, a result a struct by value whose
//! `number` is 0 where there is a result. A controller's state and what its calls are handed are this crate's own structs,
//! which are laid out as C has them.

use crate::controller::{Heads, Parts, State};

#[repr(C)]
#[derive(Clone, Copy, Debug)]
pub struct ChartAnalysis {
    pub number: u64,
    pub place: u64,
    pub used: u64,
    pub floor: u64,
    pub searched: u64,
    pub rounds: u64,
}

#[repr(C)]
#[derive(Clone, Copy, Debug)]
pub struct ChartRewriting {
    pub number: u64,
    pub place: u64,
    pub used: u64,
    pub length: u64,
}

#[repr(C)]
#[derive(Clone, Copy, Debug)]
pub struct ChartPlaying {
    pub number: u64,
    pub place: u64,
    pub location: u64,
    pub time: u64,
    pub accepting: u64,
}

#[repr(C)]
#[derive(Clone, Copy, Debug)]
pub struct ChartCounterPlaying {
    pub number: u64,
    pub place: u64,
    pub location: u64,
    pub accepting: u64,
}

#[repr(C)]
#[derive(Clone, Copy, Debug)]
pub struct ChartReading {
    pub number: u64,
    pub place: u64,
    pub version: u64,
    pub locations: u64,
    pub initial: u64,
    pub timers: u64,
    pub accepting: u64,
    pub transitions: u64,
}

#[repr(C)]
#[derive(Clone, Copy, Debug)]
pub struct ChartWriting {
    pub number: u64,
    pub place: u64,
    pub length: u64,
}

#[repr(C)]
#[derive(Clone, Copy, Debug)]
pub struct ChartCalled {
    pub number: u64,
    pub place: u64,
}

#[repr(C)]
#[derive(Clone, Copy, Debug)]
pub struct ChartTurned {
    pub number: u64,
    pub place: u64,
    pub head: u64,
    pub served: u64,
    pub taken: u64,
    pub transition: u64,
}

#[allow(unsafe_code)]
unsafe extern "C" {
    pub fn chart_analyse(file: *const u8, file_length: usize, live: *mut u64, live_length: usize) -> ChartAnalysis;

    pub fn chart_rewrite(
        file: *const u8,
        file_length: usize,
        k: u32,
        out: *mut u8,
        out_length: usize,
    ) -> ChartRewriting;

    pub fn chart_play(
        file: *const u8,
        file_length: usize,
        counts: *const u32,
        counts_length: usize,
        transitions: *const u32,
        transitions_length: usize,
        times: *const u64,
        times_length: usize,
    ) -> ChartPlaying;

    pub fn chart_play_counter(
        file: *const u8,
        file_length: usize,
        counts: *const u32,
        counts_length: usize,
        transitions: *const u32,
        transitions_length: usize,
        first: u16,
        readings: *const u16,
        readings_length: usize,
    ) -> ChartCounterPlaying;

    pub fn chart_read(
        file: *const u8,
        file_length: usize,
        accepting: *mut u16,
        accepting_length: usize,
        sources: *mut u16,
        sources_length: usize,
        targets: *mut u16,
        targets_length: usize,
        events: *mut u8,
        events_length: usize,
        starts: *mut u64,
        starts_length: usize,
        test_counts: *mut u8,
        test_counts_length: usize,
        timers: *mut u8,
        timers_length: usize,
        codes: *mut u8,
        codes_length: usize,
        constants: *mut u32,
        constants_length: usize,
    ) -> ChartReading;

    pub fn chart_write(
        version: u8,
        locations: u16,
        initial: u16,
        timer_count: u8,
        accepting_count: u16,
        transition_count: u16,
        accepting: *const u16,
        accepting_length: usize,
        sources: *const u16,
        sources_length: usize,
        targets: *const u16,
        targets_length: usize,
        events: *const u8,
        events_length: usize,
        starts: *const u64,
        starts_length: usize,
        test_counts: *const u8,
        test_counts_length: usize,
        timers: *const u8,
        timers_length: usize,
        codes: *const u8,
        codes_length: usize,
        constants: *const u32,
        constants_length: usize,
        out: *mut u8,
        out_length: usize,
    ) -> ChartWriting;

    pub fn chart_controller_set_up(
        state: *mut State,
        files: *const u8,
        files_length: usize,
        heads: Heads,
        k: u32,
        counts: *const u32,
        counts_length: usize,
        parts: Parts,
    ) -> ChartCalled;

    pub fn chart_controller_event(
        state: *mut State,
        files: *const u8,
        files_length: usize,
        heads: Heads,
        k: u32,
        head: u32,
        event: u8,
        time: u64,
    ) -> ChartCalled;

    pub fn chart_controller_turn(
        state: *mut State,
        files: *const u8,
        files_length: usize,
        heads: Heads,
        k: u32,
    ) -> ChartTurned;
}
