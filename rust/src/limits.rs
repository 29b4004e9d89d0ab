//! The limits that document 01 sets to a chart, its file, its step lists, the program's input and a refusal's place, and
//! document 02 to the search for the floor, to files of later versions, to a controller's heads and to the counter board.

/// The most locations of a chart.
pub const MOST_LOCATIONS: u16 = 256;

/// The most timers of a chart and of a board.
pub const MOST_TIMERS: u8 = 64;

/// The most transitions of a chart.
pub const MOST_TRANSITIONS: u16 = 512;

/// The most timers that a transition starts.
pub const MOST_STARTS: u8 = MOST_TIMERS;

/// The most tests of a transition.
pub const MOST_TESTS: u8 = 8;

/// The largest constant of a test: of versions 2 and 3.
pub const LARGEST_CONSTANT: u32 = 4_294_967_295;

/// The largest constant of a test of version 1.
pub const LARGEST_CONSTANT_VERSION_1: u32 = 65_535;

/// The bytes of the largest chart file: of versions 2 and 3.
pub const LARGEST_FILE: usize = 62_478;

/// The bytes of the largest chart file of version 1.
pub const LARGEST_FILE_VERSION_1: usize = 54_286;

/// The largest time of a step or an event, and the largest starting count of a timer.
pub const MOST_TICKS: u32 = 16_777_215;

/// The most bytes of the program's input that are judged further.
pub const MOST_INPUT: usize = 65_536;

/// The place of a refusal that points at no location, transition, timer or step.
pub const NOWHERE: u64 = 65_535;

/// The most families for which the floor is found by search.
pub const MOST_SEARCHED: usize = 20;

/// The most heads that a controller drives.
pub const MOST_HEADS: usize = 8;

/// How many readings the counter board's counter has, 0 first: after so many ticks it shows the same one again.
pub const COUNTER_READINGS: u32 = 65_536;

/// The largest constant of a test that the counter board takes.
pub const COUNTER_LARGEST_CONSTANT: u32 = 65_535;

/// The largest count on the counter board: counts stop rising there.
pub const COUNTER_LARGEST_COUNT: u32 = 65_536;

/// The entries of a table with one for each location that a chart can have.
pub const LOCATIONS: usize = MOST_LOCATIONS as usize;

/// The entries of a table with one for each timer that a chart can have.
pub const TIMERS: usize = MOST_TIMERS as usize;

/// The entries of a table with one for each transition that a chart can have.
pub const TRANSITIONS: usize = MOST_TRANSITIONS as usize;
