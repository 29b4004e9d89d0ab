//! Timing charts: timed automata counted in whole ticks, read from files, analysed, rewritten for a board with fewer
//! timers, and played.
//!
//! The modules follow the parts of document 01, with what document 02 asks since, and share no code with the proved
//! library:
//!
//! - [`version`]: the versions of a file, the bytes of a constant in each, and which allow spare locations;
//! - [`chart`]: the chart, its reader (refusals 1 to 8) and its writer;
//! - [`lists`]: the same reader and writer over lent lists;
//! - [`analysis`]: reached and spare, unstarted, live with the number of rounds; families, their board numbers, used;
//! - [`twins`]: timers that are always started together, which count as one before families are formed;
//! - [`floor`]: the fewest timers of any plan, or the fullest live set with twins counted once;
//! - [`rewriting`]: the chart's file for a board of K timers;
//! - [`derivation`]: why the live timers, the families and the board numbers are what they are;
//! - [`player`]: a step list, played on a file;
//! - [`counter`]: the same on readings of a counter, for a board without timers;
//! - [`controller`]: one to eight heads, driven by events and turns;
//! - [`listing`]: the program's text from its whole input;
//! - [`limits`]: the numbers that limit all of these.
//!
//! Every entry point takes bytes and answers with a result or one [`Refusal`]; on a refusal lent memory is untouched.
//!
//! Beside the answers there is what explains them:
//!
//! - [`reasons`]: why a call is refused, in one sentence with the numbers in it;
//! - [`diagnosis`]: which field of a file fails, for these sentences;
//! - [`traces`]: the player and the counter board step by step, with all counts, and what is wrong with a refused step;
//! - [`paths`]: shortest paths of transitions, and which locations paths reach.
//!
//! With the feature `library`, `library` calls the proved library with the same signatures, and `answers` answers the
//! command's requests by both, compared. [`drawing`], [`generator`], [`kinds`] and [`heads`] make files and controllers
//! for tests and measurements; [`trials`], [`list_trials`] and [`tally`] compare implementations and count what came;
//! [`json`] reads and writes the lines of cases and of the command.

#![deny(unsafe_code)]

pub mod analysis;
pub mod chart;
pub mod controller;
pub mod counter;
pub mod derivation;
pub mod diagnosis;
pub mod drawing;
pub mod floor;
pub mod generator;
pub mod heads;
pub mod json;
pub mod kinds;
pub mod limits;
pub mod list_trials;
pub mod listing;
pub mod lists;
pub mod paths;
pub mod player;
pub mod reasons;
mod refusal;
pub mod rewriting;
pub mod sets;
pub mod tally;
pub mod traces;
pub mod trials;
pub mod twins;
pub mod version;

#[cfg(feature = "library")]
pub mod answers;
#[cfg(feature = "library")]
mod ffi;
#[cfg(feature = "library")]
pub mod library;

pub use limits::NOWHERE;
pub use refusal::{Answer, Refusal};
