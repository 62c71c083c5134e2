//! The bench of document 01, with the requests 2026-01 to 2026-07 of document 02 as far as they change
//! a call or a frame, written for speed: what the proved library is measured against. The calls work on a bench in place, a mode set is one
//! byte, and what the rules say of a set stands in tables that the compiler fills. Refusal 1 is judged
//! in full, on the bench as it came, at every call: nothing remembers that a bench was sound.
//!
//! It shares no line with the library or with the second implementation. `list` makes the
//! pseudo-random lists and the checksum by which the answers are compared, and `bus` those of frames.
mod bench;
pub mod bus;
mod calls;
pub mod frames;
pub mod list;
mod modes;
mod tables;

pub use bench::{Bench, Kind, Reading, WHOLES};
pub use bench::{HEADING, HELD, IAS, PITCH, PRESELECTED, ROLL, VERTICAL_SPEED};
pub use calls::{display, event, reading, refresh, send, turn, Display};
pub use modes::{code, Modes, OFF};
pub use tables::{Shown, CODE, ON_SETS, SET, SETS, SHOWN};
