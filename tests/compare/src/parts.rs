//! The parts of the gate. Each makes its scripts in code and stores none.

mod damage;
mod frames;
mod helped;
mod independent;
mod knobs;
mod language;
mod panels;
mod poster;
pub mod random;
mod readings;
mod sets;
mod sheet;
mod shown;
mod starts;
mod wholes;
mod words;

use crate::gate::{Gate, Stop};

pub struct Part {
    pub name: &'static str,
    /// What is printed of it if nothing is wrong.
    pub found: &'static str,
    pub run: fn(&mut Gate) -> Result<(), Stop>,
}

const SAME: &str = "same answers";

/// The drawings come last, so that all that two programs can differ in is seen before.
pub const ALL: [Part; 13] = [
    Part {
        name: "bench sheet",
        found: SAME,
        run: sheet::run,
    },
    Part {
        name: "mode sets and events",
        found: SAME,
        run: sets::run,
    },
    Part {
        name: "knobs",
        found: SAME,
        run: knobs::run,
    },
    Part {
        name: "readings",
        found: SAME,
        run: readings::run,
    },
    Part {
        name: "damaged benches",
        found: SAME,
        run: damage::run,
    },
    Part {
        name: "script language",
        found: SAME,
        run: language::run,
    },
    Part {
        name: "independent operation",
        found: SAME,
        run: independent::run,
    },
    Part {
        name: "whole readings",
        found: SAME,
        run: wholes::run,
    },
    Part {
        name: "starts",
        found: SAME,
        run: starts::run,
    },
    Part {
        name: "poster",
        found: SAME,
        run: poster::run,
    },
    Part {
        name: "random lists",
        found: SAME,
        run: random::run,
    },
    Part {
        name: "frames",
        found: SAME,
        run: frames::run,
    },
    Part {
        name: "panels",
        found: "drawings as their displays",
        run: panels::run,
    },
];
