//! Frames in the bus area: every code, every field at the ends of its range, every byte, every
//! place, and the order of refusals.

mod codes;
mod fields;
pub mod frame;
mod lines;
mod order;
mod places;
mod uses;
mod worked;

use super::words::Set;
use super::{helped, sheet};
use crate::compare;
use crate::gate::{Gate, Stop};
use crate::rng::Rng;
use crate::script::Script;

/// Keeps the numbers apart from those of other parts with the same seed.
const LIST: u64 = 8_000;

/// The commands of this part, which `help` has to name.
const COMMANDS: [&str; 5] = ["area", "poke", "write", "read", "bytes"];

pub fn run(gate: &mut Gate) -> Result<(), Stop> {
    for case in worked::CASES {
        let (script, paper) = sheet::texts(case);
        gate.check_against(&script, &paper)?;
    }
    let coherent = codes::run(gate)?;
    for script in scripts(gate.seed, &coherent) {
        gate.check(&script)?;
    }
    helped::run(gate, &COMMANDS)
}

fn scripts(seed: u64, coherent: &[Set]) -> Vec<Script> {
    let mut rng = Rng::of_list(seed, LIST);
    vec![
        fields::every_byte(),
        fields::numbers(),
        fields::ends(),
        fields::written(),
        fields::by_chance(&mut rng),
        order::writes(),
        order::reads(),
        places::near(),
        places::wide(),
        places::far(),
        places::all_reads(),
        uses::overlapping(),
        uses::walk(),
        uses::shared(),
        uses::inboxes(),
        uses::by_chance(&mut rng, coherent),
        uses::kept(),
        uses::watched(),
        lines::all(),
    ]
}

/// The answers to the lines of a script, of which each has one line.
fn answers(output: &[u8]) -> Vec<String> {
    let blocks = compare::blocks(output).into_iter();
    let text = |block| String::from_utf8_lossy(block).trim_end().to_string();
    blocks.map(text).collect()
}

#[cfg(test)]
mod tests {
    use super::*;

    #[test]
    fn the_part_is_neither_small_nor_large() {
        let commands: usize = scripts(1, &[Set::OFF]).iter().map(Script::commands).sum();
        assert!((30_000..=80_000).contains(&commands), "{commands}");
    }

    #[test]
    fn answers_come_without_their_newline() {
        assert_eq!(answers(b"area 0\nbytes\n"), ["area 0", "bytes"]);
    }
}
