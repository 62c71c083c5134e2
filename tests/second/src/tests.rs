//! Tests over whole calls and whole scripts.

mod circles;
mod frames;
mod independent;
mod poster;
mod refusals;
mod rules;
mod scripts;
mod sheet;
mod starts;
mod walk;
mod wholes;
mod words;

use crate::bench::{Bench, Kind, Reference, Refusal};
use crate::calls::{self, Display};

/// The ends of the references' ranges, as document 01 has them.
const RANGES: [(Reference, i32, i32); 7] = [
    (Reference::Heading, 0, 359),
    (Reference::Preselected, -8_000, 56_000),
    (Reference::Held, -8_000, 56_000),
    (Reference::VerticalSpeed, -50, 50),
    (Reference::Ias, 60, 400),
    (Reference::Roll, -27, 27),
    (Reference::Pitch, -20, 20),
];

/// The bench after some accepted event words from power-on.
fn after(words: &[u32]) -> Bench {
    let mut bench = Bench::power_on();
    events(&mut bench, words);
    bench
}

fn events(bench: &mut Bench, words: &[u32]) {
    for &word in words {
        assert_eq!(calls::event(bench, word), Ok(word.trailing_zeros()));
    }
}

fn read(bench: &mut Bench, kind: Kind, value: f64) -> Result<(), Refusal> {
    calls::reading(bench, kind, value.to_bits())
}

fn shown(bench: &Bench, side: u32) -> Display {
    calls::display(bench, side).unwrap()
}

/// Lateral law, vertical law and armed sum.
fn modes(bench: &Bench, side: u32) -> (u32, u32, u32) {
    let shown = shown(bench, side);
    (shown.lateral, shown.vertical, shown.armed)
}
