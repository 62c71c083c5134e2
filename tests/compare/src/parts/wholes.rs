//! Whole values that the bench keeps beside its readings (document 02, 2026-05): which of them make
//! a bench unsound, that a float alone may not leave its own, and what entry loads from them.

mod damaged;
mod entries;
mod floats;
mod stored;
mod worked;

use super::sheet;
use super::words::{Ranged, REFERENCES};
use crate::compare;
use crate::gate::{Gate, Stop};
use crate::script::Script;

pub fn run(gate: &mut Gate) -> Result<(), Stop> {
    for case in worked::CASES {
        let (script, paper) = sheet::texts(case);
        gate.check_against(&script, &paper)?;
    }
    for asked in [damaged::all(), stored::all(), entries::all()] {
        let output = gate.check(&asked.script)?;
        let checked = asked.check(&output);
        checked.map_err(|problem| gate.reject(&problem))?;
    }
    Ok(())
}

/// Which reference takes the whole values of a kind; a heading is loaded by no mode.
fn reference_of(kind: Ranged) -> Option<usize> {
    let name = match kind.name {
        "altitude" => "held",
        "airspeed" => "ias",
        name => name,
    };
    let at = REFERENCES.iter().position(|row| row.name == name);
    at.filter(|_| name != "heading")
}

/// Where the refusal number stands in an answer, and where the references begin in a display.
const REFUSAL: usize = 1;
const SHOWN: usize = 6;

/// A script together with the numbers that the papers give for some of its answers, so that two
/// programs which err in the same way are noticed.
#[derive(Default)]
struct Asked {
    script: Script,
    /// Each with the index of its answer and of its word there.
    known: Vec<(usize, usize, i32)>,
}

impl Asked {
    fn lines<T: AsRef<str>>(&mut self, lines: &[T]) {
        for line in lines {
            self.script.line(line.as_ref());
        }
    }

    /// A line whose refusal number is known.
    fn answered(&mut self, line: &str, refusal: i32) {
        self.known.push((self.script.commands(), REFUSAL, refusal));
        self.script.line(line);
    }

    /// The displays of both sides, after a whole value was loaded on some of them.
    fn loaded(&mut self, kind: Ranged, whole: i32, sides: &[usize]) {
        for side in 0..2 {
            if let Some(at) = reference_of(kind).filter(|_| sides.contains(&side)) {
                let value = whole.clamp(REFERENCES[at].low, REFERENCES[at].high);
                self.known.push((self.script.commands(), SHOWN + at, value));
            }
            self.answered(&format!("display {side}"), 0);
        }
    }

    fn check(&self, output: &[u8]) -> Result<(), String> {
        let answers = compare::blocks(output);
        for &(index, word, number) in &self.known {
            let answer = answers.get(index).copied().unwrap_or(b"no answer\n");
            let text = String::from_utf8_lossy(answer);
            if text.split_whitespace().nth(word) != Some(&number.to_string()) {
                return Err(format!(
                    "answer {index} has to have {number} as its word {word}: {text}"
                ));
            }
        }
        Ok(())
    }
}

#[cfg(test)]
mod tests {
    use super::*;
    use crate::parts::words::KINDS;

    #[test]
    fn a_number_that_is_not_the_one_known_is_told() {
        let mut asked = Asked::default();
        asked.lines(&["power-on", "damage whole roll 1"]);
        asked.answered("event 0", 1);
        asked.answered("send 0", 1);
        asked.loaded(KINDS[3], -180, &[1]);
        let good = "power-on 0\ndamage 0\nevent 1 32\nsend 1\n\
            display 0 1 1 1 4 0 0 0 0 120 5 0 128\ndisplay 0 1 1 1 4 0 0 0 0 120 -27 0 128\n";
        assert_eq!(asked.check(good.as_bytes()), Ok(()));
        for (from, to) in [
            ("event 1", "event 0"),
            ("send 1", "send 10"),
            ("120 -27", "120 -26"),
            (
                "display 0 1 1 1 4 0 0 0 0 120 5",
                "display 1 1 1 1 4 0 0 0 0 120 5",
            ),
            ("display 0 1 1 1 4 0 0 0 0 120 -27 0 128\n", ""),
        ] {
            let bad = good.replace(from, to);
            assert_ne!(bad, good);
            assert!(asked.check(bad.as_bytes()).is_err(), "{to}");
        }
        // The side that loads nothing may show any number.
        let other = good.replace("120 5", "120 6");
        assert_eq!(asked.check(other.as_bytes()), Ok(()));
    }

    #[test]
    fn every_kind_but_the_heading_has_its_reference() {
        let expected = [Some(2), Some(4), Some(3), Some(5), Some(6), None];
        assert_eq!(KINDS.map(reference_of), expected);
    }

    #[test]
    fn the_part_is_neither_small_nor_large() {
        let all = [damaged::all(), stored::all(), entries::all()];
        let commands: usize = all.iter().map(|asked| asked.script.commands()).sum();
        assert!((30_000..=90_000).contains(&commands), "{commands}");
    }
}
