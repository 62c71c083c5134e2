//! Benches with a whole value that is their float's and with ones that are not, each with one call
//! of every kind, and then mended.

use std::collections::BTreeSet;

use super::{floats, Asked};
use crate::parts::words::{pattern, Ranged, INDEPENDENT_APPROACH, KINDS};

/// What the damage is done to: all is Off, or both sides fly an approach in independent operation.
/// With each comes what engages the mode that loads a kind, and on which sides.
struct Start {
    lines: &'static [&'static str],
    entry: fn(&str) -> &'static str,
    sides: &'static [usize],
}

const STARTS: [Start; 2] = [
    Start {
        lines: &[],
        entry: |kind| match kind {
            "altitude" => "press alt",
            "airspeed" => "press flc",
            "vertical-speed" => "press vs",
            _ => "press fd-left",
        },
        sides: &[0],
    },
    Start {
        lines: INDEPENDENT_APPROACH,
        entry: |kind| match kind {
            "altitude" => "press alt",
            "airspeed" => "signal overspeed-begins",
            "vertical-speed" => "press vs",
            _ => "press appr",
        },
        sides: &[0, 1],
    },
];

/// Calls that a sound bench accepts, besides the event and the readings.
const CALLS: [&str; 11] = [
    "event 0",
    "turn 3 9",
    "send 0",
    "refresh 1",
    "display 0",
    "display 1",
    "pick 0",
    "pick 1",
    "write 0 0",
    "write 1 5",
    "knob speed 3",
];

/// Calls that a sound bench refuses with another number than 1. One of them comes with each case.
const WRONG_CALLS: [&str; 13] = [
    "event 2097152",
    "event 4294967295",
    "turn 4 1",
    "send 2",
    "refresh 2",
    "display 2",
    "pick 2",
    "write 2 0",
    "write 0 6",
    "write 0 18446744073709551615",
    "reading roll nan",
    "reading heading inf",
    "reading altitude 56001",
];

pub fn all() -> Asked {
    let mut asked = Asked::default();
    for (index, (kind, float, whole)) in cases().into_iter().enumerate() {
        let start = &STARTS[index % STARTS.len()];
        let wrong = WRONG_CALLS[index % WRONG_CALLS.len()];
        say_case(&mut asked, start, wrong, (kind, float, whole));
    }
    asked
}

/// Every whole value that is tried with each float of each kind.
fn cases() -> Vec<(Ranged, f64, i32)> {
    let mut cases = Vec::new();
    for kind in KINDS {
        for float in floats::accepted(kind) {
            let wholes = wholes(kind, float).into_iter();
            cases.extend(wholes.map(|whole| (kind, float, whole)));
        }
    }
    cases
}

/// The true one, those beside it, what other rules would give, the numbers about a seam, the ends
/// of 32 bits, and numbers that would be true if they were cut to fewer bits.
fn wholes(kind: Ranged, float: f64) -> BTreeSet<i32> {
    let own = kind.whole(float);
    let mut wholes: BTreeSet<i32> = (own - 2..=own + 2).collect();
    let rules = [f64::trunc, f64::round, f64::round_ties_even];
    wholes.extend(rules.map(|rule| rule(float) as i32));
    wholes.extend([own + 256, own + 65_536, i32::MIN, i32::MAX]);
    if kind.last != kind.high {
        wholes.extend([kind.low, kind.high, kind.last]);
    }
    wholes
}

fn say_case(asked: &mut Asked, start: &Start, wrong: &str, case: (Ranged, f64, i32)) {
    let (kind, float, whole) = case;
    let own = kind.whole(float);
    let entry = (start.entry)(kind.name);
    let refusal = i32::from(whole != own);
    asked.lines(&["area 24", "power-on"]);
    asked.lines(start.lines);
    asked.answered(&format!("reading {} {}", kind.name, pattern(float)), 0);
    asked.lines(&[format!("damage whole {} {whole}", kind.name)]);
    for call in CALLS {
        asked.answered(call, refusal);
    }
    asked.answered(entry, refusal);
    asked.answered(&format!("reading {} 1.5", kind.name), refusal);
    asked.answered(&format!("reading {} 2.5", another(kind)), refusal);
    if refusal == 0 {
        asked.lines(&[wrong, "bytes"]);
    } else {
        asked.answered(wrong, 1);
        asked.lines(&["bytes", "bench"]);
        asked.lines(&[format!("damage whole {} {own}", kind.name)]);
        asked.answered(entry, 0);
    }
    asked.loaded(kind, own, start.sides);
    asked.lines(&["bench"]);
}

/// The kind after this one.
fn another(kind: Ranged) -> &'static str {
    let names = KINDS.map(|row| row.name);
    let at = names.iter().position(|&name| name == kind.name);
    names[(at.expect("a kind has its place") + 1) % names.len()]
}

#[cfg(test)]
mod tests {
    use super::*;

    fn of(kind: usize, float: f64) -> Vec<i32> {
        wholes(KINDS[kind], float).into_iter().collect()
    }

    #[test]
    fn each_float_is_tried_with_whole_values_of_every_sort() {
        let (first, last) = (i32::MIN, i32::MAX);
        let altitude = [first, -2, -1, 0, 1, 2, 256, 65_536, last];
        assert_eq!(of(0, 0.5), altitude);
        let tie = [first, 12, 13, 14, 15, 16, 270, 65_550, last];
        assert_eq!(of(1, 13.5), tie);
        let north = [first, -2, -1, 0, 1, 2, 256, 359, 360, 65_536, last];
        assert_eq!(of(5, 359.5), north);
        let inverted = of(3, 179.5);
        for whole in [-182, -181, -180, -179, -178, 76, 179, 180, 65_356] {
            assert!(inverted.contains(&whole), "{whole}");
        }
        assert!(of(3, -180.5).contains(&-181) && of(4, -1.5).contains(&-1));
    }

    #[test]
    fn every_start_and_wrong_call_meets_every_kind() {
        let mut seen = BTreeSet::new();
        for (index, (kind, float, whole)) in cases().into_iter().enumerate() {
            if whole != kind.whole(float) {
                seen.insert((kind.name, index % STARTS.len(), index % WRONG_CALLS.len()));
            }
        }
        assert_eq!(seen.len(), 6 * STARTS.len() * WRONG_CALLS.len());
    }

    #[test]
    fn a_wrong_whole_value_is_refused_everywhere_and_mended() {
        let mut asked = Asked::default();
        say_case(&mut asked, &STARTS[0], "send 2", (KINDS[3], 179.5, 180));
        let text = String::from_utf8(asked.script.text().to_vec()).unwrap();
        let start = "area 24\npower-on\nreading roll 0x4066700000000000\ndamage whole roll 180\n";
        assert!(text.starts_with(start), "{text}");
        let end = "press fd-left\nreading roll 1.5\nreading pitch 2.5\nsend 2\nbytes\nbench\n\
            damage whole roll -180\npress fd-left\ndisplay 0\ndisplay 1\nbench\n";
        assert!(text.ends_with(end), "{text}");
        let refused = asked.known.iter().filter(|row| row.2 == 1).count();
        assert_eq!(refused, CALLS.len() + 4);
        let loaded = asked.known.iter().filter(|row| row.2 == -27).count();
        assert_eq!(loaded, 1);
    }

    #[test]
    fn a_true_whole_value_is_accepted_and_left_as_it_is() {
        let mut asked = Asked::default();
        say_case(&mut asked, &STARTS[1], "send 2", (KINDS[5], 359.5, 0));
        let text = String::from_utf8(asked.script.text().to_vec()).unwrap();
        assert_eq!(text.matches("damage whole").count(), 1);
        assert!(asked.known.iter().all(|row| row.2 == 0));
        assert!(text.contains("\nreading heading 1.5\nreading altitude 2.5\n"));
    }
}
