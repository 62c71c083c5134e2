//! Entry to every mode that loads a whole value, by every sort of call and on either side or both,
//! after readings with ties and readings out of the reference's range.

use super::{floats, reference_of, Asked};
use crate::parts::words::{pattern, Ranged, KINDS, REFERENCES};

/// Lines ahead of the reading, the line that engages the mode, and the sides on which it does.
type Way = (&'static [&'static str], &'static str, &'static [usize]);

const LEFT: &[usize] = &[0];
const RIGHT: &[usize] = &[1];
const EACH: &[usize] = &[0, 1];

/// Both sides fly an approach in independent operation; each is kept on by its own flight director.
const BOTH: &[&str] = &[
    "press appr",
    "signal lappr-captured",
    "signal vappr-captured",
    "press fd-right",
    "send left",
    "refresh right",
    "press independent",
];

const ROLL: &[Way] = &[
    (&[], "press fd-left", LEFT),
    (&[], "press nav", LEFT),
    (&["press hdg"], "press hdg", LEFT),
    (&["press transfer"], "press fd-right", RIGHT),
    (&["press fd-left", "send left"], "press transfer", RIGHT),
    (&["press fd-right", "send right"], "refresh left", LEFT),
    (BOTH, "signal source-changed", EACH),
    (BOTH, "press appr", EACH),
    (BOTH, "press transfer", RIGHT),
];

const PITCH: &[Way] = &[
    (&[], "press ap", LEFT),
    (&["press vs"], "press vs", LEFT),
    (&["press flc"], "knob wheel 1", LEFT),
    (
        &["press vs", "signal altsel-captured"],
        "knob altitude 1",
        LEFT,
    ),
    (&["press transfer", "press alt"], "press alt", RIGHT),
    (&["press fd-left", "send left"], "press transfer", RIGHT),
    (&["press fd-right", "send right"], "refresh left", LEFT),
    (BOTH, "press hdg", EACH),
    (BOTH, "signal source-changed", EACH),
];

const VS: &[Way] = &[
    (&[], "press vs", LEFT),
    (&["press go-around"], "press vs", LEFT),
    (&["press transfer"], "press vs", RIGHT),
    (BOTH, "press vs", EACH),
];

const FLC: &[Way] = &[
    (&[], "press flc", LEFT),
    (&[], "signal overspeed-begins", LEFT),
    (&["press transfer"], "press flc", RIGHT),
    (BOTH, "press flc", EACH),
    (BOTH, "signal overspeed-begins", EACH),
];

const ALT: &[Way] = &[
    (&[], "press alt", LEFT),
    (&["press vs"], "press alt", LEFT),
    (&["press transfer"], "press alt", RIGHT),
    (BOTH, "press alt", EACH),
];

/// The ways to load each kind, in the order of the kinds; a heading has none.
const WAYS: [&[Way]; 5] = [ALT, FLC, VS, ROLL, PITCH];

pub fn all() -> Asked {
    let mut asked = Asked::default();
    for (kind, ways) in KINDS.into_iter().zip(WAYS) {
        for float in values(kind) {
            for way in ways {
                say_entry(&mut asked, kind, float, way);
            }
        }
    }
    asked
}

/// The reading comes last ahead of the entry, and another one after it, which loads nothing.
fn say_entry(asked: &mut Asked, kind: Ranged, float: f64, (ahead, entry, sides): &Way) {
    asked.lines(&["power-on"]);
    asked.lines(ahead);
    asked.answered(&format!("reading {} {}", kind.name, pattern(float)), 0);
    asked.answered(entry, 0);
    asked.answered(&format!("reading {} 7.5", kind.name), 0);
    asked.loaded(kind, kind.whole(float), sides);
    asked.lines(&["bench"]);
}

/// Besides the floats that are tried everywhere, those about the ends of the reference's range.
fn values(kind: Ranged) -> Vec<f64> {
    let mut values = floats::accepted(kind);
    let reference = reference_of(kind).map(|at| REFERENCES[at]);
    for end in reference.iter().flat_map(|range| [range.low, range.high]) {
        let halves = 2 * end - 3..=2 * end + 3;
        values.extend(halves.map(|half| f64::from(half) / 2.0));
    }
    floats::only_accepted(kind, values)
}

#[cfg(test)]
mod tests {
    use super::*;

    #[test]
    fn values_go_past_both_ends_of_the_reference() {
        let rolls = values(KINDS[3]);
        for value in [-28.5, -27.5, -27.0, 26.5, 27.0, 27.5, 28.5, 179.5] {
            assert!(rolls.contains(&value), "{value}");
        }
        let speeds = values(KINDS[1]);
        for value in [0.5, 59.5, 60.0, 60.5, 399.5, 400.5, 401.5, 600.5] {
            assert!(speeds.contains(&value), "{value}");
        }
        assert!(values(KINDS[2]).contains(&-50.5) && values(KINDS[4]).contains(&20.5));
    }

    #[test]
    fn every_mode_is_entered_on_either_side_and_on_both() {
        for (kind, ways) in KINDS.iter().zip(WAYS) {
            for sides in [LEFT, RIGHT, EACH] {
                let found = ways.iter().any(|way| way.2 == sides);
                assert!(found, "{} {sides:?}", kind.name);
            }
        }
    }

    #[test]
    fn the_reading_stands_right_ahead_of_the_entry() {
        let mut asked = Asked::default();
        say_entry(&mut asked, KINDS[3], 12.5, &ROLL[5]);
        let expected = "power-on\npress fd-right\nsend right\nreading roll 0x4029000000000000\n\
            refresh left\nreading roll 7.5\ndisplay 0\ndisplay 1\nbench\n";
        assert_eq!(asked.script.text(), expected.as_bytes());
    }
}
