//! Benches damaged in every way that refusal 1 names, each with one call of every kind.

use super::words::{self, Ranged, Set, BOXES, KINDS, REFERENCES};
use crate::gate::{Gate, Stop};
use crate::say;
use crate::script::Script;

/// Calls with good arguments and with bad ones, so that the order of refusals is seen.
const CALLS: [&str; 25] = [
    "event 0",
    "event 16384",
    "event 1048576",
    "event 2097152",
    "event 4293918721",
    "turn 0 1",
    "turn 3 200",
    "turn 4 1",
    "reading roll 1.5",
    "reading roll 1000",
    "reading roll nan",
    "reading heading -inf",
    "send 0",
    "send 1",
    "send 2",
    "refresh 0",
    "refresh 1",
    "refresh 2",
    "display 0",
    "display 1",
    "display 2",
    "pick 0",
    "pick 1",
    "pick 2",
    "panel",
];

/// What the damage is done to: the bench at power-on, and one where nothing is as at power-on.
const STARTS: [&[&str]; 2] = [
    &[],
    &[
        "event 65536",
        "event 1024",
        "reading airspeed 250.5",
        "turn 1 30",
        "send 0",
        "refresh 1",
        "event 2",
        "event 4",
        "event 128",
        "send 1",
        "event 32",
        "turn 3 90",
    ],
];

pub fn run(gate: &mut Gate) -> Result<(), Stop> {
    for start in STARTS {
        gate.check(&script(start))?;
    }
    Ok(())
}

fn script(start: &[&str]) -> Script {
    let mut script = Script::default();
    for damage in damages() {
        for line in start {
            script.line(line);
        }
        for part in damage.split(" and ") {
            say!(script, "damage {part}");
        }
        for line in CALLS {
            script.line(line);
        }
        script.line("bench");
        script.line("power-on");
    }
    script
}

/// What follows the word `damage`; where several belong together, `and` parts them.
pub fn damages() -> Vec<String> {
    let mut damages: Vec<String> = Vec::new();
    damages.extend([0, 1, 2, 3, 127, 128, 254, 255].map(|side| format!("pf {side}")));
    damages.extend([0, 1].map(|on| format!("independent {on}")));
    for place in BOXES {
        damages.extend(of_references(place));
        damages.push(format!("{place} set {}", Set::OFF));
        damages.extend(
            words::on_sets()
                .iter()
                .map(|set| format!("{place} set {set}")),
        );
    }
    damages.extend(of_readings());
    damages.extend(TWICE.map(String::from));
    damages
}

/// The last good and the first bad values on both ends, and numbers that would be good if they
/// were cut to fewer bits.
fn of_references(place: &str) -> Vec<String> {
    let mut damages = Vec::new();
    for reference in REFERENCES {
        let (name, low, high) = (reference.name, reference.low, reference.high);
        let cut = [256, 65_536, -65_536, 1 << 24].map(|wrap| wrap + high);
        let ends = [
            i32::MIN,
            i32::MIN + 1,
            low - 1,
            low,
            high,
            high + 1,
            i32::MAX,
        ];
        let values = ends.iter().chain(&cut);
        damages.extend(values.map(|value| format!("{place} {name} {value}")));
    }
    damages
}

fn of_readings() -> Vec<String> {
    let mut damages = Vec::new();
    for kind in KINDS {
        let mut values = words::values_at_ends(kind);
        let large = [
            f64::MAX,
            f64::MIN,
            2_f64.powi(31),
            2_f64.powi(32),
            -2_f64.powi(63),
        ];
        let small = [-0.0, f64::from_bits(1), f64::MIN_POSITIVE];
        values.extend(
            large
                .iter()
                .chain(&small)
                .map(|&value| words::pattern(value)),
        );
        values.extend(["nan", "inf", "-inf", "0x7ff0000000000001"].map(String::from));
        damages.extend(values.iter().map(|value| of_reading(kind, value)));
    }
    damages
}

/// The float together with its whole value, so that its range alone decides.
fn of_reading(kind: Ranged, value: &str) -> String {
    words::stored(kind, value)
        .map(|line| line.replacen("damage ", "", 1))
        .join(" and ")
}

/// Several damages at once, and a damage that a second one undoes.
const TWICE: [&str; 19] = [
    "pf 2 and reading roll nan",
    "left set 1 0 7 0 and right ias 401",
    "reading altitude inf and reading heading 361",
    "reading heading 361 and reading heading 360",
    "reading roll 181 and reading roll 180 and whole roll -180",
    "reading roll 181 and reading roll 180 and whole roll 180",
    "whole pitch 1 and whole pitch 0",
    "whole pitch 1 and reading pitch 1",
    "whole altitude 1 and whole vertical-speed -1",
    "whole heading 1 and pf 2",
    "pf 7 and pf 1",
    "right-inbox set 5 2 8 0 and right-inbox set 5 2 8 1",
    "left-inbox pitch 21 and left-inbox pitch 20",
    "independent 1 and independent 0",
    "independent 1 and pf 2",
    "left set 4 0 7 0 and independent 1",
    "right set 4 0 7 0 and independent 1",
    "left set 4 0 7 0 and right set 4 1 7 0 and independent 1",
    "independent 1 and left set 4 1 7 0 and right set 4 0 7 0 and right roll 28",
];

#[cfg(test)]
mod tests {
    use super::*;
    use std::collections::BTreeSet;

    #[test]
    fn the_number_of_damages_is_that_of_the_choices() {
        let boxes = 4 * (7 * 11 + 241);
        // Two kinds go on for one more unit at their high end.
        let readings = 6 * (2 * 7 * 3 + 5 + 3 + 4) + 2 * 2 * 3;
        assert_eq!(damages().len(), 8 + 2 + boxes + readings + TWICE.len());
        let lines = CALLS.len() + 2;
        // A reading is damaged together with its whole value.
        let surplus: usize = TWICE.iter().map(|all| all.matches(" and ").count()).sum();
        for start in STARTS {
            let expected = damages().len() * (start.len() + 1 + lines) + readings + surplus;
            assert_eq!(script(start).commands(), expected);
        }
    }

    #[test]
    fn every_reference_is_damaged_at_both_ends_in_every_box() {
        let all: BTreeSet<String> = damages().into_iter().collect();
        for place in ["left", "right", "left-inbox", "right-inbox"] {
            for value in ["heading -1", "heading 0", "heading 359", "heading 360"] {
                assert!(all.contains(&format!("{place} {value}")));
            }
            for value in [
                "ias 59",
                "ias 401",
                "held 56001",
                "roll -28",
                "pitch 2147483647",
            ] {
                assert!(all.contains(&format!("{place} {value}")));
            }
            assert!(all.contains(&format!("{place} set 5 2 8 1")));
            assert!(all.contains(&format!("{place} set 0 0 0 0")));
        }
    }

    #[test]
    fn every_kind_of_reading_is_damaged() {
        let all: BTreeSet<String> = damages().into_iter().collect();
        for kind in [
            "altitude",
            "airspeed",
            "vertical-speed",
            "roll",
            "pitch",
            "heading",
        ] {
            for (value, whole) in [("nan", 0), ("inf", i32::MAX), ("-inf", i32::MIN)] {
                let damage = format!("reading {kind} {value} and whole {kind} {whole}");
                assert!(all.contains(&damage), "{damage}");
            }
        }
        for (value, whole) in [
            ("0x40eb581000000000", 56_000),
            ("0x40eb581000000001", 56_001),
        ] {
            let damage = format!("reading altitude {value} and whole altitude {whole}");
            assert!(all.contains(&damage), "{damage}");
        }
    }

    #[test]
    fn circles_are_damaged_at_their_second_number() {
        let all = of_readings();
        for (kind, values) in [
            ("heading", [-0.5, 359.5, 360.0, 360.5, 361.0]),
            ("roll", [-180.5, 179.5, 180.0, 180.5, 181.0]),
        ] {
            for value in values.into_iter().flat_map(words::patterns_at) {
                let damage = format!("reading {kind} {value} and whole {kind} ");
                let found = all.iter().any(|other| other.starts_with(&damage));
                assert!(found, "{damage}");
            }
        }
    }

    #[test]
    fn every_kind_of_call_is_made_well_and_badly() {
        for name in [
            "event", "turn", "reading", "send", "refresh", "display", "pick",
        ] {
            let calls = CALLS
                .iter()
                .filter(|call| call.split(' ').next() == Some(name));
            assert!(calls.count() >= 3, "{name}");
        }
        for bad in [
            "event 2097152",
            "turn 4 1",
            "send 2",
            "refresh 2",
            "display 2",
            "pick 2",
        ] {
            assert!(CALLS.contains(&bad), "{bad}");
        }
    }
}
