//! Every knob with references at and near the ends of their ranges.

use super::words::{self, Set, SIDES};
use crate::gate::{Gate, Stop};
use crate::say;
use crate::script::Script;

const ROTATIONS: [i16; 9] = [-128, -127, -2, -1, 0, 1, 2, 126, 127];
const OLD_COUNTS: [u8; 4] = [0, 3, 128, 255];
const NO_KNOBS: [u32; 3] = [4, 5, u32::MAX];

/// References and their values.
type Values = &'static [(&'static str, i32)];

/// What the wheel moves: at an end, one beside it, and in the middle.
const WHEEL: [Values; 6] = [
    &[("vertical-speed", -50), ("pitch", -20)],
    &[("vertical-speed", 50), ("pitch", 20)],
    &[("vertical-speed", -49), ("pitch", 19)],
    &[("vertical-speed", 49), ("pitch", -19)],
    &[("vertical-speed", 3), ("pitch", -4)],
    &[("vertical-speed", 0), ("pitch", 0)],
];

/// At a stop the altitude does not change, and beside it by less than the rotation says.
const ALTITUDE: [Values; 8] = [
    &[("preselected", -8_000)],
    &[("preselected", 56_000)],
    &[("preselected", -7_900)],
    &[("preselected", 55_900)],
    &[("preselected", -7_999)],
    &[("preselected", 55_999)],
    &[("preselected", 12_345)],
    &[("preselected", 0)],
];

const SPEED: [Values; 5] = [
    &[("ias", 60)],
    &[("ias", 400)],
    &[("ias", 61)],
    &[("ias", 399)],
    &[("ias", 230)],
];

const HEADING: [Values; 5] = [
    &[("heading", 0)],
    &[("heading", 359)],
    &[("heading", 1)],
    &[("heading", 358)],
    &[("heading", 180)],
];

pub fn run(gate: &mut Gate) -> Result<(), Stop> {
    for pf in 0..2 {
        gate.check(&script(pf))?;
    }
    Ok(())
}

fn script(pf: usize) -> Script {
    let mut script = Script::default();
    for case in cases(pf) {
        case.say(&mut script);
    }
    script
}

struct Case {
    pf: usize,
    set: Set,
    knob: u32,
    values: Values,
    old: u8,
    new: u8,
}

impl Case {
    fn say(&self, script: &mut Script) {
        let (side, knob) = (SIDES[self.pf], self.knob);
        script.line("power-on");
        if self.pf == 1 {
            say!(script, "event {}", words::word(5));
        }
        // Other than every pitch reference above, so that an entry is seen.
        script.line("reading pitch 7.5");
        say!(script, "turn {knob} {}", self.old);
        say!(script, "damage {side} set {}", self.set);
        for (reference, value) in self.values {
            say!(script, "damage {side} {reference} {value}");
        }
        say!(script, "turn {knob} {}", self.new);
        script.line("display 0");
        script.line("display 1");
        script.line("bench");
    }
}

fn cases(pf: usize) -> Vec<Case> {
    let mut cases = Vec::new();
    let all = verticals();
    // The vertical mode says nothing to the speed and heading knobs.
    let few = [Set::OFF, Set::new(2, 0, 1, 0)];
    add(&mut cases, pf, 0, &WHEEL, &all);
    add(&mut cases, pf, 1, &ALTITUDE, &all);
    add(&mut cases, pf, 2, &SPEED, &few);
    add(&mut cases, pf, 3, &HEADING, &few);
    for knob in NO_KNOBS {
        add(&mut cases, pf, knob, &HEADING[..1], &few);
    }
    cases
}

fn add(cases: &mut Vec<Case>, pf: usize, knob: u32, all_values: &[Values], sets: &[Set]) {
    for &set in sets {
        for values in all_values {
            for old in OLD_COUNTS {
                cases.extend(ROTATIONS.map(|rotation| Case {
                    pf,
                    set,
                    knob,
                    values,
                    old,
                    new: old.wrapping_add(rotation as u8),
                }));
            }
        }
    }
}

/// Off, each vertical mode alone, and each with VAPPR armed beside an engaged LAPPR.
fn verticals() -> Vec<Set> {
    let mut sets = vec![Set::OFF, Set::new(4, 0, 7, 0)];
    for vertical in [1, 2, 3, 4, 5, 6, 8] {
        sets.push(Set::new(2, 0, vertical, 0));
        sets.push(Set::new(4, 0, vertical, 1));
    }
    sets
}

#[cfg(test)]
mod tests {
    use super::*;
    use std::collections::BTreeSet;

    #[test]
    fn the_number_of_cases_is_the_product_of_the_choices() {
        let counts = 4 * 9;
        let wheel = 16 * 6 * counts;
        let altitude = 16 * 8 * counts;
        let others = 2 * (2 * 5 + 3) * counts;
        assert_eq!(cases(0).len(), wheel + altitude + others);
        let lines = [9, 10].map(|lines| (altitude + others) * lines + wheel * (lines + 1));
        assert_eq!([0, 1].map(|pf| script(pf).commands()), lines);
    }

    #[test]
    fn every_knob_is_turned_by_every_rotation_in_every_mode_that_matters() {
        for pf in 0..2 {
            let tried: BTreeSet<_> = cases(pf)
                .iter()
                .map(|case| {
                    let rotation = i16::from(case.new.wrapping_sub(case.old) as i8);
                    (case.knob, case.set.vertical, rotation)
                })
                .collect();
            for rotation in [-128, -127, -2, -1, 0, 1, 2, 126, 127] {
                for knob in [0, 1, 2, 3, 4, 5, 4_294_967_295] {
                    let verticals = if knob < 2 {
                        vec![0, 1, 2, 3, 4, 5, 6, 7, 8]
                    } else {
                        vec![0, 1]
                    };
                    for vertical in verticals {
                        assert!(tried.contains(&(knob, vertical, rotation)));
                    }
                }
            }
        }
    }

    #[test]
    fn every_reference_that_a_knob_moves_stands_at_both_ends_and_inside() {
        for (name, low, high) in [
            ("vertical-speed", -50, 50),
            ("pitch", -20, 20),
            ("preselected", -8_000, 56_000),
            ("ias", 60, 400),
            ("heading", 0, 359),
        ] {
            let all = cases(0);
            let placed = all.iter().flat_map(|case| case.values);
            let values: BTreeSet<i32> = placed
                .filter(|value| value.0 == name)
                .map(|value| value.1)
                .collect();
            assert_eq!((values.first(), values.last()), (Some(&low), Some(&high)));
            assert!(values.len() > 2, "{name}");
        }
    }

    #[test]
    fn a_case_reads_as_it_should() {
        let mut script = Script::default();
        let case = Case {
            pf: 1,
            set: Set::new(2, 0, 3, 0),
            knob: 0,
            values: WHEEL[0],
            old: 3,
            new: 131,
        };
        case.say(&mut script);
        let expected = "power-on\nevent 32\nreading pitch 7.5\nturn 0 3\n\
            damage right set 2 0 3 0\ndamage right vertical-speed -50\n\
            damage right pitch -20\nturn 0 131\ndisplay 0\ndisplay 1\nbench\n";
        assert_eq!(script.text(), expected.as_bytes());
    }
}
