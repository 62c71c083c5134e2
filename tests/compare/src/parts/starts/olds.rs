//! Starts after benches of every sort: running ones, ones in independent operation, started ones
//! and damaged ones. Nothing of them is left, whether the start is accepted or not.

use super::{bench, display, say_start, DEFAULT, FLC, OFF};
use crate::parts::sheet::{Case, Told};

/// Accepted speeds and refused ones.
const SPEEDS: [i32; 18] = [
    60,
    59,
    400,
    401,
    120,
    0,
    90,
    -1,
    61,
    -120,
    399,
    i32::MIN,
    119,
    i32::MAX,
    121,
    65_656,
    250,
    600,
];

/// Benches of every sort, from power-on.
pub const OLDS: [Case; 14] = [
    FRESH,
    STARTED,
    REFUSED,
    RUNNING,
    INDEPENDENT,
    &[("damage pf 2", "damage 0")],
    &[("damage pf 255", "damage 0"), ("event 0", "event 1 32")],
    &[("damage independent 1", "damage 0"), ("send 0", "send 1")],
    &[
        ("damage left set 1 0 7 0", "damage 0"),
        ("damage right set 3 1 8 1", "damage 0"),
    ],
    &[
        ("damage left ias 59", "damage 0"),
        ("damage right heading 360", "damage 0"),
    ],
    &[
        ("damage left-inbox ias 401", "damage 0"),
        ("damage right-inbox set 5 2 8 0", "damage 0"),
    ],
    &[
        ("damage reading airspeed nan", "damage 0"),
        ("damage reading roll inf", "damage 0"),
    ],
    &[
        ("damage whole airspeed 119", "damage 0"),
        ("damage whole heading 360", "damage 0"),
    ],
    BROKEN,
];

const FRESH: Case = &[("power-on", "power-on 0")];

const STARTED: Case = &[("start 300", "start 0"), ("start 200", "start 0")];

const REFUSED: Case = &[("start 300", "start 0"), ("start 9", "start 10")];

/// Nothing is as at power-on: pilot flying, autopilot, flag, counts, readings, and in each box
/// flight director, modes and references.
const RUNNING: Case = &[
    ("reading altitude 1234.5", "reading 0"),
    ("reading airspeed 251.5", "reading 0"),
    ("reading vertical-speed -7", "reading 0"),
    ("reading roll 12.5", "reading 0"),
    ("reading pitch 3.5", "reading 0"),
    ("reading heading 359.5", "reading 0"),
    ("turn wheel 11", "turn 0"),
    ("turn altitude 22", "turn 0"),
    ("turn speed 33", "turn 0"),
    ("turn heading 44", "turn 0"),
    ("press appr", "event 0 16"),
    ("press vs", "event 0 17"),
    ("press fd-right", "event 0 7"),
    ("send left", "send 0"),
    ("press ap", "event 0 1"),
    ("press transfer", "event 0 5"),
    ("press alt", "event 0 19"),
    ("turn speed 44", "turn 0"),
    ("signal overspeed-begins", "event 0 2"),
    ("send right", "send 0"),
];

const INDEPENDENT: Case = &[
    ("press appr", "event 0 16"),
    ("signal lappr-captured", "event 0 10"),
    ("signal vappr-captured", "event 0 11"),
    ("send left", "send 0"),
    ("refresh right", "refresh 0"),
    ("press independent", "event 0 20"),
    ("turn speed 77", "turn 0"),
];

/// Damage on a bench that runs.
const BROKEN: Case = &[
    ("press ap", "event 0 1"),
    ("press transfer", "event 0 5"),
    ("signal overspeed-begins", "event 0 2"),
    ("turn speed 5", "turn 0"),
    ("damage pf 7", "damage 0"),
    ("damage right-inbox pitch 21", "damage 0"),
    ("damage whole airspeed 0", "damage 0"),
    ("turn speed 9", "turn 1"),
];

pub fn all() -> Told {
    let mut told = Told::default();
    for old in OLDS {
        for (index, speed) in SPEEDS.into_iter().enumerate() {
            told.say("power-on", "power-on 0");
            told.case(old);
            say_new(&mut told, speed);
            // In a row with the next speed, and with itself.
            let next = SPEEDS[(index + 1) % SPEEDS.len()];
            for speed in [next, next, speed] {
                let left = say_start(&mut told, speed);
                told.say("bench", &bench(left, 0));
            }
        }
    }
    told
}

/// What is seen of a new bench at once, and by some calls.
fn say_new(told: &mut Told, speed: i32) {
    let left = say_start(told, speed);
    told.say("bench", &bench(left, 0));
    told.say("display 0", &display(OFF, left, 128));
    told.say("display 1", &display(OFF, left, 128));
    told.say("pick 1", "pick 0 0 0");
    told.say("knob speed 0", "turn 0");
    told.say("refresh 0", "refresh 0");
    told.say("refresh 1", "refresh 0");
    told.say("bench", &bench(left, 0));
    told.say("press flc", "event 0 18");
    told.say("display 0", &display(FLC, left, 144));
    told.say("power-on", "power-on 0");
    told.say("bench", &bench(DEFAULT, 0));
    // The starts that follow find a bench that runs again.
    told.say("press hdg", "event 0 14");
}

#[cfg(test)]
mod tests {
    use super::*;

    #[test]
    fn every_old_bench_meets_every_speed() {
        let told = all();
        let text = String::from_utf8(told.script.text().to_vec()).unwrap();
        let rounds = OLDS.len();
        for speed in SPEEDS {
            let line = format!("start {speed}");
            let starts = text.lines().filter(|other| *other == line);
            assert_eq!(starts.count(), 4 * rounds, "{speed}");
        }
        assert_eq!(
            text.matches("damage whole airspeed 119\n").count(),
            SPEEDS.len()
        );
    }

    #[test]
    fn answers_are_of_calls_that_show_nothing_of_the_bench() {
        for (command, answer) in OLDS.into_iter().flatten() {
            let words = answer.split(' ').count();
            assert!(words == 2 || answer.starts_with("event "), "{command}");
        }
    }
}
