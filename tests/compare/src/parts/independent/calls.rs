//! Calls other than single events and refreshes in independent operation and beside it: knobs,
//! readings, sends, words with several bits, and whatever follows a transfer.

use super::asked::Asked;
use super::states::{Arranger, Flags, State, INBOXES};
use super::APPROACHES;
use crate::parts::sets::Trial;
use crate::parts::words::{self, Ranged, EVENT_COUNT, INDEPENDENT, KINDS, REFERENCES, TRANSFER};
use crate::say;

pub fn all() -> [Asked; 6] {
    [
        knobs(),
        readings(),
        sends(),
        shared_words(),
        refused_words(),
        after_transfer(),
    ]
}

/// Both flight directors On, either side flying, with and without independent operation.
fn flown() -> [State; 4] {
    [0, 1, 2, 3].map(|number| State {
        flags: Flags {
            fd: [true; 2],
            ap: false,
            overspeed: false,
        },
        inbox: [false; 2],
        pf: number % 2,
        independent: number / 2 == 1,
        sets: APPROACHES,
    })
}

/// Goes on with a script from power-on to a state.
fn put(asked: Asked, state: &State) -> Arranger {
    let mut arranger = Arranger::from_power_on(asked, state.inbox);
    arranger.put(state);
    arranger
}

// ---- Knobs ----

const ROTATIONS: [i32; 8] = [-128, -127, -9, -1, 0, 1, 9, 127];

/// The reference that each knob moves, the wheel in PITCH.
const MOVED: [Ranged; 4] = [REFERENCES[6], REFERENCES[1], REFERENCES[4], REFERENCES[0]];

/// Each knob by each rotation, with the two references at other places of their range.
fn knobs() -> Asked {
    let mut asked = Asked::default();
    for state in flown() {
        let mut arranger = put(asked, &state);
        for (knob, moved) in MOVED.into_iter().enumerate() {
            for (left, right) in places(moved) {
                for rotation in ROTATIONS {
                    let script = &mut arranger.asked.script;
                    say!(script, "damage left {} {left}", moved.name);
                    say!(script, "damage right {} {right}", moved.name);
                    say!(script, "knob {knob} {rotation}");
                    arranger.show();
                }
            }
        }
        arranger.asked.answered("turn 4 7", "turn 3".to_string());
        arranger.show();
        asked = arranger.asked;
    }
    asked
}

fn places(range: Ranged) -> [(i32, i32); 3] {
    let middle = (range.low + range.high) / 2;
    [
        (range.low, range.high),
        (range.high - 1, range.low + 1),
        (middle, middle + 5),
    ]
}

// ---- Readings ----

/// Accepted and refused ones of every kind, and the event that loads them.
fn readings() -> Asked {
    let mut asked = Asked::default();
    for state in flown() {
        for event in [8, 14, 17, 18, 19] {
            let mut arranger = put(asked, &state);
            for kind in KINDS {
                let script = &mut arranger.asked.script;
                for value in [kind.low + 17, kind.last + 1] {
                    say!(script, "reading {} {value}", kind.name);
                }
                say!(script, "reading {} nan", kind.name);
            }
            arranger.show();
            arranger.call(Trial::Event(event));
            arranger.show();
            asked = arranger.asked;
        }
    }
    asked
}

// ---- Sends ----

/// A send of each side with its flight director On and Off, then what the inbox says to the other.
fn sends() -> Asked {
    let mut asked = Asked::default();
    for state in sent() {
        for side in 0..2 {
            let mut arranger = put(asked, &state);
            for trial in [Trial::Send(side), Trial::Refresh(1 - side)] {
                arranger.call(trial);
                arranger.show();
            }
            asked = arranger.asked;
        }
    }
    asked
}

/// As flown, with each flight director On and Off, and both inboxes.
fn sent() -> Vec<State> {
    let mut states = Vec::new();
    for state in flown() {
        for fd in INBOXES {
            let flags = Flags { fd, ..state.flags };
            states.extend([false, true].map(|inbox| State {
                flags,
                inbox: [inbox; 2],
                ..state
            }));
        }
    }
    states
}

// ---- Words with several bits ----

/// The bit of independent operation with another, and with all that are above that one.
fn shared_words() -> Asked {
    let mut asked = Asked::default();
    for state in flown() {
        let mut arranger = put(asked, &state);
        for event in 0..INDEPENDENT {
            let low = words::word(event);
            let all = words::word(EVENT_COUNT) - low;
            for word in [words::word(INDEPENDENT) | low, all] {
                arranger.put(&state);
                arranger.call_by(&format!("event {word}"), Trial::Event(event));
                arranger.show();
            }
        }
        asked = arranger.asked;
    }
    asked
}

/// A bit above all events, alone and with others, is refused wherever it comes.
fn refused_words() -> Asked {
    let mut asked = Asked::default();
    let low = words::word(EVENT_COUNT) - 1;
    for state in flown() {
        let mut arranger = put(asked, &state);
        for bit in EVENT_COUNT..32 {
            let others = [0, 1, words::word(INDEPENDENT), words::word(TRANSFER), low];
            for word in others.map(|other| words::word(bit) | other) {
                let line = format!("event {word}");
                arranger.asked.answered(&line, "event 4 32".to_string());
            }
            arranger.show();
        }
        asked = arranger.asked;
    }
    asked
}

// ---- After a transfer ----

const KNOB_LINES: [&str; 4] = ["knob 0 -7", "knob 1 9", "knob 2 -5", "knob 3 99"];

/// Every call after a transfer that ended independent operation. It may change only the side that
/// took over. Each side is kept on by its own flight director, or one of them by its inbox alone.
fn after_transfer() -> Asked {
    let mut asked = Asked::default();
    for state in flown().into_iter().filter(|state| state.independent) {
        for (fd, inbox) in [([true, true], [false; 2]), ([true, false], [true; 2])] {
            let flags = Flags { fd, ..state.flags };
            let state = State {
                flags,
                inbox,
                ..state
            };
            for line in follow_ups() {
                let mut arranger = put(asked, &state);
                arranger.call(Trial::Event(TRANSFER));
                asked = arranger.asked;
                asked.script.line(line);
                asked.show_unknown();
            }
        }
    }
    asked
}

fn follow_ups() -> Vec<String> {
    let mut trials: Vec<Trial> = (0..EVENT_COUNT).map(Trial::Event).collect();
    for side in 0..2 {
        trials.extend([Trial::Send(side), Trial::Refresh(side)]);
    }
    let trials = trials.iter().map(Trial::to_string);
    trials.chain(KNOB_LINES.map(String::from)).collect()
}

#[cfg(test)]
mod tests {
    use super::*;
    use crate::script::Script;
    use std::collections::BTreeSet;

    fn lines(script: &Script) -> Vec<&str> {
        std::str::from_utf8(script.text())
            .unwrap()
            .lines()
            .collect()
    }

    #[test]
    fn each_knob_is_turned_by_each_rotation_in_each_state() {
        let asked = knobs();
        let all = lines(&asked.script);
        for knob in 0..4 {
            for rotation in ROTATIONS {
                let line = format!("knob {knob} {rotation}");
                let count = all.iter().filter(|other| **other == line).count();
                assert_eq!(count, 4 * 3, "{line}");
            }
        }
        let on = all.iter().filter(|line| **line == "damage independent 1");
        assert_eq!(on.count(), 2);
    }

    #[test]
    fn references_of_the_two_sides_are_in_range_and_differ() {
        for (moved, name) in MOVED
            .into_iter()
            .zip(["pitch", "preselected", "ias", "heading"])
        {
            assert_eq!(moved.name, name);
            for (left, right) in places(moved) {
                assert_ne!(left, right);
                let range = moved.low..=moved.high;
                assert!(range.contains(&left) && range.contains(&right));
            }
        }
    }

    #[test]
    fn the_bit_of_independent_operation_comes_with_every_lower_one() {
        let asked = shared_words();
        let all: BTreeSet<&str> = lines(&asked.script).into_iter().collect();
        for event in 0..20 {
            let word = 1_048_576 + (1_u32 << event);
            assert!(all.contains(format!("event {word}").as_str()), "{event}");
        }
        assert!(all.contains("event 2097151") && all.contains("event 1572864"));
    }

    #[test]
    fn every_bit_above_the_events_comes_with_others() {
        let asked = refused_words();
        let all = lines(&asked.script);
        for bit in 21..32 {
            for other in [0, 1, 32, 1_048_576, 2_097_151] {
                let line = format!("event {}", (1_u32 << bit) + other);
                let count = all.iter().filter(|text| **text == line).count();
                assert_eq!(count, 4, "{line}");
            }
        }
    }

    #[test]
    fn every_call_follows_a_transfer_in_each_state() {
        let asked = after_transfer();
        let all = lines(&asked.script);
        let pairs: Vec<(&str, &str)> = all.windows(2).map(|two| (two[0], two[1])).collect();
        assert_eq!(follow_ups().len(), 21 + 4 + 4);
        for line in follow_ups() {
            let count = pairs
                .iter()
                .filter(|two| **two == ("event 32", &line))
                .count();
            assert_eq!(count, 2 * 2, "{line}");
        }
    }

    #[test]
    fn a_send_is_followed_by_a_refresh_of_the_other_side() {
        let asked = sends();
        let all = lines(&asked.script);
        for (send, refresh) in [("send 0", "refresh 1"), ("send 1", "refresh 0")] {
            let found = all
                .windows(5)
                .filter(|five| five[0] == send && five[4] == refresh);
            assert_eq!(found.count(), 4 * 4 * 2, "{send}");
        }
    }

    #[test]
    fn readings_are_given_ahead_of_what_loads_them() {
        let asked = readings();
        let all = lines(&asked.script);
        assert_eq!(
            all.iter().filter(|line| line.ends_with(" nan")).count(),
            4 * 5 * 6
        );
        for event in [8, 14, 17, 18, 19] {
            let line = format!("event {}", 1 << event);
            assert_eq!(all.iter().filter(|other| **other == line).count(), 4);
        }
    }
}
