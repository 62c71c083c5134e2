//! The list asked for in states of every sort, with the bench ahead of it and after it.

use crate::parts::damage;
use crate::parts::starts::olds::OLDS;
use crate::parts::words::{self, EVENT_COUNT, INDEPENDENT_APPROACH};
use crate::say;
use crate::script::Script;

/// The bench on both sides of an answer, and of an error.
const ASKED: [&str; 5] = ["bench", "codes", "bench", "codes 0", "bench"];

/// Calls of every kind but events, accepted and refused, and all else that is no call.
const CALLS: [&str; 55] = [
    "event 0",
    "event 16400",
    "event 2097152",
    "event 4294967295",
    "turn wheel 9",
    "turn altitude 200",
    "turn speed 7",
    "turn heading 128",
    "turn 4 1",
    "turn 4294967295 0",
    "knob wheel -9",
    "knob heading 0",
    "reading altitude 1234.5",
    "reading airspeed 250.5",
    "reading vertical-speed -7",
    "reading roll 180",
    "reading pitch -0.5",
    "reading heading 359.5",
    "reading heading 361",
    "reading roll nan",
    "reading pitch -inf",
    "send left",
    "send right",
    "send 2",
    "refresh left",
    "refresh right",
    "refresh 2",
    "display left",
    "display right",
    "display 2",
    "pick left",
    "pick right",
    "pick 2",
    "power-on",
    "start 60",
    "start 59",
    "bench",
    "panel",
    "help",
    "watch off",
    "damage pf 1",
    "damage pf 2",
    "damage independent 1",
    "damage left set 4 1 7 0",
    "damage right set 1 0 7 0",
    "damage left-inbox ias 59",
    "damage reading roll inf",
    "damage whole roll 1",
    "area 20",
    "poke 3 5a",
    "write left 1",
    "read 1",
    "bytes",
    "x",
    "codes codes",
];

/// What the calls are made on: the bench at power-on, modes on the left, right flying with all
/// flags set, both sides on an approach in independent operation, and a damaged bench.
const BENCHES: [&[&str]; 5] = [
    &[],
    &["press nav", "press vs"],
    &[
        "press ap",
        "press transfer",
        "signal overspeed-begins",
        "turn speed 9",
    ],
    INDEPENDENT_APPROACH,
    &["press hdg", "damage pf 7"],
];

fn say_all(script: &mut Script, lines: &[&str]) {
    for line in lines {
        script.line(line);
    }
}

/// Between the commands that lead to benches of every sort, and on those benches.
pub fn olds() -> Script {
    let mut script = Script::default();
    for old in OLDS {
        script.line("power-on");
        for (command, _) in old {
            script.line(command);
            script.line("codes");
        }
        say_all(&mut script, &ASKED);
        // The calls that follow find the bench as it was.
        for line in CALLS {
            script.line(line);
            script.line("codes");
        }
        say_all(&mut script, &ASKED);
    }
    script
}

/// Ahead of each call and after it.
pub fn calls() -> Script {
    let mut script = Script::default();
    let events = (0..EVENT_COUNT).map(|event| format!("event {}", words::word(event)));
    let calls: Vec<String> = events.chain(CALLS.map(String::from)).collect();
    for bench in BENCHES {
        for call in &calls {
            script.line("power-on");
            say_all(&mut script, bench);
            script.line("codes");
            script.line(call);
            say_all(&mut script, &ASKED);
            script.line(call);
            script.line("codes");
        }
    }
    script
}

/// On benches that are damaged in every way.
pub fn damaged() -> Script {
    let mut script = Script::default();
    for damage in damage::damages() {
        script.line("power-on");
        for part in damage.split(" and ") {
            say!(script, "damage {part}");
        }
        say_all(&mut script, &ASKED[..3]);
        script.line("event 0");
    }
    script
}

#[cfg(test)]
mod tests {
    use super::*;

    #[test]
    fn every_command_of_the_language_comes_ahead_of_the_list() {
        let script = calls();
        let text = String::from_utf8(script.text().to_vec()).unwrap();
        for name in [
            "event", "turn", "knob", "reading", "send", "refresh", "display", "pick", "power-on",
            "start", "bench", "panel", "help", "watch", "damage", "area", "poke", "write", "read",
            "bytes",
        ] {
            let lines: Vec<&str> = text.lines().collect();
            let mut pairs = lines.windows(2);
            let ahead =
                pairs.any(|two| two[0].split(' ').next() == Some(name) && two[1] == "codes");
            assert!(ahead, "{name}");
        }
        for event in 0..EVENT_COUNT {
            let line = format!("\ncodes\nevent {}\nbench\ncodes\n", 1_u32 << event);
            assert_eq!(text.matches(&line).count(), BENCHES.len(), "{event}");
        }
    }

    #[test]
    fn every_damage_is_asked_about() {
        let script = damaged();
        let text = String::from_utf8(script.text().to_vec()).unwrap();
        let count = damage::damages().len();
        assert_eq!(
            text.matches("\nbench\ncodes\nbench\nevent 0\n").count(),
            count
        );
    }
}
