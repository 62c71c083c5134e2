//! Frames in use: over each other, again and again, between other commands, and beside inboxes
//! that hold something else.

use super::frame::{self, LENGTH, UNLIKE};
use crate::parts::words::{Ranged, Set, REFERENCES, SIDES};
use crate::rng::Rng;
use crate::say;
use crate::script::Script;

/// The benches by chance.
const CHANCES: usize = 400;

/// Shows both sides as frames, one after the other, and that the bench is left as it is.
const SHOWN: [&str; 6] = [
    "write left 0",
    "write right 19",
    "bytes",
    "read 0",
    "read 19",
    "bench",
];

fn say_all(script: &mut Script, lines: &[&str]) {
    for line in lines {
        script.line(line);
    }
}

/// Two frames that share bytes, in both orders, and one on its own place again.
pub fn overlapping() -> Script {
    let mut script = Script::default();
    say_all(&mut script, &UNLIKE);
    for shift in 0..=LENGTH + 1 {
        for (first, second) in [(0, 1), (1, 0)] {
            frame::fill(&mut script, 60);
            let (low, high) = (10, 10 + shift);
            say!(script, "write {first} {low}");
            say!(script, "write {second} {high}");
            script.line("bytes");
            say!(script, "read {low}");
            say!(script, "read {high}");
            say!(script, "write {first} {low}");
            script.line("bytes");
            say!(script, "read {low}");
            say!(script, "read {high}");
        }
    }
    script
}

/// Commands after each of which both sides are written twice.
const WALK: [&str; 47] = [
    "press fd-right",
    "press fd-left",
    "press hdg",
    "knob heading 100",
    "knob heading 127",
    "send left",
    "press nav",
    "refresh right",
    "signal nav-captured",
    "press appr",
    "send left",
    "signal lappr-captured",
    "refresh right",
    "reading vertical-speed -33.5",
    "press vs",
    "knob wheel -9",
    "signal vappr-captured",
    "send right",
    "refresh right",
    "press transfer",
    "refresh left",
    "knob altitude 127",
    "knob altitude -100",
    "reading airspeed 399.5",
    "press flc",
    "knob speed 9",
    "press go-around",
    "send right",
    "send left",
    "refresh left",
    "refresh right",
    "press ap",
    "signal overspeed-begins",
    "press fd-right",
    "reading altitude -7999.5",
    "press alt",
    "signal overspeed-ends",
    "press vs",
    "signal altsel-captured",
    "signal altsel-on-track",
    "event 1048576",
    "event 2097152",
    "send 2",
    "reading roll nan",
    "press ap-disconnect",
    "press fd-right",
    "power-on",
];

pub fn walk() -> Script {
    let mut script = Script::default();
    frame::fill(&mut script, 40);
    for line in WALK {
        script.line(line);
        say_all(&mut script, &SHOWN);
        say_all(&mut script, &["write 1 0", "write 0 19", "bytes", "bench"]);
    }
    script
}

/// Pilot flying, autopilot, flight directors and flag in all ways; only FD is in a frame.
pub fn shared() -> Script {
    let calls = [
        "press transfer",
        "press ap",
        "press fd-left",
        "press fd-right",
        "signal overspeed-begins",
    ];
    let mut script = Script::default();
    script.line("area 38");
    for number in 0..1 << calls.len() {
        script.line("power-on");
        for (bit, call) in calls.iter().enumerate() {
            if number >> bit & 1 == 1 {
                script.line(call);
            }
        }
        say_all(&mut script, &SHOWN);
    }
    script
}

/// A side and its inbox that differ in one thing: a frame has what the side holds.
pub fn inboxes() -> Script {
    let mut script = Script::default();
    script.line("area 38");
    for reference in REFERENCES {
        for (end, place) in [(reference.low, "left"), (reference.high, "right")] {
            script.line("power-on");
            say!(script, "damage {place} {} {}", reference.name, end);
            say!(
                script,
                "damage {place}-inbox {} {}",
                reference.name,
                end + middle(reference, end)
            );
            say_all(&mut script, &SHOWN);
        }
    }
    for place in SIDES {
        script.line("power-on");
        say!(script, "damage {place}-inbox set 4 0 7 0");
        say_all(&mut script, &SHOWN);
        say!(script, "damage {place} set 5 0 8 0");
        say_all(&mut script, &SHOWN);
    }
    for side in [6, 7] {
        // The flight director in the inbox goes another way than the side's own.
        script.line("power-on");
        say!(script, "event {}", 1 << side);
        say!(script, "send {}", side - 6);
        say_all(&mut script, &SHOWN);
        say!(script, "event {}", 1 << side);
        say_all(&mut script, &SHOWN);
    }
    script
}

/// From an end of the range to its middle.
fn middle(reference: Ranged, end: i32) -> i32 {
    (reference.low + reference.high) / 2 - end
}

// ---- By chance ----

/// Both sides with any coherent sets and any references. Events, turns and sends come between.
pub fn by_chance(rng: &mut Rng, coherent: &[Set]) -> Script {
    let mut script = Script::default();
    frame::fill(&mut script, 50);
    for _ in 0..CHANCES {
        if rng.percent(20) {
            script.line("power-on");
        }
        for side in SIDES {
            say!(script, "damage {side} set {}", rng.pick(coherent));
            any_references(&mut script, side, rng);
        }
        script.line(rng.pick(&BETWEEN));
        let start = rng.below(34);
        say!(script, "write {} {start}", rng.below(2));
        script.line("bytes");
        say!(script, "read {start}");
    }
    script
}

const BETWEEN: [&str; 8] = [
    "press fd-left",
    "press fd-right",
    "send left",
    "refresh right",
    "press transfer",
    "knob heading 55",
    "knob wheel -3",
    "event 0",
];

fn any_references(script: &mut Script, side: &str, rng: &mut Rng) {
    for _ in 0..rng.below(4) {
        let reference = rng.pick(&REFERENCES);
        let (low, high) = (i64::from(reference.low), i64::from(reference.high));
        let value = rng.between(low, high);
        say!(script, "damage {side} {} {value}", reference.name);
    }
}

// ---- The area itself ----

/// What leaves the area as it is: every other command, and errors.
const OTHERS: [&str; 44] = [
    "power-on",
    "event 16384",
    "event 0",
    "event 1048576",
    "event 2097152",
    "press appr",
    "signal nav-captured",
    "turn 3 9",
    "knob wheel -9",
    "reading roll 12.5",
    "reading roll inf",
    "send 0",
    "send right",
    "refresh left",
    "refresh right",
    "display 0",
    "pick 1",
    "bench",
    "panel",
    "help",
    "watch on",
    "send 1",
    "watch off",
    "damage left set 3 0 4 0",
    "damage right ias 300",
    "damage independent 1",
    "write 0 0",
    "damage pf 2",
    "write 0 0",
    "write 2 41",
    "read 0",
    "read 1000",
    "bytes",
    "area",
    "area 2049",
    "area -0",
    "area 40 40",
    "poke 40 00",
    "start 90",
    "start 401",
    "start",
    "codes",
    "codes 0",
    "power-on",
];

/// The area after everything that does not touch it, and after what makes a new one.
pub fn kept() -> Script {
    let mut script = Script::default();
    script.line("bytes");
    frame::fill(&mut script, 40);
    for line in OTHERS {
        script.line(line);
        script.line("bytes");
    }
    for length in [
        "40", "39", "41", "0", "40", "1", "2", "0", "0", "19", "2048", "40",
    ] {
        say!(script, "area {length}");
        script.line("bytes");
        script.line("write 0 0");
        script.line("poke 0 ffff");
        script.line("bytes");
    }
    script
}

/// Nothing is drawn after a command of the area, as none can change the bench.
pub fn watched() -> Script {
    let mut script = Script::default();
    for bench in ["power-on", "damage pf 2"] {
        script.line(bench);
        script.line("watch on");
        say_all(&mut script, &WATCHED);
        script.line("power-on");
        say_all(&mut script, &WATCHED);
        script.line("watch off");
    }
    script
}

const WATCHED: [&str; 18] = [
    "area 20",
    "bytes",
    "poke 0 ff",
    "poke 20 ff",
    "write 0 0",
    "write 0 1",
    "send 0",
    "write 0 2",
    "write 2 0",
    "read 1",
    "read 0",
    "read 2",
    "area 2049",
    "poke 0",
    "read",
    "send 2",
    "area 0",
    "bytes",
];

#[cfg(test)]
mod tests {
    use super::*;

    fn text(script: &Script) -> String {
        String::from_utf8(script.text().to_vec()).unwrap()
    }

    #[test]
    fn frames_overlap_by_every_number_of_bytes() {
        let text = text(&overlapping());
        for start in 10..=30 {
            for side in [0, 1] {
                let line = format!("write {side} {start}");
                assert!(text.lines().any(|other| other == line), "{line}");
            }
        }
    }

    #[test]
    fn a_side_and_its_inbox_differ_in_each_reference() {
        let text = text(&inboxes());
        for lines in [
            "damage left heading 0\ndamage left-inbox heading 179\n",
            "damage right ias 400\ndamage right-inbox ias 230\n",
            "damage right pitch 20\ndamage right-inbox pitch 0\n",
        ] {
            assert!(text.contains(lines), "{lines}");
        }
    }

    #[test]
    fn the_watch_is_off_in_the_end() {
        for script in [kept(), watched()] {
            let text = text(&script);
            let last = text.lines().rfind(|line| line.starts_with("watch"));
            assert_eq!(last, Some("watch off"));
        }
    }

    #[test]
    fn benches_by_chance_are_written_on_both_sides() {
        let text = text(&by_chance(&mut Rng::of_list(1, 0), &[Set::OFF]));
        for side in ["write 0 ", "write 1 "] {
            let count = text.lines().filter(|line| line.starts_with(side)).count();
            assert!(count > CHANCES / 4, "{side}");
        }
    }
}
