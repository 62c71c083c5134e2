//! The watch, switched on and off about every command, accepted, refused or an error.

use super::lines::VALID;
use crate::rng::Rng;
use crate::script::Script;

const STEPS: usize = 1_500;

/// Lines that are refused, that are errors, and that have no answer.
const OTHERS: [&str; 52] = [
    "event 2097152",
    "event 4294967295",
    "turn 4 0",
    "turn 4294967295 255",
    "reading roll 181",
    "reading altitude nan",
    "send 2",
    "refresh 4294967295",
    "display 2",
    "pick 2",
    "start 59",
    "start 401",
    "damage pf 2",
    "damage independent 1",
    "damage left set 1 1 1 1",
    "damage right ias 59",
    "damage reading roll nan",
    "damage whole roll 1",
    "damage whole pitch -2147483648",
    "event",
    "event x",
    "press",
    "press 14",
    "signal hdg",
    "turn 0 256",
    "knob 4 1",
    "knob wheel 128",
    "reading speed 1",
    "send both",
    "start",
    "start 60.0",
    "damage pf 256",
    "damage independent 2",
    "damage whole roll x",
    "watch",
    "watch up",
    "watch on off",
    "help me",
    "panel 0",
    "area 2049",
    "area",
    "poke 0 5",
    "poke 24 5a",
    "write 4294967295 0",
    "write 0 6",
    "write 0",
    "read x",
    "bytes 0",
    "codes 0",
    "",
    "# watch on",
    "\t\r",
];

/// On which bench: a sound one, and one that refuses every call.
const STARTS: [&str; 2] = ["press hdg", "damage pf 7"];

fn all() -> Vec<&'static str> {
    VALID.iter().chain(&OTHERS).copied().collect()
}

/// Each line with the watch on, with it left on by a power-on, and with it off again.
pub fn about_each() -> Script {
    let mut script = Script::default();
    for start in STARTS {
        for line in all() {
            let lines = [
                "power-on",
                start,
                "watch on",
                line,
                "bench",
                "power-on",
                line,
                start,
                "watch on",
                line,
                "watch off",
                line,
                "bench",
            ];
            for line in lines {
                script.line(line);
            }
        }
    }
    // The last line may have switched it on.
    script.line("watch off");
    script
}

/// Lines by chance, and the watch switched at every tenth or so.
pub fn mixed(rng: &mut Rng) -> Script {
    let mut script = Script::default();
    let lines = all();
    for _ in 0..STEPS {
        script.line(match rng.below(20) {
            0 => "watch on",
            1 => "watch off",
            2..=4 => "power-on",
            _ => rng.pick(&lines),
        });
    }
    script.line("bench");
    script
}

#[cfg(test)]
mod tests {
    use super::*;
    use crate::script;

    #[test]
    fn each_line_comes_with_the_watch_on_and_off() {
        let script = about_each();
        let lines = script::lines(script.text());
        assert_eq!(lines.len(), 2 * all().len() * 13 + 1);
        for line in all() {
            let mut watch = false;
            let mut seen = [false; 2];
            for &text in &lines {
                if text == format!("{line}\n").as_bytes() {
                    seen[usize::from(watch)] = true;
                }
                watch = script::watch(text).unwrap_or(watch);
            }
            assert_eq!(seen, [true; 2], "{line:?}");
        }
    }

    #[test]
    fn the_watch_is_switched_often() {
        let script = mixed(&mut Rng::of_list(1, 0));
        let lines = script::lines(script.text());
        let switches = lines.iter().filter(|line| script::watch(line).is_some());
        assert!(switches.count() > STEPS / 15);
    }
}
