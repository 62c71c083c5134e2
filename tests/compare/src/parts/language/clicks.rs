//! Knobs by clicks: at and past both ends of what is accepted, from several counts, and in chains.

use crate::parts::words::KNOBS;
use crate::rng::Rng;
use crate::say;
use crate::script::Script;

const COUNTS: [u8; 9] = [0, 1, 3, 126, 127, 128, 129, 250, 255];

const CLICKS: [&str; 23] = [
    "-256", "-255", "-130", "-129", "-128", "-127", "-126", "-9", "-2", "-1", "-0", "0", "00", "1",
    "2", "9", "007", "126", "127", "128", "129", "255", "256",
];

/// In which the wheel acts on vertical speed, or lets PITCH engage, or is without effect.
const MODES: [&str; 4] = ["press vs", "press alt", "press hdg", "press fd-right"];

const CHAINS: usize = 400;
const LINKS: usize = 12;

/// One knob line from every count.
pub fn singles() -> Script {
    let mut script = Script::default();
    for (number, name) in KNOBS.iter().enumerate() {
        for (index, count) in COUNTS.iter().enumerate() {
            for (shift, clicks) in CLICKS.iter().enumerate() {
                script.line("power-on");
                script.line(MODES[(index + shift) % MODES.len()]);
                say!(script, "turn {number} {count}");
                if (index + shift) % 2 == 0 {
                    say!(script, "knob {name} {clicks}");
                } else {
                    say!(script, "knob {number} {clicks}");
                }
                script.line("bench");
            }
        }
    }
    script
}

/// Many knob lines, and only then the bench. Now and then one is refused, or is an error, or a
/// `turn` comes between.
pub fn chains(rng: &mut Rng) -> Script {
    let mut script = Script::default();
    for _ in 0..CHAINS {
        script.line("power-on");
        script.line(rng.pick(&MODES));
        for _ in 0..LINKS {
            link(&mut script, rng);
        }
        script.line("bench");
    }
    script
}

fn link(script: &mut Script, rng: &mut Rng) {
    let number = rng.below(4);
    let knob = match rng.below(3) {
        0 => number.to_string(),
        _ => KNOBS[number].to_string(),
    };
    let clicks = match rng.below(10) {
        0..=6 => rng.between(-128, 127),
        7 => rng.pick(&[-128, 127]),
        _ => rng.between(-140, 140),
    };
    match rng.below(20) {
        0 => say!(script, "turn {knob} {}", rng.below(256)),
        1 => {
            script.line("damage pf 2");
            say!(script, "knob {knob} {clicks}");
            script.line("damage pf 0");
        }
        2 => say!(
            script,
            "knob {} {clicks}",
            rng.pick(&["4", "-1", "hdg", "Wheel"])
        ),
        _ => say!(script, "knob {knob} {clicks}"),
    }
}

#[cfg(test)]
mod tests {
    use super::*;
    use crate::script;
    use std::collections::BTreeSet;

    fn text(script: &Script) -> &str {
        std::str::from_utf8(script.text()).unwrap()
    }

    #[test]
    fn every_click_is_tried_from_every_count() {
        let singles = singles();
        assert_eq!(singles.commands(), 4 * COUNTS.len() * CLICKS.len() * 5);
        let lines: Vec<&str> = text(&singles).lines().collect();
        let tried: BTreeSet<(&str, &str)> = lines
            .chunks(5)
            .map(|case| (case[2], case[3].rsplit(' ').next().unwrap()))
            .collect();
        for count in [0, 127, 128, 255] {
            for clicks in ["-129", "-128", "-1", "-0", "1", "127", "128"] {
                for knob in 0..4 {
                    let turn = format!("turn {knob} {count}");
                    assert!(tried.contains(&(turn.as_str(), clicks)), "{turn} {clicks}");
                }
            }
        }
        for line in ["knob wheel -128", "knob 0 -129", "knob heading 127"] {
            assert!(lines.contains(&line), "{line}");
        }
    }

    #[test]
    fn a_chain_shows_the_bench_at_its_end_only() {
        let script = chains(&mut Rng::of_list(1, 0));
        let lines: Vec<&str> = text(&script).lines().collect();
        let benches = lines.iter().filter(|line| **line == "bench").count();
        assert_eq!(benches, CHAINS);
        let knobs = lines.iter().filter(|line| line.starts_with("knob "));
        assert!(knobs.count() > CHAINS * LINKS * 8 / 10);
        for line in ["damage pf 2", "knob heading 127", "knob speed -128"] {
            assert!(lines.contains(&line), "{line}");
        }
        assert_eq!(script::lines(script.text()).len(), script.commands());
    }
}
