//! Every coherent set beside an approach and beside another set: whether independent operation
//! begins there, and whether a bench that is damaged to it is refused.

use super::APPROACHES;
use crate::compare;
use crate::gate::{Gate, Stop};
use crate::parts::sets;
use crate::parts::shown::Shown;
use crate::parts::words::{self, Set, INDEPENDENT};
use crate::say;
use crate::script::Script;

/// Without a flight director a second step would take sides off, and with the autopilot it would
/// bring them on.
const STARTS: [&[&str]; 2] = [&["power-on"], &["power-on", "press ap", "press fd-left"]];

/// One of them follows on the damaged bench. Where it is sound they leave flight directors and
/// autopilot as they are.
const CALLS: [&str; 12] = [
    "event 1048576",
    "event 1024",
    "event 2097152",
    "turn 3 9",
    "turn 4 9",
    "reading roll 5.5",
    "send 0",
    "send 1",
    "refresh 0",
    "refresh 1",
    "display 0",
    "pick 1",
];

pub fn run(gate: &mut Gate) -> Result<(), Stop> {
    let (coherent, _) = sets::asked(gate)?;
    let pairs = pairs(&coherent);
    for start in STARTS {
        let output = gate.check(&script(start, &pairs))?;
        let answers = &compare::blocks(&output)[start.len()..];
        as_needed(answers, &pairs).map_err(|problem| gate.reject(&problem))?;
    }
    Ok(())
}

/// Each set on each side beside an approach, and beside a set that is mostly none; and all pairs of
/// approaches.
fn pairs(coherent: &[Set]) -> Vec<[Set; 2]> {
    let [plain, armed] = APPROACHES;
    let mut pairs = vec![[plain, plain], [armed, armed]];
    for (index, &set) in coherent.iter().enumerate() {
        let other = coherent[(index + 37) % coherent.len()];
        pairs.extend([[set, plain], [armed, set], [set, other]]);
    }
    pairs
}

/// The lines of a pair, and which of their answers say what has to be.
const LINES: usize = 9;
const BEGUN: usize = 3;
const DAMAGED: usize = 5;

fn script(start: &[&str], pairs: &[[Set; 2]]) -> Script {
    let mut script = Script::default();
    for line in start {
        script.line(line);
    }
    for (index, [left, right]) in pairs.iter().enumerate() {
        say!(script, "damage left set {left}");
        say!(script, "damage right set {right}");
        say!(script, "event {}", words::word(INDEPENDENT));
        script.line("bench");
        script.line("damage independent 1");
        script.line("event 0");
        script.line(CALLS[index % CALLS.len()]);
        script.line("bench");
        script.line("damage independent 0");
    }
    script
}

fn as_needed(answers: &[&[u8]], pairs: &[[Set; 2]]) -> Result<(), String> {
    for (sets, answers) in pairs.iter().zip(answers.chunks(LINES)) {
        let both = sets.iter().all(|set| APPROACHES.contains(set));
        let begun = Shown::read(answers[BEGUN])
            .is_some_and(|shown| (shown.sets, shown.independent) == (*sets, both));
        let verdict: &[u8] = if both {
            b"event 0 32\n"
        } else {
            b"event 1 32\n"
        };
        if !begun || answers[DAMAGED] != verdict {
            let answers = answers.concat();
            let told = String::from_utf8_lossy(&answers);
            return Err(format!(
                "{sets:?}: it has to begin or be refused with 1\n{told}"
            ));
        }
    }
    Ok(())
}

#[cfg(test)]
mod tests {
    use super::*;
    use crate::parts::shown::tests::{answer, SOME};

    #[test]
    fn each_set_stands_on_each_side_beside_an_approach_and_another() {
        let sets = [Set::OFF, APPROACHES[1], Set::new(2, 0, 1, 0)];
        let pairs = pairs(&sets);
        assert_eq!(pairs.len(), 2 + 3 * 3);
        let [plain, armed] = APPROACHES;
        for set in sets {
            assert!(pairs.contains(&[set, plain]) && pairs.contains(&[armed, set]));
        }
        assert!(pairs.contains(&[plain, plain]) && pairs.contains(&[armed, armed]));
    }

    #[test]
    fn a_pair_has_its_lines_in_their_order() {
        let script = script(&["power-on"], &[[Set::OFF, APPROACHES[0]]; 2]);
        assert_eq!(script.commands(), 1 + 2 * LINES);
        let text = std::str::from_utf8(script.text()).unwrap();
        let lines: Vec<&str> = text.lines().skip(1).collect();
        assert_eq!(lines[BEGUN - 1..=BEGUN], ["event 1048576", "bench"]);
        assert_eq!(
            lines[DAMAGED - 1..=DAMAGED],
            ["damage independent 1", "event 0"]
        );
        assert_eq!(lines[LINES + 6], CALLS[1]);
    }

    /// The answers to the lines of a pair.
    fn answers(sets: [Set; 2], independent: bool, refusal: u8) -> String {
        let bench = answer(&Shown {
            sets,
            independent,
            ..SOME
        });
        format!(
            "damage 0\ndamage 0\nevent 0 20\n{bench}damage 0\nevent {refusal} 32\nsend 0\n\
             {bench}damage 0\n"
        )
    }

    fn checked(sets: [Set; 2], independent: bool, refusal: u8) -> bool {
        let output = answers(sets, independent, refusal);
        as_needed(&compare::blocks(output.as_bytes()), &[sets]).is_ok()
    }

    #[test]
    fn it_begins_and_is_sound_with_two_approaches_only() {
        let [plain, armed] = APPROACHES;
        for sets in [[plain, armed], [armed, armed]] {
            assert!(checked(sets, true, 0));
            assert!(!checked(sets, false, 0));
            assert!(!checked(sets, true, 1));
        }
        for sets in [
            [plain, Set::OFF],
            [Set::new(4, 0, 1, 1), armed],
            [Set::OFF; 2],
        ] {
            assert!(checked(sets, false, 1));
            assert!(!checked(sets, true, 1));
            assert!(!checked(sets, false, 0));
        }
    }
}
