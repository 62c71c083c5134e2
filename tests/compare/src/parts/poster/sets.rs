//! The list beside what the bench makes of sets: a coherent set is shown with the laws and the
//! armed sum of its number, and has its place in the list as the code of its frame; any other is
//! refused.

use super::list;
use super::worked::CODES;
use crate::parts::sheet::Told;
use crate::parts::words::{self, Set, SIDES};

/// The frame of a side at power-on, around its set code.
const AHEAD: [&str; 2] = ["46474200010000", "46474200010100"];
const BEHIND: &str = "0000321b1400781f401f40";

pub fn all() -> Told {
    let mut told = Told::default();
    let coded = list::sets();
    told.say("area 19", "area 0");
    for (side, name) in SIDES.into_iter().enumerate() {
        for set in [Set::OFF].into_iter().chain(words::on_sets()) {
            told.say("power-on", "power-on 0");
            let damage = format!("damage {name} set {set}");
            told.say(&damage, "damage 0");
            match coded.iter().position(|&other| other == set) {
                Some(code) => say_coherent(&mut told, side, set, code),
                None => say_other(&mut told, side),
            }
        }
    }
    told
}

fn say_coherent(told: &mut Told, side: usize, set: Set, code: usize) {
    let Set {
        lateral, vertical, ..
    } = set;
    let (armed, lamps) = (list::armed_sum(set), lamps(set));
    told.say(
        &format!("display {side}"),
        &format!("display 0 0 {lateral} {vertical} {armed} 0 0 0 0 120 0 0 {lamps}"),
    );
    told.say("codes", CODES);
    let pick = format!("pick 0 {lateral} {vertical}");
    told.say(&format!("pick {side}"), &pick);
    told.say(&format!("write {side} 0"), "write 0");
    let bytes = format!("bytes {}{code:02x}{BEHIND}", AHEAD[side]);
    told.say("bytes", &bytes);
    let read = format!("read 0 {side} 0 {set} 0 0 0 0 120 0 0");
    told.say("read 0", &read);
}

fn say_other(told: &mut Told, side: usize) {
    let refused = format!("display 1{}", " 0".repeat(12));
    told.say(&format!("display {side}"), &refused);
    told.say("codes", CODES);
    told.say(&format!("write {side} 0"), "write 1");
}

/// The lamps of a side with left flying and the autopilot disengaged.
fn lamps(set: Set) -> u32 {
    let lateral = [0, 0, 1, 2, 4, 0][usize::from(set.lateral)];
    // An armed mode lights its lamp as well, and is not the engaged one.
    let armed = [0, 2, 4][usize::from(set.armed)];
    let vertical = [0, 0, 8, 16, 32, 0, 0, 0, 0][usize::from(set.vertical)];
    128 + lateral + armed + vertical
}

#[cfg(test)]
mod tests {
    use super::*;

    #[test]
    fn every_set_is_asked_for_on_both_sides() {
        let told = all();
        let coherent = told.paper.matches("write 0\n").count();
        let others = told.paper.matches("write 1\n").count();
        assert_eq!((coherent, others), (2 * 108, 2 * 133));
        let codes = told.paper.matches("\ncodes 0 276 ").count();
        assert_eq!(codes, coherent + others);
    }

    #[test]
    fn answers_are_those_of_the_papers() {
        let paper = all().paper;
        for answers in [
            "display 0 0 0 0 0 0 0 0 0 120 0 0 128\n",
            "display 0 0 1 1 14 0 0 0 0 120 0 0 132\n",
            "display 0 0 4 7 1 0 0 0 0 120 0 0 134\n",
            "display 0 0 3 3 14 0 0 0 0 120 0 0 150\n",
            "pick 0 5 8\nwrite 0\nbytes 464742000100006b0000321b1400781f401f40\n\
             read 0 0 0 5 2 8 1 0 0 0 0 120 0 0\n",
            "pick 0 1 1\nwrite 0\nbytes 46474200010100010000321b1400781f401f40\n\
             read 0 1 0 1 0 1 0 0 0 0 0 120 0 0\n",
        ] {
            assert!(paper.contains(answers), "{answers}");
        }
    }
}
