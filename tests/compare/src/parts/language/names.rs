//! Every name at every place that takes one and at those that do not, and words that nearly are
//! names.

use std::collections::BTreeSet;

use crate::parts::words::{BOXES, KINDS, KNOBS, REFERENCES, SIDES, SIGNALS, SWITCHES};

/// The places; each takes a word where the braces stand.
const PLACES: [&str; 42] = [
    "{}",
    "event {}",
    "press {}",
    "signal {}",
    "turn {} 7",
    "turn 1 {}",
    "knob {} 7",
    "knob 1 {}",
    "reading {} 7",
    "reading roll {}",
    "send {}",
    "refresh {}",
    "display {}",
    "pick {}",
    "power-on {}",
    "start {}",
    "bench {}",
    "panel {}",
    "watch {}",
    "help {}",
    "damage {}",
    "damage pf {}",
    "damage independent {}",
    "damage {} 0",
    "damage {} 1",
    "damage {} heading 7",
    "damage {} set 2 0 1 0",
    "damage left {} 70",
    "damage left heading {}",
    "damage left set {} 0 1 0",
    "damage reading {} 7",
    "damage {} roll 7",
    "damage whole {} 7",
    "damage whole roll {}",
    "area {}",
    "poke {} 5a",
    "poke 0 {}",
    "write {} 0",
    "write 0 {}",
    "read {}",
    "bytes {}",
    "codes {}",
];

const COMMANDS: [&str; 23] = [
    "event", "turn", "reading", "send", "refresh", "display", "pick", "power-on", "bench", "panel",
    "damage", "press", "signal", "knob", "watch", "help", "area", "poke", "write", "read", "bytes",
    "start", "codes",
];

const OTHERS: [&str; 11] = [
    "on", "off", "set", "pf", "whole", "end", "0", "1", "3", "4", "14",
];

/// The words of all tables, each once.
fn words() -> BTreeSet<&'static str> {
    let events = SWITCHES.iter().chain(&SIGNALS).map(|row| row.0);
    let ranged = KINDS.iter().chain(&REFERENCES).map(|row| row.name);
    let plain = SIDES.iter().chain(&BOXES).chain(&KNOBS);
    let rest = COMMANDS.iter().chain(&OTHERS);
    events
        .chain(ranged)
        .chain(plain.chain(rest).copied())
        .collect()
}

/// Every word at every place.
pub fn everywhere() -> Vec<String> {
    let mut lines = Vec::new();
    for place in PLACES {
        lines.extend(words().iter().map(|word| place.replace("{}", word)));
    }
    lines
}

/// Words that are almost right, each at the places of the word that is.
pub fn near_misses() -> Vec<String> {
    let mut lines = Vec::new();
    for (place, words) in homes() {
        for word in words {
            lines.extend(nearly(word).iter().map(|other| place.replace("{}", other)));
        }
    }
    lines
}

/// Which words belong to which place.
fn homes() -> Vec<(&'static str, Vec<&'static str>)> {
    let mut homes = vec![
        ("press {}", SWITCHES.map(|row| row.0).to_vec()),
        ("signal {}", SIGNALS.map(|row| row.0).to_vec()),
        ("turn {} 7", KNOBS.to_vec()),
        ("knob {} 7", KNOBS.to_vec()),
        ("watch {}", vec!["on", "off"]),
        ("{}", vec!["help"]),
        ("damage {} 0", vec!["independent"]),
        ("damage {} 1", vec!["independent"]),
        ("damage {} roll 7", vec!["whole"]),
        ("damage whole {} 7", KINDS.map(|row| row.name).to_vec()),
        ("{} hdg", vec!["press"]),
        ("{} nav-captured", vec!["signal"]),
        ("{} wheel 7", vec!["knob"]),
        ("{} on", vec!["watch"]),
        ("{} 90", vec!["start"]),
        ("{} 24", vec!["area"]),
        ("{} 0 5a", vec!["poke"]),
        ("{} 0 0", vec!["write"]),
        ("{} 0", vec!["read"]),
        ("{}", vec!["bytes"]),
        ("{}", vec!["codes"]),
    ];
    for place in [
        "send {}",
        "refresh {}",
        "display {}",
        "pick {}",
        "write {} 0",
    ] {
        homes.push((place, SIDES.to_vec()));
    }
    homes
}

fn nearly(word: &str) -> Vec<String> {
    let (first, rest) = word.split_at(1);
    let (start, last) = word.split_at(word.len() - 1);
    let mut others = vec![
        start.to_string(),
        rest.to_string(),
        first.to_string(),
        format!("{start}{}", last.to_uppercase()),
        format!("{}{rest}", first.to_uppercase()),
        word.to_uppercase(),
        format!("{word}{last}"),
        format!("{first}{word}"),
        format!("{word}s"),
        format!("{word}\0"),
        format!("{word}-"),
        format!("-{word}"),
        format!("{word}:"),
        format!("{word}={word}"),
        format!("\"{word}\""),
        format!("{word} {word}"),
        format!("{start} {last}"),
        format!("{start}\t{last}"),
        format!("{start}#{last}"),
    ];
    if word.contains('-') {
        others.extend(["--", "_", "", " ", "\t", "\u{2010}"].map(|dash| word.replace('-', dash)));
    }
    others
}

#[cfg(test)]
mod tests {
    use super::*;

    #[test]
    fn every_word_stands_at_every_place() {
        assert_eq!(everywhere().len(), PLACES.len() * words().len());
        let all: BTreeSet<String> = everywhere().into_iter().collect();
        for (name, _) in SWITCHES.iter().chain(&SIGNALS) {
            for command in ["press", "signal", "event", "knob 1", "send"] {
                assert!(all.contains(&format!("{command} {name}")), "{name}");
            }
        }
        for line in [
            "send left",
            "refresh right",
            "display left",
            "pick right",
            "turn wheel 7",
            "knob heading 7",
            "knob left 7",
            "press 14",
            "signal 3",
            "watch on",
            "watch watch",
            "damage wheel heading 7",
            "damage pf left",
            "press independent",
            "signal independent",
            "damage independent",
            "damage independent 0",
            "damage independent 1",
            "damage independent on",
            "damage whole roll 7",
            "damage whole vertical-speed 7",
            "damage whole ias 7",
            "damage whole roll 14",
            "damage whole roll pitch",
            "damage left roll 7",
            "reading speed 7",
            "display wheel",
            "help",
            "panel left",
            "write left 0",
            "write wheel 0",
            "write 0 left",
            "read right",
            "poke 0 off",
            "bytes bytes",
            "codes",
            "codes left",
            "codes 14",
            "bench codes",
        ] {
            assert!(all.contains(line), "{line}");
        }
    }

    #[test]
    fn a_start_is_among_them_and_so_is_what_nearly_is_one() {
        let (all, near) = (everywhere(), near_misses());
        for line in [
            "start 14",
            "start speed",
            "start power-on",
            "power-on start",
        ] {
            assert!(all.contains(&line.to_string()), "{line}");
        }
        for line in ["star 90", "Start 90", "start start 90"] {
            assert!(near.contains(&line.to_string()), "{line}");
        }
    }

    #[test]
    fn no_near_miss_is_the_word_itself() {
        for (_, words) in homes() {
            for word in words {
                assert!(!nearly(word).contains(&word.to_string()), "{word}");
            }
        }
    }

    #[test]
    fn near_misses_of_every_kind_are_there() {
        let all = near_misses();
        for line in [
            "press hd",
            "press Hdg",
            "press HDG",
            "press hdgg",
            "press ap--disconnect",
            "press ap_disconnect",
            "press ap disconnect",
            "press go\taround",
            "press Independent",
            "press independents",
            "damage independen 1",
            "damage INDEPENDENT 0",
            "damage whol roll 7",
            "damage Whole roll 7",
            "damage whole rol 7",
            "damage whole vertical_speed 7",
            "damage whole pitch pitch 7",
            "signal navcaptured",
            "send lef",
            "pick Right",
            "turn wheels 7",
            "knob -wheel 7",
            "watch o",
            "Help",
            "hel",
            "Press hdg",
            "kno wheel 7",
            "Watch on",
            "are 24",
            "Poke 0 5a",
            "write lef 0",
            "writ 0 0",
            "READ 0",
            "bytess",
            "codess",
            "code",
            "Codes",
        ] {
            assert!(all.contains(&line.to_string()), "{line:?}");
        }
        assert!(all.iter().all(|line| !line.contains('\n')));
    }
}
