//! The names of the script language, and what each of them stands for.

use crate::bench::{Kind, Reference};

/// Where a channel is kept: a side itself or a side's inbox.
#[derive(Clone, Copy, PartialEq, Eq, Debug)]
pub enum Place {
    Side(usize),
    Inbox(usize),
}

/// The event of a switch that a person presses.
pub fn switch(word: &[u8]) -> Option<u32> {
    match word {
        b"ap-disconnect" => Some(0),
        b"ap" => Some(1),
        b"go-around" => Some(4),
        b"transfer" => Some(5),
        b"fd-left" => Some(6),
        b"fd-right" => Some(7),
        b"hdg" => Some(14),
        b"nav" => Some(15),
        b"appr" => Some(16),
        b"vs" => Some(17),
        b"flc" => Some(18),
        b"alt" => Some(19),
        b"independent" => Some(20),
        _ => None,
    }
}

/// The event of a signal that comes from elsewhere in the aircraft.
pub fn signal(word: &[u8]) -> Option<u32> {
    match word {
        b"overspeed-begins" => Some(2),
        b"overspeed-ends" => Some(3),
        b"source-changed" => Some(8),
        b"nav-captured" => Some(9),
        b"lappr-captured" => Some(10),
        b"vappr-captured" => Some(11),
        b"altsel-captured" => Some(12),
        b"altsel-on-track" => Some(13),
        _ => None,
    }
}

pub fn side(word: &[u8]) -> Option<u32> {
    match word {
        b"left" => Some(0),
        b"right" => Some(1),
        _ => None,
    }
}

pub fn knob(word: &[u8]) -> Option<u32> {
    match word {
        b"wheel" => Some(0),
        b"altitude" => Some(1),
        b"speed" => Some(2),
        b"heading" => Some(3),
        _ => None,
    }
}

pub fn on_or_off(word: &[u8]) -> Option<bool> {
    match word {
        b"on" => Some(true),
        b"off" => Some(false),
        _ => None,
    }
}

pub fn place(word: &[u8]) -> Option<Place> {
    match word {
        b"left" => Some(Place::Side(0)),
        b"right" => Some(Place::Side(1)),
        b"left-inbox" => Some(Place::Inbox(0)),
        b"right-inbox" => Some(Place::Inbox(1)),
        _ => None,
    }
}

pub fn reference(word: &[u8]) -> Option<Reference> {
    match word {
        b"heading" => Some(Reference::Heading),
        b"preselected" => Some(Reference::Preselected),
        b"held" => Some(Reference::Held),
        b"vertical-speed" => Some(Reference::VerticalSpeed),
        b"ias" => Some(Reference::Ias),
        b"roll" => Some(Reference::Roll),
        b"pitch" => Some(Reference::Pitch),
        _ => None,
    }
}

pub fn kind(word: &[u8]) -> Option<Kind> {
    match word {
        b"altitude" => Some(Kind::Altitude),
        b"airspeed" => Some(Kind::Airspeed),
        b"vertical-speed" => Some(Kind::VerticalSpeed),
        b"roll" => Some(Kind::Roll),
        b"pitch" => Some(Kind::Pitch),
        b"heading" => Some(Kind::Heading),
        _ => None,
    }
}

#[cfg(test)]
pub mod tests {
    use super::*;

    pub const SWITCHES: [(&str, u32); 13] = [
        ("ap-disconnect", 0),
        ("ap", 1),
        ("go-around", 4),
        ("transfer", 5),
        ("fd-left", 6),
        ("fd-right", 7),
        ("hdg", 14),
        ("nav", 15),
        ("appr", 16),
        ("vs", 17),
        ("flc", 18),
        ("alt", 19),
        ("independent", 20),
    ];

    pub const SIGNALS: [(&str, u32); 8] = [
        ("overspeed-begins", 2),
        ("overspeed-ends", 3),
        ("source-changed", 8),
        ("nav-captured", 9),
        ("lappr-captured", 10),
        ("vappr-captured", 11),
        ("altsel-captured", 12),
        ("altsel-on-track", 13),
    ];

    #[test]
    fn each_event_is_a_switch_or_a_signal_and_none_is_both() {
        for (name, event) in SWITCHES {
            assert_eq!(switch(name.as_bytes()), Some(event), "{name}");
            assert_eq!(signal(name.as_bytes()), None, "{name}");
        }
        for (name, event) in SIGNALS {
            assert_eq!(signal(name.as_bytes()), Some(event), "{name}");
            assert_eq!(switch(name.as_bytes()), None, "{name}");
        }
        let mut events: Vec<u32> = SWITCHES.iter().chain(&SIGNALS).map(|row| row.1).collect();
        events.sort_unstable();
        assert_eq!(events, (0..21).collect::<Vec<_>>());
    }

    #[test]
    fn a_name_is_written_in_one_way() {
        for (name, _) in SWITCHES.iter().chain(&SIGNALS) {
            let shorter = &name[..name.len() - 1];
            let others = [
                shorter.to_string(),
                format!("{name}s"),
                name.to_uppercase(),
                name.replace('-', "--"),
                name.replace('-', "_"),
            ];
            for other in others.iter().filter(|other| other != name) {
                // One name is another without its last letters.
                if !SWITCHES.iter().any(|row| row.0 == other) {
                    assert_eq!(switch(other.as_bytes()), None, "{other}");
                }
                assert_eq!(signal(other.as_bytes()), None, "{other}");
            }
        }
        for word in ["", "lef", "Left", "lefts", "left-inbox", "both", "0"] {
            assert_eq!(side(word.as_bytes()), None, "{word}");
        }
        for word in ["", "whee", "Wheel", "wheels", "hdg", "airspeed", "3"] {
            assert_eq!(knob(word.as_bytes()), None, "{word}");
        }
        for word in ["", "o", "On", "ON", "offf", "1"] {
            assert_eq!(on_or_off(word.as_bytes()), None, "{word}");
        }
    }
}
