//! The words of the script language, with the ranges of document 01 around which the scripts probe.

use std::fmt;

/// A kind of reading or a reference, with its range.
#[derive(Clone, Copy)]
pub struct Ranged {
    pub name: &'static str,
    pub low: i32,
    pub high: i32,
    /// The highest number that is accepted: the high end, or one above it in a circle.
    pub last: i32,
}

const fn ranged(name: &'static str, low: i32, high: i32) -> Ranged {
    Ranged {
        name,
        low,
        high,
        last: high,
    }
}

/// A kind whose low end has a second number, one above the high end.
const fn circle(name: &'static str, low: i32, high: i32) -> Ranged {
    let last = high + 1;
    let row = ranged(name, low, high);
    Ranged { last, ..row }
}

impl Ranged {
    /// The whole value of a float as a reading of this kind, in range or not: the nearest integer,
    /// a tie to the even one, and the low end for its second number. Where there is none that fits
    /// in 32 bits, it is what a conversion that keeps to them gives.
    pub fn whole(self, value: f64) -> i32 {
        let nearest = value.round_ties_even() as i32;
        if nearest == self.last && self.last != self.high {
            self.low
        } else {
            nearest
        }
    }

    /// Whether a reading of this kind is accepted.
    pub fn accepts(self, value: f64) -> bool {
        value.is_finite() && (self.low..=self.high).contains(&self.whole(value))
    }
}

pub const KINDS: [Ranged; 6] = [
    ranged("altitude", -8_000, 56_000),
    ranged("airspeed", 0, 600),
    ranged("vertical-speed", -300, 300),
    circle("roll", -180, 179),
    ranged("pitch", -90, 89),
    circle("heading", 0, 359),
];

/// The second numbers of roll's and heading's low ends.
pub const SEAMS: [i32; 2] = [KINDS[3].last, KINDS[5].last];

pub const REFERENCES: [Ranged; 7] = [
    ranged("heading", 0, 359),
    ranged("preselected", -8_000, 56_000),
    ranged("held", -8_000, 56_000),
    ranged("vertical-speed", -50, 50),
    ranged("ias", 60, 400),
    ranged("roll", -27, 27),
    ranged("pitch", -20, 20),
];

/// The switches, each with its event.
pub const SWITCHES: [(&str, u32); 13] = [
    ("ap-disconnect", 0),
    ("ap", 1),
    ("go-around", 4),
    ("transfer", 5),
    ("fd-left", 6),
    ("fd-right", 7),
    ("hdg", 14),
    ("nav", 15),
    ("appr", 16),
    ("vs", 17),
    ("flc", 18),
    ("alt", 19),
    ("independent", 20),
];

/// The signals, each with its event.
pub const SIGNALS: [(&str, u32); 8] = [
    ("overspeed-begins", 2),
    ("overspeed-ends", 3),
    ("source-changed", 8),
    ("nav-captured", 9),
    ("lappr-captured", 10),
    ("vappr-captured", 11),
    ("altsel-captured", 12),
    ("altsel-on-track", 13),
];

/// The events go from 0 to one below; a bit from here on is refused.
pub const EVENT_COUNT: u32 = 21;

/// The events that parts ask for by number.
pub const TRANSFER: u32 = 5;
pub const INDEPENDENT: u32 = 20;

/// The line that names an event.
pub fn by_name(event: u32) -> String {
    let find = |table: &[(&'static str, u32)]| table.iter().find(|row| row.1 == event).copied();
    match (find(&SWITCHES), find(&SIGNALS)) {
        (Some((name, _)), _) => format!("press {name}"),
        (None, Some((name, _))) => format!("signal {name}"),
        (None, None) => panic!("there is no event {event}"),
    }
}

/// In the order of their numbers.
pub const KNOBS: [&str; 4] = ["wheel", "altitude", "speed", "heading"];

pub const SIDES: [&str; 2] = ["left", "right"];
pub const BOXES: [&str; 4] = ["left", "right", "left-inbox", "right-inbox"];

/// From power-on to independent operation, in which both sides fly an approach.
pub const INDEPENDENT_APPROACH: &[&str] = &[
    "press appr",
    "signal lappr-captured",
    "signal vappr-captured",
    "send left",
    "refresh right",
    "press independent",
];

/// The event word with only the bit of that event.
pub fn word(event: u32) -> u32 {
    1 << event
}

/// What the `set` of a damage names; lateral 0 is Off.
#[derive(Clone, Copy, PartialEq, Eq, Debug)]
pub struct Set {
    pub lateral: u8,
    pub armed: u8,
    pub vertical: u8,
    pub vappr: u8,
}

impl Set {
    pub const OFF: Set = Set::new(0, 0, 0, 0);

    pub const fn new(lateral: u8, armed: u8, vertical: u8, vappr: u8) -> Set {
        Set {
            lateral,
            armed,
            vertical,
            vappr,
        }
    }
}

impl fmt::Display for Set {
    fn fmt(&self, output: &mut fmt::Formatter) -> fmt::Result {
        let Set { lateral, armed, .. } = self;
        write!(output, "{lateral} {armed} {} {}", self.vertical, self.vappr)
    }
}

/// All 240 On sets that can be written, coherent or not.
pub fn on_sets() -> Vec<Set> {
    let mut sets = Vec::new();
    for lateral in 1..=5 {
        for armed in 0..=2 {
            for vertical in 1..=8 {
                sets.push(Set::new(lateral, armed, vertical, 0));
                sets.push(Set::new(lateral, armed, vertical, 1));
            }
        }
    }
    sets
}

pub fn pattern(value: f64) -> String {
    format!("0x{:016x}", value.to_bits())
}

/// The float of a value as scripts write it.
pub fn float(value: &str) -> f64 {
    let written = match value.strip_prefix("0x") {
        Some(digits) => u64::from_str_radix(digits, 16).ok().map(f64::from_bits),
        None => value.parse().ok(),
    };
    written.unwrap_or_else(|| panic!("{value} is no value"))
}

/// The damage that puts a float into the bench together with its whole value, so that the bench is
/// sound if the float is in range (document 02, 2026-05).
pub fn stored(kind: Ranged, value: &str) -> [String; 2] {
    let (name, whole) = (kind.name, kind.whole(float(value)));
    [
        format!("damage reading {name} {value}"),
        format!("damage whole {name} {whole}"),
    ]
}

/// The patterns of a float and of the two floats beside it.
pub fn patterns_at(value: f64) -> [String; 3] {
    [value.next_down(), value, value.next_up()].map(pattern)
}

/// The ends of a range and the last number accepted, half units up to one and a half beside them,
/// and the next float on each side of all these. Whatever the rule for ties, the last accepted and
/// the first refused are among them.
pub fn values_at_ends(range: Ranged) -> Vec<String> {
    let low = 2 * range.low - 3..=2 * range.low + 3;
    let high = 2 * range.high - 3..=2 * range.last + 3;
    low.chain(high)
        .flat_map(|halves| patterns_at(f64::from(halves) / 2.0))
        .collect()
}

#[cfg(test)]
mod tests {
    use super::*;
    use std::collections::BTreeSet;

    #[test]
    fn there_are_240_different_on_sets() {
        let sets: BTreeSet<String> = on_sets().iter().map(Set::to_string).collect();
        assert_eq!(sets.len(), 240);
        assert!(sets.contains("1 0 1 0") && sets.contains("5 2 8 1"));
        assert_eq!(Set::OFF.to_string(), "0 0 0 0");
    }

    #[test]
    fn every_event_has_one_name() {
        let names: BTreeSet<String> = (0..EVENT_COUNT).map(by_name).collect();
        assert_eq!(names.len(), 21);
        assert_eq!(SWITCHES.len() + SIGNALS.len(), 21);
        assert_eq!(by_name(INDEPENDENT), "press independent");
        assert_eq!(by_name(0), "press ap-disconnect");
        assert_eq!(by_name(13), "signal altsel-on-track");
    }

    #[test]
    fn whole_values_are_those_of_the_papers() {
        for (kind, value, whole, accepted) in [
            ("altitude", 12.5, 12, true),
            ("altitude", 13.5, 14, true),
            ("altitude", -0.5, 0, true),
            ("altitude", 56_000.5, 56_000, true),
            ("altitude", 56_001.0, 56_001, false),
            ("airspeed", 360.0, 360, true),
            ("vertical-speed", 180.0, 180, true),
            ("roll", 179.25, 179, true),
            ("roll", 179.5, -180, true),
            ("roll", 180.5, -180, true),
            ("roll", 181.0, 181, false),
            ("roll", -180.5, -180, true),
            ("roll", -181.0, -181, false),
            ("pitch", 89.5, 90, false),
            ("heading", 359.25, 359, true),
            ("heading", 359.5, 0, true),
            ("heading", 360.5, 0, true),
            ("heading", 361.0, 361, false),
            ("heading", -0.75, -1, false),
            ("heading", f64::NAN, 0, false),
            ("heading", f64::INFINITY, i32::MAX, false),
            ("heading", -1e300, i32::MIN, false),
        ] {
            let kind = KINDS.into_iter().find(|row| row.name == kind).unwrap();
            let told = (kind.whole(value), kind.accepts(value));
            assert_eq!(told, (whole, accepted), "{} {value}", kind.name);
        }
    }

    #[test]
    fn values_are_read_as_scripts_write_them() {
        for (value, expected) in [
            ("-12.5", -12.5),
            ("0x4076780000000000", 359.5),
            ("-inf", f64::NEG_INFINITY),
            ("999999999999999", 999_999_999_999_999.0),
        ] {
            assert_eq!(float(value), expected);
        }
        assert!(float("nan").is_nan() && float("0x7ff0000000000001").is_nan());
        assert!(float("-0").is_sign_negative());
    }

    #[test]
    fn a_float_is_stored_with_its_whole_value() {
        let north = ["damage reading heading 359.5", "damage whole heading 0"];
        assert_eq!(stored(KINDS[5], "359.5"), north);
        let past = ["damage reading roll 181", "damage whole roll 181"];
        assert_eq!(stored(KINDS[3], "181"), past);
    }

    #[test]
    fn the_floats_beside_zero_are_the_smallest() {
        let expected = [
            "0x8000000000000001",
            "0x0000000000000000",
            "0x0000000000000001",
        ];
        assert_eq!(patterns_at(0.0), expected);
    }

    #[test]
    fn the_ends_of_a_range_come_with_their_ties() {
        let values = values_at_ends(KINDS[4]);
        assert_eq!(values.len(), (7 + 7) * 3);
        for value in [-91.5, -90.5, -90.0, 89.0, 89.5, 90.5] {
            assert!(values.contains(&pattern(value)), "{value}");
        }
        assert!(values.contains(&pattern(89.5_f64.next_down())));
    }

    #[test]
    fn a_circle_comes_with_the_ties_of_its_second_number() {
        let circles = [
            (KINDS[3], [-180.5, 179.5, 180.5, 181.5]),
            (KINDS[5], [-0.5, 359.5, 360.5, 361.5]),
        ];
        for (kind, ties) in circles {
            let values = values_at_ends(kind);
            assert_eq!(values.len(), (7 + 9) * 3);
            for tie in ties {
                for value in patterns_at(tie) {
                    assert!(values.contains(&value), "{} {tie}", kind.name);
                }
            }
        }
    }

    #[test]
    fn only_roll_and_heading_readings_are_circles() {
        assert_eq!(SEAMS, [180, 360]);
        let circles = KINDS.iter().chain(&REFERENCES);
        let circles: Vec<(&str, i32)> = circles
            .filter(|row| row.last != row.high)
            .map(|row| (row.name, row.last))
            .collect();
        assert_eq!(circles, [("roll", 180), ("heading", 360)]);
    }
}
