//! Readings: at the ends of the ranges, where circles come round, at ties, floats of every class,
//! and decimal numbers, whose nearest floats have to be found.

use super::words::{self, pattern, patterns_at, Ranged, KINDS, SEAMS};
use crate::gate::{Gate, Stop};
use crate::rng::Rng;
use crate::say;
use crate::script::Script;

/// Decimals by chance: per kind as readings, and in all as stored floats, which no range hides.
const READ_DECIMALS: usize = 500;
const STORED_DECIMALS: usize = 12_000;

/// Keeps the numbers apart from those of other parts with the same seed.
const LIST: u64 = 4_000;

pub fn run(gate: &mut Gate) -> Result<(), Stop> {
    let mut rng = Rng::of_list(gate.seed, LIST);
    for kind in KINDS {
        gate.check(&of_kind(kind, &mut rng))?;
    }
    gate.check(&stored_decimals(&mut rng))?;
    Ok(())
}

/// All values of one kind.
fn of_kind(kind: Ranged, rng: &mut Rng) -> Script {
    let mut script = Script::default();
    for value in edge_values(kind) {
        say_reading(&mut script, kind.name, &value);
        say_stored(&mut script, kind, &value);
    }
    for value in values_at_seams() {
        say_seam(&mut script, kind, &value);
    }
    for value in halves(kind) {
        say_half(&mut script, kind, &value);
    }
    for _ in 0..READ_DECIMALS {
        let value = decimal_near(kind, rng);
        say_reading(&mut script, kind.name, &value);
    }
    script
}

/// A reading, the float that the bench keeps of it, and an entry to every mode that loads one.
fn say_reading(script: &mut Script, kind: &str, value: &str) {
    script.line("power-on");
    say!(script, "reading {kind} {value}");
    script.line("bench");
    // The left flight director loads roll and pitch; then VS, FLC and ALT load theirs.
    for event in [6, 17, 18, 19] {
        say!(script, "event {}", words::word(event));
    }
    script.line("display 0");
}

/// The float put into the bench whatever its range, and whether the bench is then sound: with the
/// whole value of power-on beside it, and with its own.
fn say_stored(script: &mut Script, kind: Ranged, value: &str) {
    script.line("power-on");
    let [float, whole] = words::stored(kind, value);
    script.line(float);
    script.line("event 0");
    script.line(whole);
    script.line("bench");
    script.line("event 64");
    script.line("display 0");
}

/// A reading and the entry that loads it, only.
fn say_half(script: &mut Script, kind: Ranged, value: &str) {
    script.line("power-on");
    say!(script, "reading {} {value}", kind.name);
    say_entry(script, kind);
}

/// The same float given to the bench and put into it, each with what the bench keeps and loads.
fn say_seam(script: &mut Script, kind: Ranged, value: &str) {
    let given = vec![format!("reading {} {value}", kind.name)];
    for lines in [given, words::stored(kind, value).to_vec()] {
        script.line("power-on");
        for line in lines {
            script.line(line);
        }
        script.line("bench");
        say_entry(script, kind);
    }
}

/// Entry to the mode that loads a kind; for heading, which none loads, any call.
pub fn say_entry(script: &mut Script, kind: Ranged) {
    let event = match kind.name {
        "altitude" => 19,
        "airspeed" => 18,
        "vertical-speed" => 17,
        _ => 6,
    };
    say!(script, "event {}", words::word(event));
    script.line("display 0");
}

fn edge_values(kind: Ranged) -> Vec<String> {
    let mut values = words::values_at_ends(kind);
    let low_end = kind.low - 1..=kind.low;
    let high_end = kind.high - 1..=kind.last;
    values.extend(low_end.chain(high_end).map(half_above));
    let low_end = kind.low - 1..=kind.low + 1;
    let high_end = kind.high - 1..=kind.last + 1;
    values.extend(low_end.chain(high_end).map(|whole| whole.to_string()));
    values.extend(small_values());
    values.extend(large_values());
    values.extend(NO_NUMBERS.map(String::from));
    values.extend(DECIMALS.map(String::from));
    values
}

/// The decimal number half a unit above a whole one.
fn half_above(whole: i32) -> String {
    match whole {
        -1 => "-0.5".to_string(),
        0.. => format!("{whole}.5"),
        _ => format!("{}.5", whole + 1),
    }
}

/// Quarter units from one unit below each seam to one and a half above it, the floats beside their
/// ties, and all these with a minus sign.
fn values_at_seams() -> Vec<String> {
    let mut values = Vec::new();
    for seam in SEAMS {
        for quarters in -4..=6_i32 {
            let value = f64::from(seam) + f64::from(quarters) / 4.0;
            for value in [value, -value] {
                if quarters.rem_euclid(4) == 2 {
                    values.extend(patterns_at(value));
                } else {
                    values.push(value.to_string());
                }
            }
        }
    }
    values
}

/// Every half unit from just below the range to just above it, or about the ends if it is wide.
fn halves(kind: Ranged) -> Vec<String> {
    let wholes = kind.low - 2..=kind.last + 2;
    let near_end =
        |whole: &i32| whole - kind.low < 60 || kind.high - whole < 60 || whole.abs() < 60;
    let wide = kind.high - kind.low > 1_000;
    wholes
        .filter(|whole| !wide || near_end(whole))
        .map(half_above)
        .collect()
}

/// Ties, zeros, subnormals and the smallest normal float.
fn small_values() -> Vec<String> {
    let largest_subnormal = f64::MIN_POSITIVE.next_down();
    let smallest = f64::from_bits(1);
    let single = [0.0, smallest, largest_subnormal, f64::MIN_POSITIVE];
    let mut values: Vec<String> = single.iter().flat_map(|&value| signed(value)).collect();
    for tie in [0.5, 1.5, 2.5, 3.5, 12.5, 13.5, 0.25, 0.75, 1.0] {
        values.extend(patterns_at(tie));
        values.extend(patterns_at(-tie));
    }
    values
}

/// Where integers of some width end, where floats have no more fraction, and the largest float.
fn large_values() -> Vec<String> {
    let mut values = Vec::new();
    for power in [15, 16, 31, 32, 51, 52, 53, 62, 63, 64, 127, 128, 1_023] {
        let value = 2_f64.powi(power);
        for beside in [-1.0, -0.5, 0.0, 0.5, 1.0] {
            values.extend(patterns_at(value + beside));
            values.extend(patterns_at(-value - beside));
        }
    }
    // Without these a value that wraps around at 16 or 32 bits could look like one in range.
    for power in [16, 32] {
        values.extend(signed(2_f64.powi(power) + 90.0));
    }
    values.extend(signed(f64::MAX));
    values
}

fn signed(value: f64) -> [String; 2] {
    [pattern(value), pattern(-value)]
}

const NO_NUMBERS: [&str; 13] = [
    "nan",
    "inf",
    "-inf",
    "0x7ff0000000000000",
    "0xfff0000000000000",
    "0x7ff8000000000000",
    "0xfff8000000000000",
    "0x7ff0000000000001",
    "0xfff0000000000001",
    "0x7fffffffffffffff",
    "0xffffffffffffffff",
    "0x7FF4000000000000",
    "0x7ff00000ffffffff",
];

const DECIMALS: [&str; 24] = [
    "0.1",
    "0.2",
    "0.3",
    "-0.7",
    "1.1",
    "12.5",
    "-12.5",
    "0",
    "-0",
    "0.0",
    "-0.000000000000000",
    "0.000000000000001",
    "-0.000000000000001",
    "0.499999999999999",
    "0.500000000000001",
    "1.49999999999999",
    "359.499999999999",
    "56000.4999999999",
    "56000.5000000000",
    "123456789012.345",
    "999999999999999",
    "-999999999999999",
    "99999999999999.9",
    "9.99999999999999",
];

/// A number around a range, with all the digits that a script may have.
fn decimal_near(kind: Ranged, rng: &mut Rng) -> String {
    let whole = rng.between(i64::from(kind.low) - 2, i64::from(kind.last) + 2);
    let whole = match whole {
        0 => rng.pick(&["0", "-0"]).to_string(),
        _ => whole.to_string(),
    };
    let room = 15 - whole.trim_start_matches('-').len();
    let count = 1 + rng.below(room);
    format!("{whole}.{}", digits(count, rng))
}

fn digits(count: usize, rng: &mut Rng) -> String {
    (0..count).map(|_| rng.pick(&DIGITS)).collect()
}

const DIGITS: [char; 10] = ['0', '1', '2', '3', '4', '5', '6', '7', '8', '9'];

/// Any decimal number that a script may have, with up to 15 significant digits and 15 decimals.
fn any_decimal(rng: &mut Rng) -> String {
    let sign = rng.pick(&["", "-"]);
    let significant = if rng.percent(70) {
        15
    } else {
        1 + rng.below(15)
    };
    let first = rng.pick(&DIGITS[1..]);
    let number = format!("{first}{}", digits(significant - 1, rng));
    let decimals = rng.below(16);
    if decimals == 0 {
        return format!("{sign}{number}");
    }
    // Zeros ahead of the first digit are not significant.
    let padded = format!("{number:0>width$}", width = decimals + 1);
    let (whole, fraction) = padded.split_at(padded.len() - decimals);
    format!("{sign}{whole}.{fraction}")
}

/// Floats made from decimals, seen bit for bit in the bench. One bench shows six of them.
fn stored_decimals(rng: &mut Rng) -> Script {
    let mut script = Script::default();
    for _ in 0..STORED_DECIMALS / KINDS.len() {
        for kind in KINDS {
            say!(script, "damage reading {} {}", kind.name, any_decimal(rng));
        }
        script.line("bench");
    }
    script
}

#[cfg(test)]
mod tests {
    use super::*;
    use std::collections::BTreeSet;

    fn rng() -> Rng {
        Rng::of_list(1, LIST)
    }

    fn text(script: &Script) -> String {
        String::from_utf8(script.text().to_vec()).unwrap()
    }

    #[test]
    fn half_units_are_written_as_decimals() {
        let pairs = [
            (-2, "-1.5"),
            (-1, "-0.5"),
            (0, "0.5"),
            (1, "1.5"),
            (-181, "-180.5"),
        ];
        for (whole, expected) in pairs {
            assert_eq!(half_above(whole), expected);
            let value: f64 = half_above(whole).parse().unwrap();
            assert_eq!(value, f64::from(whole) + 0.5);
        }
    }

    #[test]
    fn every_half_unit_of_a_narrow_range_is_read() {
        let of_roll = halves(KINDS[3]);
        assert_eq!(of_roll.len(), 365);
        assert_eq!(
            (of_roll[0].as_str(), of_roll[364].as_str()),
            ("-181.5", "182.5")
        );
        let of_altitude = halves(KINDS[0]);
        for value in ["-8000.5", "-0.5", "0.5", "55999.5", "56000.5"] {
            assert!(of_altitude.contains(&value.to_string()), "{value}");
        }
    }

    #[test]
    fn every_kind_has_the_values_that_matter() {
        for kind in KINDS {
            let values = edge_values(kind);
            for value in [
                "0x0000000000000001",
                "0x800fffffffffffff",
                "0x0010000000000000",
                "0x7fefffffffffffff",
                "0xffefffffffffffff",
                "0x7ff0000000000001",
                "nan",
                "-inf",
                "0x3fe0000000000000",
                "0x4340000000000001",
                "0xc1e0000000000000",
                "-0",
            ] {
                assert!(values.contains(&value.to_string()), "{value}");
            }
            for whole in [kind.low, kind.high, kind.last, kind.last + 1] {
                assert!(values.contains(&whole.to_string()), "{whole}");
            }
            for whole in [kind.low - 1, kind.high, kind.last] {
                assert!(values.contains(&half_above(whole)), "{whole}");
            }
        }
    }

    #[test]
    fn seams_come_with_quarters_ties_and_what_is_beside_them() {
        let values = values_at_seams();
        assert_eq!(values.len(), 2 * 2 * (8 + 3 * 3));
        for value in [
            "179", "179.25", "179.75", "180", "180.25", "180.75", "181", "181.25", "359", "359.25",
            "359.75", "360", "360.25", "360.75", "361",
        ] {
            assert!(values.contains(&value.to_string()), "{value}");
            assert!(values.contains(&format!("-{value}")), "-{value}");
        }
        for tie in [179.5, 180.5, 181.5, 359.5, 360.5, 361.5] {
            for value in patterns_at(tie).into_iter().chain(patterns_at(-tie)) {
                assert!(values.contains(&value), "{tie}");
            }
        }
    }

    #[test]
    fn every_kind_is_given_and_damaged_with_the_values_at_seams() {
        let events = [524288, 262144, 131072, 64, 64, 64];
        for (kind, event) in KINDS.into_iter().zip(events) {
            let all = text(&of_kind(kind, &mut rng()));
            for value in values_at_seams() {
                let name = kind.name;
                let whole = kind.whole(words::float(&value));
                let shown = format!("bench\nevent {event}\ndisplay 0");
                let both = format!(
                    "power-on\nreading {name} {value}\n{shown}\n\
                     power-on\ndamage reading {name} {value}\n\
                     damage whole {name} {whole}\n{shown}\n"
                );
                assert!(all.contains(&both), "{name} {value}");
            }
        }
    }

    #[test]
    fn the_number_of_commands_is_that_of_the_values() {
        for kind in KINDS {
            let edges = edge_values(kind).len();
            let seams = values_at_seams().len();
            let others = 4 * halves(kind).len() + 8 * READ_DECIMALS;
            let expected = 15 * edges + 11 * seams + others;
            assert_eq!(of_kind(kind, &mut rng()).commands(), expected);
        }
        assert_eq!(stored_decimals(&mut rng()).commands(), 12_000 / 6 * 7);
    }

    /// Digits that count, and digits after the point.
    fn lengths(value: &str) -> (usize, usize) {
        let value = value.trim_start_matches('-');
        let fraction = value.split_once('.').map_or(0, |parts| parts.1.len());
        let digits = value.replace('.', "");
        (digits.trim_start_matches('0').len(), fraction)
    }

    #[test]
    fn decimals_have_all_lengths_and_none_above_the_limit() {
        let mut rng = rng();
        let mut seen = BTreeSet::new();
        for _ in 0..5_000 {
            let value = any_decimal(&mut rng);
            let (significant, fraction) = lengths(&value);
            assert!((1..=15).contains(&significant) && fraction <= 15, "{value}");
            assert!(value.parse::<f64>().is_ok(), "{value}");
            seen.insert((significant, fraction));
            let near = decimal_near(KINDS[0], &mut rng);
            let (significant, fraction) = lengths(&near);
            assert!(significant <= 15 && fraction <= 15, "{near}");
        }
        assert_eq!(seen.iter().filter(|lengths| lengths.0 == 15).count(), 16);
        assert!(seen.len() > 200);
    }

    #[test]
    fn a_stored_float_is_judged_with_two_whole_values() {
        let mut script = Script::default();
        say_stored(&mut script, KINDS[3], "179.5");
        let expected = "power-on\ndamage reading roll 179.5\nevent 0\ndamage whole roll -180\n\
            bench\nevent 64\ndisplay 0\n";
        assert_eq!(text(&script), expected);
    }

    #[test]
    fn a_reading_is_followed_by_the_bench_and_by_entries() {
        let mut script = Script::default();
        say_reading(&mut script, "roll", "1.5");
        let expected = "power-on\nreading roll 1.5\nbench\nevent 64\nevent 131072\n\
            event 262144\nevent 524288\ndisplay 0\n";
        assert_eq!(text(&script), expected);
    }
}
