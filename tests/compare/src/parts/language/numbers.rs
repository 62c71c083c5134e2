//! Numbers of every form, good and bad, at every place that takes one.

/// The places; each takes a number where the braces stand.
const PLACES: [&str; 38] = [
    "event {}",
    "turn {} 7",
    "turn 1 {}",
    "send {}",
    "refresh {}",
    "display {}",
    "pick {}",
    "start {}",
    "start -{}",
    "damage pf {}",
    "damage independent {}",
    "damage left set {} 0 1 0",
    "damage left set 4 {} 1 0",
    "damage left set 4 0 {} 0",
    "damage left set 4 0 1 {}",
    "damage left set 0 {} 0 0",
    "damage left set 0 0 {} 0",
    "damage right ias {}",
    "damage left-inbox held {}",
    "reading roll {}",
    "damage reading altitude {}",
    "damage reading pitch -{}",
    "damage whole altitude {}",
    "damage whole heading -{}",
    "knob {} 7",
    "knob 1 {}",
    "knob heading -{}",
    "press {}",
    "signal {}",
    "watch {}",
    "help {}",
    // The last length that is accepted leaves an area for the lines after it.
    "area {}",
    "poke {} 5a",
    "poke 0 {}",
    "write {} 0",
    "write 0 {}",
    "read {}",
    "bytes {}",
];

/// Whole numbers about the ends of 8, 16, 32, 63 and 64 bits, and ones that would be small if
/// they were cut to fewer bits.
const WHOLE: [&str; 69] = [
    "0",
    "1",
    "2",
    "3",
    "4",
    "5",
    "6",
    "7",
    "8",
    "9",
    "00",
    "01",
    "007",
    "0000000000000000000000000000000000000001",
    "126",
    "127",
    "0127",
    "128",
    "129",
    "255",
    "256",
    "257",
    "300",
    "2047",
    "2048",
    "2049",
    "32767",
    "32768",
    "65535",
    "65536",
    "65537",
    "1048575",
    "1048576",
    "2097152",
    "2147483646",
    "2147483647",
    "2147483648",
    "2147483649",
    "4294967294",
    "4294967295",
    "4294967296",
    "4294967297",
    "4294967551",
    "9223372036854775807",
    "9223372036854775808",
    "18446744073709551614",
    "18446744073709551615",
    "18446744073709551616",
    "18446744073709551617",
    "340282366920938463463374607431768211457",
    "99999999999999999999999999999999999999999999999999999999999999999999",
    "-0",
    "-1",
    "-2",
    "-00",
    "-007",
    "-126",
    "-127",
    "-128",
    "-0128",
    "-129",
    "-255",
    "-256",
    "-2147483647",
    "-2147483648",
    "-2147483649",
    "-4294967296",
    "-9223372036854775809",
    "-18446744073709551617",
];

/// Forms that look like numbers, and the limits of decimal numbers and patterns.
const FORMS: [&str; 72] = [
    "-",
    "+",
    "+0",
    "+1",
    "--1",
    "-+1",
    "1-",
    "1+",
    ".",
    "-.",
    "1.",
    "-1.",
    ".5",
    "-.5",
    "0.5",
    "1.0",
    "1.5",
    "-1.5",
    "1..5",
    "1.2.3",
    "1.-5",
    "1,5",
    "1,000",
    "1_000",
    "1'000",
    "1e5",
    "1E5",
    "1e-5",
    "1f",
    "1u8",
    "0b1",
    "0o7",
    "x",
    "one",
    "0x",
    "0x1",
    "0x40c38800000000",
    "0x40c388000000000",
    "0x40c3880000000000",
    "0x40c38800000000000",
    "0x0040c3880000000000",
    "0X40c3880000000000",
    "0x40c388000000000g",
    "0x40c388000000000-",
    "0x+0c3880000000000",
    "-0x40c3880000000000",
    "40c3880000000000",
    "0x7FEFFFFFFFFFFFFF",
    "0x7feFffFffffFffff",
    "0xABCDEFabcdef0123",
    "0x40c3.88000000000",
    "12345678901234",
    "123456789012345",
    "1234567890123456",
    "12345678901234.5",
    "123456789012345.6",
    "100000000000000",
    "1000000000000000",
    "1.23456789012345",
    "1.234567890123456",
    "1.00000000000000",
    "1.000000000000000",
    "0.123456789012345",
    "0.1234567890123456",
    "0.000000000000000",
    "0.0000000000000000",
    "0.000000000000001",
    "0.0000000000000001",
    "00000000000000000000.5",
    "000000000000000000000000.000000000000001",
    "0000000000000000000123456789012345",
    "0000000000000000001234567890123456",
];

const NAMES: [&str; 16] = [
    "nan",
    "NaN",
    "NAN",
    "-nan",
    "+nan",
    "nan(1)",
    "inf",
    "-inf",
    "+inf",
    "Inf",
    "INF",
    "infinity",
    "-infinity",
    "true",
    "left",
    "roll",
];

/// Digits that are none of the language's.
const FOREIGN: [&str; 4] = ["\u{ff11}", "\u{663}", "\u{b2}", "1\u{a0}"];

pub fn lines() -> Vec<String> {
    let mut lines = Vec::new();
    for place in PLACES {
        let numbers = WHOLE.iter().chain(&FORMS).chain(&NAMES).chain(&FOREIGN);
        for number in numbers {
            lines.push(place.replace("{}", number));
        }
    }
    lines
}

#[cfg(test)]
mod tests {
    use super::*;

    #[test]
    fn every_form_stands_at_every_place() {
        let numbers = 69 + 72 + 16 + 4;
        assert_eq!(lines().len(), 38 * numbers);
    }

    #[test]
    fn the_limits_are_tried_at_their_places() {
        let all = lines();
        for line in [
            "event 4294967295",
            "event 4294967296",
            "turn 1 255",
            "turn 1 256",
            "turn 1 -1",
            "damage pf 255",
            "damage pf 256",
            "damage right ias -2147483648",
            "damage right ias -2147483649",
            "damage right ias 2147483648",
            "damage whole altitude -2147483648",
            "damage whole altitude -2147483649",
            "damage whole altitude 2147483647",
            "damage whole altitude 2147483648",
            "damage whole heading -2147483648",
            "damage whole heading --2147483648",
            "damage whole altitude 1.0",
            "damage whole altitude 4294967296",
            "damage left set 6 0 1 0",
            "damage left set 4 3 1 0",
            "damage left set 4 0 9 0",
            "damage left set 4 0 0 0",
            "damage left set 4 0 1 2",
            "reading roll 0x40c388000000000",
            "reading roll 0x40c38800000000000",
            "reading roll 1.000000000000000",
            "reading roll +1",
            "reading roll 1.",
            "reading roll .5",
            "reading roll 1e5",
            "knob 3 7",
            "knob 4 7",
            "knob -0 7",
            "knob 4294967296 7",
            "knob 1 127",
            "knob 1 128",
            "knob 1 -128",
            "knob 1 -129",
            "knob 1 +1",
            "knob 1 1.0",
        ] {
            assert!(all.contains(&line.to_string()), "{line}");
        }
    }

    #[test]
    fn the_limits_of_a_speed_are_tried() {
        let all = lines();
        for number in [
            "2147483647",
            "2147483648",
            "-2147483648",
            "-2147483649",
            "--1",
            "+1",
            "1.0",
            "-007",
            "300",
        ] {
            let line = format!("start {number}");
            assert!(all.contains(&line), "{line}");
        }
    }

    #[test]
    fn the_limits_of_a_flag_are_tried() {
        let all = lines();
        for number in ["0", "1", "01", "2", "-0", "-1", "257", "4294967297"] {
            let line = format!("damage independent {number}");
            assert!(all.contains(&line), "{line}");
        }
    }

    #[test]
    fn the_limits_of_the_area_are_tried() {
        let all = lines();
        for line in [
            "area 2048",
            "area 2049",
            "poke 18446744073709551616 5a",
            "write 4294967296 0",
            "write 0 18446744073709551615",
            "read 18446744073709551616",
        ] {
            assert!(all.contains(&line.to_string()), "{line}");
        }
    }

    #[test]
    fn no_form_stands_there_twice() {
        let mut all: Vec<&str> = WHOLE.iter().chain(&FORMS).chain(&NAMES).copied().collect();
        all.sort_unstable();
        let count = all.len();
        all.dedup();
        assert_eq!(all.len(), count);
    }
}
