//! How a speed may be written, and what looks like a start and is none.

use super::{bench, say_start, DEFAULT};
use crate::parts::sheet::Told;

/// Accepted speeds and how they are written.
const ACCEPTED: [(&str, i32); 9] = [
    ("60", 60),
    ("060", 60),
    ("0000000120", 120),
    ("00000000000000000000000000000000000000000400", 400),
    ("0090", 90),
    ("399#", 399),
    ("61 # 62", 61),
    ("\t119\r", 119),
    ("  121  ", 121),
];

/// Numbers that are refused, and so start the default bench.
const REFUSED: [&str; 14] = [
    "0",
    "-0",
    "00",
    "-00",
    "000",
    "-060",
    "-60",
    "-0120",
    "059",
    "0401",
    "2147483647",
    "-2147483648",
    "00000000002147483647",
    "-00000000002147483648",
];

/// What follows the word of the command in lines that are errors.
const WRONG: [&str; 56] = [
    "",
    " ",
    "\t\r",
    "#",
    " # 60",
    " 2147483648",
    " -2147483649",
    " 4294967296",
    " 4294967416",
    " -4294967176",
    " 18446744073709551736",
    " 340282366920938463463374607431768211576",
    " 99999999999999999999999999999999999999999999",
    " 60.0",
    " 60.",
    " .60",
    " 120.5",
    " +60",
    " +120",
    " --60",
    " -+60",
    " -",
    " - 60",
    " 60-",
    " 6-0",
    " 0x78",
    " 0x3c",
    " 0x405e000000000000",
    " 78h",
    " 6e1",
    " 1e2",
    " 1,20",
    " 1_20",
    " 60kt",
    " 60 kt",
    " kt 60",
    " x",
    " nan",
    " inf",
    " left",
    " speed",
    " airspeed 120",
    " ias 120",
    " 60 61",
    " 60 60",
    " 60 0",
    " 401 60",
    " 60 x",
    " default",
    " power-on",
    " start 60",
    "60",
    "-60",
    "s 60",
    "=60",
    ",60",
];

/// Other lines that start nothing.
const OTHERS: [&str; 12] = [
    "Start 60",
    "START 60",
    "sTart 60",
    "star 60",
    "sstart 60",
    "restart 60",
    "start_60",
    "power-on 60",
    "power-on start 60",
    "60 start",
    "60",
    "speed 60",
];

pub fn all() -> Told {
    let mut told = Told::default();
    for (word, speed) in ACCEPTED {
        told.say("power-on", "power-on 0");
        told.say(&format!("start {word}"), "start 0");
        told.say("bench", &bench(speed, 0));
    }
    for word in REFUSED {
        say_start(&mut told, 333);
        told.say(&format!("start {word}"), "start 10");
        told.say("bench", &bench(DEFAULT, 0));
    }
    // The pilot flying shows that the bench stays the one that runs.
    let kept = bench(333, 0).replacen("bench 0", "bench 1", 1);
    for line in wrong() {
        say_start(&mut told, 333);
        told.say("press transfer", "event 0 5");
        told.error(&line);
        told.say("bench", &kept);
    }
    told
}

fn wrong() -> Vec<String> {
    let starts = WRONG.map(|rest| format!("start{rest}"));
    let others = OTHERS.map(String::from);
    starts.into_iter().chain(others).collect()
}

#[cfg(test)]
mod tests {
    use super::*;
    use crate::parts::sheet;
    use crate::parts::starts::SPEEDS;

    #[test]
    fn errors_have_the_numbers_of_their_lines() {
        let wrong: Vec<Vec<u8>> = wrong().into_iter().map(String::into_bytes).collect();
        assert_eq!(sheet::errors(&all()), wrong);
    }

    #[test]
    fn accepted_and_refused_words_are_what_they_are_said_to_be() {
        for (word, speed) in ACCEPTED {
            let bare = word.split('#').next().unwrap().trim();
            assert_eq!(bare.parse(), Ok(speed), "{word}");
        }
        for word in REFUSED {
            let speed: i32 = word.parse().unwrap();
            assert!(!SPEEDS.contains(&speed), "{word}");
        }
    }
}
