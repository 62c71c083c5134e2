//! Speeds that are refused, each after a start that was not, so that a bench which is left as it
//! was is noticed.

use super::{bench, say_start, SPEEDS};
use crate::parts::sheet::Told;

/// All speeds this far from an end of those that are accepted.
const BESIDE: i32 = 250;

/// What a limit of another sort than the speed's would be: the ends of the airspeed reading and of
/// other ranges, the ends of 8, 16, 24 and 32 bits, and both signs of accepted speeds.
const FAR: [i32; 24] = [
    -400,
    -399,
    -360,
    600,
    601,
    1_000,
    32_767,
    32_768,
    -32_768,
    65_535,
    65_536,
    56_000,
    -8_000,
    100_000,
    1_000_000,
    16_777_216,
    -16_777_216,
    1_000_000_000,
    -1_000_000_000,
    i32::MAX - 1,
    i32::MAX,
    i32::MIN,
    i32::MIN + 1,
    -65_536,
];

/// What is lost where a number is cut to fewer bits; below 512 the accepted speeds themselves are.
const CUTS: [i32; 5] = [512, 1 << 10, 1 << 16, 1 << 24, i32::MIN];

pub fn all() -> Told {
    let mut told = Told::default();
    for (index, speed) in outside().into_iter().enumerate() {
        // Another speed ahead of each, never the default one.
        let before = 130 + (index as i32 * 7) % 270;
        say_start(&mut told, before);
        told.say("knob speed 1", "turn 0");
        let left = say_start(&mut told, speed);
        told.say("bench", &bench(left, 0));
        told.say("event 0", "event 0 32");
    }
    told
}

fn outside() -> Vec<i32> {
    let (low, high) = (*SPEEDS.start(), *SPEEDS.end());
    let mut speeds: Vec<i32> = (low - BESIDE..low).collect();
    speeds.extend(high + 1..=high + BESIDE);
    speeds.extend(FAR);
    for cut in CUTS {
        let ends = [low, low + 60, high].map(|speed| [speed + cut, speed.wrapping_sub(cut)]);
        speeds.extend(ends.concat());
    }
    speeds.retain(|speed| !SPEEDS.contains(speed));
    speeds
}

#[cfg(test)]
mod tests {
    use super::*;

    #[test]
    fn neighbours_and_far_ones_are_there() {
        let all = outside();
        for speed in [
            59,
            401,
            58,
            402,
            0,
            -1,
            -60,
            -120,
            -190,
            650,
            10,
            600,
            601,
            632,
            65_656,
            -65_416,
            i32::MIN,
            i32::MIN + 120,
            i32::MAX,
        ] {
            assert!(all.contains(&speed), "{speed}");
        }
        assert!(all.iter().all(|speed| !SPEEDS.contains(speed)));
    }

    #[test]
    fn each_is_refused_after_another_speed() {
        let told = all();
        let text = String::from_utf8(told.script.text().to_vec()).unwrap();
        let starts: Vec<&str> = text.lines().filter(|line| line.starts_with('s')).collect();
        for pair in starts.chunks(2) {
            let before: i32 = pair[0].strip_prefix("start ").unwrap().parse().unwrap();
            assert!((130..400).contains(&before));
        }
        assert_eq!(told.paper.matches("start 10\n").count(), outside().len());
        assert_eq!(told.paper.matches("start 0\n").count(), outside().len());
    }
}
