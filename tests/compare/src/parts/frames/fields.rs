//! The fields of a frame at and past the ends of their ranges, read and written.

use super::frame::{self, all_bytes, Field, Frame, FIELDS, LEFT, RIGHT, SHARE};
use crate::parts::words::{Ranged, REFERENCES, SIDES};
use crate::rng::Rng;
use crate::say;
use crate::script::Script;

/// The frames by chance.
const CHANCES: usize = 3_000;

/// Every byte of two good frames changed to every value, one at a time.
pub fn every_byte() -> Script {
    let mut script = Script::default();
    for good in [LEFT, RIGHT] {
        for at in 0..frame::LENGTH {
            for values in all_bytes().chunks(SHARE) {
                script.line("area 19");
                frame::poke(&mut script, 0, &good);
                for &value in values {
                    frame::poke(&mut script, at, &[value]);
                    script.line("read 0");
                }
            }
        }
    }
    script
}

/// Numbers of two bytes: all of a small range, and some of the altitudes.
pub fn numbers() -> Script {
    let mut script = Script::default();
    for field in FIELDS.into_iter().filter(|field| field.width == 2) {
        for numbers in wide_numbers(field).chunks(SHARE) {
            script.line("area 24");
            frame::poke(&mut script, 3, &RIGHT);
            for &number in numbers {
                frame::poke(&mut script, 3 + field.at, &field.bytes(number));
                script.line("read 3");
            }
        }
    }
    script
}

fn wide_numbers(field: Field) -> Vec<u16> {
    let step = if field.high < 1_000 { 1 } else { 499 };
    let mut numbers: Vec<u16> = (0..=field.high).step_by(step).collect();
    numbers.extend(field.high - 2..=field.high + 5);
    numbers.extend([255, 256, 257, 511, 512, 513, 0x7fff, 0x8000, 0x8001]);
    // Numbers that are in range with the bytes exchanged.
    numbers.extend([field.low, field.high, 1, 258].map(u16::swap_bytes));
    numbers.extend(u16::MAX - 3..=u16::MAX);
    numbers
}

/// Each field at its ends and past them, among fields at their low ends, at their high ends and
/// in between; and every two fields past their ends at once.
pub fn ends() -> Script {
    let mut script = Script::default();
    for good in goods() {
        read(&mut script, good);
        for field in FIELDS {
            for number in beside(field) {
                read(&mut script, frame::with(good, field, number));
            }
            for other in FIELDS.into_iter().filter(|other| other.at > field.at) {
                let bad = frame::with(good, field, field.past());
                read(&mut script, frame::with(bad, other, other.past()));
            }
        }
    }
    script
}

fn goods() -> [Frame; 4] {
    let all = |end: fn(Field) -> u16| {
        let put = |frame, field| frame::with(frame, field, end(field));
        FIELDS.into_iter().fold(LEFT, put)
    };
    [LEFT, RIGHT, all(|field| field.low), all(|field| field.high)]
}

fn beside(field: Field) -> Vec<u16> {
    let half = field.most() / 2;
    vec![
        0,
        field.low.saturating_sub(1),
        field.low,
        field.low + 1,
        field.high - 1,
        field.high,
        field.past(),
        half,
        half + 1,
        field.most(),
    ]
}

fn read(script: &mut Script, frame: Frame) {
    script.line("area 19");
    frame::poke(script, 0, &frame);
    script.line("read 0");
}

// ---- Written ----

/// References of a side brought to where they are written. Past its range the bench is unsound,
/// and the area has to stay.
pub fn written() -> Script {
    let mut script = Script::default();
    for (number, side) in SIDES.iter().enumerate() {
        for reference in REFERENCES {
            script.line("power-on");
            frame::fill(&mut script, 21);
            for value in values(reference) {
                say!(script, "damage {side} {} {value}", reference.name);
                say!(script, "write {number} 1");
                script.line("bytes");
                script.line("read 1");
            }
        }
    }
    script
}

/// Ends and what is past them stand among values in range, so that a refused write meets a frame
/// other than its own.
fn values(reference: Ranged) -> Vec<i32> {
    let (low, high) = (reference.low, reference.high);
    let step = match high - low {
        0..=150 => 1,
        151..=400 => 7,
        _ => 997,
    };
    let mut values: Vec<i32> = (low..=high).step_by(step).collect();
    let past = [low - 1, high + 1, i32::MIN, i32::MAX];
    let cut = [256, 65_536, -65_536, 1 << 24].map(|wrap| wrap + high);
    for value in past.into_iter().chain(cut) {
        values.extend([value, (low + high) / 2, low, value, high]);
    }
    values
}

// ---- By chance ----

/// Whole frames by chance, most of them good and some with a bad byte or two.
pub fn by_chance(rng: &mut Rng) -> Script {
    let mut script = Script::default();
    for number in 0..CHANCES {
        if number % SHARE == 0 {
            frame::fill(&mut script, 60);
        }
        let start = rng.below(60 - frame::LENGTH + 1);
        frame::poke(&mut script, start, &any_frame(rng));
        say!(script, "read {start}");
        if rng.percent(10) {
            say!(script, "read {}", rng.below(64));
        }
    }
    script
}

fn any_frame(rng: &mut Rng) -> Frame {
    let mut frame = LEFT;
    for field in FIELDS {
        let (low, high) = (i64::from(field.low), i64::from(field.high));
        let number = match rng.below(100) {
            0 => rng.between(0, i64::from(field.most())),
            1 => high + 1,
            2..=9 => rng.pick(&[low, high]),
            _ => rng.between(low, high),
        };
        frame = frame::with(frame, field, number as u16);
    }
    if rng.percent(5) {
        frame[rng.below(frame::LENGTH)] ^= 1 << rng.below(8);
    }
    frame
}

#[cfg(test)]
mod tests {
    use super::*;
    use crate::parts::frames::frame::hex;
    use std::collections::BTreeSet;

    fn lines(script: &Script) -> BTreeSet<String> {
        let text = String::from_utf8(script.text().to_vec()).unwrap();
        text.lines().map(String::from).collect()
    }

    #[test]
    fn every_byte_takes_every_value() {
        let script = every_byte();
        assert_eq!(script.commands(), 2 * 19 * 16 * (2 + 2 * 16));
        let lines = lines(&script);
        for at in 0..19 {
            for value in 0..=255 {
                assert!(lines.contains(&format!("poke {at} {value:02x}")));
            }
        }
    }

    #[test]
    fn wide_numbers_have_their_ends_in_both_orders() {
        let lines = lines(&numbers());
        for number in ["0167", "0168", "6701", "0000", "ffff"] {
            assert!(lines.contains(&format!("poke 11 {number}")), "{number}");
        }
        for number in ["003b", "003c", "3c00", "0190", "0191"] {
            assert!(lines.contains(&format!("poke 16 {number}")), "{number}");
        }
        for at in [18, 20] {
            for number in ["fa00", "fa01", "00fa"] {
                assert!(lines.contains(&format!("poke {at} {number}")), "{number}");
            }
        }
    }

    #[test]
    fn every_field_stands_past_its_ends() {
        let lines = lines(&ends());
        for good in goods() {
            for field in FIELDS {
                for number in [field.low, field.high, field.past()] {
                    let frame = frame::with(good, field, number);
                    assert!(lines.contains(&format!("poke 0 {}", hex(&frame))));
                }
            }
        }
        assert_eq!(ends().commands(), 3 * 4 * (1 + 10 * 10 + 45));
    }

    #[test]
    fn references_are_written_at_and_past_their_ends() {
        let lines = lines(&written());
        for side in SIDES {
            for value in [
                "heading -1",
                "heading 0",
                "heading 359",
                "heading 360",
                "preselected -8000",
                "held 56001",
                "vertical-speed 51",
                "ias 59",
                "roll -28",
                "pitch -2147483648",
            ] {
                assert!(lines.contains(&format!("damage {side} {value}")), "{value}");
            }
        }
    }

    #[test]
    fn most_frames_by_chance_are_in_range() {
        let mut rng = Rng::of_list(1, 0);
        let in_range = |frame: Frame| {
            FIELDS.iter().all(|field| {
                let bytes = frame[field.at..field.at + field.width].iter();
                let number = bytes.fold(0, |sum: u16, &byte| sum * 256 + u16::from(byte));
                (field.low..=field.high).contains(&number)
            })
        };
        let good = (0..1_000).filter(|_| in_range(any_frame(&mut rng)));
        assert!((700..950).contains(&good.count()));
    }
}
