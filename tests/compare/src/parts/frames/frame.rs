//! Frames as scripts poke them, and areas that show which bytes were touched.

use crate::say;
use crate::script::Script;

pub const LENGTH: usize = 19;

pub type Frame = [u8; LENGTH];

/// Where a field stands, and the range of the number that it holds.
#[derive(Clone, Copy)]
pub struct Field {
    pub at: usize,
    pub width: usize,
    pub low: u16,
    pub high: u16,
}

const fn field(at: usize, width: usize, low: u16, high: u16) -> Field {
    Field {
        at,
        width,
        low,
        high,
    }
}

/// Side, FD, set code, heading, vertical speed, roll, pitch, IAS, preselected and held altitude.
pub const FIELDS: [Field; 10] = [
    field(5, 1, 0, 1),
    field(6, 1, 0, 1),
    field(7, 1, 0, 107),
    field(8, 2, 0, 359),
    field(10, 1, 0, 100),
    field(11, 1, 0, 54),
    field(12, 1, 0, 40),
    field(13, 2, 60, 400),
    field(15, 2, 0, 64_000),
    field(17, 2, 0, 64_000),
];

/// Which of the fields is the set code.
pub const CODE: Field = FIELDS[2];

/// The bytes ahead of the fields: the mark and the version.
pub const HEAD: usize = 5;

/// The frame of left at power-on.
pub const LEFT: Frame = *b"FGB\x00\x01\x00\x00\x00\x00\x00\x32\x1b\x14\x00\x78\x1f\x40\x1f\x40";

/// A frame of right with another number in every field. The two bytes of a wide one differ, and so
/// do the numbers of the altitudes.
pub const RIGHT: Frame = *b"FGB\x00\x01\x01\x01\x3a\x01\x02\x2f\x20\x0d\x01\x2c\x31\x74\x03\xe8";

impl Field {
    /// The number that stands one above the highest.
    pub fn past(self) -> u16 {
        self.high + 1
    }

    /// The highest number that has room.
    pub fn most(self) -> u16 {
        if self.width == 1 {
            u16::from(u8::MAX)
        } else {
            u16::MAX
        }
    }

    pub fn bytes(self, number: u16) -> Vec<u8> {
        number.to_be_bytes()[2 - self.width..].to_vec()
    }
}

pub fn with(mut frame: Frame, field: Field, number: u16) -> Frame {
    frame[field.at..field.at + field.width].copy_from_slice(&field.bytes(number));
    frame
}

pub fn hex(bytes: &[u8]) -> String {
    bytes.iter().map(|byte| format!("{byte:02x}")).collect()
}

pub fn poke(script: &mut Script, start: usize, bytes: &[u8]) {
    say!(script, "poke {start} {}", hex(bytes));
}

/// How many changes of a frame share an area. A script that shows a difference starts at the last
/// area, so that few make it short.
pub const SHARE: usize = 16;

pub fn all_bytes() -> Vec<u8> {
    (0..=u8::MAX).collect()
}

/// So many bytes fit in a line with room to spare.
const PIECE: usize = 96;

/// An area without zeros, in which neighbours differ.
pub fn fill(script: &mut Script, length: usize) {
    say!(script, "area {length}");
    let bytes: Vec<u8> = (0..length)
        .map(|index| (index * 37 % 251) as u8 + 1)
        .collect();
    for (index, piece) in bytes.chunks(PIECE).enumerate() {
        poke(script, index * PIECE, piece);
    }
}

/// Two sides that differ in everything a frame holds, and inboxes that differ from both.
pub const UNLIKE: [&str; 24] = [
    "power-on",
    "press fd-right",
    "damage left set 2 1 6 0",
    "damage left heading 258",
    "damage left preselected -1",
    "damage left held 55999",
    "damage left vertical-speed -50",
    "damage left ias 257",
    "damage left roll 27",
    "damage left pitch -19",
    "damage right set 4 0 8 1",
    "damage right heading 1",
    "damage right preselected 12345",
    "damage right held -7999",
    "damage right vertical-speed 49",
    "damage right ias 60",
    "damage right roll -26",
    "damage right pitch 20",
    "damage left-inbox set 5 2 8 1",
    "damage left-inbox heading 77",
    "damage left-inbox held 777",
    "damage right-inbox set 3 0 2 0",
    "damage right-inbox ias 177",
    "damage right-inbox roll 7",
];

#[cfg(test)]
mod tests {
    use super::*;
    use crate::parts::words::REFERENCES;

    #[test]
    fn fields_fill_a_frame_and_both_frames_are_in_range() {
        let mut at = HEAD;
        for field in FIELDS {
            assert_eq!(field.at, at);
            at += field.width;
            for frame in [LEFT, RIGHT] {
                let bytes = frame[field.at..at].iter();
                let number = bytes.fold(0, |sum: u16, &byte| sum * 256 + u16::from(byte));
                assert!((field.low..=field.high).contains(&number));
            }
            assert_ne!(LEFT[field.at..at], RIGHT[field.at..at]);
        }
        assert_eq!(at, LENGTH);
    }

    #[test]
    fn the_spans_of_the_fields_are_those_of_the_references() {
        let order = [
            "heading",
            "vertical-speed",
            "roll",
            "pitch",
            "ias",
            "preselected",
            "held",
        ];
        for (field, name) in FIELDS[3..].iter().zip(order) {
            let reference = REFERENCES.iter().find(|row| row.name == name).unwrap();
            let span = i32::from(field.high) - i32::from(field.low);
            assert_eq!(span, reference.high - reference.low, "{name}");
        }
    }

    #[test]
    fn numbers_are_put_with_the_high_byte_first() {
        let frame = with(with(LEFT, FIELDS[3], 0x0167), CODE, 107);
        assert_eq!((frame[7], &frame[8..10]), (107, &[0x01, 0x67][..]));
        assert_eq!((CODE.past(), CODE.most()), (108, 255));
        assert_eq!((FIELDS[9].past(), FIELDS[9].most()), (64_001, 65_535));
    }

    #[test]
    fn a_filled_area_has_no_zero_and_no_start_of_a_frame() {
        let mut script = Script::default();
        fill(&mut script, 2_048);
        let text = String::from_utf8(script.text().to_vec()).unwrap();
        assert!(text.starts_with("area 2048\npoke 0 01264b"));
        let digits: String = text
            .lines()
            .skip(1)
            .map(|line| line.rsplit(' ').next().unwrap())
            .collect();
        assert_eq!(digits.len(), 2 * 2_048);
        for at in (0..digits.len()).step_by(2) {
            assert_ne!(&digits[at..at + 2], "00");
            assert!(!digits[at..].starts_with("4647"));
        }
        assert!(text.lines().all(|line| line.len() <= 255));
    }
}
