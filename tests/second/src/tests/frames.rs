//! Frames written into and read from a bus area.

use super::{after, read as reading, RANGES};
use crate::bench::{Bench, Channel, Kind, Reference, References, Refusal};
use crate::calls;
use crate::codes;
use crate::frames::{self, Frame, LENGTH};
use crate::sets::ModeSet;

/// Left at power-on: mark, version 1, side, FD, Off, heading, vertical speed,
/// roll, pitch, IAS 120, preselected and held altitude.
#[rustfmt::skip]
const POWER_ON: [u8; LENGTH] = [
    b'F', b'G', b'B', 0, 1, 0, 0, 0,
    0, 0, 50, 27, 20, 0, 120, 0x1f, 0x40, 0x1f, 0x40,
];

/// A byte that no place of a frame under test has by chance alone.
const FILLER: u8 = 0xee;

fn written(bench: &Bench, side: u32) -> Vec<u8> {
    let mut area = vec![FILLER; LENGTH];
    assert_eq!(frames::write(bench, side, &mut area, 0), Ok(()));
    area
}

fn with_channel(side: usize, channel: Channel) -> Bench {
    let mut bench = Bench::power_on();
    bench.sides[side] = channel;
    bench
}

fn channel(fd: bool, code: u8, values: [i32; 7]) -> Channel {
    Channel {
        fd,
        modes: codes::set_of(code).unwrap(),
        references: References::new(values),
    }
}

#[test]
fn the_frame_of_the_power_on_bench_byte_by_byte() {
    let bench = Bench::power_on();
    assert_eq!(written(&bench, 0), POWER_ON);
    let mut right = POWER_ON;
    right[5] = 1;
    assert_eq!(written(&bench, 1), right);
}

#[test]
fn every_field_has_its_place_and_the_high_byte_comes_first() {
    // Heading 258, altitudes 4,660 and -7,000, vertical speed -3, IAS 300, roll
    // 5, pitch -7: each of the two-byte numbers has two different bytes.
    let values = [258, 4_660, -7_000, -3, 300, 5, -7];
    let bench = with_channel(1, channel(true, 107, values));
    #[rustfmt::skip]
    let expected = [
        0x46, 0x47, 0x42, 0x00, 0x01, 1, 1, 107,
        0x01, 0x02, 47, 32, 13, 0x01, 0x2c, 0x31, 0x74, 0x03, 0xe8,
    ];
    assert_eq!(written(&bench, 1), expected);
    // The other side has nothing of it.
    assert_eq!(written(&bench, 0), POWER_ON);
}

#[test]
fn a_frame_holds_what_a_send_would_copy_and_is_no_send() {
    let mut bench = after(&[1 << 16, 1 << 10]);
    reading(&mut bench, Kind::Airspeed, 251.5).unwrap();
    assert_eq!(calls::event(&mut bench, 1 << 18), Ok(18));
    let kept = bench;
    let bytes = written(&bench, 0);
    assert_eq!(bench, kept);
    let frame = frames::read(&bytes, 0).unwrap();
    assert_eq!(calls::send(&mut bench, 0), Ok(()));
    assert_eq!((frame.side, frame.channel), (0, bench.inboxes[1]));
    assert_ne!(kept.inboxes[1], bench.inboxes[1]);
}

#[test]
fn what_was_written_is_read_for_all_codes_of_both_sides() {
    for code in 0..=107 {
        for (side, fd) in [(0, false), (0, true), (1, false), (1, true)] {
            let sent = channel(fd, code, [359, -8_000, 56_000, 50, 60, -27, 20]);
            let bytes = written(&with_channel(side, sent), side as u32);
            assert_eq!(bytes[7], code);
            let expected = Frame {
                side: side as u8,
                channel: sent,
            };
            assert_eq!(frames::read(&bytes, 0), Ok(expected));
        }
    }
}

#[test]
fn what_was_written_is_read_for_all_values_of_references() {
    for (reference, low, high) in RANGES {
        for value in low..=high {
            let mut bench = Bench::power_on();
            bench.sides[0].references.put(reference, value);
            let frame = frames::read(&written(&bench, 0), 0).unwrap();
            assert_eq!(frame.channel, bench.sides[0]);
        }
    }
}

#[test]
fn other_bytes_of_the_area_stay() {
    let bench = Bench::power_on();
    for length in [19, 20, 37, 38, 60] {
        for start in 0..=length - LENGTH {
            let mut area = vec![FILLER; length];
            assert_eq!(frames::write(&bench, 0, &mut area, start as u64), Ok(()));
            let (before, rest) = area.split_at(start);
            let (frame, later) = rest.split_at(LENGTH);
            assert_eq!(frame, POWER_ON);
            assert!(before.iter().chain(later).all(|&byte| byte == FILLER));
            assert!(frames::read(&area, start as u64).is_ok());
        }
    }
}

/// Starts from which no frame fits in an area of that length.
fn bad_starts(length: usize) -> Vec<u64> {
    let first = (length + 1).saturating_sub(LENGTH) as u64;
    let mut starts: Vec<u64> = (first..=length as u64 + 20).collect();
    starts.extend([1 << 16, 1 << 32, 1 << 63]);
    starts.extend(u64::MAX - 40..=u64::MAX);
    starts
}

#[test]
fn refusal_7_place() {
    let bench = Bench::power_on();
    for length in [0, 1, 18, 19, 20, 38, 2_048] {
        for start in bad_starts(length) {
            let mut area = vec![FILLER; length];
            let answer = frames::write(&bench, 0, &mut area, start);
            assert_eq!(answer, Err(Refusal::Place), "{length} {start}");
            assert_eq!(area, vec![FILLER; length]);
            // The mark is wrong too.
            assert_eq!(frames::read(&area, start), Err(Refusal::Place));
        }
    }
}

#[test]
fn refusals_1_and_2_come_ahead_of_7() {
    let mut unsound = Bench::power_on();
    unsound.inboxes[0].references.put(Reference::Ias, 59);
    let mut area = [FILLER; 30];
    for start in [0, 12, 30, 31, u64::MAX] {
        for side in [0, 1, 2, u32::MAX] {
            let answer = frames::write(&unsound, side, &mut area, start);
            assert_eq!(answer, Err(Refusal::Unsound));
        }
        for side in [2, 3, 256, 1 << 31, u32::MAX] {
            let answer = frames::write(&Bench::power_on(), side, &mut area, start);
            assert_eq!(answer, Err(Refusal::Side));
        }
    }
    assert_eq!(area, [FILLER; 30]);
}

#[test]
fn refusal_8_mark_and_version_ahead_of_9() {
    for index in 0..5 {
        for bit in 0..8 {
            let mut bytes = POWER_ON;
            bytes[index] ^= 1 << bit;
            assert_eq!(frames::read(&bytes, 0), Err(Refusal::Mark));
            bytes[5..].fill(0xff);
            assert_eq!(frames::read(&bytes, 0), Err(Refusal::Mark));
            assert_eq!(frames::read(&bytes, 1), Err(Refusal::Place));
        }
    }
    // The version with its low byte first.
    let mut swapped = POWER_ON;
    swapped.swap(3, 4);
    assert_eq!(frames::read(&swapped, 0), Err(Refusal::Mark));
}

/// Where a field stands, how wide it is, and its lowest and highest number.
const FIELDS: [(usize, usize, u16, u16); 10] = [
    (5, 1, 0, 1),
    (6, 1, 0, 1),
    (7, 1, 0, 107),
    (8, 2, 0, 359),
    (10, 1, 0, 100),
    (11, 1, 0, 54),
    (12, 1, 0, 40),
    (13, 2, 60, 400),
    (15, 2, 0, 64_000),
    (17, 2, 0, 64_000),
];

#[test]
fn refusal_9_ranges_of_fields() {
    for (at, width, low, high) in FIELDS {
        let most = if width == 1 { 255 } else { u16::MAX };
        for number in 0..=most {
            let mut bytes = POWER_ON;
            bytes[at..at + width].copy_from_slice(&number.to_be_bytes()[2 - width..]);
            let answer = frames::read(&bytes, 0);
            if (low..=high).contains(&number) {
                assert!(answer.is_ok(), "{at} {number}");
            } else {
                assert_eq!(answer, Err(Refusal::Field), "{at} {number}");
            }
        }
    }
}

#[test]
fn a_frame_is_read_in_the_middle_of_an_area_and_over_another() {
    let values = [258, 4_660, -7_000, -3, 300, 5, -7];
    let bench = with_channel(1, channel(true, 16, values));
    let mut area = vec![FILLER; 50];
    assert_eq!(frames::write(&bench, 0, &mut area, 3), Ok(()));
    assert_eq!(frames::write(&bench, 1, &mut area, 12), Ok(()));
    assert_eq!(frames::read(&area, 3), Err(Refusal::Field));
    let frame = frames::read(&area, 12).unwrap();
    assert_eq!((frame.side, frame.channel), (1, bench.sides[1]));
    assert_eq!(frame.channel.modes, ModeSet::from_numbers(1, 2, 2, true));
    for start in [0, 2, 4, 11, 13, 31] {
        assert_eq!(frames::read(&area, start), Err(Refusal::Mark));
    }
}
