//! Frames: what a send copies, as bytes in a bus area.

use std::ops::Range;

use crate::bench::{Bench, Channel, Reference, References, Refusal};
use crate::calls;
use crate::codes;

/// The bytes of a frame.
pub const LENGTH: usize = 19;

/// The mark and the version, high byte first.
const HEAD: [u8; 5] = *b"FGB\x00\x01";

/// The references as they follow the set code: how many bytes each has, and
/// what is added so that no number is negative.
const LAYOUT: [(Reference, usize, i32); 7] = [
    (Reference::Heading, 2, 0),
    (Reference::VerticalSpeed, 1, 50),
    (Reference::Roll, 1, 27),
    (Reference::Pitch, 1, 20),
    (Reference::Ias, 2, 0),
    (Reference::Preselected, 2, 8_000),
    (Reference::Held, 2, 8_000),
];

/// What a frame says.
#[derive(Clone, Copy, PartialEq, Eq, Debug)]
pub struct Frame {
    pub side: u8,
    pub channel: Channel,
}

/// Where so many bytes stand in an area from a start on; `None` if they do not
/// all lie inside it.
pub fn place(area: &[u8], start: u64, length: usize) -> Option<Range<usize>> {
    let start = usize::try_from(start).ok()?;
    let end = start.checked_add(length)?;
    (end <= area.len()).then_some(start..end)
}

/// Puts the frame of a side into the area; a refused one leaves all bytes.
pub fn write(bench: &Bench, side: u32, area: &mut [u8], start: u64) -> Result<(), Refusal> {
    let side = calls::check_side(bench, side)?;
    let place = place(area, start, LENGTH).ok_or(Refusal::Place)?;
    let bytes = encode(side as u8, &bench.sides[side])?;
    area[place].copy_from_slice(&bytes);
    Ok(())
}

/// Reads the frame from the start on. What stands around it does not matter.
pub fn read(area: &[u8], start: u64) -> Result<Frame, Refusal> {
    let place = place(area, start, LENGTH).ok_or(Refusal::Place)?;
    let (head, fields) = area[place].split_at(HEAD.len());
    if head != HEAD {
        return Err(Refusal::Mark);
    }
    decode(fields).ok_or(Refusal::Field)
}

/// Only an unsound side has a set without a code.
fn encode(side: u8, channel: &Channel) -> Result<Vec<u8>, Refusal> {
    let code = codes::code_of(channel.modes).ok_or(Refusal::Unsound)?;
    let mut bytes = HEAD.to_vec();
    bytes.extend([side, u8::from(channel.fd), code]);
    for (reference, width, added) in LAYOUT {
        let number = channel.references.get(reference) + added;
        let number = number.to_be_bytes();
        bytes.extend(&number[number.len() - width..]);
    }
    Ok(bytes)
}

/// The frame of the bytes after its head; `None` if one is out of range.
fn decode(fields: &[u8]) -> Option<Frame> {
    let &[side @ 0..=1, fd @ 0..=1, code, ref numbers @ ..] = fields else {
        return None;
    };
    let channel = Channel {
        fd: fd == 1,
        modes: codes::set_of(code)?,
        references: references(numbers),
    };
    channel
        .references
        .are_in_range()
        .then_some(Frame { side, channel })
}

/// In range or not.
fn references(mut bytes: &[u8]) -> References {
    let mut references = References::new([0; 7]);
    for (reference, width, added) in LAYOUT {
        let (number, rest) = bytes.split_at(width);
        let high_first = |sum: i32, &byte: &u8| sum * 256 + i32::from(byte);
        references.put(reference, number.iter().fold(0, high_first) - added);
        bytes = rest;
    }
    references
}
