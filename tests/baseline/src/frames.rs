//! Frames: what a send copies, as 19 bytes in an area. The code of a set stands in a table, and so does the set of
//! a code.
use crate::bench::{self, Bench, HIGHEST, LOWEST};
use crate::modes::OFF;
use crate::tables::{CODE, SET, SETS};

/// The bytes of a frame.
pub const LENGTH: usize = 19;

/// The mark, and the version in two bytes.
const MARK: [u8; 5] = [b'F', b'G', b'B', 0, 1];

/// What a frame says, and zeros where it is refused. The eighth number of the references is none, as in a bench.
#[derive(Clone, Copy, Debug, PartialEq, Eq)]
pub struct FrameRead {
    pub refusal: u32,
    pub side: u32,
    pub fd: bool,
    pub set: u8,
    pub references: [i32; 8],
}

/// The frame of a side of a sound bench. Each reference is in its range, so that no number here is negative or too
/// large for its bytes.
#[inline]
fn frame(b: &Bench, side: usize) -> [u8; LENGTH] {
    let r = &b.numbers[side];
    let [heading_high, heading_low] = (r[bench::HEADING] as u16).to_be_bytes();
    let [ias_high, ias_low] = (r[bench::IAS] as u16).to_be_bytes();
    let [preselected_high, preselected_low] = ((r[bench::PRESELECTED] + 8000) as u16).to_be_bytes();
    let [held_high, held_low] = ((r[bench::HELD] + 8000) as u16).to_be_bytes();
    [
        MARK[0],
        MARK[1],
        MARK[2],
        MARK[3],
        MARK[4],
        side as u8,
        u8::from(b.fds[side]),
        CODE[b.sets[side] as usize],
        heading_high,
        heading_low,
        (r[bench::VERTICAL_SPEED] + 50) as u8,
        (r[bench::ROLL] + 27) as u8,
        (r[bench::PITCH] + 20) as u8,
        ias_high,
        ias_low,
        preselected_high,
        preselected_low,
        held_high,
        held_low,
    ]
}

/// Writes the frame of a side into the area, from a start on. Answers the refusal.
#[inline]
pub fn write(b: &Bench, side: u32, area: &mut [u8], start: usize) -> u32 {
    if !b.is_sound() {
        return 1;
    }
    if side > 1 {
        return 2;
    }
    let Some(place) = area
        .get_mut(start..)
        .and_then(|part| part.first_chunk_mut())
    else {
        return 7;
    };
    *place = frame(b, side as usize);
    0
}

#[inline]
fn refused(refusal: u32) -> FrameRead {
    FrameRead {
        refusal,
        side: 0,
        fd: false,
        set: OFF,
        references: [0; 8],
    }
}

/// The references of a frame, in a bench's order.
#[inline]
fn references(f: &[u8; LENGTH]) -> [i32; 8] {
    let two = |at: usize| i32::from(u16::from_be_bytes([f[at], f[at + 1]]));
    let one = |at: usize| i32::from(f[at]);
    [
        two(8),
        two(15) - 8000,
        two(17) - 8000,
        one(10) - 50,
        two(13),
        one(11) - 27,
        one(12) - 20,
        0,
    ]
}

/// Reads the frame that begins at a start in the area.
#[inline]
pub fn read(area: &[u8], start: usize) -> FrameRead {
    let Some(f) = area.get(start..).and_then(|part| part.first_chunk()) else {
        return refused(7);
    };
    if f[..5] != MARK {
        return refused(8);
    }
    let references = references(f);
    let mut beyond = ((f[5] > 1) | (f[6] > 1) | (f[7] >= SETS)) as i32;
    for i in 0..8 {
        beyond |= ((references[i] < LOWEST[i]) | (references[i] > HIGHEST[i])) as i32;
    }
    if beyond != 0 {
        return refused(9);
    }
    FrameRead {
        refusal: 0,
        side: u32::from(f[5]),
        fd: f[6] == 1,
        set: SET[f[7] as usize],
        references,
    }
}
