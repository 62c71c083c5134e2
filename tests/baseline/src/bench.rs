//! The bench value, and when it is sound.
use crate::modes::OFF;
use crate::tables::{INCOHERENT, LACKS, NO_APPROACH};

/// The places of the references in a channel's row.
pub const HEADING: usize = 0;
pub const PRESELECTED: usize = 1;
pub const HELD: usize = 2;
pub const VERTICAL_SPEED: usize = 3;
pub const IAS: usize = 4;
pub const ROLL: usize = 5;
pub const PITCH: usize = 6;

/// The row of the whole values, behind those of the four channels. A whole value has the place of its
/// kind, as its reading has.
pub const WHOLES: usize = 4;

/// The range of each reference. The eighth number of a channel is no reference; it fills the row to a
/// length at which the ranges are compared several at a time.
pub const LOWEST: [i32; 8] = [0, -8000, -8000, -50, 60, -27, -20, i32::MIN];
pub const HIGHEST: [i32; 8] = [359, 56000, 56000, 50, 400, 27, 20, i32::MAX];

/// The range of each whole value, and again numbers that fill the row.
const LOWEST_WHOLE: [i32; 8] = [-8000, 0, -300, -90, -180, 0, i32::MIN, i32::MIN];
const HIGHEST_WHOLE: [i32; 8] = [56000, 600, 300, 89, 179, 359, i32::MAX, i32::MAX];

/// The rows of a bench: the same for each channel, and that of the whole values.
const fn rows(channel: [i32; 8], wholes: [i32; 8]) -> [[i32; 8]; 5] {
    [channel, channel, channel, channel, wholes]
}

/// How far each range is moved to begin with the least of all numbers.
const fn shifts(low: [i32; 8]) -> [i32; 8] {
    let mut by = [0; 8];
    let mut i = 0;
    while i < 8 {
        by[i] = i32::MIN.wrapping_sub(low[i]);
        i += 1;
    }
    by
}

/// Where each range ends when it is moved there: one comparison tells whether a number lies within.
const fn ends(low: [i32; 8], high: [i32; 8]) -> [i32; 8] {
    let mut end = shifts(low);
    let mut i = 0;
    while i < 8 {
        end[i] = end[i].wrapping_add(high[i]);
        i += 1;
    }
    end
}

const SHIFTS: [[i32; 8]; 5] = rows(shifts(LOWEST), shifts(LOWEST_WHOLE));
const ENDS: [[i32; 8]; 5] = rows(ends(LOWEST, HIGHEST), ends(LOWEST_WHOLE, HIGHEST_WHOLE));

/// The integer that a reading of each kind counts as 360 less, and what equals no number where a kind
/// has none.
const FULL: [f64; 6] = [f64::NAN, f64::NAN, f64::NAN, f64::NAN, 180.0, 360.0];

/// The kinds of readings in the order of their places. Those that go round have places side by side: the
/// compiler corrects both at once, and leaves the others alone.
#[derive(Clone, Copy, Debug, PartialEq, Eq)]
pub enum Kind {
    Altitude,
    Airspeed,
    VerticalSpeed,
    Pitch,
    Roll,
    Heading,
}

/// A reading: its kind and its float.
#[derive(Clone, Copy, Debug)]
pub enum Reading {
    Altitude(f64),
    Airspeed(f64),
    VerticalSpeed(f64),
    Roll(f64),
    Pitch(f64),
    Heading(f64),
}

impl Reading {
    /// The kind and the float.
    #[inline]
    pub fn parts(self) -> (Kind, f64) {
        match self {
            Reading::Altitude(x) => (Kind::Altitude, x),
            Reading::Airspeed(x) => (Kind::Airspeed, x),
            Reading::VerticalSpeed(x) => (Kind::VerticalSpeed, x),
            Reading::Roll(x) => (Kind::Roll, x),
            Reading::Pitch(x) => (Kind::Pitch, x),
            Reading::Heading(x) => (Kind::Heading, x),
        }
    }
}

/// The whole value of a reading, as a float; of a float that has none, one that is in no range. Beside
/// 3 * 2^51 a float has no digit below the unit, so that the sum is rounded there, at a tie to the even
/// integer. What is too large for that stays too large.
#[inline]
fn nearest(place: usize, x: f64) -> f64 {
    const UNITS: f64 = 6755399441055744.0;
    let near = x + UNITS - UNITS;
    near - if near == FULL[place] { 360.0 } else { 0.0 }
}

/// The whole value of a reading, if it is in range.
#[inline]
fn whole(place: usize, x: f64) -> Option<i32> {
    let near = nearest(place, x);
    let low = f64::from(LOWEST_WHOLE[place]);
    let high = f64::from(HIGHEST_WHOLE[place]);
    ((near >= low) & (near <= high)).then_some(near as i32)
}

/// A bench. Of the four channels 0 and 1 are the sides, 2 the left and 3 the right side's inbox. All
/// numbers that have a range stand in rows of one array: the references of each channel, and last the
/// whole values of the readings. It can hold damage: `is_sound` tells.
///
/// A row begins at a multiple of 16 bytes, where four numbers are loaded and compared by one instruction.
#[derive(Clone, Copy, Debug, PartialEq)]
#[repr(align(16))]
pub struct Bench {
    pub numbers: [[i32; 8]; 5],
    pub readings: [f64; 6],
    pub sets: [u8; 4],
    pub fds: [bool; 4],
    pub counts: [u8; 4],
    pub pf: u32,
    pub ap: bool,
    pub overspeed: bool,
    pub independent: bool,
}

impl Bench {
    /// The bench at power-on.
    pub fn power_on() -> Bench {
        Bench::at(120)
    }

    /// A start at a named speed: the refusal and the bench.
    pub fn start(speed: i32) -> (u32, Bench) {
        if (60..=400).contains(&speed) {
            (0, Bench::at(speed))
        } else {
            (10, Bench::power_on())
        }
    }

    fn at(speed: i32) -> Bench {
        let channel = [0, 0, 0, 0, speed, 0, 0, 0];
        let wholes = [0, speed, 0, 0, 0, 0, 0, 0];
        Bench {
            numbers: rows(channel, wholes),
            readings: [0.0, f64::from(speed), 0.0, 0.0, 0.0, 0.0],
            sets: [OFF; 4],
            fds: [false; 4],
            counts: [0; 4],
            pf: 0,
            ap: false,
            overspeed: false,
            independent: false,
        }
    }

    /// Whether no condition of refusal 1 holds. Everything is looked at and nothing branches, so that
    /// the compiler can compare several numbers at a time.
    #[inline]
    pub fn is_sound(&self) -> bool {
        (self.pf <= 1) & self.has_sound_sets() & self.is_in_range() & self.has_true_wholes()
    }

    /// Coherent sets, and both pairs of approach modes where independent operation is on.
    #[inline]
    fn has_sound_sets(&self) -> bool {
        let sides = self.lacks(0) | self.lacks(1);
        let inboxes = self.lacks(2) | self.lacks(3);
        let wanted = NO_APPROACH * u8::from(self.independent);
        (sides | inboxes) & INCOHERENT | sides & wanted == 0
    }

    /// References and whole values. The rows are gone through as one long row: the compiler breaks up
    /// short ones and then compares them in pieces.
    #[inline]
    fn is_in_range(&self) -> bool {
        let ranges = SHIFTS.as_flattened().iter().zip(ENDS.as_flattened());
        let mut beyond = 0;
        for (x, (shift, end)) in self.numbers.as_flattened().iter().zip(ranges) {
            beyond |= (x.wrapping_add(*shift) > *end) as i32;
        }
        beyond == 0
    }

    /// Whole values that are those of the readings. The difference of two floats is 0.0, which has no bit
    /// set, just where they are the same number; with infinity or NaN it is something else.
    #[inline]
    fn has_true_wholes(&self) -> bool {
        let mut apart = 0;
        for place in 0..6 {
            let near = nearest(place, self.readings[place]);
            apart |= (near - f64::from(self.numbers[WHOLES][place])).to_bits();
        }
        apart == 0
    }

    /// Whether both sides have LAPPR and VAPPR engaged.
    #[inline]
    pub fn has_both_approaches(&self) -> bool {
        (self.lacks(0) | self.lacks(1)) & NO_APPROACH == 0
    }

    /// What the set of a channel lacks.
    #[inline]
    fn lacks(&self, channel: usize) -> u8 {
        LACKS[self.sets[channel] as usize]
    }

    /// The whole value that is kept of a reading.
    #[inline]
    pub fn whole(&self, kind: Kind) -> i32 {
        self.numbers[WHOLES][kind as usize]
    }

    /// Keeps a reading and its whole value, if that is in range; answers whether it is.
    #[inline]
    pub fn keep(&mut self, r: Reading) -> bool {
        let (kind, x) = r.parts();
        let place = kind as usize;
        let Some(whole) = whole(place, x) else {
            return false;
        };
        self.readings[place] = x;
        self.numbers[WHOLES][place] = whole;
        true
    }
}
