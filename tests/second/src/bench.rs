//! The bench value: what it holds, the ranges, how it starts, and when it is
//! sound.

use std::ops::RangeInclusive;

use crate::float;
use crate::sets::ModeSet;

/// Why a call is turned away, with the number that it is answered by.
#[derive(Clone, Copy, PartialEq, Eq, Debug)]
pub enum Refusal {
    Unsound = 1,
    Side = 2,
    Knob = 3,
    Word = 4,
    NotFinite = 5,
    OutOfRange = 6,
    Place = 7,
    Mark = 8,
    Field = 9,
    Speed = 10,
}

/// The kinds of readings, in the order in which a bench keeps them.
#[derive(Clone, Copy, PartialEq, Eq, Debug)]
pub enum Kind {
    Altitude,
    Airspeed,
    VerticalSpeed,
    Roll,
    Pitch,
    Heading,
}

impl Kind {
    pub const ALL: [Kind; 6] = [
        Kind::Altitude,
        Kind::Airspeed,
        Kind::VerticalSpeed,
        Kind::Roll,
        Kind::Pitch,
        Kind::Heading,
    ];

    fn range(self) -> (i128, i128) {
        match self {
            Kind::Altitude => (-8_000, 56_000),
            Kind::Airspeed => (0, 600),
            Kind::VerticalSpeed => (-300, 300),
            Kind::Roll => (-180, 179),
            Kind::Pitch => (-90, 89),
            Kind::Heading => (0, 359),
        }
    }

    /// The whole value of a float as a reading of this kind, or what the air
    /// data feed is refused with.
    pub fn whole(self, bits: u64) -> Result<i32, Refusal> {
        let nearest = float::whole(bits).ok_or(Refusal::NotFinite)?;
        let whole = self.folded(nearest);
        let (low, high) = self.range();
        if whole < low || whole > high {
            return Err(Refusal::OutOfRange);
        }
        Ok(whole as i32)
    }

    /// North and inverted flight have two numbers each, of which one is in
    /// range. Nothing else wraps around.
    fn folded(self, nearest: i128) -> i128 {
        match (self, nearest) {
            (Kind::Heading, 360) => 0,
            (Kind::Roll, 180) => -180,
            _ => nearest,
        }
    }
}

/// The references, in the order in which they are shown.
#[derive(Clone, Copy, PartialEq, Eq, Debug)]
pub enum Reference {
    Heading,
    Preselected,
    Held,
    VerticalSpeed,
    Ias,
    Roll,
    Pitch,
}

impl Reference {
    pub const ALL: [Reference; 7] = [
        Reference::Heading,
        Reference::Preselected,
        Reference::Held,
        Reference::VerticalSpeed,
        Reference::Ias,
        Reference::Roll,
        Reference::Pitch,
    ];

    fn range(self) -> (i32, i32) {
        match self {
            Reference::Heading => (0, 359),
            Reference::Preselected | Reference::Held => (-8_000, 56_000),
            Reference::VerticalSpeed => (-50, 50),
            Reference::Ias => (60, 400),
            Reference::Roll => (-27, 27),
            Reference::Pitch => (-20, 20),
        }
    }
}

#[derive(Clone, Copy, PartialEq, Eq, Debug)]
pub struct References([i32; 7]);

impl References {
    /// Those of a start with that IAS.
    fn at_start(speed: i32) -> References {
        let mut references = References([0; 7]);
        references.put(Reference::Ias, speed);
        references
    }

    /// In the order in which they are shown.
    pub fn new(values: [i32; 7]) -> References {
        References(values)
    }

    pub fn all(&self) -> [i32; 7] {
        self.0
    }

    pub fn get(&self, reference: Reference) -> i32 {
        self.0[reference as usize]
    }

    /// Stores a value as it is, in range or not.
    pub fn put(&mut self, reference: Reference, value: i32) {
        self.0[reference as usize] = value;
    }

    pub fn put_clamped(&mut self, reference: Reference, value: i32) {
        let (low, high) = reference.range();
        self.put(reference, value.clamp(low, high));
    }

    pub fn are_in_range(&self) -> bool {
        Reference::ALL.iter().all(|&reference| {
            let (low, high) = reference.range();
            (low..=high).contains(&self.get(reference))
        })
    }
}

/// What a side holds, and also what is sent of it.
#[derive(Clone, Copy, PartialEq, Eq, Debug)]
pub struct Channel {
    pub fd: bool,
    pub modes: ModeSet,
    pub references: References,
}

impl Channel {
    fn at_start(speed: i32) -> Channel {
        Channel {
            fd: false,
            modes: ModeSet::OFF,
            references: References::at_start(speed),
        }
    }

    fn is_sound(&self) -> bool {
        self.modes.is_coherent() && self.references.are_in_range()
    }
}

/// Readings are kept as bit patterns, so that two benches are equal exactly
/// if they are so bit for bit.
#[derive(Clone, Copy, PartialEq, Eq, Debug)]
pub struct Bench {
    pub pf: u8,
    pub ap: bool,
    pub overspeed: bool,
    /// Whether both sides are flown, each on its own approach.
    pub independent: bool,
    pub counts: [u8; 4],
    pub readings: [u64; 6],
    /// The whole values of the readings, kept beside them (document 02,
    /// 2026-05).
    pub wholes: [i32; 6],
    pub sides: [Channel; 2],
    /// The inbox of each side, holding the last copy of the other side.
    pub inboxes: [Channel; 2],
}

/// The speeds that a start may name, and the one of a start that names none
/// (document 02, 2026-06).
const SPEEDS: RangeInclusive<i32> = 60..=400;
const DEFAULT_SPEED: i32 = 120;

impl Bench {
    /// The default bench.
    pub fn power_on() -> Bench {
        Bench::at_start(DEFAULT_SPEED)
    }

    /// A start takes no bench, so that nothing of an old one is left. Refused,
    /// it still gives a bench: the default one.
    pub fn start(speed: i32) -> (Bench, Result<(), Refusal>) {
        if SPEEDS.contains(&speed) {
            (Bench::at_start(speed), Ok(()))
        } else {
            (Bench::power_on(), Err(Refusal::Speed))
        }
    }

    fn at_start(speed: i32) -> Bench {
        let mut bench = Bench {
            pf: 0,
            ap: false,
            overspeed: false,
            independent: false,
            counts: [0; 4],
            readings: [0.0_f64.to_bits(); 6],
            wholes: [0; 6],
            sides: [Channel::at_start(speed); 2],
            inboxes: [Channel::at_start(speed); 2],
        };
        bench.keep(Kind::Airspeed, f64::from(speed).to_bits(), speed);
        bench
    }

    /// The sides that events and knobs act on: the pilot flying's, or both in
    /// independent operation. The bench has to be sound.
    pub fn acting(&self) -> &'static [usize] {
        match (self.independent, self.pf) {
            (true, _) => &[0, 1],
            (false, 0) => &[0],
            (false, _) => &[1],
        }
    }

    /// What independent operation needs, from its beginning to its end.
    pub fn both_on_approach(&self) -> bool {
        self.sides.iter().all(|side| side.modes.is_on_approach())
    }

    pub fn reading(&self, kind: Kind) -> u64 {
        self.readings[kind as usize]
    }

    pub fn whole(&self, kind: Kind) -> i32 {
        self.wholes[kind as usize]
    }

    /// Stores a reading and its whole value together, so that neither stays
    /// from an earlier one.
    pub fn keep(&mut self, kind: Kind, bits: u64, whole: i32) {
        self.readings[kind as usize] = bits;
        self.wholes[kind as usize] = whole;
    }

    /// Whether a reading has a whole value in range, and the kept one is that.
    fn is_kept_true(&self, kind: Kind) -> bool {
        kind.whole(self.reading(kind)) == Ok(self.whole(kind))
    }

    pub fn is_sound(&self) -> bool {
        let channels = || self.sides.iter().chain(&self.inboxes);
        self.pf <= 1
            && (!self.independent || self.both_on_approach())
            && channels().all(Channel::is_sound)
            && Kind::ALL.iter().all(|&kind| self.is_kept_true(kind))
    }
}
