//! The lists of calls and their checksum, the same as those of the program `speed` of the crates.
use crate::bus;
use crate::tables::SHOWN;
use crate::{display, event, reading, refresh, send, turn, Bench, Display, Kind, Reading};
use std::hint::black_box;

/// The kinds of the lists of frames that are written, and of those that are read.
pub const WRITES: u64 = 7;
pub const READS: u64 = 8;

/// A list: its seed, its length, and the kind that seven of eight of its calls have, or 6 where each
/// call has a kind of its own, or a kind of frames. Where `live` is false no call is made.
#[derive(Clone, Copy, Debug)]
pub struct List {
    pub seed: u64,
    pub calls: u64,
    pub chosen: u64,
    pub live: bool,
}

/// The word after a word.
#[inline]
pub(crate) fn shuffled(word: u64) -> u64 {
    let a = word ^ (word << 13);
    let b = a ^ (a >> 7);
    b ^ (b << 17)
}

/// The first word of a seed.
pub(crate) fn first(seed: u64) -> u64 {
    (seed << 1) | 1
}

#[inline]
pub(crate) fn fold(sum: u64, word: u64) -> u64 {
    shuffled(sum ^ word).wrapping_add(0x9e37_79b9_7f4a_7c15)
}

#[inline]
fn kind(word: u64, left: u64, chosen: u64) -> u64 {
    if left % 8 == 0 || chosen >= 6 {
        word % 6
    } else {
        chosen
    }
}

#[inline]
pub(crate) fn is_rare(word: u64) -> bool {
    (word >> 8) % 64 == 0
}

#[inline]
fn event_word(word: u64) -> u32 {
    if !is_rare(word) {
        return 1 << ((word >> 16) % 21);
    }
    let many = (word >> 20) as u32;
    match (word >> 16) % 4 {
        0 => 0,
        1 => many,
        _ => many % 2097152,
    }
}

#[inline]
fn knob(word: u64) -> u32 {
    if is_rare(word) {
        4
    } else {
        ((word >> 16) % 4) as u32
    }
}

#[inline]
fn side(word: u64) -> u32 {
    if is_rare(word) {
        2
    } else {
        ((word >> 16) % 2) as u32
    }
}

fn rare_value(word: u64) -> f64 {
    match (word >> 14) % 4 {
        0 => f64::INFINITY,
        1 => f64::NAN,
        _ => f64::from_bits(shuffled(word)),
    }
}

#[inline]
fn value(kind: u64, word: u64) -> f64 {
    if is_rare(word) {
        return rare_value(word);
    }
    let (low, span) = match kind {
        0 => (-8002.0, 64004),
        1 => (-2.0, 604),
        2 => (-302.0, 604),
        3 => (-182.0, 363),
        4 => (-92.0, 183),
        _ => (-2.0, 363),
    };
    in_eighths(low, (word >> 24) % span, (word >> 20) % 8)
}

/// low + whole + eighths / 8.
#[inline]
pub(crate) fn in_eighths(low: f64, whole: u64, eighths: u64) -> f64 {
    low + whole as u32 as f64 + eighths as u32 as f64 / 8.0
}

#[inline]
pub(crate) fn reading_of(kind: u64, x: f64) -> Reading {
    match kind {
        0 => Reading::Altitude(x),
        1 => Reading::Airspeed(x),
        2 => Reading::VerticalSpeed(x),
        3 => Reading::Roll(x),
        4 => Reading::Pitch(x),
        _ => Reading::Heading(x),
    }
}

#[inline]
fn float_code(x: f64) -> u64 {
    if x.is_nan() {
        1
    } else {
        x.to_bits()
    }
}

#[inline]
fn signed_code(x: i32) -> u64 {
    u64::from(x.unsigned_abs()) << 1 ^ u64::from(x < 0)
}

#[inline]
fn fold_references(sum: u64, references: &[i32]) -> u64 {
    let r = |place: usize| signed_code(references[place]);
    let first = r(0) ^ r(1) << 12 ^ r(2) << 32 ^ r(3) << 52;
    let second = r(4) ^ r(5) << 16 ^ r(6) << 32;
    fold(fold(sum, first), second)
}

#[inline]
fn fold_display(sum: u64, refusal: u32, d: &Display) -> u64 {
    let laws = u64::from(refusal) ^ u64::from(d.lateral) << 8 ^ u64::from(d.vertical) << 16;
    let lights = u64::from(d.armed) << 24 ^ u64::from(d.lamps) << 32 ^ u64::from(d.fd) << 48;
    fold_references(fold(sum, laws ^ lights), &d.references)
}

#[inline]
pub(crate) fn fold_answer(sum: u64, fd: bool, set: u8, references: &[i32]) -> u64 {
    let shown = SHOWN[set as usize];
    let laws = u64::from(shown.lateral) ^ u64::from(shown.vertical) << 8;
    let lights = u64::from(shown.armed) << 16 ^ u64::from(fd) << 40;
    fold_references(fold(sum, laws ^ lights), references)
}

#[inline]
pub(crate) fn fold_channel(sum: u64, b: &Bench, channel: usize) -> u64 {
    fold_answer(sum, b.fds[channel], b.sets[channel], &b.numbers[channel])
}

/// The kinds of readings in their order in a list.
const KINDS: [Kind; 6] = [
    Kind::Altitude,
    Kind::Airspeed,
    Kind::VerticalSpeed,
    Kind::Roll,
    Kind::Pitch,
    Kind::Heading,
];

fn fold_readings(sum: u64, b: &Bench) -> u64 {
    let floats = KINDS.map(|kind| float_code(b.readings[kind as usize]));
    let wholes = KINDS.map(|kind| signed_code(b.whole(kind)));
    let three = |at: usize| wholes[at] ^ wholes[at + 1] << 20 ^ wholes[at + 2] << 40;
    let sum = floats.into_iter().fold(sum, fold);
    fold(fold(sum, three(0)), three(3))
}

pub(crate) fn fold_bench(sum: u64, b: &Bench) -> u64 {
    let flags = u64::from(b.ap) ^ u64::from(b.overspeed) << 1 ^ u64::from(b.independent) << 2;
    let shared = u64::from(b.pf) ^ flags << 32;
    let counts = u64::from(u32::from_le_bytes(b.counts));
    let feed = fold_readings(fold(fold(sum, shared), counts), b);
    (0..4).fold(feed, |sum, channel| fold_channel(sum, b, channel))
}

#[inline]
fn do_reading(b: &mut Bench, word: u64, sum: u64, live: bool) -> u64 {
    let which = (word >> 16) % 6;
    let x = value(which, word);
    let sum = fold(fold(sum, which), float_code(x));
    let answer = if live {
        reading(b, reading_of(which, x))
    } else {
        0
    };
    fold(sum, u64::from(answer))
}

#[inline]
fn do_display(b: &Bench, side: u32, sum: u64, live: bool) -> u64 {
    let sum = fold(sum, u64::from(side));
    if !live {
        return fold(fold(fold(sum, 0), 0), 0);
    }
    let (refusal, d) = display(b, side);
    fold_display(sum, refusal, &d)
}

/// One call of a kind, with the arguments that the word gives it; answers the new sum.
#[inline]
fn step(b: &mut Bench, kind: u64, word: u64, sum: u64, live: bool) -> u64 {
    match kind {
        0 => {
            let bits = event_word(word);
            let (refusal, event) = if live { event(b, bits) } else { (0, 0) };
            fold(
                fold(sum, u64::from(bits)),
                u64::from(refusal) ^ u64::from(event) << 32,
            )
        }
        1 => {
            let (knob, new) = (knob(word), (word >> 24) as u8);
            let refusal = if live { turn(b, knob, new) } else { 0 };
            fold(
                fold(sum, u64::from(knob) ^ u64::from(new) << 32),
                u64::from(refusal),
            )
        }
        2 => do_reading(b, word, sum, live),
        3 => {
            let side = side(word);
            let refusal = if live { send(b, side) } else { 0 };
            fold(fold(sum, u64::from(side)), u64::from(refusal))
        }
        4 => {
            let side = side(word);
            let refusal = if live { refresh(b, side) } else { 0 };
            fold(fold(sum, u64::from(side)), u64::from(refusal))
        }
        _ => do_display(b, side(word), sum, live),
    }
}

/// Makes the calls of a list on one bench from power-on and shows the bench after each; answers the
/// checksum of all answers and of the bench at the end. Before each call the compiler is told that
/// the bench may have changed, so that it can't know it sound from the call before.
#[inline]
pub fn run_seen(list: List, mut seen: impl FnMut(&Bench)) -> u64 {
    let mut b = Bench::power_on();
    let mut sum = 0;
    let mut word = first(list.seed);
    for left in (1..=list.calls).rev() {
        let kind = kind(word, left, list.chosen);
        sum = step(black_box(&mut b), kind, word, sum ^ kind << 60, list.live);
        seen(&b);
        word = shuffled(word);
    }
    fold_bench(sum, &b)
}

/// Makes the calls of a list, or writes or reads its frames; answers the checksum.
pub fn run(list: List) -> u64 {
    match list.chosen {
        WRITES | READS => bus::run_seen(list, |_| {}),
        _ => run_seen(list, |_| {}),
    }
}
