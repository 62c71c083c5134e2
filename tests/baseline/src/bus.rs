//! The lists of frames and their checksum, the same as those of the program `speed` of the crates.
use crate::bench::{Bench, LOWEST};
use crate::frames::{read, write};
use crate::list::{first, fold, fold_answer, fold_bench, fold_channel, in_eighths, is_rare};
use crate::list::{reading_of, shuffled, List, READS};
use crate::tables::{SET, SETS};
use std::hint::black_box;

/// The bytes of the area.
pub const AREA: usize = 2048;

/// The references of a channel, and its set and its FD.
fn put_channel(b: &mut Bench, channel: usize, word: u64) {
    let amounts = [
        word % 360,
        (word >> 8) % 64001,
        (word >> 24) % 64001,
        (word >> 40) % 101,
        (word >> 48) % 341,
        (word >> 32) % 55,
        (word >> 56) % 41,
    ];
    for (place, amount) in amounts.into_iter().enumerate() {
        b.numbers[channel][place] = LOWEST[place] + amount as i32;
    }
    b.sets[channel] = SET[((word >> 4) % u64::from(SETS)) as usize];
    b.fds[channel] = (word >> 20) % 2 == 1;
}

/// The bench of a word: two sides that have sent, and rarely a PF side that is none.
fn bench_of(word: u64) -> Bench {
    let other = shuffled(word);
    let mut b = Bench::power_on();
    b.pf = if is_rare(other) { 2 } else { 0 };
    let (eighths, amount) = ((other >> 4) % 8, other >> 8);
    let floats = [
        in_eighths(-8000.0, amount % 64000, eighths),
        in_eighths(0.0, amount % 600, eighths),
        in_eighths(-300.0, amount % 600, eighths),
        in_eighths(-180.0, amount % 359, eighths),
        in_eighths(-90.0, amount % 179, eighths),
        in_eighths(0.0, amount % 359, eighths),
    ];
    for (kind, x) in floats.into_iter().enumerate() {
        b.keep(reading_of(kind as u64, x));
    }
    for (channel, word) in [word, other, other, word].into_iter().enumerate() {
        put_channel(&mut b, channel, word);
    }
    b
}

#[inline]
fn side(word: u64) -> u32 {
    if is_rare(word) & ((word >> 17) % 2 == 1) {
        2
    } else {
        ((word >> 16) % 2) as u32
    }
}

#[inline]
fn start(word: u64, usual: u64) -> u64 {
    if !is_rare(word) {
        return usual;
    }
    let far = word >> 24;
    match (word >> 14) % 4 {
        0 => 2030 + far % 19,
        1 => 2049 + far % 4096,
        2 => u64::MAX - far % 32,
        _ => usual,
    }
}

/// A step answers the refusal, 0 where no call is made, and the new sum.
type Step = (u32, u64);

#[inline]
fn write_step(b: &Bench, word: u64, area: &mut [u8; AREA], sum: u64, live: bool) -> Step {
    let at = start(word, (word >> 24) % 2030);
    let of = side(word);
    let refusal = if live {
        write(b, of, area, at as usize)
    } else {
        0
    };
    let place = at ^ u64::from(of) << 32;
    (refusal, fold(sum, place ^ u64::from(refusal) << 40))
}

/// A read. Without the call a channel of the bench goes into the sum in place of the frame's.
#[inline]
fn read_at(b: &Bench, side: u32, area: &[u8; AREA], at: u64, sum: u64, live: bool) -> Step {
    if !live {
        return (0, fold_channel(fold(sum, at), b, side as usize));
    }
    let r = read(area, at as usize);
    let answer = u64::from(r.side) << 32 ^ u64::from(r.refusal) << 40;
    let sum = fold(sum, at ^ answer);
    (r.refusal, fold_answer(sum, r.fd, r.set, &r.references))
}

#[inline]
fn read_step(b: &Bench, word: u64, area: &mut [u8; AREA], sum: u64, live: bool) -> Step {
    let side = side(word);
    let begin = (word >> 24) % 107 * 19;
    if !(is_rare(word) & ((word >> 14) % 4 == 3)) {
        return read_at(b, side, area, start(word, begin), sum, live);
    }
    let at = (begin + (word >> 32) % 19) as usize;
    let old = area[at];
    area[at] = (word >> 40) as u8;
    let answer = read_at(b, side, area, begin, sum, live);
    area[at] = old;
    answer
}

/// The frames that a list of reads begins with.
fn fill(area: &mut [u8; AREA], seed: u64) {
    let mut word = first(seed);
    for i in 0..107 {
        word = shuffled(word);
        write(&bench_of(word), ((word >> 16) % 2) as u32, area, i * 19);
    }
}

/// Makes the steps of a list of frames and shows the refusal of each; answers the checksum of all
/// answers and of the area at the end. Before each step the compiler is told that the bench may have
/// changed, so that it can't know it sound from the step before.
#[inline]
pub fn run_seen(list: List, mut seen: impl FnMut(u32)) -> u64 {
    let mut area = [0; AREA];
    let reads = list.chosen == READS;
    if reads {
        fill(&mut area, list.seed);
    }
    let mut b = Bench::power_on();
    let mut sum = 0;
    let mut word = first(list.seed);
    for left in (1..=list.calls).rev() {
        if left % 64 == 0 {
            b = bench_of(word);
            sum = fold_bench(sum, &b);
        }
        let step = if reads { read_step } else { write_step };
        let shown = black_box(&mut b);
        let (refusal, next) = step(shown, word, &mut area, sum, list.live);
        seen(refusal);
        sum = next;
        word = shuffled(word);
    }
    area.iter()
        .fold(sum, |sum, &byte| fold(sum, u64::from(byte)))
}
