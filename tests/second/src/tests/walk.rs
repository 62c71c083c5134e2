//! Long lists of calls from a start with arguments drawn at random.

use super::words::*;
use crate::bench::{Bench, Kind, Refusal};
use crate::calls;

/// A generator of plain quality; a fixed start makes every run the same.
struct Draw(u64);

impl Draw {
    fn below(&mut self, end: u32) -> u32 {
        self.0 = self.0.wrapping_mul(6364136223846793005).wrapping_add(1);
        ((self.0 >> 33) % u64::from(end)) as u32
    }
}

/// What a passive side takes over: laws, armed sum and references.
type Shown = ((u32, u32, u32), [i32; 7]);

fn shown_by(bench: &Bench, side: u32) -> Shown {
    let shown = calls::display(bench, side).unwrap();
    let modes = (shown.lateral, shown.vertical, shown.armed);
    (modes, shown.references)
}

/// What has been promised so far about each side.
struct Promises {
    /// What each side showed at its last send.
    sent: [Shown; 2],
    /// What each side has to show as long as it stays passive.
    passive: [Option<Shown>; 2],
}

fn event(bench: &mut Bench, promises: &mut Promises, word: u32) -> Option<Refusal> {
    let result = calls::event(bench, word);
    // Neither side is passive while both are flown.
    if result == Ok(5) || bench.independent {
        promises.passive = [None; 2];
    }
    result.err()
}

/// Brings the approach to both sides, whoever has the pilot flying, and asks for
/// independent operation.
fn approach(bench: &mut Bench, promises: &mut Promises) -> Option<Refusal> {
    let words = [
        OVERSPEED_ENDS,
        SOURCE_CHANGED,
        APPR,
        LAPPR_CAPTURED,
        VAPPR_CAPTURED,
    ];
    for word in words {
        assert_eq!(event(bench, promises, word), None);
    }
    for side in 0..2 {
        assert_eq!(send(bench, promises, side), None);
    }
    for side in 0..2 {
        assert_eq!(refresh(bench, promises, side), None);
    }
    let refusal = event(bench, promises, INDEPENDENT);
    assert!(bench.independent);
    refusal
}

/// A starting speed, mostly one that is accepted.
fn speed(draw: &mut Draw) -> i32 {
    draw.below(400) as i32 + 30
}

fn reading(bench: &mut Bench, draw: &mut Draw) -> Option<Refusal> {
    let kind = Kind::ALL[draw.below(6) as usize];
    let value = f64::from(draw.below(1_200)) - 400.0;
    calls::reading(bench, kind, (value / 2.0).to_bits()).err()
}

fn send(bench: &mut Bench, promises: &mut Promises, side: u32) -> Option<Refusal> {
    let refusal = calls::send(bench, side).err();
    if refusal.is_none() {
        promises.sent[side as usize] = shown_by(bench, side);
    }
    refusal
}

fn refresh(bench: &mut Bench, promises: &mut Promises, side: u32) -> Option<Refusal> {
    // A refresh that finds it on promises nothing, even if it ends it.
    let passive = u32::from(bench.pf) != side && !bench.independent;
    let refusal = calls::refresh(bench, side).err();
    if refusal.is_none() {
        let sent = promises.sent[1 - side as usize];
        promises.passive[side as usize] = passive.then_some(sent);
    }
    refusal
}

fn call(bench: &mut Bench, promises: &mut Promises, draw: &mut Draw) -> Option<Refusal> {
    match draw.below(200) {
        0..=99 => {
            let word = (1 << draw.below(22)) | (1 << draw.below(22));
            event(bench, promises, word)
        }
        100..=124 => {
            let (knob, count) = (draw.below(5), draw.below(256));
            calls::turn(bench, knob, count as u8).err()
        }
        125..=149 => reading(bench, draw),
        150..=172 => send(bench, promises, draw.below(3)),
        173..=195 => refresh(bench, promises, draw.below(3)),
        _ => approach(bench, promises),
    }
}

/// The rules of the third demand on what the two sides show.
fn check(bench: &Bench, promises: &Promises) {
    for side in 0..2 {
        let shown = shown_by(bench, side);
        let (lateral, vertical, armed) = shown.0;
        assert_eq!(lateral == 0, vertical == 0);
        assert!(lateral != 0 || armed == 0);
        assert!(!(lateral == 3 && armed & 1 != 0));
        assert!(!(lateral == 4 && armed & 2 != 0));
        assert!(!(vertical == 5 || vertical == 6) || armed & 4 == 0);
        assert!(!(vertical == 7 && armed & 8 != 0));
        assert!(vertical != 7 || lateral == 4);
        assert!(armed & 2 == 0 || armed & 8 != 0);
        if let Some(promised) = promises.passive[side as usize] {
            assert_eq!(shown, promised);
        }
    }
}

#[test]
fn lists_of_calls_keep_the_third_demand() {
    let (mut independent, mut ended, mut refused) = (0, 0, 0);
    for start in 0..200 {
        let mut draw = Draw(start);
        // Where the third demand speaks of power-on it means the start that was
        // made, a refused one included (document 02, 2026-06).
        let (mut bench, result) = Bench::start(speed(&mut draw));
        refused += u32::from(result.is_err());
        let mut promises = Promises {
            sent: [shown_by(&bench, 0), shown_by(&bench, 1)],
            passive: [None; 2],
        };
        for _ in 0..500 {
            let before = bench;
            let refusal = call(&mut bench, &mut promises, &mut draw);
            assert_ne!(refusal, Some(Refusal::Unsound));
            assert!(refusal.is_none() || bench == before);
            check(&bench, &promises);
            independent += u32::from(bench.independent);
            ended += u32::from(before.independent && !bench.independent);
        }
    }
    assert!(independent > 5_000 && ended > 1_000);
    assert!((10..100).contains(&refused));
}
