//! Each refusal, and their order.

use super::{after, RANGES};
use crate::bench::{Bench, Channel, Kind, Reference, Refusal};
use crate::calls;
use crate::codes;
use crate::float;
use crate::frames;
use crate::sets::ModeSet;

const INFINITE: u64 = 0x7ff0_0000_0000_0000;

/// Every call is refused with 1, also where another refusal would follow, and
/// changes nothing.
pub fn assert_unsound(bench: Bench) {
    let mut kept = bench;
    let unsound = Refusal::Unsound;
    assert!(!bench.is_sound());
    for argument in [0, 1, 2, u32::MAX] {
        assert_eq!(calls::event(&mut kept, argument), Err(unsound));
        assert_eq!(calls::turn(&mut kept, argument, 9), Err(unsound));
        assert_eq!(calls::send(&mut kept, argument), Err(unsound));
        assert_eq!(calls::refresh(&mut kept, argument), Err(unsound));
        assert_eq!(calls::display(&kept, argument), Err(unsound));
        assert_eq!(calls::pick(&kept, argument), Err(unsound));
        let mut area = [0xee; 40];
        for start in [0, 30, u64::MAX] {
            let answer = frames::write(&kept, argument, &mut area, start);
            assert_eq!((answer, area), (Err(unsound), [0xee; 40]));
        }
    }
    for bits in [0, INFINITE, float::NAN, 1e9_f64.to_bits()] {
        assert_eq!(calls::reading(&mut kept, Kind::Roll, bits), Err(unsound));
    }
    assert_eq!(kept, bench);
}

#[test]
fn power_on_is_sound() {
    assert!(Bench::power_on().is_sound());
}

#[test]
fn refusal_1_pilot_flying() {
    for pf in 2..=255 {
        let mut bench = Bench::power_on();
        bench.pf = pf;
        assert_unsound(bench);
    }
}

#[test]
fn refusal_1_independent_operation() {
    let engaged = ModeSet::from_numbers(4, 0, 7, false);
    let also_armed = ModeSet::from_numbers(4, 1, 7, false);
    let both = [engaged, also_armed];
    for (left, right) in coherent_pairs() {
        let mut bench = Bench::power_on();
        bench.sides[0].modes = left;
        bench.sides[1].modes = right;
        assert!(bench.is_sound());
        bench.independent = true;
        if both.contains(&left) && both.contains(&right) {
            assert!(bench.is_sound(), "{left:?} {right:?}");
        } else {
            assert_unsound(bench);
        }
    }
}

/// The coherent sets of two sides, Off among them.
fn coherent_pairs() -> Vec<(ModeSet, ModeSet)> {
    let sets = || (0..=107).filter_map(codes::set_of);
    sets()
        .flat_map(|left| sets().map(move |right| (left, right)))
        .collect()
}

/// A bench with an unsound left or right side, or an unsound inbox of it.
fn with_damage(place: usize, damage: impl Fn(&mut Channel)) -> Bench {
    let mut bench = after(&[1 << 16]);
    let [left, right] = &mut bench.sides;
    let [left_inbox, right_inbox] = &mut bench.inboxes;
    damage([left, right, left_inbox, right_inbox][place]);
    bench
}

#[test]
fn refusal_1_sets_of_sides_and_inboxes() {
    for place in 0..4 {
        let set = ModeSet::from_numbers(3, 1, 1, false);
        assert_unsound(with_damage(place, |channel| channel.modes = set));
    }
}

#[test]
fn refusal_1_references_of_sides_and_inboxes() {
    for place in 0..4 {
        for reference in Reference::ALL {
            for value in [i32::MIN, -8_001, 56_001, i32::MAX] {
                assert_unsound(with_damage(place, |channel| {
                    channel.references.put(reference, value);
                }));
            }
        }
    }
}

#[test]
fn refusal_1_ranges_of_references() {
    for (reference, low, high) in RANGES {
        for value in low - 1..=high + 1 {
            let mut bench = Bench::power_on();
            bench.inboxes[1].references.put(reference, value);
            assert_eq!(bench.is_sound(), (low..=high).contains(&value));
        }
    }
}

/// What 5 or 6 would turn away is unsound with every whole value, also with the
/// one that it would have without a range.
#[test]
fn refusal_1_stored_readings() {
    for kind in Kind::ALL {
        for bits in [
            INFINITE,
            INFINITE | 1 << 63,
            float::NAN,
            (-1e5_f64).to_bits(),
            1e5_f64.to_bits(),
        ] {
            for whole in [0, 120, -100_000, 100_000, i32::MIN, i32::MAX] {
                let mut bench = after(&[1 << 14]);
                bench.keep(kind, bits, whole);
                assert_unsound(bench);
            }
        }
    }
}

#[test]
fn refusal_2_side() {
    let mut bench = after(&[1 << 14]);
    let kept = bench;
    for side in [2, 3, 256, u32::MAX] {
        assert_eq!(calls::send(&mut bench, side), Err(Refusal::Side));
        assert_eq!(calls::refresh(&mut bench, side), Err(Refusal::Side));
        assert_eq!(calls::display(&bench, side), Err(Refusal::Side));
        assert_eq!(calls::pick(&bench, side), Err(Refusal::Side));
    }
    assert_eq!(bench, kept);
}

#[test]
fn refusal_3_knob() {
    let mut bench = Bench::power_on();
    for knob in [4, 5, 256, u32::MAX] {
        assert_eq!(calls::turn(&mut bench, knob, 1), Err(Refusal::Knob));
    }
    assert_eq!(bench, Bench::power_on());
}

#[test]
fn refusal_4_word() {
    let mut bench = Bench::power_on();
    for bit in 21..32 {
        for low in [0, 1, 1 << 14, 1 << 20] {
            let word = 1 << bit | low;
            assert_eq!(calls::event(&mut bench, word), Err(Refusal::Word));
        }
    }
    assert_eq!(bench, Bench::power_on());
    for bit in 0..21 {
        let mut bench = Bench::power_on();
        assert_eq!(calls::event(&mut bench, 1 << bit), Ok(bit));
    }
}

#[test]
fn refusal_5_not_finite() {
    let mut bench = Bench::power_on();
    for kind in Kind::ALL {
        for bits in [INFINITE, INFINITE | 1 << 63, float::NAN] {
            let answer = calls::reading(&mut bench, kind, bits);
            assert_eq!(answer, Err(Refusal::NotFinite));
        }
    }
    assert_eq!(bench, Bench::power_on());
}

/// Roll and heading end one above their range, at the second number of its
/// low end.
#[test]
fn refusal_6_ranges_of_readings() {
    let ranges = [
        (Kind::Altitude, -8_000, 56_000),
        (Kind::Airspeed, 0, 600),
        (Kind::VerticalSpeed, -300, 300),
        (Kind::Roll, -180, 180),
        (Kind::Pitch, -90, 89),
        (Kind::Heading, 0, 360),
    ];
    for (kind, low, high) in ranges {
        for value in low - 2..=high + 2 {
            let mut bench = Bench::power_on();
            let bits = f64::from(value).to_bits();
            let answer = calls::reading(&mut bench, kind, bits);
            if (low..=high).contains(&value) {
                assert_eq!((answer, bench.reading(kind)), (Ok(()), bits));
            } else {
                assert_eq!(answer, Err(Refusal::OutOfRange));
                assert_eq!(bench, Bench::power_on());
            }
        }
    }
}

#[test]
fn refusal_6_is_judged_on_the_whole_value() {
    let cases = [
        (Kind::Roll, 180.5, true),
        (Kind::Roll, 180.75, false),
        (Kind::Roll, -180.5, true),
        (Kind::Roll, -180.75, false),
        (Kind::Pitch, 89.5, false),
        (Kind::Pitch, -90.5, true),
        (Kind::Airspeed, -0.5, true),
        (Kind::Airspeed, 600.5, true),
        (Kind::Airspeed, 600.75, false),
        (Kind::Heading, -0.0, true),
        (Kind::Heading, -0.75, false),
        (Kind::Heading, 360.5, true),
        (Kind::Heading, 360.75, false),
        (Kind::Heading, 1e300, false),
    ];
    for (kind, value, accepted) in cases {
        let mut bench = Bench::power_on();
        let answer = calls::reading(&mut bench, kind, f64::to_bits(value));
        assert_eq!(answer.is_ok(), accepted, "{kind:?} {value}");
    }
}
