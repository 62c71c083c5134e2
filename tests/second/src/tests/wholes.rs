//! The whole values that a bench keeps beside its readings (document 02,
//! 2026-05): who stores them, what is loaded from them, and that a bench is
//! unsound where one is not its float's.

use super::refusals::assert_unsound;
use super::words::*;
use super::{after, events, read};
use crate::bench::{Bench, Kind, Reference, Refusal};
use crate::calls;
use crate::float;
use crate::frames;
use crate::sets::ModeSet;

/// Readings that are accepted, with their whole values: zeros, ties, and the
/// ends of each range.
fn accepted() -> Vec<(Kind, f64, i32)> {
    let mut all = Vec::new();
    for kind in Kind::ALL {
        all.extend([
            (kind, 0.0, 0),
            (kind, -0.0, 0),
            (kind, 0.25, 0),
            (kind, 0.5, 0),
            (kind, -0.5, 0),
            (kind, 0.75, 1),
            (kind, 1.5, 2),
            (kind, 2.5, 2),
            (kind, 12.5, 12),
            (kind, 13.5, 14),
        ]);
    }
    all.extend([
        (Kind::Altitude, -8_000.5, -8_000),
        (Kind::Altitude, -7_999.5, -8_000),
        (Kind::Altitude, 55_999.5, 56_000),
        (Kind::Altitude, 56_000.5, 56_000),
        (Kind::Airspeed, 599.5, 600),
        (Kind::Airspeed, 600.5, 600),
        (Kind::VerticalSpeed, -300.5, -300),
        (Kind::VerticalSpeed, -299.5, -300),
        (Kind::VerticalSpeed, 300.5, 300),
        (Kind::Roll, -180.5, -180),
        (Kind::Roll, -179.5, -180),
        (Kind::Roll, 178.5, 178),
        (Kind::Roll, 179.25, 179),
        (Kind::Roll, 179.5, -180),
        (Kind::Roll, 179.75, -180),
        (Kind::Roll, 180.5, -180),
        (Kind::Pitch, -90.5, -90),
        (Kind::Pitch, 88.5, 88),
        (Kind::Pitch, 89.25, 89),
        (Kind::Heading, 358.5, 358),
        (Kind::Heading, 359.25, 359),
        (Kind::Heading, 359.5, 0),
        (Kind::Heading, 360.0, 0),
        (Kind::Heading, 360.5, 0),
    ]);
    all
}

/// A bench on which all readings and their whole values are other ones, given
/// to it one by one.
fn with_readings() -> Bench {
    let mut bench = after(&[APPR, LAPPR_CAPTURED, VAPPR_CAPTURED]);
    for (kind, value) in Kind::ALL
        .into_iter()
        .zip([7_000.5, 251.5, -7.5, 12.5, -3.5, 359.5])
    {
        read(&mut bench, kind, value).unwrap();
    }
    assert_eq!(bench.wholes, [7_000, 252, -8, 12, -4, 0]);
    bench
}

// ---- Who stores them ----

#[test]
fn power_on_has_them_true() {
    let bench = Bench::power_on();
    assert_eq!(bench.wholes, [0, 120, 0, 0, 0, 0]);
    for kind in Kind::ALL {
        assert_eq!(kind.whole(bench.reading(kind)), Ok(bench.whole(kind)));
    }
}

#[test]
fn an_accepted_reading_stores_float_and_whole_value_of_its_kind_alone() {
    for (kind, value, whole) in accepted() {
        for start in [Bench::power_on(), with_readings()] {
            let mut bench = start;
            assert_eq!(read(&mut bench, kind, value), Ok(()), "{kind:?} {value}");
            let mut expected = start;
            expected.readings[kind as usize] = value.to_bits();
            expected.wholes[kind as usize] = whole;
            assert_eq!(bench, expected, "{kind:?} {value}");
            assert!(bench.is_sound());
        }
    }
}

#[test]
fn a_refused_reading_stores_neither() {
    let start = with_readings();
    for kind in Kind::ALL {
        let infinite = f64::INFINITY.to_bits();
        for (bits, refusal) in [
            (float::NAN, Refusal::NotFinite),
            (infinite, Refusal::NotFinite),
            (infinite | 1 << 63, Refusal::NotFinite),
            (1e5_f64.to_bits(), Refusal::OutOfRange),
            ((-1e5_f64).to_bits(), Refusal::OutOfRange),
            (f64::MAX.to_bits(), Refusal::OutOfRange),
        ] {
            let mut bench = start;
            assert_eq!(calls::reading(&mut bench, kind, bits), Err(refusal));
            assert_eq!(bench, start);
        }
    }
}

/// The readings and their whole values, which no other call may touch.
fn kept(bench: &Bench) -> ([u64; 6], [i32; 6]) {
    (bench.readings, bench.wholes)
}

#[test]
fn every_other_call_keeps_both_as_they_are() {
    let mut start = with_readings();
    calls::send(&mut start, 0).unwrap();
    calls::refresh(&mut start, 1).unwrap();
    let mut flown = start;
    events(&mut flown, &[INDEPENDENT]);
    for start in [start, flown] {
        for event in 0..21 {
            let mut bench = start;
            events(&mut bench, &[1 << event]);
            assert_eq!(kept(&bench), kept(&start), "event {event}");
        }
        let mut bench = start;
        for side in 0..2 {
            calls::send(&mut bench, side).unwrap();
            calls::refresh(&mut bench, side).unwrap();
            calls::display(&bench, side).unwrap();
            calls::pick(&bench, side).unwrap();
            frames::write(&bench, side, &mut [0; 19], 0).unwrap();
        }
        for knob in 0..4 {
            calls::turn(&mut bench, knob, 200).unwrap();
        }
        assert_eq!(kept(&bench), kept(&start));
    }
}

// ---- What is loaded from them ----

/// A kind, the reference and the event word that loads it, and values of the
/// kind with what the reference then is.
type Load = (Kind, Reference, u32, Vec<(f64, i32)>);

fn loads() -> [Load; 5] {
    [
        (
            Kind::Roll,
            Reference::Roll,
            SOURCE_CHANGED,
            vec![
                (12.5, 12),
                (13.5, 14),
                (27.5, 27),
                (-27.5, -27),
                (179.75, -27),
                (179.25, 27),
            ],
        ),
        (
            Kind::Pitch,
            Reference::Pitch,
            SOURCE_CHANGED,
            vec![
                (2.5, 2),
                (-3.5, -4),
                (20.5, 20),
                (21.0, 20),
                (-20.75, -20),
                (89.25, 20),
            ],
        ),
        (
            Kind::VerticalSpeed,
            Reference::VerticalSpeed,
            VS,
            vec![
                (6.5, 6),
                (-7.5, -8),
                (50.5, 50),
                (51.0, 50),
                (-300.5, -50),
                (0.25, 0),
            ],
        ),
        (
            Kind::Airspeed,
            Reference::Ias,
            FLC,
            vec![
                (250.5, 250),
                (251.5, 252),
                (59.5, 60),
                (60.5, 60),
                (0.5, 60),
                (600.5, 400),
            ],
        ),
        (
            Kind::Altitude,
            Reference::Held,
            ALT,
            vec![
                (4_999.5, 5_000),
                (5_000.5, 5_000),
                (-8_000.5, -8_000),
                (56_000.5, 56_000),
            ],
        ),
    ]
}

/// Both sides fly an approach, so that each of the words above engages the mode
/// that loads its reference.
fn on_approach(pf: u8, independent: bool) -> Bench {
    let mut bench = Bench::power_on();
    for side in &mut bench.sides {
        side.modes = ModeSet::from_numbers(4, 0, 7, false);
    }
    bench.ap = true;
    bench.pf = pf;
    bench.independent = independent;
    bench
}

#[test]
fn entry_loads_the_kept_value_clamped_on_the_sides_that_are_acted_on() {
    for (kind, reference, word, rows) in loads() {
        for (value, expected) in rows {
            for (pf, independent) in [(0, false), (1, false), (0, true), (1, true)] {
                let mut bench = on_approach(pf, independent);
                read(&mut bench, kind, value).unwrap();
                let before = bench;
                events(&mut bench, &[word]);
                for side in 0..2 {
                    let loaded = independent || side == usize::from(pf);
                    let old = before.sides[side].references.get(reference);
                    let new = bench.sides[side].references.get(reference);
                    assert_eq!(new, if loaded { expected } else { old }, "{kind:?} {value}");
                }
                assert_eq!(kept(&bench), kept(&before));
            }
        }
    }
}

// ---- Where a bench is unsound ----

/// A bench with a reading and another whole value than it was given with.
fn with_whole(kind: Kind, value: f64, whole: i32) -> Bench {
    let mut bench = with_readings();
    read(&mut bench, kind, value).unwrap();
    bench.wholes[kind as usize] = whole;
    bench
}

#[test]
fn refusal_1_every_other_whole_value() {
    for (kind, value, whole) in accepted() {
        assert!(with_whole(kind, value, whole).is_sound());
        for other in [
            whole - 1,
            whole + 1,
            whole - 2,
            whole + 2,
            whole + 256,
            whole + 65_536,
            i32::MIN,
            i32::MAX,
        ] {
            assert_unsound(with_whole(kind, value, other));
        }
    }
}

#[test]
fn refusal_1_the_second_numbers_of_north_and_inverted() {
    for value in [359.5, 359.75, 360.0, 360.5] {
        assert!(with_whole(Kind::Heading, value, 0).is_sound());
        assert_unsound(with_whole(Kind::Heading, value, 360));
        assert_unsound(with_whole(Kind::Heading, value, 359));
    }
    assert_unsound(with_whole(Kind::Heading, 0.0, 360));
    for value in [179.5, 179.75, 180.0, 180.5, -180.0, -180.5] {
        assert!(with_whole(Kind::Roll, value, -180).is_sound());
        assert_unsound(with_whole(Kind::Roll, value, 180));
        assert_unsound(with_whole(Kind::Roll, value, 179));
    }
}

/// What other rules of rounding would give.
#[test]
fn refusal_1_whole_values_by_other_rules() {
    for (kind, value, whole) in accepted() {
        for other in [value.trunc(), value.floor(), value.ceil(), value.round()] {
            let other = other as i32;
            if other != whole {
                assert_unsound(with_whole(kind, value, other));
            }
        }
    }
}

#[test]
fn a_float_alone_may_change_as_long_as_its_whole_value_stays() {
    for (kind, value, whole) in accepted() {
        for (other, same) in accepted().iter().filter_map(|&(of, other, its)| {
            let same = its == whole;
            (of == kind).then_some((other, same))
        }) {
            let mut bench = with_whole(kind, value, whole);
            bench.readings[kind as usize] = other.to_bits();
            if same {
                assert!(bench.is_sound(), "{kind:?} {value} {other}");
                assert_eq!(calls::event(&mut bench, 0), Ok(32));
            } else {
                assert_unsound(bench);
            }
        }
    }
}

#[test]
fn a_bench_is_judged_as_it_is_handed_in() {
    let mut bench = with_readings();
    for kind in Kind::ALL {
        let whole = bench.whole(kind);
        bench.wholes[kind as usize] = whole + 1;
        assert_unsound(bench);
        // A good reading of the same kind or of another does not mend it.
        for given in Kind::ALL {
            assert_eq!(read(&mut bench, given, 1.0), Err(Refusal::Unsound));
        }
        bench.wholes[kind as usize] = whole;
        assert_eq!(calls::event(&mut bench, 0), Ok(32));
    }
    assert_eq!(bench, with_readings());
}
