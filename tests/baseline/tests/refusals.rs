//! Each refusal where it applies and nowhere else, and the bench handed back.
use baseline::{
    code, display, event, reading, refresh, send, turn, Bench, Display, Kind, Modes, Reading,
    HEADING, HELD, IAS, OFF, ON_SETS, PITCH, PRESELECTED, ROLL, SHOWN, VERTICAL_SPEED, WHOLES,
};

const BLANK: Display = Display {
    fd: false,
    lateral: 0,
    vertical: 0,
    armed: 0,
    references: [0; 7],
    lamps: 0,
};

/// Whether all calls refuse a bench with 1, before anything else, and hand it back; false where all
/// take it.
fn is_refused(b: Bench) -> bool {
    let mut c = b;
    let bad_arguments = [
        event(&mut c, u32::MAX).0,
        turn(&mut c, 4, 1),
        reading(&mut c, Reading::Pitch(f64::NAN)),
        send(&mut c, 2),
        refresh(&mut c, 2),
        display(&c, 2).0,
    ];
    // Debug tells a NaN from no NaN too, and -0 from 0
    assert_eq!(format!("{c:?}"), format!("{b:?}"));
    assert_eq!(display(&c, 2).1, BLANK);
    if bad_arguments != [1; 6] {
        assert_eq!(bad_arguments, [4, 3, 5, 2, 2, 2]);
        return false;
    }
    assert_eq!((event(&mut c, 1), display(&c, 0)), ((1, 32), (1, BLANK)));
    true
}

#[test]
fn a_pf_side_above_1() {
    for pf in [0, 1, 2, 256, u32::MAX] {
        assert_eq!(
            is_refused(Bench {
                pf,
                ..Bench::power_on()
            }),
            pf > 1
        );
    }
}

#[test]
fn a_reference_out_of_range() {
    let ranges = [
        (HEADING, 0, 359),
        (PRESELECTED, -8000, 56000),
        (HELD, -8000, 56000),
        (VERTICAL_SPEED, -50, 50),
        (IAS, 60, 400),
        (ROLL, -27, 27),
        (PITCH, -20, 20),
    ];
    for channel in 0..4 {
        for (place, low, high) in ranges {
            for x in [i32::MIN, low - 1, low, high, high + 1, i32::MAX] {
                let mut b = Bench::power_on();
                b.numbers[channel][place] = x;
                assert_eq!(is_refused(b), x < low || x > high, "{place} {x}");
            }
        }
    }
}

#[test]
fn a_set_that_is_not_coherent() {
    for channel in 0..4 {
        let mut coherent = 0;
        for set in 0..=255 {
            let mut b = Bench::power_on();
            b.sets[channel] = set;
            let refused = is_refused(b);
            assert!(refused || set <= ON_SETS);
            coherent += usize::from(!refused && set != OFF);
        }
        assert_eq!(coherent, 107);
    }
    let mut b = Bench::power_on();
    b.sets[2] = code(Modes {
        lateral: 4,
        vertical: 7,
        armed: 0,
        vappr_armed: true,
    });
    assert!(is_refused(b));
}

#[test]
fn independent_operation_without_both_pairs() {
    let coherent = |set: u8| {
        let mut b = Bench::power_on();
        b.sets[0] = set;
        b.is_sound()
    };
    let sets: Vec<u8> = (0..=ON_SETS).filter(|&set| coherent(set)).collect();
    let has_pair = |set: u8| (SHOWN[set as usize].lateral, SHOWN[set as usize].vertical) == (4, 7);
    assert_eq!(sets.iter().filter(|&&set| has_pair(set)).count(), 2);
    for &left in &sets {
        for &right in &sets {
            let mut b = Bench::power_on();
            b.sets = [left, right, OFF, OFF];
            assert!(!is_refused(b));
            b.independent = true;
            assert_eq!(is_refused(b), !(has_pair(left) && has_pair(right)));
            // what the inboxes hold is no pair of the sides
            b.sets = [left, OFF, right, right];
            assert!(is_refused(b));
        }
    }
}

type OfKind = fn(f64) -> Reading;

const KINDS: [(OfKind, i32, i32); 6] = [
    (Reading::Altitude, -8000, 56000),
    (Reading::Airspeed, 0, 600),
    (Reading::VerticalSpeed, -300, 300),
    (Reading::Roll, -180, 179),
    (Reading::Pitch, -90, 89),
    (Reading::Heading, 0, 359),
];

/// What the papers say of a reading with a range, by the standard library's rounding: its whole value,
/// or the refusal.
fn expected(kind: Kind, low: i32, high: i32, x: f64) -> Result<i32, u32> {
    let nearest = x.round_ties_even();
    let whole = match kind {
        Kind::Heading if nearest == 360.0 => 0.0,
        Kind::Roll if nearest == 180.0 => -180.0,
        _ => nearest,
    };
    if !x.is_finite() {
        Err(5)
    } else if whole < f64::from(low) || whole > f64::from(high) {
        Err(6)
    } else {
        Ok(whole as i32)
    }
}

/// A bench that holds a float with a whole value, true or not.
fn holding(kind: Kind, x: f64, whole: i32) -> Bench {
    let mut b = Bench::power_on();
    b.readings[kind as usize] = x;
    b.numbers[WHOLES][kind as usize] = whole;
    b
}

/// A reading is answered as the papers say, and stored it is sound beside its whole value and beside no
/// other of these numbers.
fn check(reading_of: OfKind, low: i32, high: i32, x: f64) {
    let (kind, _) = reading_of(x).parts();
    let answer = expected(kind, low, high, x);
    let mut b = Bench::power_on();
    let refusal = reading(&mut b, reading_of(x));
    assert_eq!(refusal, answer.err().unwrap_or(0), "{kind:?} {x}");
    let near = x.round_ties_even() as i32;
    let around = near.saturating_sub(1)..=near.saturating_add(1);
    let ends = [low - 1, low, 0, high, high + 1, i32::MIN, i32::MAX];
    for whole in ends.into_iter().chain(around) {
        let sound = holding(kind, x, whole).is_sound();
        assert_eq!(sound, answer == Ok(whole), "{kind:?} {x} {whole}");
    }
    let Ok(whole) = answer else {
        assert_eq!(b, Bench::power_on());
        return;
    };
    assert!(holding(kind, x, whole).is_sound());
    assert_eq!(b.readings[kind as usize].to_bits(), x.to_bits());
    assert_eq!(b, holding(kind, x, whole));
}

/// All integers of the ranges and the ties between them, and the floats next to each.
#[test]
fn readings_around_their_ranges_and_the_whole_values_beside_them() {
    for (reading_of, low, high) in KINDS {
        for halves in (low - 2) * 2..=(high + 2) * 2 {
            let x = f64::from(halves) / 2.0;
            for x in [x.next_down(), x, x.next_up()] {
                check(reading_of, low, high, x);
            }
        }
    }
}

/// All calls refuse a bench for one wrong whole value, and for a float that has none.
#[test]
fn a_wrong_whole_value_is_refused_by_all_calls() {
    for (reading_of, low, high) in KINDS {
        let (kind, _) = reading_of(0.0).parts();
        for whole in [low, low + 1, high - 1, high] {
            let x = f64::from(whole);
            assert!(!is_refused(holding(kind, x, whole)));
            assert!(is_refused(holding(kind, x, whole - 1)));
            assert!(is_refused(holding(kind, x, whole + 1)));
            for none in [f64::NAN, f64::INFINITY, f64::NEG_INFINITY, f64::MAX] {
                assert!(is_refused(holding(kind, none, whole)));
            }
        }
    }
    assert!(!is_refused(holding(Kind::Heading, 360.0, 0)));
    assert!(is_refused(holding(Kind::Heading, 360.0, 360)));
    assert!(!is_refused(holding(Kind::Roll, 180.0, -180)));
    assert!(is_refused(holding(Kind::Roll, 180.0, 180)));
}

/// Floats that are no number, infinite, tiny, so large that nothing is below their unit, near what the
/// rounding adds to them, and near the ends of 32 bits.
#[test]
fn floats_far_from_any_range() {
    let units = 3.0 * 2f64.powi(51);
    let mut values = vec![f64::NAN, f64::INFINITY, f64::MAX, f64::MIN_POSITIVE, 5e-324];
    for exponent in 16..64 {
        let x = 2f64.powi(exponent);
        values.extend([x - 0.5, x.next_down(), x, x.next_up(), x + 0.5, x + 1.0]);
    }
    for far in -3..=3 {
        let far = f64::from(far);
        values.extend([units + far, 2.0 * units + far, units / 2.0 + far]);
    }
    for x in values {
        for (reading_of, low, high) in KINDS {
            check(reading_of, low, high, x);
            check(reading_of, low, high, -x);
        }
    }
}

/// Bit patterns from a xorshift, of all exponents and, with the exponent cut down, of those around the
/// ranges.
#[test]
fn floats_of_any_pattern() {
    let mut word = 1u64;
    for _ in 0..20_000 {
        word ^= word << 13;
        word ^= word >> 7;
        word ^= word << 17;
        let near = word & !(0x7ff << 52) | (1014 + (word >> 52) % 26) << 52;
        for (reading_of, low, high) in KINDS {
            check(reading_of, low, high, f64::from_bits(word));
            check(reading_of, low, high, f64::from_bits(near));
        }
    }
}

#[test]
fn sides_knobs_and_words() {
    let start = Bench::power_on();
    let mut b = start;
    for side in [2, 3, 256, u32::MAX] {
        assert_eq!((send(&mut b, side), refresh(&mut b, side)), (2, 2));
        assert_eq!(display(&b, side), (2, BLANK));
    }
    for knob in [4, 5, 256, u32::MAX] {
        assert_eq!(turn(&mut b, knob, 7), 3);
    }
    for bit in 21..32 {
        assert_eq!(event(&mut b, 1 << bit), (4, 32));
        assert_eq!(event(&mut b, 1 << bit | 1 << 14), (4, 32));
    }
    assert_eq!(b, start);
    for bit in 0..21 {
        assert_eq!(event(&mut b, 1 << bit), (0, bit));
    }
}
