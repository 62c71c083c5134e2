//! Values of readings by chance.

use crate::parts::words::{float, pattern, Ranged, SEAMS};
use crate::rng::Rng;

/// Mostly in the range of a kind or close to it; now and then where a circle comes round, whatever
/// the kind.
pub fn value(kind: Ranged, rng: &mut Rng) -> String {
    let (low, last) = (i64::from(kind.low), i64::from(kind.last));
    match rng.below(100) {
        0..=39 => decimal(rng.between(low, last), rng),
        40..=64 => decimal(rng.between(-60, 60).clamp(low, last), rng),
        65..=79 => {
            let end = rng.pick(&[low, last]);
            decimal(end + rng.between(-2, 2), rng)
        }
        80..=88 => beside_a_quarter(low, last, rng),
        89..=91 => {
            let seam = i64::from(rng.pick(&SEAMS)) * rng.pick(&[1, -1]);
            beside_a_quarter(seam, seam, rng)
        }
        92..=95 => rng.pick(&SPECIAL).to_string(),
        96..=97 => decimal(rng.between(-100_000, 100_000), rng),
        _ => pattern(f64::from_bits(rng.next())),
    }
}

/// A whole value for a float: mostly its own, one beside it, or what another rule would give.
pub fn whole(kind: Ranged, value: &str, rng: &mut Rng) -> i32 {
    let value = float(value);
    let own = kind.whole(value);
    match rng.below(12) {
        0..=3 => own,
        4..=6 => own.saturating_add(rng.pick(&[-2, -1, 1, 2])),
        7 => value.trunc() as i32,
        8 => value.round() as i32,
        9 => rng.pick(&[kind.low, kind.high, kind.last, kind.last + 1]),
        10 => rng.pick(&[0, i32::MIN, i32::MAX, own.wrapping_add(1 << 16)]),
        _ => rng.next() as i32,
    }
}

/// A whole number, or one with a fraction, a half more often than others.
fn decimal(whole: i64, rng: &mut Rng) -> String {
    let sign = if whole < 0 || (whole == 0 && rng.percent(30)) {
        "-"
    } else {
        ""
    };
    let units = whole.abs();
    match rng.below(10) {
        0..=2 => format!("{sign}{units}"),
        3..=6 => format!("{sign}{units}.5"),
        7 => format!(
            "{sign}{units}.{}",
            rng.pick(&["25", "75", "0", "50", "49", "51"])
        ),
        _ => format!("{sign}{units}.{:03}", rng.below(1_000)),
    }
}

/// The pattern of a quarter unit in the range or close to it, or of a float next to it.
fn beside_a_quarter(low: i64, high: i64, rng: &mut Rng) -> String {
    let quarters = rng.between(4 * low - 8, 4 * high + 8);
    let value = quarters as f64 / 4.0;
    pattern(match rng.below(3) {
        0 => value.next_down(),
        1 => value,
        _ => value.next_up(),
    })
}

const SPECIAL: [&str; 12] = [
    "nan",
    "inf",
    "-inf",
    "-0",
    "0.000000000000001",
    "999999999999999",
    "-999999999999999",
    "0x7ff0000000000001",
    "0x0000000000000001",
    "0x800fffffffffffff",
    "0x7fefffffffffffff",
    "4294967296",
];

#[cfg(test)]
mod tests {
    use super::*;
    use crate::parts::words::{patterns_at, KINDS};
    use std::collections::BTreeSet;

    #[test]
    fn most_values_are_in_range_and_some_are_not() {
        let mut rng = Rng::of_list(1, 0);
        for kind in KINDS {
            let values: Vec<String> = (0..2_000).map(|_| value(kind, &mut rng)).collect();
            let good = values.iter().filter(|value| {
                let whole = value.parse::<f64>().map(f64::round_ties_even);
                let range = f64::from(kind.low)..=f64::from(kind.last);
                whole.is_ok_and(|whole| range.contains(&whole))
            });
            let good = good.count();
            assert!((1_200..1_900).contains(&good), "{} {good}", kind.name);
            assert!(values.iter().any(|value| value.starts_with("0x")));
            assert!(values.contains(&"nan".to_string()));
            let halves = values.iter().filter(|value| value.ends_with(".5")).count();
            assert!(halves > 300, "{halves}");
        }
    }

    #[test]
    fn whole_values_are_true_unreduced_rounded_otherwise_and_far_away() {
        let mut rng = Rng::of_list(1, 0);
        let seen: BTreeSet<i32> = (0..1_000)
            .map(|_| whole(KINDS[5], "359.5", &mut rng))
            .collect();
        for expected in [-2, -1, 0, 1, 2, 359, 360, 361, 65_536, i32::MIN, i32::MAX] {
            assert!(seen.contains(&expected), "{expected}");
        }
        assert!(seen.len() > 40);
    }

    #[test]
    fn every_kind_has_the_ties_at_seams_of_both_signs() {
        let mut rng = Rng::of_list(1, 0);
        for kind in KINDS {
            let values: BTreeSet<String> = (0..50_000).map(|_| value(kind, &mut rng)).collect();
            for tie in [179.5, 180.5, 359.5, 360.5] {
                for value in patterns_at(tie).into_iter().chain(patterns_at(-tie)) {
                    assert!(values.contains(&value), "{} {tie} {value}", kind.name);
                }
            }
        }
    }
}
