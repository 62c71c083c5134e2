//! The floats that are tried of each kind.

use crate::parts::words::Ranged;

/// Zeros, ties, and values between them.
const NEAR_ZERO: [f64; 8] = [0.0, -0.0, 0.25, 0.5, -0.5, 1.5, 2.5, -1.5];

/// Distances from the ends of a range: wholes, ties, and what is between them.
const STEPS: [f64; 7] = [-1.0, -0.75, -0.5, -0.25, 0.0, 0.25, 0.5];

/// Those about zero, about the low end and about the last number that is accepted, with the next
/// ones on both sides of the outermost ties and of the tie below the second number of a low end.
pub fn accepted(kind: Ranged) -> Vec<f64> {
    let (low, last) = (f64::from(kind.low), f64::from(kind.last));
    let mut floats = NEAR_ZERO.to_vec();
    for end in [low, last] {
        floats.extend(STEPS.map(|step| end + step));
    }
    for tie in [low - 0.5, last - 0.5, last + 0.5] {
        floats.extend([tie.next_down(), tie.next_up()]);
    }
    only_accepted(kind, floats)
}

/// Each float that a reading of the kind may have, once.
pub fn only_accepted(kind: Ranged, mut floats: Vec<f64>) -> Vec<f64> {
    floats.retain(|&float| kind.accepts(float));
    floats.sort_by(f64::total_cmp);
    floats.dedup_by_key(|float| float.to_bits());
    floats
}

#[cfg(test)]
mod tests {
    use super::*;
    use crate::parts::words::KINDS;

    #[test]
    fn zeros_and_ties_are_there_for_every_kind() {
        for kind in KINDS {
            let floats = accepted(kind);
            for float in [0.0_f64, -0.0, 0.25, 0.5, -0.5, 1.5, 2.5] {
                let found = floats
                    .iter()
                    .any(|other| other.to_bits() == float.to_bits());
                assert!(found, "{} {float}", kind.name);
            }
            assert!((12..=26).contains(&floats.len()), "{}", floats.len());
        }
    }

    #[test]
    fn circles_are_tried_all_around_their_seam() {
        let headings = accepted(KINDS[5]);
        for float in [
            359.0,
            359.25,
            359.5,
            360.0,
            360.25,
            360.5,
            359.5_f64.next_down(),
        ] {
            assert!(headings.contains(&float), "{float}");
        }
        let rolls = accepted(KINDS[3]);
        for float in [179.0, 179.5, 179.75, 180.0, 180.5, -179.5, -180.0, -180.5] {
            assert!(rolls.contains(&float), "{float}");
        }
        assert!(rolls.contains(&179.5_f64.next_down()) && !rolls.contains(&180.5_f64.next_up()));
    }

    #[test]
    fn both_ends_are_tried_up_to_their_last_tie() {
        for (kind, ties) in [
            (KINDS[0], [-8_000.5, 56_000.5]),
            (KINDS[2], [-300.5, 300.5]),
        ] {
            for tie in ties {
                assert!(accepted(kind).contains(&tie), "{tie}");
            }
        }
        assert!(accepted(KINDS[4]).contains(&89.5_f64.next_down()));
        assert!(!accepted(KINDS[4]).contains(&89.5));
    }
}
