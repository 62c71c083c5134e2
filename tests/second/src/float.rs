//! Whole values of 64-bit floats, worked out on the bit pattern alone.
//!
//! A finite float is its significand times a power of two, so its nearest
//! integer comes from shifts and comparisons of integers. No float operation
//! takes part, and so none can round.

const FRACTION_BITS: u32 = 52;
const FRACTION_MASK: u64 = (1 << FRACTION_BITS) - 1;
const EXPONENT_MASK: u64 = 0x7ff;

/// A float is its significand times two to the exponent field less this.
const UNIT_EXPONENT: i32 = 1075;

/// Larger left shifts are cut to this one. The value is then wrong but still
/// far outside of every range, and it fits in 128 bits.
const LARGEST_LEFT: i32 = 64;

/// Larger right shifts are cut to this one. It already leaves nothing of the
/// 53 bits of a significand, neither units nor a half.
const LARGEST_RIGHT: i32 = 100;

/// The pattern that stands for every NaN.
pub const NAN: u64 = 0x7ff8_0000_0000_0000;

fn exponent_field(bits: u64) -> u64 {
    (bits >> FRACTION_BITS) & EXPONENT_MASK
}

fn is_finite(bits: u64) -> bool {
    exponent_field(bits) != EXPONENT_MASK
}

pub fn is_nan(bits: u64) -> bool {
    !is_finite(bits) && bits & FRACTION_MASK != 0
}

/// The integer nearest to a finite float, of two such the even one; `None` for
/// an infinity or a NaN.
pub fn whole(bits: u64) -> Option<i128> {
    if !is_finite(bits) {
        return None;
    }
    let magnitude = whole_magnitude(bits) as i128;
    let negative = bits >> 63 == 1;
    Some(if negative { -magnitude } else { magnitude })
}

fn whole_magnitude(bits: u64) -> u128 {
    let (significand, shift) = parts(bits);
    if shift >= 0 {
        significand << shift.min(LARGEST_LEFT)
    } else {
        drop_digits(significand, (-shift).min(LARGEST_RIGHT))
    }
}

/// The significand and the power of two that it is multiplied by.
fn parts(bits: u64) -> (u128, i32) {
    let field = exponent_field(bits);
    let fraction = u128::from(bits & FRACTION_MASK);
    if field == 0 {
        // Subnormal: no leading one, and the exponent of field 1.
        (fraction, 1 - UNIT_EXPONENT)
    } else {
        (fraction | 1 << FRACTION_BITS, field as i32 - UNIT_EXPONENT)
    }
}

/// Drops `count` binary digits, at least one, and rounds by what was dropped,
/// at a tie to the even number.
fn drop_digits(significand: u128, count: i32) -> u128 {
    let units = significand >> count;
    let rest = significand - (units << count);
    let half = 1 << (count - 1);
    let up = rest > half || (rest == half && units % 2 == 1);
    units + u128::from(up)
}

#[cfg(test)]
mod tests {
    use super::*;

    fn of(value: f64) -> Option<i128> {
        whole(value.to_bits())
    }

    #[test]
    fn ties_go_to_the_even_integer() {
        let cases = [(0.5, 0), (1.5, 2), (2.5, 2), (-1.5, -2), (-2.5, -2)];
        for (value, expected) in cases {
            assert_eq!(of(value), Some(expected), "{value}");
        }
    }

    #[test]
    fn values_beside_a_tie_go_to_the_nearest() {
        let half = 0.5_f64.to_bits();
        assert_eq!(whole(half + 1), Some(1));
        assert_eq!(whole(half - 1), Some(0));
        let high = 359.5_f64.to_bits();
        assert_eq!(whole(high - 1), Some(359));
        assert_eq!(whole(high), Some(360));
    }

    #[test]
    fn small_and_large_magnitudes() {
        assert_eq!(of(0.0), Some(0));
        assert_eq!(of(-0.0), Some(0));
        assert_eq!(whole(1), Some(0));
        assert_eq!(of(f64::MIN_POSITIVE), Some(0));
        assert_eq!(of(4503599627370495.5), Some(4503599627370496));
        assert_eq!(of(9007199254740993.0), Some(9007199254740992));
        assert!(of(f64::MAX).unwrap() > 1 << 100);
        assert!(of(f64::MIN).unwrap() < -(1 << 100));
    }

    #[test]
    fn infinities_and_nans_have_no_whole_value() {
        assert_eq!(of(f64::INFINITY), None);
        assert_eq!(of(f64::NEG_INFINITY), None);
        assert_eq!(whole(NAN), None);
        assert_eq!(whole(0xfff0_0000_0000_0001), None);
        assert!(is_nan(0xfff0_0000_0000_0001));
        assert!(!is_nan(f64::INFINITY.to_bits()));
    }

    #[test]
    fn agrees_with_the_rounding_of_the_standard_library() {
        for step in -40_000..40_000 {
            let value = f64::from(step) / 32.0;
            assert_eq!(of(value), Some(value.round_ties_even() as i128));
        }
    }
}
