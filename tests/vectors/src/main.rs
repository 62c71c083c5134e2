//! Makes the inputs and the expected output of the program crate `leaf_vectors`, from document 01 by
//! exact integer arithmetic. Nothing here is shared with the Rattle code.
//!
//! `vectors CRATE` writes CRATE/src/patterns.rt and CRATE/stdout; `vectors --check CRATE` only says
//! whether the two files are what it would write, by its exit status.
use std::fmt::Write;
use std::{env, fs, process};

/// What a 64-bit float rounds to: the integer nearest to its exact value, of two such the even one.
#[derive(Debug, PartialEq)]
enum Whole {
    NotFinite,
    Beyond,
    Value(i32),
}

/// The float is significand * 2^exponent. The quotient and the remainder are those of whole numbers.
fn whole(bits: u64) -> Whole {
    let field = (bits >> 52) & 0x7ff;
    let digits = u128::from(bits & 0xf_ffff_ffff_ffff);
    if field == 0x7ff {
        return Whole::NotFinite;
    }
    let significand = if field == 0 { digits } else { digits + (1 << 52) };
    let exponent = i64::try_from(field.max(1)).unwrap() - 1075;
    let magnitude = if exponent >= 0 {
        // 2^53 * 2^60 is far beyond the answer, and so is what lies above.
        significand << exponent.min(60)
    } else if exponent < -100 {
        // Below 2^53 / 2^100, which is less than a half.
        0
    } else {
        let unit = 1u128 << -exponent;
        let (quotient, rest) = (significand / unit, significand % unit);
        match (2 * rest).cmp(&unit) {
            std::cmp::Ordering::Less => quotient,
            std::cmp::Ordering::Equal => quotient + quotient % 2,
            std::cmp::Ordering::Greater => quotient + 1,
        }
    };
    let magnitude = i128::try_from(magnitude).unwrap();
    let signed = if bits >> 63 == 1 { -magnitude } else { magnitude };
    i32::try_from(signed).map_or(Whole::Beyond, Whole::Value)
}

/// A second opinion from Rust's own library, on the same float.
fn agrees_with_the_library(bits: u64) -> bool {
    let rounded = f64::from_bits(bits).round_ties_even();
    match whole(bits) {
        Whole::NotFinite => !rounded.is_finite(),
        Whole::Beyond => rounded < -2147483648.0 || 2147483647.0 < rounded,
        Whole::Value(v) => rounded == f64::from(v),
    }
}

/// The one number from -128 to 127 that gives new, modulo 256, when it is added to old.
fn rotation(old: i32, new: i32) -> i32 {
    (-128..128).find(|r| (old + r).rem_euclid(256) == new).unwrap()
}

/// The floats to try, as bit patterns: named ones with their neighbours, then a fixed pseudo-random run.
fn patterns() -> Vec<u64> {
    let mut values: Vec<f64> = vec![
        0.0, 0.49999999999999994, 12.5, 13.5, 359.25, 359.5, 56000.5, 56001.0, 8000.5, 600.5, 300.5,
        180.5, 179.5, 90.5, 89.5, 2147483646.5, 2147483647.0, 2147483647.5, 2147483648.0, 2147483648.5,
        2147483649.0, 4294967296.0, 1e300,
    ];
    // Every tie, whole number and quarter from 0 to 3.5; with the sign below, from -3.5.
    values.extend((0..=14).map(|quarters| f64::from(quarters) / 4.0));
    // Powers of two around the last binary digit that counts, and far from it.
    values.extend([-60, -54, -53, -52, -2, -1, 0, 1, 29, 30, 31, 32, 51, 52, 53, 54, 60, 63, 64, 1023].map(|e| 2f64.powi(e)));
    values.extend([f64::MIN_POSITIVE, f64::from_bits(1), f64::from_bits(0xf_ffff_ffff_ffff), f64::MAX, f64::INFINITY]);
    let mut all: Vec<u64> = Vec::new();
    for value in values {
        let bits = value.to_bits();
        for neighbour in [bits.saturating_sub(1), bits, bits + 1] {
            all.extend([neighbour, neighbour | 1 << 63]);
        }
    }
    all.extend([0x7ff8_0000_0000_0000, 0xfff8_0000_0000_0000, 0x7ff0_0000_0000_0001, u64::MAX]);
    // Random digits at each exponent from far below a half to far beyond the answer.
    let mut state = 0x2003_2124_26u64;
    for field in 1015..1060u64 {
        for _ in 0..4 {
            state = state.wrapping_mul(6364136223846793005).wrapping_add(1442695040888963407);
            let sign_and_digits = state & 0x800f_ffff_ffff_ffff;
            all.push(sign_and_digits | field << 52);
            // The same with only the leading digits: ties are among these.
            all.push(sign_and_digits & 0xffff_e000_0000_0000 | field << 52);
        }
    }
    all.sort_unstable();
    all.dedup();
    all
}

fn source(patterns: &[u64]) -> String {
    let mut text = String::from("// Bit patterns of floats to round. Made by tests/vectors; do not edit.\n");
    writeln!(text, "pub const PATTERNS: [u64; {}] = [", patterns.len()).unwrap();
    for bits in patterns {
        writeln!(text, "    0x{bits:016x},").unwrap();
    }
    text.push_str("];\n");
    text
}

fn expected(patterns: &[u64]) -> String {
    let mut text = String::new();
    for &bits in patterns {
        assert!(agrees_with_the_library(bits), "two computations of {bits:016x} differ");
        let answer = match whole(bits) {
            Whole::NotFinite => String::from("not-finite"),
            Whole::Beyond => String::from("beyond"),
            Whole::Value(v) => v.to_string(),
        };
        writeln!(text, "{bits:016x} {answer}").unwrap();
    }
    for old in 0..256 {
        let row: Vec<String> = (0..256).map(|new| rotation(old, new).to_string()).collect();
        writeln!(text, "{}", row.join(" ")).unwrap();
    }
    text
}

fn main() {
    let words: Vec<String> = env::args().skip(1).collect();
    let (check, folder) = match words.as_slice() {
        [flag, folder] if flag == "--check" => (true, folder),
        [folder] => (false, folder),
        _ => {
            eprintln!("usage: vectors [--check] CRATE");
            process::exit(2);
        }
    };
    let patterns = patterns();
    for (name, text) in [("src/patterns.rt", source(&patterns)), ("stdout", expected(&patterns))] {
        let path = format!("{folder}/{name}");
        if !check {
            fs::write(&path, text).unwrap();
        } else if fs::read_to_string(&path).ok() != Some(text) {
            eprintln!("{path} is not what tests/vectors makes");
            process::exit(1);
        }
    }
    println!("{} patterns and 65536 pairs of counts", patterns.len());
}

#[cfg(test)]
mod tests {
    use super::*;

    /// The bench sheet's own values, cases 1 to 4.
    #[test]
    fn the_bench_sheet() {
        for (value, expected) in [(12.5, 12), (13.5, 14), (-0.5, 0), (359.25, 359), (359.5, 360), (56000.5, 56000), (56001.0, 56001)] {
            assert_eq!(whole(f64::to_bits(value)), Whole::Value(expected));
        }
        for (old, new, expected) in [(250, 3, 9), (3, 250, -9), (0, 128, -128), (128, 0, -128)] {
            assert_eq!(rotation(old, new), expected);
        }
    }

    #[test]
    fn the_ends_of_the_answer() {
        assert_eq!(whole(f64::to_bits(-2147483648.5)), Whole::Value(i32::MIN));
        assert_eq!(whole(f64::to_bits(2147483647.5)), Whole::Beyond);
        assert_eq!(whole(f64::to_bits(f64::INFINITY)), Whole::NotFinite);
        assert_eq!(whole(f64::to_bits(f64::NAN)), Whole::NotFinite);
    }
}
