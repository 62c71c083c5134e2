//! The poster of all sets: a line for each code, and the same list as numbers.

use std::io::{self, Write};

use crate::codes;
use crate::sets::ModeSet;

/// A line for each code in rising order: code, lateral law, armed sum and
/// vertical law.
pub fn write(output: &mut impl Write) -> io::Result<()> {
    for (code, set) in codes::all().iter().enumerate() {
        let (lateral, vertical) = (set.lateral_law(), set.vertical_law());
        writeln!(output, "{code} {lateral} {} {vertical}", set.armed_sum())?;
    }
    Ok(())
}

/// One number for each code, in the same order.
pub fn numbers() -> Vec<i32> {
    codes::all().iter().map(|&set| number(set)).collect()
}

/// Laws and armed sum have a hexadecimal digit each.
fn number(set: ModeSet) -> i32 {
    (set.lateral_law() * 256 + set.vertical_law() * 16 + set.armed_sum()) as i32
}
