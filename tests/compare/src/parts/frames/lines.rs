//! Lines of the area's commands that are errors, and lines that nearly are.

use super::frame;
use crate::script::{Script, LONGEST};

/// The area that each line finds.
const AREA: usize = 24;

/// The area for pokes that fill a line.
const LONG_AREA: usize = 130;

pub fn all() -> Script {
    let mut script = Script::default();
    script.line("press appr");
    let lines = WORDS.iter().chain(&NUMBERS).chain(&DIGITS);
    for line in lines {
        shown(&mut script, AREA, line.as_bytes());
    }
    for line in pokes_at_the_end().iter().chain(&with_every_byte()) {
        shown(&mut script, AREA, line);
    }
    for line in long_lines() {
        shown(&mut script, LONG_AREA, &line);
    }
    script.line("bench");
    script
}

/// The line in a fresh area, and what it left there.
fn shown(script: &mut Script, length: usize, line: &[u8]) {
    frame::fill(script, length);
    script.line(line);
    script.line("bytes");
}

/// Words that are missing, surplus or others.
const WORDS: [&str; 58] = [
    "area",
    "area 3 3",
    "area left",
    "area x",
    "area 0x10",
    "area 1.0",
    "area +1",
    "area -1",
    "area -0",
    "areas 3",
    "Area 3",
    "AREA 3",
    "area3",
    "area # 3",
    "poke",
    "poke 0",
    "poke 0 #11",
    "poke 11",
    "poke 0 11 22",
    "poke 0 0 11",
    "poke left 11",
    "poke 0,11",
    "poke -0 11",
    "poke +0 11",
    "poke 0x0 11",
    "Poke 0 11",
    "pokes 0 11",
    "poke0 11",
    "write",
    "write 0",
    "write left",
    "write left right",
    "write 0 0 0",
    "write 0 left",
    "write both 0",
    "write Left 0",
    "write left-inbox 0",
    "write wheel 0",
    "write -0 0",
    "write 0 -0",
    "write 0 +0",
    "write 0 0x0",
    "write 0 # 0",
    "writes 0 0",
    "WRITE 0 0",
    "read",
    "read 0 0",
    "read left",
    "read -0",
    "read +0",
    "read 0.0",
    "read # 0",
    "reads 0",
    "Read 0",
    "bytes 0",
    "bytes bytes",
    "byte",
    "Bytes",
];

/// Numbers at the ends of their ranges and past them, and in all forms that are accepted.
const NUMBERS: [&str; 45] = [
    "area 0",
    "area 00",
    "area 1",
    "area 007",
    "area 2047",
    "area 2048",
    "area 0002048",
    "area 2049",
    "area 4096",
    "area 65536",
    "area 65560",
    "area 4294967296",
    "area 4294967320",
    "area 18446744073709551616",
    "area 18446744073709551640",
    "area 99999999999999999999999999999999999999999999999999",
    "poke 00 11",
    "poke 023 11",
    "poke 18446744073709551615 11",
    "poke 18446744073709551616 11",
    "poke 18446744073709551617 11",
    "poke 4294967296 11",
    "poke 340282366920938463463374607431768211456 11",
    "write 00 00",
    "write 01 05",
    "write right 5",
    "write left 5",
    "write left 6",
    "write 2 0",
    "write 256 0",
    "write 4294967295 0",
    "write 4294967296 0",
    "write 4294967297 0",
    "write 18446744073709551616 0",
    "write 0 18446744073709551615",
    "write 0 18446744073709551616",
    "write 0 18446744073709551617",
    "write 0 340282366920938463463374607431768211456",
    "read 00",
    "read 005",
    "read 18446744073709551615",
    "read 18446744073709551616",
    "read 18446744073709551621",
    "read 340282366920938463463374607431768211456",
    "read 99999999999999999999999999999999999999999999999999",
];

/// Hexadecimal digits in both letter cases, pairs that are not whole, and other characters.
const DIGITS: [&str; 42] = [
    "poke 0 00",
    "poke 0 ff",
    "poke 0 FF",
    "poke 0 aBcDeF",
    "poke 0 AbCdEf",
    "poke 5 0123456789abcdefABCDEF",
    "poke 0 4647420001",
    "poke 0 11#22",
    "poke 0 11 #22",
    "poke 0 1",
    "poke 0 1#1",
    "poke 0 111",
    "poke 0 11111",
    "poke 0 1g",
    "poke 0 g1",
    "poke 0 1G",
    "poke 0 gg",
    "poke 0 0x11",
    "poke 0 0X11",
    "poke 0 x1",
    "poke 0 +1",
    "poke 0 -1",
    "poke 0 1.",
    "poke 0 .1",
    "poke 0 1_",
    "poke 0 1-1",
    "poke 0 11h",
    "poke 0 112233g4",
    "poke 0 1122334g",
    "poke 0 112233445566778899zz",
    "poke 0 112233 ",
    "poke 0 11\t",
    "poke\t0\t11\r",
    "poke 0 11,22",
    "poke 0 11:22",
    "poke 0 11-22",
    "poke 0 '11'",
    "poke 0 nan",
    "poke 0 \u{ff11}1",
    "poke 0 1\u{663}",
    "poke 0 \u{b2}",
    "poke 0 left",
];

/// Pokes of every length that end inside the area, at its end, and past it.
fn pokes_at_the_end() -> Vec<Vec<u8>> {
    let mut lines = Vec::new();
    for count in [1, 2, 5, 19, AREA - 1, AREA, AREA + 1, 60] {
        let digits = "c3".repeat(count);
        let last = AREA.saturating_sub(count);
        for start in [
            0,
            1,
            last.saturating_sub(1),
            last,
            last + 1,
            AREA - 1,
            AREA,
            AREA + 1,
        ] {
            lines.push(format!("poke {start} {digits}"));
        }
        let back = u64::MAX - count as u64;
        for start in [back, back + 1, u64::MAX - 1, u64::MAX, 1 << 32, 1 << 63] {
            lines.push(format!("poke {start} {digits}"));
        }
    }
    lines.into_iter().map(String::into_bytes).collect()
}

/// Every byte but the newline as a digit of a pair.
fn with_every_byte() -> Vec<Vec<u8>> {
    let mut lines = Vec::new();
    for byte in (0..=u8::MAX).filter(|&byte| byte != b'\n') {
        for (before, after) in [("poke 3 7", ""), ("poke 3 ", "7"), ("poke 3 aabb", "d")] {
            lines.push([before.as_bytes(), &[byte], after.as_bytes()].concat());
        }
    }
    lines
}

/// Lines about the longest that is read.
fn long_lines() -> Vec<Vec<u8>> {
    let forms: [(&str, u8, &str); 14] = [
        ("poke 0 ", b'b', ""),
        ("poke 1 ", b'7', ""),
        ("poke 00 ", b'E', ""),
        ("poke ", b'0', " a5a5"),
        ("poke ", b'0', "3 a5"),
        ("poke 2 a5", b' ', ""),
        ("poke 2 a5#", b'5', ""),
        ("poke", b'\t', "2 a5"),
        ("area ", b'0', "20"),
        ("write 0 ", b'0', "2"),
        ("write ", b'0', " 2"),
        ("write left", b' ', "2"),
        ("read ", b'0', "2"),
        ("bytes", b'\r', ""),
    ];
    let mut lines = Vec::new();
    for length in [
        LONGEST - 2,
        LONGEST - 1,
        LONGEST,
        LONGEST + 1,
        LONGEST + 2,
        300,
        513,
    ] {
        for (start, filler, end) in forms {
            let middle = vec![filler; length - start.len() - end.len()];
            lines.push([start.as_bytes(), &middle, end.as_bytes()].concat());
        }
    }
    lines
}

#[cfg(test)]
mod tests {
    use super::*;
    use std::collections::BTreeSet;

    #[test]
    fn no_line_stands_there_twice() {
        let all: Vec<&str> = WORDS
            .iter()
            .chain(&NUMBERS)
            .chain(&DIGITS)
            .copied()
            .collect();
        let different: BTreeSet<&str> = all.iter().copied().collect();
        assert_eq!(different.len(), all.len());
    }

    #[test]
    fn long_lines_have_whole_pairs_at_the_limit() {
        let lines = long_lines();
        let whole = format!("poke 0 {}", "b".repeat(248));
        assert_eq!(whole.len(), LONGEST);
        assert!(lines.contains(&whole.into_bytes()));
        assert!(lines.iter().any(|line| line.len() == LONGEST + 1));
        const { assert!(LONG_AREA > 124) };
    }

    #[test]
    fn pokes_end_inside_and_one_byte_past() {
        let lines = pokes_at_the_end();
        for line in ["poke 22 c3c3", "poke 23 c3c3", "poke 23 c3", "poke 24 c3"] {
            assert!(lines.contains(&line.as_bytes().to_vec()), "{line}");
        }
        let last = format!("poke {} c3", u64::MAX);
        assert!(lines.contains(&last.into_bytes()));
    }

    #[test]
    fn every_byte_but_the_newline_is_tried_as_a_digit() {
        let lines = with_every_byte();
        assert_eq!(lines.len(), 3 * 255);
        assert!(!lines.concat().contains(&b'\n'));
    }
}
