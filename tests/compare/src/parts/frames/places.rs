//! Starts and lengths: where a frame has room and where it has not.

use super::frame::{self, LENGTH, UNLIKE};
use crate::say;
use crate::script::Script;

/// Areas about the length of one frame and of two.
const SMALL: [usize; 12] = [0, 1, 2, 17, 18, 19, 20, 21, 37, 38, 39, 40];

/// Longer areas, also at and beside the sizes that fit in a byte.
const LARGE: [usize; 11] = [57, 64, 255, 256, 257, 275, 511, 1_000, 1_024, 2_047, 2_048];

/// Every start from the first byte to more than a frame past the end.
pub fn near() -> Script {
    let mut script = unlike();
    for length in SMALL {
        for start in 0..=length + LENGTH + 2 {
            frame::fill(&mut script, length);
            say!(script, "write {} {start}", start % 2);
            script.line("bytes");
            say!(script, "read {start}");
        }
    }
    script
}

/// In long areas the starts about both ends. The whole area is only shown where a frame has room.
pub fn wide() -> Script {
    let mut script = unlike();
    for length in LARGE {
        frame::fill(&mut script, length);
        for start in wide_starts(length) {
            say!(script, "write {} {start}", start % 2);
            say!(script, "read {start}");
            if start + LENGTH <= length {
                script.line("bytes");
            }
        }
        script.line("bytes");
    }
    script
}

/// The high ones first, so that each frame stands on bytes that were not written yet.
fn wide_starts(length: usize) -> Vec<usize> {
    let room = length - LENGTH;
    let mut starts = vec![0, 1, room / 2, 236, 237, 238, 255, 256, room - 1, room];
    starts.retain(|&start| start <= room);
    starts.extend([room + 1, room + 2, length - 1, length, length + 1]);
    starts.sort_unstable();
    starts.dedup();
    starts.reverse();
    starts
}

/// Starts that would be inside if they were cut to fewer bits, or if a sum went round.
pub fn far() -> Script {
    let mut script = unlike();
    for length in [0, 1, LENGTH, 40, 2_048] {
        frame::fill(&mut script, length);
        for (index, start) in far_starts().into_iter().enumerate() {
            say!(script, "write {} {start}", index % 2);
            say!(script, "read {start}");
            if length <= 40 {
                script.line("bytes");
            }
        }
        script.line("bytes");
        // A frame that could be found by a start that was cut.
        script.line("area 2048");
        script.line("write 0 0");
        script.line("write 1 19");
        for start in far_starts() {
            say!(script, "read {start}");
        }
    }
    script
}

fn far_starts() -> Vec<u64> {
    let mut starts = Vec::new();
    for end in [1 << 12, 1 << 16, 1 << 31, 1 << 32, 1 << 63] {
        starts.extend([
            end - 19,
            end - 1,
            end,
            end + 1,
            end + 18,
            end + 19,
            end + 20,
        ]);
    }
    starts.extend(u64::MAX - 40..=u64::MAX);
    starts
}

/// Reads from every start of an area in which frames stand apart, together and cut by its end.
pub fn all_reads() -> Script {
    let mut script = unlike();
    frame::fill(&mut script, 120);
    for (side, start) in [(0, 5), (1, 30), (0, 49), (1, 90), (0, 101)] {
        say!(script, "write {side} {start}");
    }
    frame::poke(&mut script, 111, &frame::LEFT[..9]);
    script.line("bytes");
    for start in 0..=140 {
        say!(script, "read {start}");
    }
    script
}

fn unlike() -> Script {
    let mut script = Script::default();
    for line in UNLIKE {
        script.line(line);
    }
    script
}

#[cfg(test)]
mod tests {
    use super::*;

    #[test]
    fn starts_are_on_both_sides_of_the_last_that_fits() {
        for length in LARGE {
            let starts = wide_starts(length);
            for start in [0, length - 19, length - 18, length, length + 1] {
                assert!(starts.contains(&start), "{length} {start}");
            }
        }
        assert_eq!(LARGE.last(), Some(&2_048));
    }

    #[test]
    fn far_starts_reach_to_the_last_number() {
        let starts = far_starts();
        for start in [1 << 32, (1 << 32) + 19, 1 << 63, u64::MAX - 18, u64::MAX] {
            assert!(starts.contains(&start), "{start}");
        }
    }

    #[test]
    fn small_areas_have_every_start() {
        let text = String::from_utf8(near().text().to_vec()).unwrap();
        for line in [
            "write 0 0",
            "write 1 1",
            "write 0 40",
            "write 1 61",
            "area 0",
        ] {
            assert!(text.lines().any(|other| other == line), "{line}");
        }
    }

    #[test]
    fn long_areas_are_shown_seldom() {
        let text = String::from_utf8([wide().text(), far().text()].concat()).unwrap();
        let mut shown = 0;
        let mut length = 0;
        for line in text.lines() {
            if let Some(number) = line.strip_prefix("area ") {
                length = number.parse().unwrap();
            }
            shown += if line == "bytes" { length } else { 0 };
        }
        assert!(shown < 200_000, "{shown}");
    }
}
