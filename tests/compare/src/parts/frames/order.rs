//! Several reasons for a refusal at once, so that it is seen which is tried first.

use super::frame::{self, Frame, FIELDS, HEAD, LENGTH, RIGHT, SHARE, UNLIKE};
use crate::say;
use crate::script::Script;

/// The area of the cases; a frame just fits from 21 on.
const AREA: usize = 40;

/// Damages after which the bench is unsound, each at another place; the first is none.
const DAMAGES: [&str; 16] = [
    "damage pf 0",
    "damage pf 2",
    "damage pf 255",
    "damage left set 1 1 1 1",
    "damage right set 2 0 7 0",
    "damage left ias 59",
    "damage right pitch 21",
    "damage left-inbox set 3 1 1 0",
    "damage right-inbox set 5 2 8 0",
    "damage left-inbox held 56001",
    "damage right-inbox roll -28",
    "damage reading altitude nan",
    "damage reading heading 361",
    "damage whole airspeed 121",
    "damage whole heading 360",
    "damage independent 1",
];

const SIDES: [u32; 8] = [0, 1, 2, 3, 255, 256, 1 << 31, u32::MAX];

const STARTS: [u64; 9] = [0, 7, 21, 22, 39, 40, 41, u64::MAX - 18, u64::MAX];

/// Bench, side and place, each good and bad.
pub fn writes() -> Script {
    let mut script = Script::default();
    for damage in DAMAGES {
        for line in UNLIKE {
            script.line(line);
        }
        frame::fill(&mut script, AREA);
        script.line(damage);
        for side in SIDES {
            for start in STARTS {
                say!(script, "write {side} {start}");
                script.line("bytes");
            }
        }
        script.line("bench");
    }
    script
}

/// Place, mark, version and fields, each good and bad, on a sound bench and on unsound ones.
pub fn reads() -> Script {
    let mut script = Script::default();
    for damage in [DAMAGES[0], DAMAGES[1], DAMAGES[3]] {
        script.line("power-on");
        script.line(damage);
        for start in STARTS {
            for frames in frames().chunks(SHARE) {
                frame::fill(&mut script, AREA);
                for &frame in frames {
                    read(&mut script, start, frame);
                }
            }
        }
    }
    script
}

/// As much of the frame as has room stands there.
fn read(script: &mut Script, start: u64, frame: Frame) {
    let at = usize::try_from(start).unwrap_or(AREA).min(AREA);
    let room = (AREA - at).min(LENGTH);
    if room > 0 {
        frame::poke(script, at, &frame[..room]);
    }
    say!(script, "read {start}");
}

/// Every head with every state of the fields.
fn frames() -> Vec<Frame> {
    let mut frames = Vec::new();
    for head in heads() {
        for mut frame in bodies() {
            frame[..HEAD].copy_from_slice(&head);
            frames.push(frame);
        }
    }
    frames
}

/// The good one first. Then one wrong byte in each place, and heads of other forms.
fn heads() -> Vec<[u8; HEAD]> {
    let good = *b"FGB\x00\x01";
    let mut heads = vec![good];
    for at in 0..HEAD {
        let mut head = good;
        head[at] ^= 1;
        heads.push(head);
    }
    heads.extend([
        *b"FGB\x01\x00",
        *b"FGB\x00\x02",
        *b"fgb\x00\x01",
        *b"BGF\x00\x01",
    ]);
    heads
}

/// The good one first. Then one field past its range, and all fields.
fn bodies() -> Vec<Frame> {
    let mut bodies = vec![RIGHT];
    bodies.extend(FIELDS.map(|field| frame::with(RIGHT, field, field.past())));
    bodies.push([0xff; LENGTH]);
    bodies
}

#[cfg(test)]
mod tests {
    use super::*;
    use std::collections::BTreeSet;

    #[test]
    fn all_reasons_meet_each_other() {
        let cases = SIDES.len() * STARTS.len();
        let each = UNLIKE.len() + 2 + 1 + 2 * cases + 1;
        assert_eq!(writes().commands(), DAMAGES.len() * each);
        let frames: BTreeSet<Frame> = frames().into_iter().collect();
        assert_eq!(frames.len(), 10 * 12);
    }

    #[test]
    fn starts_are_on_both_sides_of_the_last_that_fits() {
        let last = (AREA - LENGTH) as u64;
        assert!(STARTS.contains(&last) && STARTS.contains(&(last + 1)));
    }

    #[test]
    fn a_frame_that_has_no_room_stands_there_in_part() {
        let mut script = Script::default();
        read(&mut script, 22, RIGHT);
        read(&mut script, 40, RIGHT);
        read(&mut script, u64::MAX, RIGHT);
        let part = frame::hex(&RIGHT[..18]);
        let expected = format!("poke 22 {part}\nread 22\nread 40\nread 18446744073709551615\n");
        assert_eq!(script.text(), expected.as_bytes());
    }
}
