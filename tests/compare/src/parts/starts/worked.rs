//! Cases worked out by hand from the papers, with the answers that they give.

use crate::parts::sheet::{started, Case};

pub const CASES: [Case; 6] = [DEFAULT, NAMED, SHEET, BOTH, WATCHED, AREA];

/// The console begins with the default bench, and `power-on` gives it again.
const DEFAULT: Case = &[
    ("bench", started!("0x405e000000000000", "120")),
    ("display 0", "display 0 0 0 0 0 0 0 0 0 120 0 0 128"),
    ("press flc", "event 0 18"),
    ("display 0", "display 0 1 1 3 4 0 0 0 0 120 0 0 144"),
    ("start 90", "start 0"),
    ("power-on", "power-on 0"),
    ("bench", started!("0x405e000000000000", "120")),
];

/// Both ends of the range and what is beside them; a refused start gives the default bench and
/// keeps nothing of the one before.
const NAMED: Case = &[
    ("start 60", "start 0"),
    ("bench", started!("0x404e000000000000", "60")),
    ("start 59", "start 10"),
    ("bench", started!("0x405e000000000000", "120")),
    ("start 400", "start 0"),
    ("bench", started!("0x4079000000000000", "400")),
    ("start 401", "start 10"),
    ("bench", started!("0x405e000000000000", "120")),
    ("start 399", "start 0"),
    ("bench", started!("0x4078f00000000000", "399")),
    ("start -90", "start 10"),
    ("bench", started!("0x405e000000000000", "120")),
    ("start 90", "start 0"),
    ("bench", started!("0x4056800000000000", "90")),
    ("start 2147483647", "start 10"),
    ("start -2147483648", "start 10"),
    ("start 0", "start 10"),
    ("bench", started!("0x405e000000000000", "120")),
];

/// An old exercise sheet that counts on 90: cases 9, 11 and 12 of the bench sheet. Right has sent
/// nothing, so that left's refresh takes over the references of the start.
const SHEET: Case = &[
    ("start 90", "start 0"),
    ("event 65536", "event 0 16"),
    ("event 1024", "event 0 10"),
    ("event 4", "event 0 2"),
    ("display 0", "display 0 1 4 3 12 0 0 0 0 90 0 0 148"),
    ("event 2048", "event 0 11"),
    ("display 0", "display 0 1 4 3 12 0 0 0 0 90 0 0 148"),
    ("display 1", "display 0 0 0 0 0 0 0 0 0 90 0 0 128"),
    ("send 0", "send 0"),
    ("refresh 1", "refresh 0"),
    ("display 1", "display 0 0 4 3 12 0 0 0 0 90 0 0 148"),
    ("event 32", "event 0 5"),
    ("display 1", "display 0 0 1 1 4 0 0 0 0 90 0 0 256"),
    ("refresh 0", "refresh 0"),
    ("display 0", "display 0 1 0 0 0 0 0 0 0 90 0 0 256"),
];

/// In independent operation overspeed loads the started reading on both sides.
const BOTH: Case = &[
    ("start 250", "start 0"),
    ("press appr", "event 0 16"),
    ("signal lappr-captured", "event 0 10"),
    ("signal vappr-captured", "event 0 11"),
    ("send left", "send 0"),
    ("refresh right", "refresh 0"),
    ("press independent", "event 0 20"),
    ("knob speed 9", "turn 0"),
    ("display left", "display 0 1 4 7 0 0 0 0 0 259 0 0 132"),
    ("display right", "display 0 0 4 7 0 0 0 0 0 259 0 0 132"),
    ("signal overspeed-begins", "event 0 2"),
    ("display left", "display 0 1 4 3 4 0 0 0 0 250 0 0 148"),
    ("display right", "display 0 1 4 3 4 0 0 0 0 250 0 0 148"),
    ("start 401", "start 10"),
    ("bench", started!("0x405e000000000000", "120")),
];

/// A start can change the bench, so that a drawing follows it, refused or not; none follows an
/// error. The watch is no part of the bench and stays.
const WATCHED: Case = &[
    ("watch on", "watch 0"),
    ("start 90", "start 0\npanel\nend"),
    ("start 59", "start 10\npanel\nend"),
    ("start", "error 4: x"),
    ("start 60 61", "error 5: x"),
    ("damage pf 2", "damage 0\npanel\nend"),
    ("start 400", "start 0\npanel\nend"),
    ("bench", started!("0x4079000000000000", "400")),
    ("damage pf 2", "damage 0\npanel\nend"),
    ("start 401", "start 10\npanel\nend"),
    ("watch off", "watch 0"),
    ("start 60", "start 0"),
    ("start 401", "start 10"),
    ("bench", started!("0x405e000000000000", "120")),
];

/// The bus area is no part of the bench and stays; what is then written has the new speed.
const AREA: Case = &[
    ("area 21", "area 0"),
    ("poke 0 a5", "poke 0"),
    ("poke 20 5a", "poke 0"),
    ("write left 1", "write 0"),
    ("start 90", "start 0"),
    ("bytes", "bytes a546474200010000000000321b1400781f401f405a"),
    ("read 1", "read 0 0 0 0 0 0 0 0 0 0 0 120 0 0"),
    ("write left 1", "write 0"),
    ("start 401", "start 10"),
    ("bytes", "bytes a546474200010000000000321b14005a1f401f405a"),
    ("read 1", "read 0 0 0 0 0 0 0 0 0 0 0 90 0 0"),
    ("write right 1", "write 0"),
    ("bytes", "bytes a546474200010100000000321b1400781f401f405a"),
    ("start 60.0", "error 14: x"),
    ("bytes", "bytes a546474200010100000000321b1400781f401f405a"),
];

#[cfg(test)]
mod tests {
    use super::*;
    use crate::parts::sheet::assert_fitting;

    #[test]
    fn answers_are_those_of_their_commands() {
        assert_fitting(&CASES);
    }
}
