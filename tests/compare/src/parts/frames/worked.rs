//! Cases worked out by hand from the papers, with the answers that they give.

use crate::parts::sheet::Case;

pub const CASES: [Case; 5] = [POWER_ON, EVERY_FIELD, APPROACH, REFUSED, PROBED];

/// The area is empty at first; then the frames of both sides as they come at power-on.
const POWER_ON: Case = &[
    ("bytes", "bytes"),
    ("write 0 0", "write 7"),
    ("read 0", "read 7 0 0 0 0 0 0 0 0 0 0 0 0 0"),
    ("area 19", "area 0"),
    ("bytes", "bytes 00000000000000000000000000000000000000"),
    ("read 0", "read 8 0 0 0 0 0 0 0 0 0 0 0 0 0"),
    ("write left 0", "write 0"),
    ("bytes", "bytes 46474200010000000000321b1400781f401f40"),
    ("read 0", "read 0 0 0 0 0 0 0 0 0 0 0 120 0 0"),
    ("write 1 0", "write 0"),
    ("bytes", "bytes 46474200010100000000321b1400781f401f40"),
    ("read 0", "read 0 1 0 0 0 0 0 0 0 0 0 120 0 0"),
];

/// The last code, and a number in each field that shows the place and the order of its bytes.
const EVERY_FIELD: Case = &[
    ("damage right set 5 2 8 1", "damage 0"),
    ("damage right heading 258", "damage 0"),
    ("damage right preselected 4660", "damage 0"),
    ("damage right held -7000", "damage 0"),
    ("damage right vertical-speed -3", "damage 0"),
    ("damage right ias 300", "damage 0"),
    ("damage right roll 5", "damage 0"),
    ("damage right pitch -7", "damage 0"),
    ("press fd-right", "event 0 7"),
    ("area 21", "area 0"),
    ("poke 0 a5", "poke 0"),
    ("poke 20 5A", "poke 0"),
    ("write right 1", "write 0"),
    ("bytes", "bytes a5464742000101016b01022f200d012c317403e85a"),
    ("read 1", "read 0 1 1 5 2 8 1 258 4660 -7000 -3 300 5 -7"),
    ("read 0", "read 8 0 0 0 0 0 0 0 0 0 0 0 0 0"),
    ("read 2", "read 8 0 0 0 0 0 0 0 0 0 0 0 0 0"),
    ("read 3", "read 7 0 0 0 0 0 0 0 0 0 0 0 0 0"),
];

/// Case 8 of the bench sheet on the bus: codes 15, 58, 69 and 59.
const APPROACH: Case = &[
    ("area 19", "area 0"),
    ("event 65536", "event 0 16"),
    ("write 0 0", "write 0"),
    ("bytes", "bytes 464742000100010f0000321b1400781f401f40"),
    ("read 0", "read 0 0 1 1 2 1 1 0 0 0 0 120 0 0"),
    ("event 1024", "event 0 10"),
    ("write 0 0", "write 0"),
    ("bytes", "bytes 464742000100013a0000321b1400781f401f40"),
    ("read 0", "read 0 0 1 4 0 1 1 0 0 0 0 120 0 0"),
    ("event 2048", "event 0 11"),
    ("write 0 0", "write 0"),
    ("bytes", "bytes 46474200010001450000321b1400781f401f40"),
    ("read 0", "read 0 0 1 4 0 7 0 0 0 0 0 120 0 0"),
    ("event 131072", "event 0 17"),
    ("write 0 0", "write 0"),
    ("bytes", "bytes 464742000100013b0000321b1400781f401f40"),
    ("read 0", "read 0 0 1 4 0 2 0 0 0 0 0 120 0 0"),
];

/// One refusal hides the next, and none changes the area.
const REFUSED: Case = &[
    ("area 20", "area 0"),
    ("poke 0 ffffffffffffffffffffffffffffffffffffffff", "poke 0"),
    ("write 0 2", "write 7"),
    ("write 0 20", "write 7"),
    ("write 0 21", "write 7"),
    ("write 0 18446744073709551615", "write 7"),
    ("write 2 2", "write 2"),
    ("write 2 0", "write 2"),
    ("damage right-inbox pitch 21", "damage 0"),
    ("write 2 2", "write 1"),
    ("write 0 2", "write 1"),
    ("write 0 0", "write 1"),
    ("bytes", "bytes ffffffffffffffffffffffffffffffffffffffff"),
    ("read 2", "read 7 0 0 0 0 0 0 0 0 0 0 0 0 0"),
    ("read 1", "read 8 0 0 0 0 0 0 0 0 0 0 0 0 0"),
    ("poke 1 4647420001", "poke 0"),
    ("read 1", "read 9 0 0 0 0 0 0 0 0 0 0 0 0 0"),
    ("poke 1 4647420002", "poke 0"),
    ("read 1", "read 8 0 0 0 0 0 0 0 0 0 0 0 0 0"),
];

/// A probe that watches a passive side: what a frame shows is neither sent nor refreshed.
const PROBED: Case = &[
    ("area 38", "area 0"),
    ("press hdg", "event 0 14"),
    ("knob heading 100", "turn 0"),
    ("write left 0", "write 0"),
    ("write right 19", "write 0"),
    ("refresh right", "refresh 0"),
    ("pick right", "pick 0 0 0"),
    ("read 0", "read 0 0 1 2 0 1 0 100 0 0 0 120 0 0"),
    ("read 19", "read 0 1 0 0 0 0 0 0 0 0 0 120 0 0"),
    ("send left", "send 0"),
    ("refresh right", "refresh 0"),
    ("write right 0", "write 0"),
    ("read 0", "read 0 1 0 2 0 1 0 100 0 0 0 120 0 0"),
    ("power-on", "power-on 0"),
    ("read 0", "read 0 1 0 2 0 1 0 100 0 0 0 120 0 0"),
];
