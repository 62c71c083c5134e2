//! Cases worked out by hand from the papers, with the answers that they give.

use crate::parts::sheet::Case;

pub const CASES: [Case; 7] = [
    BEGUN,
    SHARED,
    ENDED_ON_BOTH_SIDES,
    KNOBS,
    REFRESHED,
    TRANSFERRED,
    DAMAGED,
];

/// An answer to `bench`: pilot flying and flags, counts, then the boxes, with the readings as at
/// power-on.
macro_rules! bench {
    ($shared:literal, $counts:literal, $($box:literal),*) => {
        concat!(
            "bench ", $shared, " ", $counts,
            " 0x0000000000000000 0x405e000000000000 0x0000000000000000",
            " 0x0000000000000000 0x0000000000000000 0x0000000000000000",
            " 0 120 0 0 0 0",
            $(" ", $box),*
        )
    };
}

/// Right has nothing at first, so that nothing begins. A higher bit is refused, and a lower one
/// comes before.
const BEGUN: Case = &[
    ("event 65536", "event 0 16"),
    ("event 1024", "event 0 10"),
    ("event 2048", "event 0 11"),
    ("event 1048576", "event 0 20"),
    (
        "bench",
        bench!(
            "0 0 0 0",
            "0 0 0 0",
            "1 4 0 7 0 0 0 0 0 120 0 0",
            "0 0 0 0 0 0 0 0 0 120 0 0",
            "0 0 0 0 0 0 0 0 0 120 0 0",
            "0 0 0 0 0 0 0 0 0 120 0 0"
        ),
    ),
    ("send 0", "send 0"),
    ("refresh 1", "refresh 0"),
    ("event 2097152", "event 4 32"),
    ("event 3145728", "event 4 32"),
    ("event 1048577", "event 0 0"),
    (
        "bench",
        bench!(
            "0 0 0 0",
            "0 0 0 0",
            "1 4 0 7 0 0 0 0 0 120 0 0",
            "0 4 0 7 0 0 0 0 0 120 0 0",
            "0 0 0 0 0 0 0 0 0 120 0 0",
            "1 4 0 7 0 0 0 0 0 120 0 0"
        ),
    ),
    ("press independent", "event 0 20"),
    (
        "bench",
        bench!(
            "0 0 0 1",
            "0 0 0 0",
            "1 4 0 7 0 0 0 0 0 120 0 0",
            "0 4 0 7 0 0 0 0 0 120 0 0",
            "0 0 0 0 0 0 0 0 0 120 0 0",
            "1 4 0 7 0 0 0 0 0 120 0 0"
        ),
    ),
    ("display 0", "display 0 1 4 7 0 0 0 0 0 120 0 0 132"),
    ("display 1", "display 0 0 4 7 0 0 0 0 0 120 0 0 132"),
];

/// Right has NAV armed and left has not: one clears it and the other arms it, and both flight
/// directors come On because left asks. The autopilot then goes on and off, once each.
const SHARED: Case = &[
    ("damage left set 4 0 7 0", "damage 0"),
    ("damage right set 4 1 7 0", "damage 0"),
    ("damage independent 1", "damage 0"),
    ("event 32768", "event 0 15"),
    ("display 0", "display 0 1 4 7 1 0 0 0 0 120 0 0 134"),
    ("display 1", "display 0 1 4 7 0 0 0 0 0 120 0 0 132"),
    ("event 2", "event 0 1"),
    ("display 1", "display 0 1 4 7 0 0 0 0 0 120 0 0 196"),
    ("event 2", "event 0 1"),
    ("event 128", "event 0 7"),
    (
        "bench",
        bench!(
            "0 0 0 0",
            "0 0 0 0",
            "1 4 1 7 0 0 0 0 0 120 0 0",
            "0 0 0 0 0 0 0 0 0 120 0 0",
            "0 0 0 0 0 0 0 0 0 120 0 0",
            "0 0 0 0 0 0 0 0 0 120 0 0"
        ),
    ),
];

/// Overspeed engages FLC on both sides, which load the airspeed; after that the heading switch
/// acts on left alone.
const ENDED_ON_BOTH_SIDES: Case = &[
    ("damage left set 4 0 7 0", "damage 0"),
    ("damage right set 4 1 7 0", "damage 0"),
    ("damage independent 1", "damage 0"),
    ("reading airspeed 250.5", "reading 0"),
    ("event 4", "event 0 2"),
    ("display 0", "display 0 1 4 3 4 0 0 0 0 250 0 0 148"),
    ("display 1", "display 0 1 4 3 5 0 0 0 0 250 0 0 150"),
    ("event 16384", "event 0 14"),
    ("display 0", "display 0 1 2 3 4 0 0 0 0 250 0 0 145"),
    ("display 1", "display 0 1 4 3 5 0 0 0 0 250 0 0 150"),
];

/// Each side goes on from its own reference, and the count is stored once.
const KNOBS: Case = &[
    ("damage left set 4 0 7 0", "damage 0"),
    ("damage right set 4 0 7 0", "damage 0"),
    ("damage left ias 399", "damage 0"),
    ("damage right heading 355", "damage 0"),
    ("damage independent 1", "damage 0"),
    ("turn 2 5", "turn 0"),
    ("turn 3 9", "turn 0"),
    ("turn 1 250", "turn 0"),
    ("turn 0 7", "turn 0"),
    (
        "bench",
        bench!(
            "0 0 0 1",
            "7 250 5 9",
            "0 4 0 7 0 9 -600 0 0 400 0 0",
            "0 4 0 7 0 4 -600 0 0 125 0 0",
            "0 0 0 0 0 0 0 0 0 120 0 0",
            "0 0 0 0 0 0 0 0 0 120 0 0"
        ),
    ),
];

/// Each inbox keeps its side on, until left's send takes that from right. Right's refresh then
/// takes it off and nothing over; the next one takes over what was sent.
const REFRESHED: Case = &[
    ("press appr", "event 0 16"),
    ("signal lappr-captured", "event 0 10"),
    ("signal vappr-captured", "event 0 11"),
    ("press fd-right", "event 0 7"),
    ("send left", "send 0"),
    ("refresh right", "refresh 0"),
    ("press independent", "event 0 20"),
    ("send right", "send 0"),
    ("press fd-left", "event 0 6"),
    ("press fd-right", "event 0 7"),
    ("knob heading 77", "turn 0"),
    ("refresh left", "refresh 0"),
    ("refresh right", "refresh 0"),
    ("display left", "display 0 0 4 7 0 77 0 0 0 120 0 0 132"),
    ("display right", "display 0 0 4 7 0 77 0 0 0 120 0 0 132"),
    ("send left", "send 0"),
    ("refresh left", "refresh 0"),
    ("press independent", "event 0 20"),
    ("display right", "display 0 0 4 7 0 77 0 0 0 120 0 0 132"),
    ("refresh right", "refresh 0"),
    (
        "bench",
        bench!(
            "0 0 0 0",
            "0 0 0 77",
            "0 4 0 7 0 77 0 0 0 120 0 0",
            "0 0 0 0 0 77 0 0 0 120 0 0",
            "1 4 0 7 0 0 0 0 0 120 0 0",
            "0 4 0 7 0 77 0 0 0 120 0 0"
        ),
    ),
    ("refresh right", "refresh 0"),
    ("display right", "display 0 0 4 7 0 77 0 0 0 120 0 0 132"),
    ("press independent", "event 0 20"),
    ("pick right", "pick 0 4 7"),
];

/// The transfer changes the side that takes over and leaves the other its approach.
const TRANSFERRED: Case = &[
    ("press appr", "event 0 16"),
    ("signal lappr-captured", "event 0 10"),
    ("signal vappr-captured", "event 0 11"),
    ("send left", "send 0"),
    ("refresh right", "refresh 0"),
    ("press independent", "event 0 20"),
    ("reading roll 5.5", "reading 0"),
    ("reading pitch -6.5", "reading 0"),
    ("press transfer", "event 0 5"),
    ("display left", "display 0 1 4 7 0 0 0 0 0 120 0 0 260"),
    ("display right", "display 0 0 1 1 4 0 0 0 0 120 6 -6 256"),
    ("knob speed 9", "turn 0"),
    ("press vs", "event 0 17"),
    ("display left", "display 0 1 4 7 0 0 0 0 0 120 0 0 260"),
    ("display right", "display 0 1 1 2 4 0 0 0 0 129 6 -6 264"),
];

/// The flag is sound only while both sides have both modes.
const DAMAGED: Case = &[
    ("damage independent 1", "damage 0"),
    ("event 0", "event 1 32"),
    ("event 4294967295", "event 1 32"),
    ("damage left set 4 0 7 0", "damage 0"),
    ("refresh 2", "refresh 1"),
    ("damage right set 4 0 6 1", "damage 0"),
    ("display 0", "display 1 0 0 0 0 0 0 0 0 0 0 0 0"),
    ("damage right set 4 1 7 0", "damage 0"),
    ("event 0", "event 0 32"),
    ("damage left set 4 0 1 1", "damage 0"),
    ("send 0", "send 1"),
    ("damage independent 0", "damage 0"),
    ("send 0", "send 0"),
    ("power-on", "power-on 0"),
    (
        "bench",
        bench!(
            "0 0 0 0",
            "0 0 0 0",
            "0 0 0 0 0 0 0 0 0 120 0 0",
            "0 0 0 0 0 0 0 0 0 120 0 0",
            "0 0 0 0 0 0 0 0 0 120 0 0",
            "0 0 0 0 0 0 0 0 0 120 0 0"
        ),
    ),
];
