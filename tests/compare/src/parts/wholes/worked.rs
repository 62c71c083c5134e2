//! Cases worked out by hand from the papers, with the answers that they give.

use crate::parts::sheet::Case;

pub const CASES: [Case; 6] = [KEPT, LOADED, DAMAGED, CIRCLES, FLOAT_ALONE, LINES];

/// An answer to `bench` with these readings and whole values, and all else as at power-on.
macro_rules! bench {
    ($readings:literal, $wholes:literal) => {
        concat!(
            "bench 0 0 0 0 0 0 0 0 ",
            $readings,
            " ",
            $wholes,
            " 0 0 0 0 0 0 0 0 0 120 0 0 0 0 0 0 0 0 0 0 0 120 0 0",
            " 0 0 0 0 0 0 0 0 0 120 0 0 0 0 0 0 0 0 0 0 0 120 0 0"
        )
    };
}

/// Every kind keeps its whole value beside its float, and a refused reading leaves both.
const KEPT: Case = &[
    (
        "bench",
        bench!(
            "0x0000000000000000 0x405e000000000000 0x0000000000000000 \
             0x0000000000000000 0x0000000000000000 0x0000000000000000",
            "0 120 0 0 0 0"
        ),
    ),
    ("reading altitude 56000.5", "reading 0"),
    ("reading airspeed 250.5", "reading 0"),
    ("reading vertical-speed -33.5", "reading 0"),
    ("reading roll 179.75", "reading 0"),
    ("reading pitch -0.5", "reading 0"),
    ("reading heading 359.5", "reading 0"),
    ("reading altitude 56001", "reading 6"),
    ("reading airspeed nan", "reading 5"),
    ("reading vertical-speed -inf", "reading 5"),
    ("reading roll 180.75", "reading 6"),
    ("reading pitch 89.5", "reading 6"),
    ("reading heading -0.75", "reading 6"),
    (
        "bench",
        bench!(
            "0x40eb581000000000 0x406f500000000000 0xc040c00000000000 \
             0x4066780000000000 0xbfe0000000000000 0x4076780000000000",
            "56000 250 -34 -180 0 0"
        ),
    ),
    ("power-on", "power-on 0"),
    (
        "bench",
        bench!(
            "0x0000000000000000 0x405e000000000000 0x0000000000000000 \
             0x0000000000000000 0x0000000000000000 0x0000000000000000",
            "0 120 0 0 0 0"
        ),
    ),
];

/// VS, FLC, ALT and PITCH one after the other, each with what it loads; ROLL comes with the first
/// and is clamped from -180.
const LOADED: Case = &[
    ("reading altitude 56000.5", "reading 0"),
    ("reading airspeed 250.5", "reading 0"),
    ("reading vertical-speed -33.5", "reading 0"),
    ("reading roll 179.75", "reading 0"),
    ("press vs", "event 0 17"),
    ("display 0", "display 0 1 1 2 4 0 0 0 -34 120 -27 0 136"),
    ("press flc", "event 0 18"),
    ("display 0", "display 0 1 1 3 4 0 0 0 -34 250 -27 0 144"),
    ("press alt", "event 0 19"),
    ("display 0", "display 0 1 1 4 0 0 0 56000 -34 250 -27 0 160"),
    ("reading pitch 2.5", "reading 0"),
    ("press alt", "event 0 19"),
    ("display 0", "display 0 1 1 1 4 0 0 56000 -34 250 -27 2 128"),
    ("display 1", "display 0 0 0 0 0 0 0 0 0 120 0 0 128"),
];

/// Every call is refused with 1, also where another refusal would follow; then it is mended.
const DAMAGED: Case = &[
    ("area 20", "area 0"),
    ("damage whole airspeed 121", "damage 0"),
    ("event 0", "event 1 32"),
    ("event 2097152", "event 1 32"),
    ("turn 3 9", "turn 1"),
    ("turn 4 1", "turn 1"),
    ("reading airspeed 121", "reading 1"),
    ("reading roll nan", "reading 1"),
    ("reading heading 361", "reading 1"),
    ("send 0", "send 1"),
    ("send 2", "send 1"),
    ("refresh 0", "refresh 1"),
    ("refresh 1", "refresh 1"),
    ("display 1", "display 1 0 0 0 0 0 0 0 0 0 0 0 0"),
    ("pick 0", "pick 1 0 0"),
    ("write 0 0", "write 1"),
    ("write 2 9", "write 1"),
    ("bytes", "bytes 0000000000000000000000000000000000000000"),
    (
        "bench",
        bench!(
            "0x0000000000000000 0x405e000000000000 0x0000000000000000 \
             0x0000000000000000 0x0000000000000000 0x0000000000000000",
            "0 121 0 0 0 0"
        ),
    ),
    ("damage whole airspeed 120", "damage 0"),
    ("press flc", "event 0 18"),
    ("display 0", "display 0 1 1 3 4 0 0 0 0 120 0 0 144"),
];

/// North and inverted are kept by the number that is in range, and by no other.
const CIRCLES: Case = &[
    ("reading heading 360", "reading 0"),
    ("damage whole heading 360", "damage 0"),
    ("event 0", "event 1 32"),
    ("damage whole heading 359", "damage 0"),
    ("event 0", "event 1 32"),
    ("damage whole heading 0", "damage 0"),
    ("event 0", "event 0 32"),
    ("damage reading heading 0", "damage 0"),
    ("event 0", "event 0 32"),
    ("damage whole heading 360", "damage 0"),
    ("event 0", "event 1 32"),
    ("power-on", "power-on 0"),
    ("reading roll 179.5", "reading 0"),
    ("damage whole roll 180", "damage 0"),
    ("event 0", "event 1 32"),
    ("damage whole roll 179", "damage 0"),
    ("event 0", "event 1 32"),
    ("damage whole roll -180", "damage 0"),
    ("event 0", "event 0 32"),
    ("damage reading roll -180.5", "damage 0"),
    ("event 0", "event 0 32"),
    ("damage reading roll 179.25", "damage 0"),
    ("event 0", "event 1 32"),
    ("damage whole roll 179", "damage 0"),
    ("press fd-left", "event 0 6"),
    ("display 0", "display 0 1 1 1 4 0 0 0 0 120 27 0 128"),
];

/// The whole value stays behind a float that is changed alone.
const FLOAT_ALONE: Case = &[
    ("damage reading altitude 0.25", "damage 0"),
    ("event 0", "event 0 32"),
    ("damage reading altitude 0.5", "damage 0"),
    ("event 0", "event 0 32"),
    ("damage reading altitude -0.5", "damage 0"),
    ("event 0", "event 0 32"),
    ("damage reading altitude 0.75", "damage 0"),
    ("event 0", "event 1 32"),
    ("damage whole altitude 1", "damage 0"),
    ("event 0", "event 0 32"),
    ("damage reading altitude 1.5", "damage 0"),
    ("event 0", "event 1 32"),
    ("damage whole altitude 2", "damage 0"),
    ("event 0", "event 0 32"),
    ("damage reading altitude nan", "damage 0"),
    ("event 0", "event 1 32"),
    ("damage whole altitude 0", "damage 0"),
    ("event 0", "event 1 32"),
    ("damage reading altitude 56001", "damage 0"),
    ("damage whole altitude 56001", "damage 0"),
    ("event 0", "event 1 32"),
    ("damage reading altitude 56000.5", "damage 0"),
    ("damage whole altitude 56000", "damage 0"),
    ("press alt", "event 0 19"),
    ("display 0", "display 0 1 1 4 0 0 0 56000 0 120 0 0 160"),
];

/// Lines that are wrong change nothing; those that are right write one whole value.
const LINES: Case = &[
    ("damage whole", "error 1: x"),
    ("damage whole roll", "error 2: x"),
    ("damage whole roll 1 2", "error 3: x"),
    ("damage whole speed 1", "error 4: x"),
    ("damage whole roll 2147483648", "error 5: x"),
    ("damage whole roll -2147483649", "error 6: x"),
    ("damage whole roll 1.0", "error 7: x"),
    ("damage whole roll +1", "error 8: x"),
    ("damage wholes roll 1", "error 9: x"),
    ("event 0", "event 0 32"),
    ("damage whole altitude 0012", "damage 0"),
    ("damage whole vertical-speed -7", "damage 0"),
    ("damage whole roll 2147483647", "damage 0"),
    ("damage whole pitch -2147483648", "damage 0"),
    ("damage whole heading -0", "damage 0"),
    (
        "bench",
        bench!(
            "0x0000000000000000 0x405e000000000000 0x0000000000000000 \
             0x0000000000000000 0x0000000000000000 0x0000000000000000",
            "12 120 -7 2147483647 -2147483648 0"
        ),
    ),
];

#[cfg(test)]
mod tests {
    use super::*;
    use crate::parts::sheet::assert_fitting;

    #[test]
    fn answers_are_those_of_their_commands() {
        assert_fitting(&CASES);
    }
}
