//! Cases worked out by hand from the papers, with the answers that they give.

use crate::parts::sheet::{started, Case};

/// The whole list: Off, then a row for each lateral law with each armed lateral mode. A row goes
/// through PITCH, VS, FLC, ALT, ALTSEL in capture and in track, VAPPR where it can be engaged, and
/// VGA; beside LAPPR engaged each but VAPPR comes without and with VAPPR armed.
pub const CODES: &str = "codes 0 \
    276 292 308 320 336 352 388 \
    277 293 309 321 337 353 389 \
    286 302 318 330 346 362 398 \
    532 548 564 576 592 608 644 \
    533 549 565 577 593 609 645 \
    542 558 574 586 602 618 654 \
    788 804 820 832 848 864 900 \
    798 814 830 842 858 874 910 \
    1044 1052 1060 1068 1076 1084 1088 1096 1104 1112 1120 1128 1136 1156 1164 \
    1045 1053 1061 1069 1077 1085 1089 1097 1105 1113 1121 1129 1137 1157 1165 \
    1300 1316 1332 1344 1360 1376 1412 \
    1301 1317 1333 1345 1361 1377 1413 \
    1310 1326 1342 1354 1370 1386 1422";

pub const CASES: [Case; 6] = [FRESH, APPROACH, DAMAGED, WATCHED, AREA, WRONG];

/// The list is there from the start on and leaves the bench that was started.
const FRESH: Case = &[
    ("codes", CODES),
    ("bench", started!("0x405e000000000000", "120")),
    ("start 90", "start 0"),
    ("codes", CODES),
    ("codes", CODES),
    ("bench", started!("0x4056800000000000", "90")),
    ("start 401", "start 10"),
    ("codes", CODES),
    ("bench", started!("0x405e000000000000", "120")),
    ("power-on", "power-on 0"),
    ("codes", CODES),
];

/// Case 8 of the bench sheet, then independent operation: the sets that are shown have the codes
/// 15, 58, 69 and 59 and do not matter to the list.
const APPROACH: Case = &[
    ("event 65536", "event 0 16"),
    ("codes", CODES),
    ("display 0", "display 0 1 1 1 14 0 0 0 0 120 0 0 132"),
    ("event 1024", "event 0 10"),
    ("codes", CODES),
    ("display 0", "display 0 1 4 1 12 0 0 0 0 120 0 0 132"),
    ("event 2048", "event 0 11"),
    ("codes", CODES),
    ("display 0", "display 0 1 4 7 0 0 0 0 0 120 0 0 132"),
    ("send 0", "send 0"),
    ("codes", CODES),
    ("refresh 1", "refresh 0"),
    ("codes", CODES),
    ("event 1048576", "event 0 20"),
    ("codes", CODES),
    ("knob speed 9", "turn 0"),
    ("codes", CODES),
    ("display 1", "display 0 0 4 7 0 0 0 0 0 129 0 0 132"),
    ("event 131072", "event 0 17"),
    ("codes", CODES),
    ("display 0", "display 0 1 4 2 4 0 0 0 0 129 0 0 140"),
    ("display 1", "display 0 1 4 2 4 0 0 0 0 129 0 0 140"),
];

/// A damaged bench refuses its calls; the list has no input and refuses nothing.
const DAMAGED: Case = &[
    ("damage pf 2", "damage 0"),
    ("codes", CODES),
    ("event 0", "event 1 32"),
    ("codes", CODES),
    ("damage pf 0", "damage 0"),
    ("event 0", "event 0 32"),
    ("damage left set 3 1 7 1", "damage 0"),
    ("codes", CODES),
    ("display 0", "display 1 0 0 0 0 0 0 0 0 0 0 0 0"),
    ("codes", CODES),
    ("damage left set 0 0 0 0", "damage 0"),
    ("display 0", "display 0 0 0 0 0 0 0 0 0 120 0 0 128"),
    ("damage whole airspeed 90", "damage 0"),
    ("codes", CODES),
    ("pick 0", "pick 1 0 0"),
    ("damage whole airspeed 120", "damage 0"),
    ("codes", CODES),
    ("bench", started!("0x405e000000000000", "120")),
];

/// It cannot change the bench, so that no drawing follows it.
const WATCHED: Case = &[
    ("codes", CODES),
    ("watch on", "watch 0"),
    ("codes", CODES),
    ("send 0", "send 0\npanel\nend"),
    ("codes", CODES),
    ("codes 0", "error 6: x"),
    ("damage pf 2", "damage 0\npanel\nend"),
    ("codes", CODES),
    ("start 60", "start 0\npanel\nend"),
    ("codes", CODES),
    ("panel", "panel\nend"),
    ("codes", CODES),
    ("watch off", "watch 0"),
    ("codes", CODES),
    ("send 0", "send 0"),
];

/// The bus area stays as well. Some codes are read back as the sets that their numbers stand for:
/// 26, 54, 84 and 107 have 592, 858, 1,137 and 1,422.
const AREA: Case = &[
    ("area 19", "area 0"),
    ("codes", CODES),
    ("write left 0", "write 0"),
    ("codes", CODES),
    ("bytes", "bytes 46474200010000000000321b1400781f401f40"),
    ("poke 7 1a", "poke 0"),
    ("read 0", "read 0 0 0 2 0 5 0 0 0 0 0 120 0 0"),
    ("poke 7 36", "poke 0"),
    ("read 0", "read 0 0 0 3 2 5 1 0 0 0 0 120 0 0"),
    ("poke 7 54", "poke 0"),
    ("read 0", "read 0 0 0 4 1 7 0 0 0 0 0 120 0 0"),
    ("poke 7 6b", "poke 0"),
    ("codes", CODES),
    ("read 0", "read 0 0 0 5 2 8 1 0 0 0 0 120 0 0"),
    ("bytes", "bytes 464742000100006b0000321b1400781f401f40"),
];

/// It takes no word, and has no other name.
const WRONG: Case = &[
    ("codes 1", "error 1: x"),
    ("codes", CODES),
    ("codes 0", "error 3: x"),
    ("codes 107", "error 4: x"),
    ("codes left", "error 5: x"),
    ("codes codes", "error 6: x"),
    ("code", "error 7: x"),
    ("codess", "error 8: x"),
    ("Codes", "error 9: x"),
    ("CODES", "error 10: x"),
    ("poster", "error 11: x"),
    ("\tcodes\r", CODES),
    ("codes # 1", CODES),
    ("bench", started!("0x405e000000000000", "120")),
];

#[cfg(test)]
mod tests {
    use super::*;
    use crate::parts::sheet::assert_fitting;

    #[test]
    fn answers_are_those_of_their_commands() {
        assert_fitting(&CASES);
    }

    #[test]
    fn the_list_has_108_numbers() {
        assert_eq!(CODES.split(' ').count(), 109);
    }
}
