//! Frames: their bytes, the refusals in their order, and the lists.
use baseline::bus::run_seen;
use baseline::frames::{read, write, FrameRead, LENGTH};
use baseline::list::{run, List, READS, WRITES};
use baseline::{Bench, CODE, HEADING, OFF, PITCH, SET, SETS, SHOWN};

const POWER_ON: [u8; LENGTH] = [
    b'F', b'G', b'B', 0, 1, 0, 0, 0, 0, 0, 50, 27, 20, 0, 120, 31, 64, 31, 64,
];

fn refused(refusal: u32) -> FrameRead {
    FrameRead {
        refusal,
        side: 0,
        fd: false,
        set: OFF,
        references: [0; 8],
    }
}

#[test]
fn the_frame_of_power_on() {
    for side in 0..2 {
        let mut area = [7; 24];
        assert_eq!(write(&Bench::power_on(), side, &mut area, 3), 0);
        let mut expected = [7; 24];
        expected[3..22].copy_from_slice(&POWER_ON);
        expected[8] = side as u8;
        assert_eq!(area, expected);
        let references = Bench::power_on().numbers[0];
        let said = FrameRead {
            side,
            references,
            ..refused(0)
        };
        assert_eq!(read(&area, 3), said);
    }
}

#[test]
fn writes_are_refused_by_1_then_2_then_7() {
    let sound = Bench::power_on();
    let mut unsound = sound;
    unsound.numbers[3][PITCH] = 21;
    let starts = [0, 1, 5, 6, 24, 25, usize::MAX - 18, usize::MAX];
    for start in starts {
        let fits = start <= 5;
        let mut area = [7; 24];
        assert_eq!(write(&unsound, 2, &mut area, start), 1);
        assert_eq!(write(&unsound, 0, &mut area, start), 1);
        assert_eq!(write(&sound, 2, &mut area, start), 2);
        assert_eq!(write(&sound, u32::MAX, &mut area, start), 2);
        assert_eq!(area, [7; 24]);
        assert_eq!(write(&sound, 1, &mut area, start), if fits { 0 } else { 7 });
        assert_eq!(area == [7; 24], !fits);
    }
    assert_eq!(write(&sound, 0, &mut [], 0), 7);
}

#[test]
fn reads_are_refused_by_7_then_8_then_9() {
    for start in [6, 24, 25, usize::MAX - 18, usize::MAX] {
        assert_eq!(read(&[7; 24], start), refused(7));
    }
    assert_eq!(read(&[], 0), refused(7));
    for at in 0..LENGTH {
        for byte in 0..=255 {
            let mut area = POWER_ON;
            area[at] = byte;
            let accepted = match at {
                0..=4 => byte == POWER_ON[at],
                5 | 6 => byte <= 1,
                7 => byte <= 107,
                8 => byte <= 1,
                10 => byte <= 100,
                11 => byte <= 54,
                12 => byte <= 40,
                13 => byte <= 1,
                14 => byte >= 60,
                15 | 17 => byte <= 249,
                _ => true,
            };
            let refusal = if at < 5 { 8 } else { 9 };
            if accepted {
                assert_eq!(read(&area, 0).refusal, 0, "byte {at} {byte}");
            } else {
                assert_eq!(read(&area, 0), refused(refusal), "byte {at} {byte}");
            }
            area[0] = 0;
            assert_eq!(read(&area, 0), refused(8));
        }
    }
}

/// Of a number of two bytes the low one decides where the high one is at the end of the range.
#[test]
fn the_ends_of_the_long_numbers() {
    for (at, last) in [(8, 359), (13, 400), (15, 64000), (17, 64000)] {
        for number in 0..=u16::MAX {
            let mut area = POWER_ON;
            area[at..at + 2].copy_from_slice(&number.to_be_bytes());
            let accepted = number <= last && (at != 13 || number >= 60);
            let refusal = if accepted { 0 } else { 9 };
            assert_eq!(read(&area, 0).refusal, refusal, "{number} at {at}");
        }
    }
}

#[test]
fn what_is_written_is_read_for_every_code() {
    let lowest = [0, -8000, -8000, -50, 60, -27, -20, 0];
    let highest = [359, 56000, 56000, 50, 400, 27, 20, 0];
    for code in 0..SETS {
        for case in 0..8 {
            let (side, fd) = (case & 1, case & 2 != 0);
            let references = if case & 4 == 0 { lowest } else { highest };
            let mut b = Bench::power_on();
            b.sets[side] = SET[code as usize];
            b.fds[side] = fd;
            b.numbers[side] = references;
            // what the other side holds is not in the frame
            b.numbers[side ^ 1][HEADING] = 180;
            let mut area = [0; LENGTH];
            assert_eq!(write(&b, side as u32, &mut area, 0), 0);
            assert_eq!(area[7], code);
            let said = FrameRead {
                refusal: 0,
                side: side as u32,
                fd,
                set: SET[code as usize],
                references,
            };
            assert_eq!(read(&area, 0), said);
        }
    }
}

#[test]
fn codes_at_the_ends_of_their_groups() {
    let shown = |code: u8| {
        let s = SHOWN[SET[code as usize] as usize];
        (s.lateral, s.vertical, s.armed)
    };
    assert_eq!(shown(0), (0, 0, 0));
    assert_eq!(shown(1), (1, 1, 4));
    assert_eq!(shown(21), (1, 8, 14));
    assert_eq!(shown(22), (2, 1, 4));
    assert_eq!(shown(43), (3, 1, 4));
    assert_eq!(shown(50), (3, 1, 14));
    assert_eq!(shown(57), (4, 1, 4));
    assert_eq!(shown(58), (4, 1, 12));
    assert_eq!(shown(69), (4, 7, 0));
    assert_eq!(shown(86), (4, 8, 13));
    assert_eq!(shown(107), (5, 8, 14));
    assert_eq!(CODE.iter().filter(|&&code| code < SETS).count(), 108);
}

fn list(chosen: u64, calls: u64) -> List {
    List {
        seed: 2026,
        calls,
        chosen,
        live: true,
    }
}

/// What the program of the crate `speed` writes for 20,000 steps of each list.
#[test]
fn sums_that_the_library_gave() {
    assert_eq!(run(list(WRITES, 20_000)), 2276258565034524853);
    assert_eq!(run(list(READS, 20_000)), 15306192213467745406);
}

#[test]
fn the_lists_meet_every_refusal_and_are_mostly_accepted() {
    for (chosen, refusals, percent) in [(WRITES, [1, 2, 7], 97), (READS, [7, 8, 9], 98)] {
        let mut met = [0; 10];
        run_seen(list(chosen, 400_000), |refusal| met[refusal as usize] += 1);
        for refusal in refusals {
            assert!(met[refusal] > 100, "list {chosen}: {met:?}");
        }
        assert_eq!((met[0] + 2_000) / 4_000, percent, "list {chosen}: {met:?}");
    }
}
