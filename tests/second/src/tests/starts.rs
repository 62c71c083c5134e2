//! Starts with a speed (document 02, 2026-06): which bench they give, that
//! nothing of an older one is left in it, and the console's command.

use super::refusals::assert_unsound;
use super::scripts::{answers, assert_errors, is_error};
use super::words::*;
use super::{after, events, modes};
use crate::bench::{Bench, Channel, Kind, Reference, References, Refusal};
use crate::calls;
use crate::sets::ModeSet;

/// Those beside the range, some that would be in it without their sign or if
/// they were cut to fewer bits, and the ends of 32 bits.
const OUTSIDE: [i32; 17] = [
    i32::MIN,
    i32::MIN + 120,
    -65_416,
    -400,
    -120,
    -60,
    -1,
    0,
    1,
    58,
    59,
    401,
    402,
    600,
    601,
    65_656,
    i32::MAX,
];

/// A start with that speed as the papers have it, field by field.
fn expected(speed: i32) -> Bench {
    let channel = Channel {
        fd: false,
        modes: ModeSet::OFF,
        references: References::new([0, 0, 0, 0, speed, 0, 0]),
    };
    Bench {
        pf: 0,
        ap: false,
        overspeed: false,
        independent: false,
        counts: [0; 4],
        readings: [0.0, f64::from(speed), 0.0, 0.0, 0.0, 0.0].map(f64::to_bits),
        wholes: [0, speed, 0, 0, 0, 0],
        sides: [channel; 2],
        inboxes: [channel; 2],
    }
}

fn started(speed: i32) -> Bench {
    let (bench, result) = Bench::start(speed);
    assert_eq!(result, Ok(()));
    bench
}

fn ias(bench: &Bench, side: usize) -> i32 {
    bench.sides[side].references.get(Reference::Ias)
}

// ---- The bench of a start ----

#[test]
fn the_default_bench_has_120() {
    assert_eq!(Bench::power_on(), expected(120));
    assert_eq!(started(120), Bench::power_on());
    assert!(Bench::power_on().is_sound());
}

#[test]
fn every_speed_from_60_to_400_is_accepted() {
    for speed in 60..=400 {
        let bench = started(speed);
        assert_eq!(bench, expected(speed));
        assert!(bench.is_sound());
        let airspeed = bench.reading(Kind::Airspeed);
        assert_eq!(f64::from_bits(airspeed), f64::from(speed));
        assert_eq!(Kind::Airspeed.whole(airspeed), Ok(speed));
    }
}

#[test]
fn refusal_10_every_other_speed_with_the_default_bench() {
    let beside = (-1_000..60).chain(401..2_000);
    for speed in beside.chain(OUTSIDE) {
        let (bench, result) = Bench::start(speed);
        assert_eq!(result, Err(Refusal::Speed), "{speed}");
        assert_eq!(bench, expected(120), "{speed}");
    }
    assert_eq!(Refusal::Speed as u32, 10);
}

#[test]
fn a_whole_value_beside_the_speed_is_unsound() {
    for speed in [60, 90, 120, 400] {
        for other in [speed - 1, speed + 1, 0] {
            let mut bench = started(speed);
            bench.wholes[Kind::Airspeed as usize] = other;
            assert_unsound(bench);
        }
    }
}

// ---- Calls after a start ----

/// Nothing was sent, so that a passive side takes over what the start put into
/// its inbox.
#[test]
fn inboxes_take_the_speed_also() {
    for speed in [60, 61, 90, 120, 121, 399, 400] {
        let mut bench = started(speed);
        let (first, moved) = if speed < 230 { (9, 9) } else { (247, -9) };
        calls::turn(&mut bench, 2, first).unwrap();
        assert_eq!((ias(&bench, 0), ias(&bench, 1)), (speed + moved, speed));
        events(&mut bench, &[TRANSFER]);
        calls::turn(&mut bench, 2, first.wrapping_mul(2)).unwrap();
        assert_eq!(ias(&bench, 1), speed + moved);
        calls::refresh(&mut bench, 0).unwrap();
        assert_eq!((ias(&bench, 0), ias(&bench, 1)), (speed, speed + moved));
        events(&mut bench, &[TRANSFER]);
        calls::refresh(&mut bench, 1).unwrap();
        assert_eq!((ias(&bench, 0), ias(&bench, 1)), (speed, speed));
    }
}

#[test]
fn entry_to_flc_loads_the_speed_of_the_start() {
    for speed in [60, 90, 120, 250, 400] {
        for word in [FLC, OVERSPEED] {
            for pf in 0..2 {
                let mut bench = started(speed);
                if pf == 1 {
                    events(&mut bench, &[TRANSFER]);
                }
                bench.sides[pf].references.put(Reference::Ias, 77);
                events(&mut bench, &[word]);
                assert_eq!(modes(&bench, pf as u32), (1, 3, 4));
                assert_eq!(ias(&bench, pf), speed);
            }
        }
    }
}

#[test]
fn knobs_clamp_from_the_speed_of_the_start() {
    for (speed, count, expected) in [
        (60, 255, 60),
        (60, 1, 61),
        (61, 254, 60),
        (400, 1, 400),
        (400, 255, 399),
        (399, 2, 400),
        (120, 128, 60),
        (90, 127, 217),
    ] {
        let mut bench = started(speed);
        calls::turn(&mut bench, 2, count).unwrap();
        assert_eq!(ias(&bench, 0), expected, "{speed} {count}");
    }
}

/// All but the speed goes as it does from the default bench.
#[test]
fn the_same_calls_differ_only_in_the_speed() {
    let words = [APPR, LAPPR_CAPTURED, VAPPR_CAPTURED, AP_SWITCH, HDG, VS];
    let default = after(&words);
    for speed in 60..=400 {
        let mut bench = started(speed);
        events(&mut bench, &words);
        bench.keep(Kind::Airspeed, 120.0_f64.to_bits(), 120);
        for channel in bench.sides.iter_mut().chain(&mut bench.inboxes) {
            assert_eq!(channel.references.get(Reference::Ias), speed);
            channel.references.put(Reference::Ias, 120);
        }
        assert_eq!(bench, default);
    }
}

// ---- The console ----

/// The answer to `bench` of a start with that speed, by its float's pattern.
fn bench_line(speed: i32, pattern: &str) -> String {
    let zero = "0x0000000000000000";
    let channel = format!(" 0 0 0 0 0 0 0 0 0 {speed} 0 0");
    format!(
        "bench 0 0 0 0 0 0 0 0 {zero} {pattern} {zero} {zero} {zero} {zero} 0 {speed} 0 0 0 0{}",
        channel.repeat(4)
    )
}

fn default_line() -> String {
    bench_line(120, "0x405e000000000000")
}

#[test]
fn a_start_is_answered_by_its_refusal() {
    for (words, pattern) in [
        ("60", "0x404e000000000000"),
        ("61", "0x404e800000000000"),
        ("90", "0x4056800000000000"),
        ("120", "0x405e000000000000"),
        ("00120", "0x405e000000000000"),
        ("399", "0x4078f00000000000"),
        ("400", "0x4079000000000000"),
    ] {
        let script = format!("start {words}\nbench\nevent 0\n");
        let speed = words.parse().unwrap();
        let line = bench_line(speed, pattern);
        let expected = format!("start 0\n{line}\nevent 0 32\n");
        assert_eq!(answers(script.as_bytes()), expected);
    }
    for speed in OUTSIDE {
        let script = format!("start {speed}\nbench\nevent 0\n");
        let expected = format!("start 10\n{}\nevent 0 32\n", default_line());
        assert_eq!(answers(script.as_bytes()), expected, "{speed}");
    }
}

#[test]
fn the_console_begins_with_the_default_bench_and_power_on_gives_it_again() {
    let script = b"bench\nstart 90\npower-on\nbench\n";
    let line = default_line();
    let expected = format!("{line}\nstart 0\npower-on 0\n{line}\n");
    assert_eq!(answers(script), expected);
}

/// Scripts that leave something to be seen everywhere, for commands that do the
/// same on any bench: on running ones, started ones and damaged ones.
pub const OLD: [&str; 8] = [
    "",
    "start 300",
    "start 59",
    "press ap\npress transfer\nsignal overspeed-begins\nturn 0 1\nturn 1 2\nturn 2 3\nturn 3 4\n\
     reading altitude 7.5\nreading airspeed 250.5\nreading vertical-speed 1\nreading roll 2\n\
     reading pitch 3\nreading heading 4\nsend 0\nsend 1\nrefresh 0\nrefresh 1",
    "press appr\nsignal lappr-captured\nsignal vappr-captured\nsend left\nrefresh right\n\
     press independent",
    "damage pf 2\ndamage left ias 59\ndamage right-inbox set 1 1 1 1",
    "damage reading airspeed nan\ndamage whole airspeed 7",
    "damage whole airspeed 119",
];

#[test]
fn nothing_is_left_of_an_older_bench() {
    for old in OLD {
        for (speed, refusal, left) in [
            (90, 0, bench_line(90, "0x4056800000000000")),
            (120, 0, default_line()),
            (59, 10, default_line()),
            (401, 10, default_line()),
            (-120, 10, default_line()),
        ] {
            let script = format!("{old}\nstart {speed}\nbench\n");
            let expected = format!("start {refusal}\n{left}\n");
            assert!(answers(script.as_bytes()).ends_with(&expected), "{script}");
        }
    }
}

#[test]
fn a_wrong_line_starts_nothing() {
    let wrong = [
        "start",
        "start x",
        "start 60.0",
        "start +60",
        "start 0x78",
        "start 60 61",
        "start 2147483648",
        "start -2147483649",
        "start 4294967416",
        "Start 60",
        "starts 60",
    ];
    assert_errors("start 300\npress ap\nknob speed 5", &wrong);
}

#[test]
fn watch_and_area_outlive_a_start() {
    let script = b"area 20\npoke 0 5a\nwrite left 1\nwatch on\nstart 90\nstart 9\nstart x\n\
        bytes\nwrite left 1\nbytes\n";
    let output = answers(script);
    let error = output.lines().find(|line| is_error(line, 7)).unwrap();
    let bytes = "bytes 5a46474200010000000000321b1400781f401f40";
    let expected = format!(
        "area 0\npoke 0\nwrite 0\nwatch 0\nstart 0\npanel\nend\nstart 10\npanel\nend\n{error}\n\
         {bytes}\nwrite 0\n{bytes}\n"
    );
    assert_eq!(output, expected);
}
