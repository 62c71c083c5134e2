//! The twelve cases of the bench sheet, with what the requests change of them; entry, and starts.
use baseline::{
    code, display, event, reading, refresh, send, turn, Bench, Kind, Modes, Reading, HEADING, HELD,
    IAS, PITCH, ROLL, VERTICAL_SPEED,
};

/// The two laws and the armed sum that a side shows.
fn shown(b: &Bench, side: u32) -> (u8, u8, u8) {
    let (refusal, d) = display(b, side);
    assert_eq!(refusal, 0);
    (d.lateral, d.vertical, d.armed)
}

/// A bench after event words, each of which is accepted.
fn after(words: &[u32]) -> Bench {
    let mut b = Bench::power_on();
    for &word in words {
        assert_eq!(event(&mut b, word).0, 0);
    }
    b
}

#[test]
fn case_1_whole_values() {
    let mut b = Bench::power_on();
    for (x, whole) in [(12.5, 12), (13.5, 14), (-0.5, 0)] {
        assert_eq!(reading(&mut b, Reading::Roll(x)), 0);
        assert_eq!(b.whole(Kind::Roll), whole);
    }
}

#[test]
fn case_2_heading() {
    let mut b = Bench::power_on();
    for (x, whole) in [(359.25, 359), (359.5, 0), (360.5, 0)] {
        assert_eq!(reading(&mut b, Reading::Heading(x)), 0);
        assert_eq!(b.whole(Kind::Heading), whole);
        assert_eq!(b.readings[Kind::Heading as usize], x);
    }
    for x in [360.75, -0.75] {
        assert_eq!(reading(&mut b, Reading::Heading(x)), 6);
    }
}

#[test]
fn case_3_altitude() {
    let mut b = Bench::power_on();
    assert_eq!(reading(&mut b, Reading::Altitude(56000.5)), 0);
    assert_eq!(b.whole(Kind::Altitude), 56000);
    assert_eq!(reading(&mut b, Reading::Altitude(56001.0)), 6);
}

#[test]
fn case_4_rotations() {
    for (old, new, r) in [(250, 3, 9), (3, 250, -9), (0, 128, -128), (128, 0, -128)] {
        let mut b = Bench::power_on();
        b.counts[3] = old;
        b.numbers[0][HEADING] = 200;
        assert_eq!(turn(&mut b, 3, new), 0);
        assert_eq!((b.numbers[0][HEADING], b.counts[3]), (200 + r, new));
    }
}

#[test]
fn case_5_sums() {
    let mut b = Bench::power_on();
    b.numbers[0][HEADING] = 355;
    assert_eq!(turn(&mut b, 3, 9), 0);
    assert_eq!(b.numbers[0][HEADING], 4);
    b.sets[0] = code(Modes {
        lateral: 1,
        vertical: 2,
        armed: 0,
        vappr_armed: false,
    });
    b.numbers[0][VERTICAL_SPEED] = 48;
    assert_eq!(turn(&mut b, 0, 9), 0);
    assert_eq!(b.numbers[0][VERTICAL_SPEED], 50);
}

#[test]
fn case_6_hdg() {
    let mut b = Bench::power_on();
    assert_eq!(event(&mut b, 16384), (0, 14));
    assert_eq!(shown(&b, 0), (2, 1, 4));
    assert_eq!(display(&b, 0).1.lamps, 129);
}

#[test]
fn case_7_lowest_bit() {
    let mut b = Bench::power_on();
    assert_eq!(event(&mut b, 16400), (0, 4));
    assert_eq!(shown(&b, 0), (5, 8, 4));
}

#[test]
fn case_8_approach() {
    assert_eq!(shown(&after(&[65536]), 0), (1, 1, 14));
    assert_eq!(shown(&after(&[65536, 1024]), 0), (4, 1, 12));
    assert_eq!(shown(&after(&[65536, 1024, 2048]), 0), (4, 7, 0));
    assert_eq!(shown(&after(&[65536, 1024, 2048, 131072]), 0), (4, 2, 4));
}

#[test]
fn case_9_overspeed() {
    assert_eq!(shown(&after(&[65536, 1024, 4]), 0), (4, 3, 12));
    assert_eq!(shown(&after(&[65536, 1024, 4, 2048]), 0), (4, 3, 12));
}

#[test]
fn case_10_words() {
    let mut b = Bench::power_on();
    assert_eq!(event(&mut b, 0), (0, 32));
    assert_eq!(event(&mut b, 2097152), (4, 32));
    assert_eq!(b, Bench::power_on());
}

#[test]
fn cases_11_and_12_sends() {
    let mut b = after(&[16384]);
    assert_eq!(shown(&b, 1), (0, 0, 0));
    assert_eq!(display(&b, 1).1.lamps, 128);
    assert_eq!((send(&mut b, 0), refresh(&mut b, 1)), (0, 0));
    assert_eq!(shown(&b, 1), (2, 1, 4));
    assert!(!display(&b, 1).1.fd);
    assert_eq!(event(&mut b, 32), (0, 5));
    assert_eq!((shown(&b, 1), shown(&b, 0)), ((1, 1, 4), (2, 1, 4)));
    assert_eq!(refresh(&mut b, 0), 0);
    assert_eq!(shown(&b, 0), (0, 0, 0));
}

/// Each mode that has a reference loads it from the whole value of its own reading, within its range.
#[test]
fn entry_loads_the_whole_values() {
    let mut b = Bench::power_on();
    let readings = [
        Reading::Altitude(1234.5),
        Reading::Airspeed(250.5),
        Reading::VerticalSpeed(-12.75),
        Reading::Roll(179.5),
        Reading::Pitch(10.5),
    ];
    for r in readings {
        assert_eq!(reading(&mut b, r), 0);
    }
    let loads = [
        (14, PITCH, 10),
        (14, ROLL, -27),
        (17, VERTICAL_SPEED, -13),
        (18, IAS, 250),
        (19, HELD, 1234),
    ];
    for (switch, place, reference) in loads {
        assert_eq!(event(&mut b, 1 << switch), (0, switch));
        assert_eq!(b.numbers[0][place], reference);
    }
}

#[test]
fn starts_at_a_speed() {
    for speed in [60, 90, 120, 400] {
        let (refusal, b) = Bench::start(speed);
        assert_eq!((refusal, b.is_sound()), (0, true));
        assert_eq!(b.whole(Kind::Airspeed), speed);
        assert_eq!(b.readings[Kind::Airspeed as usize], f64::from(speed));
        assert!(b.numbers[..4].iter().all(|channel| channel[IAS] == speed));
    }
    assert_eq!(Bench::start(120), (0, Bench::power_on()));
    for speed in [i32::MIN, 0, 59, 401, i32::MAX] {
        assert_eq!(Bench::start(speed), (10, Bench::power_on()));
    }
}
