//! The twelve cases of the bench sheet.

use super::{after, events, modes, read, shown};
use crate::bench::{Bench, Kind, Reference, Refusal};
use crate::calls;
use crate::float;

#[test]
fn case_1_whole_values() {
    for (value, whole) in [(12.5_f64, 12), (13.5, 14), (-0.5, 0)] {
        assert_eq!(float::whole(value.to_bits()), Some(whole));
    }
}

#[test]
fn case_2_heading_readings() {
    let mut bench = Bench::power_on();
    assert_eq!(read(&mut bench, Kind::Heading, 359.25), Ok(()));
    assert_eq!(bench.reading(Kind::Heading), 359.25_f64.to_bits());
    assert_eq!(read(&mut bench, Kind::Heading, 359.5), Ok(()));
    assert_eq!(bench.reading(Kind::Heading), 359.5_f64.to_bits());
    assert_eq!(Kind::Heading.whole(bench.reading(Kind::Heading)), Ok(0));
    assert_eq!(bench.whole(Kind::Heading), 0);
}

#[test]
fn case_3_altitude_readings() {
    let mut bench = Bench::power_on();
    assert_eq!(read(&mut bench, Kind::Altitude, 56_000.5), Ok(()));
    assert_eq!(
        Kind::Altitude.whole(bench.reading(Kind::Altitude)),
        Ok(56_000)
    );
    assert_eq!(bench.whole(Kind::Altitude), 56_000);
    assert_eq!(
        read(&mut bench, Kind::Altitude, 56_001.0),
        Err(Refusal::OutOfRange)
    );
}

#[test]
fn case_4_rotations() {
    assert_eq!(calls::rotation(250, 3), 9);
    assert_eq!(calls::rotation(3, 250), -9);
    assert_eq!(calls::rotation(0, 128), -128);
    assert_eq!(calls::rotation(128, 0), -128);
}

#[test]
fn case_5_heading_wraps_and_vertical_speed_clamps() {
    let mut bench = Bench::power_on();
    bench.sides[0].references.put(Reference::Heading, 355);
    calls::turn(&mut bench, 3, 9).unwrap();
    assert_eq!(bench.sides[0].references.get(Reference::Heading), 4);

    let mut bench = Bench::power_on();
    read(&mut bench, Kind::VerticalSpeed, 48.0).unwrap();
    events(&mut bench, &[1 << 17]);
    assert_eq!(bench.sides[0].references.get(Reference::VerticalSpeed), 48);
    calls::turn(&mut bench, 0, 9).unwrap();
    assert_eq!(bench.sides[0].references.get(Reference::VerticalSpeed), 50);
}

#[test]
fn case_6_heading_switch() {
    let mut bench = Bench::power_on();
    assert_eq!(calls::event(&mut bench, 16_384), Ok(14));
    assert_eq!(modes(&bench, 0), (2, 1, 4));
    assert_eq!(shown(&bench, 0).lamps, 129);
}

#[test]
fn case_7_lowest_bit_only() {
    let mut bench = Bench::power_on();
    assert_eq!(calls::event(&mut bench, 16_400), Ok(4));
    assert_eq!(modes(&bench, 0), (5, 8, 4));
}

#[test]
fn case_8_approach() {
    let mut bench = after(&[65_536]);
    assert_eq!(modes(&bench, 0), (1, 1, 14));
    events(&mut bench, &[1_024]);
    assert_eq!(modes(&bench, 0), (4, 1, 12));
    events(&mut bench, &[2_048]);
    assert_eq!(modes(&bench, 0), (4, 7, 0));
    events(&mut bench, &[131_072]);
    assert_eq!(modes(&bench, 0), (4, 2, 4));
}

#[test]
fn case_9_overspeed_holds_off_vertical_approach() {
    let mut bench = after(&[65_536, 1_024, 4]);
    assert_eq!(modes(&bench, 0), (4, 3, 12));
    events(&mut bench, &[2_048]);
    assert_eq!(modes(&bench, 0), (4, 3, 12));
}

#[test]
fn case_10_words_without_an_event() {
    let mut bench = Bench::power_on();
    assert_eq!(calls::event(&mut bench, 0), Ok(32));
    assert_eq!(calls::event(&mut bench, 2_097_152), Err(Refusal::Word));
    assert_eq!(bench, Bench::power_on());
}

/// The bench at the end of case 11.
fn case_11() -> Bench {
    let mut bench = after(&[16_384]);
    assert_eq!(modes(&bench, 1), (0, 0, 0));
    assert_eq!(shown(&bench, 1).lamps, 128);
    calls::send(&mut bench, 0).unwrap();
    calls::refresh(&mut bench, 1).unwrap();
    bench
}

#[test]
fn case_11_refresh_takes_modes_and_not_fd() {
    let bench = case_11();
    assert_eq!(modes(&bench, 1), (2, 1, 4));
    assert!(!shown(&bench, 1).fd);
}

#[test]
fn case_12_transfer() {
    let mut bench = case_11();
    assert_eq!(calls::event(&mut bench, 32), Ok(5));
    assert_eq!(modes(&bench, 1), (1, 1, 4));
    assert_eq!(modes(&bench, 0), (2, 1, 4));
    calls::refresh(&mut bench, 0).unwrap();
    assert_eq!(modes(&bench, 0), (0, 0, 0));
}
