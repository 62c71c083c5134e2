//! Heading 360 is north and roll 180 is inverted: each is the low end of its
//! range by another number, for these two kinds alone.

use super::refusals::assert_unsound;
use super::{events, read, shown};
use crate::bench::{Bench, Kind, Reference, Refusal};
use crate::calls;

/// The next float away from zero.
fn farther(value: f64) -> f64 {
    f64::from_bits(value.to_bits() + 1)
}

/// The next float towards zero.
fn nearer(value: f64) -> f64 {
    f64::from_bits(value.to_bits() - 1)
}

/// Floats and their whole values; none where that is out of range.
type Wholes = Vec<(f64, Option<i32>)>;

fn headings() -> Wholes {
    vec![
        (359.25, Some(359)),
        (nearer(359.5), Some(359)),
        (359.5, Some(0)),
        (farther(359.5), Some(0)),
        (360.0, Some(0)),
        (360.25, Some(0)),
        (nearer(360.5), Some(0)),
        (360.5, Some(0)),
        (farther(360.5), None),
        (360.75, None),
        (361.0, None),
        (720.0, None),
        (-0.0, Some(0)),
        (nearer(-0.5), Some(0)),
        (-0.5, Some(0)),
        (farther(-0.5), None),
        (-0.75, None),
        (-1.0, None),
        (-360.0, None),
    ]
}

fn rolls() -> Wholes {
    vec![
        (179.25, Some(179)),
        (nearer(179.5), Some(179)),
        (179.5, Some(-180)),
        (farther(179.5), Some(-180)),
        (179.75, Some(-180)),
        (180.0, Some(-180)),
        (nearer(180.5), Some(-180)),
        (180.5, Some(-180)),
        (farther(180.5), None),
        (180.75, None),
        (181.0, None),
        (540.0, None),
        (nearer(-179.5), Some(-179)),
        (-179.5, Some(-180)),
        (-180.0, Some(-180)),
        (nearer(-180.5), Some(-180)),
        (-180.5, Some(-180)),
        (farther(-180.5), None),
        (-180.75, None),
        (-181.0, None),
    ]
}

/// Where another kind has these numbers, they are what they were.
fn others() -> [(Kind, Wholes); 6] {
    let half = vec![(179.5, Some(180)), (180.0, Some(180)), (180.5, Some(180))];
    let full = vec![(359.5, Some(360)), (360.0, Some(360)), (360.5, Some(360))];
    let none = |value: f64| vec![(value, None), (-value, None)];
    let both = [half.clone(), full].concat();
    let below = vec![(-180.0, Some(-180)), (-360.0, Some(-360))];
    let refused = vec![(-180.0, None), (-360.0, None)];
    [
        (Kind::Altitude, [both.clone(), below].concat()),
        (Kind::Airspeed, [both, refused].concat()),
        (Kind::VerticalSpeed, [half.clone(), none(360.0)].concat()),
        (Kind::Roll, none(360.0)),
        (Kind::Pitch, [none(180.0), none(360.0)].concat()),
        (Kind::Heading, half),
    ]
}

fn all() -> Vec<(Kind, f64, Option<i32>)> {
    let circles = [(Kind::Heading, headings()), (Kind::Roll, rolls())];
    let tables = circles.into_iter().chain(others());
    let rows = |(kind, table): (Kind, Wholes)| {
        let row = move |(value, whole)| (kind, value, whole);
        table.into_iter().map(row)
    };
    tables.flat_map(rows).collect()
}

/// The bench at power-on with a reading in it that was not given to it.
fn damaged(kind: Kind, value: f64, whole: i32) -> Bench {
    let mut bench = Bench::power_on();
    bench.keep(kind, value.to_bits(), whole);
    bench
}

#[test]
fn a_reading_goes_by_its_whole_value_and_is_kept_as_it_came() {
    for (kind, value, whole) in all() {
        let expected = whole.ok_or(Refusal::OutOfRange);
        assert_eq!(kind.whole(value.to_bits()), expected, "{kind:?} {value}");
        let mut bench = Bench::power_on();
        assert_eq!(read(&mut bench, kind, value), expected.map(|_| ()));
        let kept = match whole {
            Some(whole) => damaged(kind, value, whole),
            None => Bench::power_on(),
        };
        assert_eq!(bench, kept, "{kind:?} {value}");
    }
}

#[test]
fn a_stored_reading_is_sound_by_its_whole_value() {
    for (kind, value, whole) in all() {
        let Some(whole) = whole else {
            // What it would be without a range, and what it could be taken for.
            for whole in [value.round_ties_even() as i32, 0, -180, 179, 359] {
                assert_unsound(damaged(kind, value, whole));
            }
            continue;
        };
        let mut bench = damaged(kind, value, whole);
        assert!(bench.is_sound(), "{kind:?} {value}");
        assert_eq!(calls::event(&mut bench, 0), Ok(32));
        assert_eq!(read(&mut bench, kind, value), Ok(()));
        assert_eq!(bench, damaged(kind, value, whole));
    }
}

/// What a reading loads by the switch that engages its mode, from a bench that
/// was given it and from one that was damaged with it.
fn assert_loads(kind: Kind, value: f64, whole: i32, expected: i32) {
    let (word, reference) = match kind {
        Kind::Roll => (1 << 6, Reference::Roll),
        Kind::VerticalSpeed => (1 << 17, Reference::VerticalSpeed),
        Kind::Airspeed => (1 << 18, Reference::Ias),
        Kind::Altitude => (1 << 19, Reference::Held),
        Kind::Pitch | Kind::Heading => panic!("{kind:?} is not among these"),
    };
    let mut bench = Bench::power_on();
    read(&mut bench, kind, value).unwrap();
    for mut bench in [bench, damaged(kind, value, whole)] {
        events(&mut bench, &[word]);
        let loaded = shown(&bench, 0).references[reference as usize];
        assert_eq!(loaded, expected, "{kind:?} {value}");
    }
}

#[test]
fn entry_loads_the_whole_value_clamped() {
    for (value, whole) in rolls() {
        if let Some(whole) = whole {
            assert_loads(Kind::Roll, value, whole, whole.clamp(-27, 27));
        }
    }
    for (kind, value, whole, expected) in [
        (Kind::Roll, 179.25, 179, 27),
        (Kind::Roll, 179.75, -180, -27),
        (Kind::Altitude, 359.5, 360, 360),
        (Kind::Altitude, 360.0, 360, 360),
        (Kind::Altitude, 180.0, 180, 180),
        (Kind::Airspeed, 360.0, 360, 360),
        (Kind::Airspeed, 180.0, 180, 180),
        (Kind::VerticalSpeed, 180.0, 180, 50),
        (Kind::VerticalSpeed, -180.0, -180, -50),
    ] {
        assert_loads(kind, value, whole, expected);
    }
}
