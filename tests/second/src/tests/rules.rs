//! Rules that the bench sheet does not reach.

use super::words::*;
use super::{after, events, modes, read, shown};
use crate::bench::{Bench, Kind, Reference};
use crate::calls;
use crate::sets::ModeSet;

/// Modes of the left side after the words, from power-on.
fn modes_after(words: &[u32]) -> (u32, u32, u32) {
    modes(&after(words), 0)
}

#[test]
fn a_switch_pressed_twice_clears_its_mode() {
    for switch in [HDG, NAV, APPR, VS, FLC, ALT] {
        assert_eq!(modes_after(&[switch, switch]), (1, 1, 4));
    }
    assert_eq!(modes_after(&[NAV, NAV_CAPTURED, NAV]), (1, 1, 4));
    let engaged = [APPR, LAPPR_CAPTURED, VAPPR_CAPTURED];
    assert_eq!(modes_after(&[&engaged[..], &[APPR]].concat()), (1, 1, 4));
}

#[test]
fn nav_and_approach_disarm_each_other() {
    assert_eq!(modes_after(&[NAV]), (1, 1, 5));
    assert_eq!(modes_after(&[NAV, APPR]), (1, 1, 14));
    assert_eq!(modes_after(&[APPR, NAV]), (1, 1, 5));
    // An engaged one stays while the other is armed.
    assert_eq!(modes_after(&[NAV, NAV_CAPTURED, APPR]), (3, 1, 14));
    assert_eq!(modes_after(&[APPR, LAPPR_CAPTURED, NAV]), (4, 1, 13));
}

#[test]
fn a_captured_mode_has_to_be_armed() {
    for word in [NAV_CAPTURED, LAPPR_CAPTURED, VAPPR_CAPTURED, ALTSEL_TRACK] {
        assert_eq!(modes_after(&[FD_LEFT, word]), (1, 1, 4));
    }
    // VAPPR also needs LAPPR engaged.
    assert_eq!(modes_after(&[APPR, VAPPR_CAPTURED]), (1, 1, 14));
    assert_eq!(modes_after(&[ALT, ALTSEL_CAPTURED]), (1, 4, 0));
}

#[test]
fn altsel_from_armed_to_capture_to_track() {
    assert_eq!(modes_after(&[VS, ALTSEL_CAPTURED]), (1, 5, 0));
    assert_eq!(modes_after(&[VS, ALTSEL_CAPTURED, ALTSEL_TRACK]), (1, 6, 0));
    let again = [
        VS,
        ALTSEL_CAPTURED,
        ALTSEL_TRACK,
        VS,
        ALTSEL_TRACK,
        ALTSEL_CAPTURED,
    ];
    assert_eq!(modes_after(&again), (1, 5, 0));
    let words = [APPR, LAPPR_CAPTURED, ALTSEL_CAPTURED];
    assert_eq!(modes_after(&words), (4, 5, 8));
}

#[test]
fn losing_lateral_approach_loses_vertical_approach() {
    let engaged = [APPR, LAPPR_CAPTURED, VAPPR_CAPTURED];
    for (word, expected) in [
        (HDG, (2, 1, 4)),
        (GO_AROUND, (5, 8, 4)),
        (SOURCE_CHANGED, (1, 1, 4)),
        (APPR, (1, 1, 4)),
    ] {
        let words = [&engaged[..], &[word]].concat();
        assert_eq!(modes_after(&words), expected);
    }
    let words = [&engaged[..], &[NAV, NAV_CAPTURED]].concat();
    assert_eq!(modes_after(&words), (3, 1, 4));
    // An armed LAPPR is not the mode that HDG or go-around replaces.
    assert_eq!(modes_after(&[APPR, HDG]), (2, 1, 14));
    assert_eq!(modes_after(&[APPR, GO_AROUND]), (5, 8, 14));
    assert_eq!(modes_after(&[APPR, LAPPR_CAPTURED, GO_AROUND]), (5, 8, 4));
}

#[test]
fn overspeed() {
    assert_eq!(modes_after(&[OVERSPEED]), (1, 3, 4));
    assert_eq!(modes_after(&[ALT, OVERSPEED]), (1, 4, 0));
    assert_eq!(modes_after(&[VS, ALTSEL_CAPTURED, OVERSPEED]), (1, 5, 0));
    // A second beginning changes nothing.
    assert_eq!(modes_after(&[OVERSPEED, VS, OVERSPEED]), (1, 2, 4));
    assert_eq!(modes_after(&[OVERSPEED, FLC]), (1, 3, 4));
    assert_eq!(modes_after(&[OVERSPEED, VS, FLC]), (1, 3, 4));
    assert_eq!(modes_after(&[OVERSPEED, OVERSPEED_ENDS, FLC]), (1, 1, 4));
    // FD stays On meanwhile, but can come on.
    assert_eq!(modes_after(&[OVERSPEED, FD_LEFT]), (1, 3, 4));
    assert!(after(&[OVERSPEED, FD_RIGHT, FD_RIGHT]).sides[1].fd);
    assert_eq!(
        modes_after(&[OVERSPEED, OVERSPEED_ENDS, FD_LEFT]),
        (0, 0, 0)
    );
}

#[test]
fn autopilot_keeps_a_side_on() {
    let bench = after(&[AP_SWITCH]);
    assert_eq!(modes(&bench, 0), (1, 1, 4));
    assert!(bench.sides[0].fd);
    assert_eq!(shown(&bench, 1).lamps, 64 + 128);
    assert_eq!(modes_after(&[AP_SWITCH, FD_LEFT]), (1, 1, 4));
    assert_eq!(modes_after(&[AP_SWITCH, FD_LEFT, AP_SWITCH]), (0, 0, 0));
    assert_eq!(modes_after(&[AP_SWITCH, FD_LEFT, 1]), (0, 0, 0));
    assert!(!after(&[AP_SWITCH, GO_AROUND]).ap);
}

#[test]
fn the_other_sides_fd_counts_only_as_sent() {
    let mut bench = after(&[FD_RIGHT]);
    assert_eq!(modes(&bench, 0), (0, 0, 0));
    calls::send(&mut bench, 1).unwrap();
    assert_eq!(modes(&bench, 0), (0, 0, 0));
    read(&mut bench, Kind::Pitch, 4.5).unwrap();
    calls::refresh(&mut bench, 0).unwrap();
    assert_eq!(modes(&bench, 0), (1, 1, 4));
    assert_eq!(bench.sides[0].references.get(Reference::Pitch), 4);
    events(&mut bench, &[FD_RIGHT]);
    assert_eq!(modes(&bench, 0), (1, 1, 4));
    calls::send(&mut bench, 1).unwrap();
    events(&mut bench, &[OVERSPEED_ENDS]);
    assert_eq!(modes(&bench, 0), (0, 0, 0));
}

#[test]
fn a_switch_that_finds_its_mode_leaves_fd_off() {
    // The side is still On, but nothing keeps it on any more.
    let mut bench = after(&[FD_RIGHT]);
    calls::send(&mut bench, 1).unwrap();
    events(&mut bench, &[HDG, FD_LEFT, FD_RIGHT]);
    calls::send(&mut bench, 1).unwrap();
    assert_eq!(modes(&bench, 0), (2, 1, 4));
    events(&mut bench, &[HDG]);
    assert_eq!(modes(&bench, 0), (0, 0, 0));
    assert!(!bench.sides[0].fd);
}

#[test]
fn no_mode_changes_on_a_side_that_is_off() {
    for word in [SOURCE_CHANGED, ALTSEL_CAPTURED, OVERSPEED_ENDS, TRANSFER] {
        let bench = after(&[word]);
        assert_eq!(modes(&bench, 0), (0, 0, 0));
        assert_eq!(modes(&bench, 1), (0, 0, 0));
    }
}

#[test]
fn entry_loads_rounded_and_clamped_readings() {
    let mut bench = Bench::power_on();
    for (kind, value) in [
        (Kind::Roll, -40.0),
        (Kind::Pitch, 13.5),
        (Kind::VerticalSpeed, 51.0),
        (Kind::Airspeed, 20.0),
        (Kind::Altitude, 4_999.5),
    ] {
        read(&mut bench, kind, value).unwrap();
    }
    events(&mut bench, &[VS]);
    // PITCH came and went within the call and is not loaded.
    assert_eq!(bench.sides[0].references.all(), [0, 0, 0, 50, 120, -27, 0]);
    events(&mut bench, &[FLC, ALT, ALT]);
    assert_eq!(
        bench.sides[0].references.all(),
        [0, 0, 5_000, 50, 60, -27, 14]
    );
    assert_eq!(bench.sides[1].references.all(), [0, 0, 0, 0, 120, 0, 0]);
}

#[test]
fn entry_after_a_transfer_compares_the_same_side() {
    let mut bench = after(&[VS]);
    read(&mut bench, Kind::Roll, 5.0).unwrap();
    read(&mut bench, Kind::Pitch, 6.0).unwrap();
    calls::send(&mut bench, 0).unwrap();
    calls::refresh(&mut bench, 1).unwrap();
    events(&mut bench, &[TRANSFER]);
    // Right had ROLL already and did not have PITCH.
    assert_eq!(modes(&bench, 1), (1, 1, 4));
    assert_eq!(bench.sides[1].references.get(Reference::Roll), 0);
    assert_eq!(bench.sides[1].references.get(Reference::Pitch), 6);
    assert_eq!(shown(&bench, 1).lamps, 256);
}

#[test]
fn the_wheel() {
    let turned = |words: &[u32]| {
        let mut bench = after(words);
        read(&mut bench, Kind::Pitch, 3.0).unwrap();
        calls::turn(&mut bench, 0, 255).unwrap();
        (modes(&bench, 0), bench.sides[0].references.all())
    };
    let none = [0, 0, 0, 0, 120, 0, 0];
    assert_eq!(turned(&[]), ((0, 0, 0), none));
    assert_eq!(turned(&[VS]), ((1, 2, 4), [0, 0, 0, -1, 120, 0, 0]));
    assert_eq!(turned(&[HDG]), ((2, 1, 4), [0, 0, 0, 0, 120, 0, -1]));
    let approach = [APPR, LAPPR_CAPTURED, VAPPR_CAPTURED];
    assert_eq!(turned(&approach), ((4, 7, 0), none));
    let pitch = [0, 0, 0, 0, 120, 0, 3];
    assert_eq!(turned(&[FLC]), ((1, 1, 4), pitch));
    assert_eq!(turned(&[ALT]), ((1, 1, 4), pitch));
    assert_eq!(turned(&[GO_AROUND]), ((5, 1, 4), pitch));
    assert_eq!(turned(&[VS, ALTSEL_CAPTURED]), ((1, 1, 4), pitch));
    let armed = [APPR, LAPPR_CAPTURED, ALT];
    assert_eq!(turned(&armed), ((4, 1, 12), pitch));
}

#[test]
fn altitude_and_speed_knobs() {
    let mut bench = after(&[VS, ALTSEL_CAPTURED, ALTSEL_TRACK]);
    calls::turn(&mut bench, 1, 0).unwrap();
    assert_eq!(modes(&bench, 0), (1, 6, 0));
    calls::turn(&mut bench, 1, 100).unwrap();
    assert_eq!(modes(&bench, 0), (1, 1, 4));
    assert_eq!(
        bench.sides[0].references.get(Reference::Preselected),
        10_000
    );

    // At the end of its range the altitude does not change.
    let mut bench = after(&[VS, ALTSEL_CAPTURED]);
    let end = &mut bench.sides[0].references;
    end.put(Reference::Preselected, 56_000);
    calls::turn(&mut bench, 1, 5).unwrap();
    assert_eq!(modes(&bench, 0), (1, 5, 0));
    assert_eq!(bench.counts, [0, 5, 0, 0]);

    calls::turn(&mut bench, 2, 128).unwrap();
    assert_eq!(bench.sides[0].references.get(Reference::Ias), 60);
    assert_eq!(bench.sides[1].references.get(Reference::Ias), 120);
    calls::turn(&mut bench, 3, 255).unwrap();
    assert_eq!(bench.sides[0].references.get(Reference::Heading), 359);
}

#[test]
fn every_lamp() {
    let lamps = |words: &[u32]| shown(&after(words), 0).lamps;
    assert_eq!(lamps(&[]), 128);
    assert_eq!(lamps(&[NAV]), 130);
    assert_eq!(lamps(&[NAV, NAV_CAPTURED]), 130);
    assert_eq!(lamps(&[APPR]), 132);
    assert_eq!(lamps(&[APPR, LAPPR_CAPTURED]), 132);
    assert_eq!(lamps(&[VS]), 136);
    assert_eq!(lamps(&[FLC]), 144);
    assert_eq!(lamps(&[ALT]), 160);
    assert_eq!(lamps(&[VS, ALTSEL_CAPTURED]), 128);
    assert_eq!(lamps(&[AP_SWITCH]), 192);
    assert_eq!(lamps(&[TRANSFER]), 256);
}

#[test]
fn pick_is_the_laws_of_the_display() {
    let bench = after(&[APPR, LAPPR_CAPTURED, ALT]);
    assert_eq!(calls::pick(&bench, 0), Ok((4, 4)));
    assert_eq!(calls::pick(&bench, 1), Ok((0, 0)));
}

#[test]
fn every_event_keeps_every_coherent_set_coherent() {
    for number in 0..240 {
        let (lateral, armed) = (number % 5 + 1, number / 5 % 3);
        let (vertical, vappr) = (number / 15 % 8 + 1, number / 120 == 1);
        let set = ModeSet::from_numbers(lateral, armed, vertical, vappr);
        if !set.is_coherent() {
            continue;
        }
        for event in 0..21 {
            for shared in 0..8 {
                let mut bench = Bench::power_on();
                bench.sides[0].modes = set;
                bench.sides[0].fd = shared & 1 != 0;
                bench.ap = shared & 2 != 0;
                bench.overspeed = shared & 4 != 0;
                assert_eq!(calls::event(&mut bench, 1 << event), Ok(event));
                assert!(bench.is_sound(), "{set:?} event {event}");
            }
        }
    }
}
