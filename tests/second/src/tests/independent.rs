//! Independent operation: how it begins, what calls do meanwhile, and how it
//! ends.

use super::words::*;
use super::{after, events, modes, read, shown};
use crate::bench::{Bench, Kind, Reference};
use crate::calls;
use crate::codes;
use crate::sets::ModeSet;

/// The sets with both approach modes engaged: alone, and with NAV armed.
fn approaches() -> [ModeSet; 2] {
    [0, 1].map(|armed| ModeSet::from_numbers(4, armed, 7, false))
}

/// Independent operation with both flight directors Off and nothing else that
/// keeps a side on.
fn with_sets(left: ModeSet, right: ModeSet) -> Bench {
    let mut bench = Bench::power_on();
    bench.sides[0].modes = left;
    bench.sides[1].modes = right;
    bench.independent = true;
    assert!(bench.is_sound());
    bench
}

/// As it is reached from power-on: left flies the approach, right takes it over.
fn reached() -> Bench {
    let mut bench = after(&[APPR, LAPPR_CAPTURED, VAPPR_CAPTURED]);
    calls::send(&mut bench, 0).unwrap();
    calls::refresh(&mut bench, 1).unwrap();
    events(&mut bench, &[INDEPENDENT]);
    assert!(bench.independent);
    bench
}

fn fds(bench: &Bench) -> [bool; 2] {
    bench.sides.map(|side| side.fd)
}

/// Every bench in independent operation by sets, pilot flying, flag, autopilot
/// and flight directors of sides and inboxes.
fn every_bench() -> Vec<Bench> {
    let mut benches = Vec::new();
    for number in 0..1 << 9 {
        let bit = |index: u32| number >> index & 1;
        let [left, right] = [0, 1].map(|index| approaches()[bit(index)]);
        let mut bench = with_sets(left, right);
        bench.pf = bit(2) as u8;
        bench.overspeed = bit(3) == 1;
        bench.ap = bit(4) == 1;
        for side in 0..2 {
            bench.sides[side].fd = bit(5 + side as u32) == 1;
            bench.inboxes[side].fd = bit(7 + side as u32) == 1;
        }
        benches.push(bench);
    }
    benches
}

fn give_readings(bench: &mut Bench) {
    for (kind, value) in [
        (Kind::Altitude, 1_234.5),
        (Kind::Airspeed, 251.5),
        (Kind::VerticalSpeed, -7.5),
        (Kind::Roll, 12.5),
        (Kind::Pitch, -3.5),
    ] {
        read(bench, kind, value).unwrap();
    }
}

// ---- How it begins ----

#[test]
fn it_is_off_at_power_on() {
    assert!(!Bench::power_on().independent);
}

#[test]
fn it_needs_both_approach_modes_on_both_sides_and_touches_nothing_else() {
    for left in (0..=107).filter_map(codes::set_of) {
        for right in (0..=107).filter_map(codes::set_of) {
            // Without a flight director the second step would take a side off,
            // and with the autopilot it would bring one on.
            for ap in [false, true] {
                let mut bench = with_sets(approaches()[0], approaches()[0]);
                bench.sides[0].modes = left;
                bench.sides[1].modes = right;
                bench.independent = false;
                bench.ap = ap;
                let mut expected = bench;
                expected.independent = [left, right].iter().all(|set| approaches().contains(set));
                assert_eq!(calls::event(&mut bench, INDEPENDENT), Ok(20));
                assert_eq!(bench, expected, "{left:?} {right:?}");
            }
        }
    }
}

#[test]
fn while_it_is_on_its_event_changes_nothing() {
    for bench in every_bench() {
        let mut same = bench;
        assert_eq!(calls::event(&mut same, INDEPENDENT), Ok(20));
        assert_eq!(same, bench);
    }
}

#[test]
fn every_other_event_comes_before_it() {
    for event in 0..20 {
        for mut bench in [reached(), Bench::power_on()] {
            let mut alone = bench;
            assert_eq!(
                calls::event(&mut bench, INDEPENDENT | 1 << event),
                Ok(event)
            );
            assert_eq!(calls::event(&mut alone, 1 << event), Ok(event));
            assert_eq!(bench, alone);
        }
    }
}

// ---- Events ----

/// What an event does to a side that is the only active one.
fn alone(bench: &Bench, side: u8, event: u32) -> Bench {
    let mut alone = *bench;
    alone.independent = false;
    alone.pf = side;
    assert_eq!(calls::event(&mut alone, 1 << event), Ok(event));
    alone
}

#[test]
fn an_event_does_to_each_side_what_it_does_to_an_active_one() {
    for mut bench in every_bench() {
        give_readings(&mut bench);
        for event in (0..20).filter(|&event| event != 5) {
            let one_asks = bench.sides[0].modes != bench.sides[1].modes;
            if event == 15 && one_asks {
                // One side asks for FD On and the other does not.
                continue;
            }
            let [left, right] = [0, 1].map(|side| alone(&bench, side, event));
            let mut expected = bench;
            // Each change that both share is made once, and either shows it.
            assert_eq!((left.ap, left.overspeed), (right.ap, right.overspeed));
            expected.ap = left.ap;
            expected.overspeed = left.overspeed;
            expected.sides = [left.sides[0], right.sides[1]];
            if event == 6 || event == 7 {
                assert_eq!(fds(&left), fds(&right));
            }
            expected.independent = expected.both_on_approach();
            let mut result = bench;
            events(&mut result, &[1 << event]);
            assert_eq!(result, expected, "event {event}");
        }
    }
}

#[test]
fn each_side_is_judged_on_its_own_set() {
    let [plain, armed] = approaches();
    let mut bench = with_sets(armed, plain);
    bench.ap = true;
    let start = bench;
    events(&mut bench, &[NAV_CAPTURED]);
    assert_eq!((modes(&bench, 0), modes(&bench, 1)), ((3, 1, 4), (4, 7, 0)));
    assert!(!bench.independent);
    // One side clears its NAV and the other arms it.
    let mut bench = start;
    events(&mut bench, &[NAV]);
    assert_eq!((modes(&bench, 0), modes(&bench, 1)), ((4, 7, 0), (4, 7, 1)));
    assert!(bench.independent);
}

#[test]
fn autopilot_and_flag_change_once() {
    let mut bench = reached();
    events(&mut bench, &[AP_SWITCH]);
    assert!(bench.ap && bench.independent);
    events(&mut bench, &[AP_SWITCH]);
    assert!(!bench.ap && bench.independent);
    events(&mut bench, &[OVERSPEED]);
    assert!(bench.overspeed && !bench.independent);
    assert_eq!([0, 1].map(|side| modes(&bench, side)), [(4, 3, 4); 2]);
    // A second beginning would engage nothing.
    let mut bench = reached();
    bench.overspeed = true;
    events(&mut bench, &[OVERSPEED]);
    assert!(bench.overspeed && bench.independent);
    events(&mut bench, &[OVERSPEED_ENDS]);
    assert!(!bench.overspeed && bench.independent);
}

#[test]
fn a_flight_director_switch_moves_the_one_it_names() {
    for overspeed in [false, true] {
        for (side, word) in [FD_LEFT, FD_RIGHT].into_iter().enumerate() {
            for start in [[false, false], [false, true], [true, false], [true, true]] {
                let mut bench = reached();
                bench.overspeed = overspeed;
                bench.ap = true;
                bench.sides[0].fd = start[0];
                bench.sides[1].fd = start[1];
                events(&mut bench, &[word]);
                let mut expected = start;
                expected[side] = overspeed || !start[side];
                assert_eq!(fds(&bench), expected);
                assert!(bench.independent);
            }
        }
    }
}

#[test]
fn fd_on_is_set_on_both_sides_if_either_asks() {
    let [plain, armed] = approaches();
    for (left, right, expected) in [
        (plain, plain, true),
        (plain, armed, true),
        (armed, plain, true),
        (armed, armed, false),
    ] {
        for pf in 0..2 {
            let mut bench = with_sets(left, right);
            bench.pf = pf;
            events(&mut bench, &[NAV]);
            assert_eq!(fds(&bench), [expected; 2]);
            // A side that asked for nothing is kept on by what the other asked.
            assert_eq!(bench.independent, expected);
            assert_eq!(
                bench.sides.iter().all(|side| side.modes.is_off()),
                !expected
            );
        }
    }
    for word in [AP_SWITCH, OVERSPEED, GO_AROUND, HDG, VS, FLC, ALT] {
        let mut bench = with_sets(plain, armed);
        events(&mut bench, &[word]);
        assert_eq!(fds(&bench), [true; 2]);
    }
    for word in [AP_DISCONNECT, OVERSPEED_ENDS, SOURCE_CHANGED, APPR] {
        let mut bench = with_sets(plain, armed);
        events(&mut bench, &[word]);
        assert_eq!(fds(&bench), [false; 2]);
    }
}

#[test]
fn the_on_rule_goes_by_a_sides_own_fd_and_inbox() {
    for bench in every_bench() {
        let mut after = bench;
        events(&mut after, &[LAPPR_CAPTURED]);
        for side in 0..2 {
            let on = bench.ap || bench.sides[side].fd || bench.inboxes[side].fd;
            assert_eq!(after.sides[side].modes.is_off(), !on);
        }
        let off = after.sides.iter().any(|side| side.modes.is_off());
        assert_eq!(after.independent, !off);
    }
}

#[test]
fn entry_is_taken_on_both_sides() {
    for (word, reference, value) in [
        (VS, Reference::VerticalSpeed, -8),
        (FLC, Reference::Ias, 252),
        (OVERSPEED, Reference::Ias, 252),
        (ALT, Reference::Held, 1_234),
        (HDG, Reference::Pitch, -4),
        (APPR, Reference::Roll, 12),
        (SOURCE_CHANGED, Reference::Pitch, -4),
    ] {
        for pf in 0..2 {
            let mut bench = reached();
            bench.ap = true;
            bench.pf = pf;
            give_readings(&mut bench);
            let old = bench.sides[1].references.get(reference);
            assert_ne!(old, value);
            events(&mut bench, &[word]);
            for side in 0..2 {
                assert_eq!(bench.sides[side].references.get(reference), value);
            }
            assert!(!bench.independent);
        }
    }
}

#[test]
fn entry_is_not_taken_on_a_side_that_keeps_its_modes() {
    let [plain, armed] = approaches();
    let mut bench = with_sets(plain, armed);
    bench.ap = true;
    give_readings(&mut bench);
    events(&mut bench, &[NAV_CAPTURED]);
    assert_eq!(bench.sides[0].references.get(Reference::Pitch), 0);
    assert_eq!(bench.sides[1].references.get(Reference::Pitch), -4);
}

// ---- Knobs, sends and readings ----

#[test]
fn knobs_turn_the_references_of_both_sides_and_count_once() {
    for pf in 0..2 {
        let mut bench = reached();
        bench.pf = pf;
        for (side, values) in [[355, 55_900, 65], [10, 0, 399]].into_iter().enumerate() {
            let references = &mut bench.sides[side].references;
            references.put(Reference::Heading, values[0]);
            references.put(Reference::Preselected, values[1]);
            references.put(Reference::Ias, values[2]);
        }
        let start = bench;
        for knob in 0..4 {
            calls::turn(&mut bench, knob, 9).unwrap();
        }
        assert_eq!(bench.counts, [9; 4]);
        // The wheel does nothing on an approach.
        let mut expected = start;
        expected.counts = [9; 4];
        for (side, values) in [[4, 56_000, 74], [19, 900, 400]].into_iter().enumerate() {
            let references = &mut expected.sides[side].references;
            references.put(Reference::Heading, values[0]);
            references.put(Reference::Preselected, values[1]);
            references.put(Reference::Ias, values[2]);
        }
        assert_eq!(bench, expected);
        for knob in 0..4 {
            calls::turn(&mut bench, knob, 9).unwrap();
        }
        assert_eq!(bench, expected);
    }
}

#[test]
fn sends_and_readings_are_as_ever() {
    for side in 0..2 {
        let mut bench = reached();
        calls::turn(&mut bench, 2, 40).unwrap();
        events(&mut bench, &[FD_RIGHT]);
        let mut expected = bench;
        expected.inboxes[1 - side] = bench.sides[side];
        calls::send(&mut bench, side as u32).unwrap();
        assert_eq!(bench, expected);
        read(&mut bench, Kind::Roll, 5.5).unwrap();
        expected.keep(Kind::Roll, 5.5_f64.to_bits(), 6);
        assert_eq!(bench, expected);
    }
}

// ---- Refreshes ----

#[test]
fn a_refresh_does_the_second_step_of_its_side_alone() {
    for mut bench in every_bench() {
        // Nothing of this may be taken over.
        for inbox in &mut bench.inboxes {
            inbox.modes = ModeSet::from_numbers(2, 2, 3, true);
            inbox.references.put(Reference::Heading, 77);
        }
        for side in 0..2 {
            let mut expected = bench;
            if !(bench.ap || bench.sides[side].fd || bench.inboxes[side].fd) {
                expected.sides[side].modes = ModeSet::OFF;
                expected.independent = false;
            }
            let mut result = bench;
            calls::refresh(&mut result, side as u32).unwrap();
            assert_eq!(result, expected);
        }
    }
}

#[test]
fn after_its_end_a_refresh_takes_over_the_inbox_again() {
    let mut bench = reached();
    bench.sides[0].fd = false;
    calls::send(&mut bench, 0).unwrap();
    calls::refresh(&mut bench, 1).unwrap();
    assert_eq!(modes(&bench, 1), (0, 0, 0));
    assert!(!bench.independent);
    calls::refresh(&mut bench, 1).unwrap();
    assert_eq!(modes(&bench, 1), (4, 7, 0));
    assert!(!bench.independent);
}

// ---- How it ends ----

#[test]
fn it_ends_after_the_call_by_which_a_side_loses_a_mode() {
    for mut bench in every_bench() {
        give_readings(&mut bench);
        for event in 0..20 {
            let mut after = bench;
            events(&mut after, &[1 << event]);
            assert!(after.is_sound());
            let lost = !after.both_on_approach();
            assert_eq!(after.independent, event != 5 && !lost, "event {event}");
        }
    }
}

#[test]
fn after_its_end_only_the_active_side_is_acted_on() {
    let mut bench = reached();
    events(&mut bench, &[VS]);
    assert!(!bench.independent);
    let right = bench.sides[1];
    events(&mut bench, &[HDG]);
    calls::turn(&mut bench, 0, 5).unwrap();
    assert_eq!(modes(&bench, 0), (2, 2, 4));
    assert_eq!(bench.sides[1], right);
}

#[test]
fn it_does_not_come_back_by_itself() {
    let [plain, armed] = approaches();
    let mut bench = with_sets(plain, armed);
    bench.ap = true;
    events(&mut bench, &[NAV_CAPTURED]);
    calls::send(&mut bench, 0).unwrap();
    calls::refresh(&mut bench, 1).unwrap();
    assert!(bench.both_on_approach() && !bench.independent);
    events(&mut bench, &[INDEPENDENT]);
    assert!(bench.independent);
}

#[test]
fn a_transfer_ends_it_and_acts_on_the_side_that_takes_over() {
    for mut bench in every_bench() {
        give_readings(&mut bench);
        let mut expected = bench;
        expected.independent = false;
        assert_eq!(calls::event(&mut expected, TRANSFER), Ok(5));
        let mut result = bench;
        assert_eq!(calls::event(&mut result, TRANSFER), Ok(5));
        assert_eq!(result, expected);
        assert!(!result.independent);
        // The side that gives the controls away keeps all it has.
        let gives = usize::from(bench.pf);
        assert_eq!(result.sides[gives], bench.sides[gives]);
        assert_eq!(usize::from(result.pf), 1 - gives);
    }
}

#[test]
fn displays_go_on_saying_who_has_the_pilot_flying() {
    let bench = reached();
    assert_eq!([0, 1].map(|side| shown(&bench, side).lamps), [132; 2]);
}
