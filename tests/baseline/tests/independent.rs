//! Independent operation: how it begins, what it does on both sides, and how it ends.
use baseline::{
    code, display, event, reading, refresh, send, turn, Bench, Modes, Reading, HEADING, IAS, OFF,
    ON_SETS, PRESELECTED, SHOWN,
};

const BEGIN: u32 = 1 << 20;

/// LAPPR and VAPPR engaged; 3 arms NAV beside them, and 0 nothing.
fn approach(armed: u8) -> u8 {
    code(Modes {
        lateral: 4,
        vertical: 7,
        armed,
        vappr_armed: false,
    })
}

/// A sound bench that has it on, with flight directors Off, AP engaged, and sides and inboxes that differ.
fn operating() -> Bench {
    let mut b = Bench::power_on();
    b.sets = [approach(0), approach(0), OFF, OFF];
    for (channel, numbers) in b.numbers[..4].iter_mut().enumerate() {
        *numbers = [100, 2000, 3000, 10, 200, 5, 6, 0].map(|x| x + channel as i32);
        numbers[7] = 0;
    }
    assert_eq!(reading(&mut b, Reading::Altitude(777.5)), 0);
    b.ap = true;
    b.independent = true;
    assert!(b.is_sound());
    b
}

/// What a call leaves of a bench.
fn after(mut b: Bench, call: impl FnOnce(&mut Bench) -> u32) -> Bench {
    assert_eq!(call(&mut b), 0);
    assert!(b.is_sound());
    b
}

fn after_word(b: Bench, word: u32) -> Bench {
    after(b, |b| event(b, word).0)
}

#[test]
fn it_is_reached_from_power_on() {
    let mut b = Bench::power_on();
    for word in [1 << 16, 1 << 10, 1 << 11] {
        b = after_word(b, word);
    }
    assert_eq!(after_word(b, BEGIN), b);
    b = after(b, |b| send(b, 0));
    b = after(b, |b| refresh(b, 1));
    assert!(!b.independent);
    assert_eq!(event(&mut b, BEGIN), (0, 20));
    assert!(b.independent);
}

#[test]
fn event_20_asks_for_both_pairs_and_changes_nothing_else() {
    for left in 0..=ON_SETS {
        for right in 0..=ON_SETS {
            let mut b = operating();
            b.sets[..2].copy_from_slice(&[left, right]);
            // no flight director is on, so that a second step would show
            (b.ap, b.independent) = (false, false);
            if !b.is_sound() {
                continue;
            }
            let pair = |set: u8| set == approach(0) || set == approach(3);
            let independent = pair(left) && pair(right);
            assert_eq!(after_word(b, BEGIN), Bench { independent, ..b });
        }
    }
}

#[test]
fn event_20_is_the_last_in_priority_and_does_nothing_while_it_is_on() {
    let b = operating();
    assert_eq!(after_word(b, BEGIN), b);
    for lower in 0..20 {
        assert_eq!(event(&mut { b }, BEGIN | 1 << lower), (0, lower));
        assert_eq!(after_word(b, BEGIN | 1 << lower), after_word(b, 1 << lower));
    }
    assert_eq!(event(&mut { b }, BEGIN | 1 << 21), (4, 32));
}

/// Both sides with one set: each goes as it would if it alone had PF, with what is shared changed once.
#[test]
fn an_event_acts_on_both_sides() {
    for word in (0..20).filter(|&event| event != 5).map(|event| 1 << event) {
        for case in 0..128 {
            let mut b = operating();
            b.ap = case & 1 != 0;
            b.overspeed = case & 2 != 0;
            b.fds = [4, 8, 16, 32].map(|bit| case & bit != 0);
            b.sets[..2].fill(approach(if case & 64 == 0 { 0 } else { 3 }));
            let both = after_word(b, word);
            for pf in 0..2 {
                let side = pf as usize;
                let alone = Bench {
                    independent: false,
                    pf,
                    ..b
                };
                let alone = after_word(alone, word);
                assert_eq!(both.sets[side], alone.sets[side]);
                assert_eq!(both.numbers[side], alone.numbers[side]);
                assert_eq!(both.fds[side], alone.fds[side]);
                assert_eq!((both.ap, both.overspeed), (alone.ap, alone.overspeed));
            }
            assert_eq!((both.pf, both.numbers[2..] == b.numbers[2..]), (0, true));
            assert_eq!(both.independent, both.has_both_approaches());
        }
    }
}

/// Left has NAV armed and clears it; right asks for its flight director, and left gets its too.
#[test]
fn one_side_asks_and_both_get_their_flight_directors() {
    for asking in 0..2 {
        let mut b = operating();
        b.sets[asking ^ 1] = approach(3);
        let next = after_word(b, 1 << 15);
        assert_eq!(next.fds, [true, true, false, false]);
        assert_eq!(
            (next.sets[asking], next.sets[asking ^ 1]),
            (approach(3), approach(0))
        );
        assert!(next.independent);
    }
}

#[test]
fn a_call_that_takes_a_mode_ends_it_and_enters_both() {
    let b = operating();
    let alt = after_word(b, 1 << 19);
    let laws = |side: usize| {
        (
            SHOWN[alt.sets[side] as usize].lateral,
            SHOWN[alt.sets[side] as usize].vertical,
        )
    };
    assert_eq!((laws(0), laws(1)), ((4, 4), (4, 4)));
    assert_eq!((alt.numbers[0][2], alt.numbers[1][2]), (778, 778));
    assert!(!alt.independent);
    // no flight director is on behind AP: both go Off
    let off = after_word(b, 1);
    assert_eq!((&off.sets[..2], off.independent), (&[OFF, OFF][..], false));
}

#[test]
fn a_transfer_ends_it_and_acts_as_ever() {
    let b = operating();
    let off = Bench {
        independent: false,
        ..b
    };
    let next = after_word(b, 1 << 5);
    assert_eq!(next, after_word(off, 1 << 5));
    assert_eq!((next.pf, next.sets[0]), (1, approach(0)));
    assert_eq!(display(&next, 1).1.lateral, 1);
}

#[test]
fn a_knob_turns_both_sides_and_its_count_once() {
    let b = operating();
    let next = after(b, |b| turn(b, 3, 255));
    assert_eq!(
        (next.numbers[0][HEADING], next.numbers[1][HEADING]),
        (99, 100)
    );
    assert_eq!(next.counts, [0, 0, 0, 255]);
    let next = after(b, |b| turn(b, 1, 3));
    assert_eq!(
        (next.numbers[0][PRESELECTED], next.numbers[1][PRESELECTED]),
        (2300, 2301)
    );
    let mut near = b;
    near.numbers[1][IAS] = 398;
    let next = after(near, |b| turn(b, 2, 4));
    assert_eq!((next.numbers[0][IAS], next.numbers[1][IAS]), (204, 400));
    let counted = Bench {
        counts: [9, 0, 0, 0],
        ..b
    };
    assert_eq!(after(b, |b| turn(b, 0, 9)), counted);
}

#[test]
fn sends_readings_and_displays_leave_it_on() {
    let b = operating();
    assert!(after(b, |b| send(b, 1)).independent);
    assert!(after(b, |b| reading(b, Reading::Roll(180.0))).independent);
    for side in 0..2 {
        assert_eq!(after(b, |b| display(b, side).0), b);
    }
}

#[test]
fn a_refresh_takes_nothing_from_the_inbox_until_one_finds_it_off() {
    let b = operating();
    for side in 0..2 {
        assert_eq!(after(b, |b| refresh(b, side)), b);
    }
    // nothing keeps right on: the refresh takes it Off, and ends independent operation
    let mut b = b;
    (b.ap, b.fds) = (false, [true, false, false, false]);
    let mut expected = b;
    expected.sets[1] = OFF;
    expected.independent = false;
    let next = after(b, |b| refresh(b, 1));
    assert_eq!(next, expected);
    // the next one finds it off, and right is passive
    let mut sent = next;
    sent.sets[3] = approach(3);
    let taken = after(sent, |b| refresh(b, 1));
    assert_eq!(
        (taken.sets[1], taken.numbers[1]),
        (approach(3), sent.numbers[3])
    );
    assert!(!taken.independent);
}
