//! Calls in a row that bring independent operation about from any bench, and that end it in one way
//! or another. Nearly every other list of calls would miss them.

use crate::parts::words::{EVENT_COUNT, INDEPENDENT};
use crate::rng::Rng;

#[derive(Clone, Copy, PartialEq, Eq, Debug)]
pub enum Step {
    Event(u32),
    Send(usize),
    Refresh(usize),
    Bench,
}

use Step::{Bench, Event, Refresh, Send};

const AP_DISCONNECT: u32 = 0;
const AP_SWITCH: u32 = 1;
const OVERSPEED_ENDS: u32 = 3;
const FD_LEFT: u32 = 6;
const FD_RIGHT: u32 = 7;
const SOURCE_CHANGED: u32 = 8;
const NAV_CAPTURED: u32 = 9;
const LAPPR_CAPTURED: u32 = 10;
const VAPPR_CAPTURED: u32 = 11;
const NAV: u32 = 15;
const APPR: u32 = 16;

/// The approach on the side of the pilot flying, and from there on the other. Which side is which
/// need not be known, as a refresh of the first does it no harm.
const APPROACH: [Step; 9] = [
    Event(OVERSPEED_ENDS),
    Event(SOURCE_CHANGED),
    Event(APPR),
    Event(LAPPR_CAPTURED),
    Event(VAPPR_CAPTURED),
    Send(0),
    Send(1),
    Refresh(0),
    Refresh(1),
];

const BEGIN: [Step; 3] = [Bench, Event(INDEPENDENT), Bench];

/// How many of a hundred approaches have NAV armed on the side of the pilot flying alone.
const UNEQUAL: usize = 40;

/// A side arms NAV, so that both flight directors are On; no autopilot keeps a side on.
const BOTH_FDS: [Step; 2] = [Event(NAV), Event(AP_DISCONNECT)];

type Way = fn(&mut Rng) -> Vec<Step>;

/// The ways in which it may end, by weight. The call that ends it stands between two benches.
const WAYS: [(usize, Way); 6] = [
    (20, |_| Vec::new()),
    (35, |rng| ended_by(&[], any_event(rng))),
    (5, |_| ended_by(&[Event(NAV)], Event(NAV_CAPTURED))),
    (40, by_nothing_that_keeps_a_side_on),
    (10, by_autopilot),
    (10, by_flight_director),
];

pub fn sequence(rng: &mut Rng) -> Vec<Step> {
    let mut steps = APPROACH.to_vec();
    if rng.percent(UNEQUAL) {
        steps.push(Event(NAV));
    }
    steps.extend(BEGIN);
    let way = rng.weighted(&WAYS);
    steps.extend(way(rng));
    steps
}

fn ended_by(ahead: &[Step], last: Step) -> Vec<Step> {
    [ahead, &[Bench, last, Bench]].concat()
}

fn any_event(rng: &mut Rng) -> Step {
    Event(rng.below(EVENT_COUNT as usize) as u32)
}

/// The inboxes alone keep both sides on, until a send takes that from one of them. The next second
/// step ends it, whatever it comes with.
fn by_nothing_that_keeps_a_side_on(rng: &mut Rng) -> Vec<Step> {
    let sender = rng.below(2);
    let ahead = [
        Send(0),
        Send(1),
        Event(FD_LEFT),
        Event(FD_RIGHT),
        Send(sender),
    ];
    let last = if rng.percent(30) {
        Refresh(1 - sender)
    } else {
        any_event(rng)
    };
    ended_by(&[&BOTH_FDS[..], &ahead].concat(), last)
}

/// The autopilot alone keeps both sides on, and is then disengaged.
fn by_autopilot(rng: &mut Rng) -> Vec<Step> {
    let ahead = [
        Event(AP_SWITCH),
        Event(FD_LEFT),
        Event(FD_RIGHT),
        Send(0),
        Send(1),
    ];
    let last = Event(rng.pick(&[AP_DISCONNECT, AP_SWITCH]));
    ended_by(&[&BOTH_FDS[..], &ahead].concat(), last)
}

/// Its own flight director alone keeps one side on, and is then switched Off.
fn by_flight_director(rng: &mut Rng) -> Vec<Step> {
    let side = rng.below(2);
    let other = 1 - side;
    let switch = |side: usize| Event([FD_LEFT, FD_RIGHT][side]);
    let ahead = [Send(side), switch(other), Send(other)];
    ended_by(&[&BOTH_FDS[..], &ahead].concat(), switch(side))
}

#[cfg(test)]
mod tests {
    use super::*;

    /// What follows the beginning.
    fn way(steps: &[Step]) -> &[Step] {
        let begun = steps.windows(BEGIN.len()).position(|steps| steps == BEGIN);
        &steps[begun.unwrap() + BEGIN.len()..]
    }

    #[test]
    fn every_sequence_begins_with_an_approach_and_shows_its_end() {
        let mut rng = Rng::of_list(1, 0);
        let mut unequal = 0;
        for _ in 0..200 {
            let steps = sequence(&mut rng);
            assert!(steps.starts_with(&APPROACH));
            assert_eq!(steps.last(), Some(&Bench));
            let armed = steps[APPROACH.len()] == Event(NAV);
            let ahead = APPROACH.len() + usize::from(armed) + BEGIN.len();
            assert_eq!(way(&steps), &steps[ahead..]);
            unequal += usize::from(armed);
        }
        assert!((40..160).contains(&unequal), "{unequal}");
    }

    #[test]
    fn every_event_and_refresh_stands_between_two_benches() {
        let mut rng = Rng::of_list(1, 0);
        let mut ends = Vec::new();
        for _ in 0..2_000 {
            let steps = sequence(&mut rng);
            if let [.., Bench, last, Bench] = way(&steps)[..] {
                ends.push(last);
            }
        }
        for event in 0..EVENT_COUNT {
            assert!(ends.contains(&Event(event)), "{event}");
        }
        assert!(ends.contains(&Refresh(0)) && ends.contains(&Refresh(1)));
    }
}
