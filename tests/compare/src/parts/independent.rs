//! Independent operation: every call in every state in which both sides fly an approach, who may
//! begin it, and what follows its end.

mod asked;
mod calls;
mod needed;
mod states;
mod worked;

use self::asked::Asked;
use self::states::{Arranger, Flags, State, INBOXES};
use super::sets::Trial;
use super::sheet;
use super::words::{Set, EVENT_COUNT};
use crate::gate::{Gate, Stop};

/// The coherent sets with LAPPR and VAPPR engaged: alone, and with NAV armed.
const APPROACHES: [Set; 2] = [Set::new(4, 0, 7, 0), Set::new(4, 1, 7, 0)];

pub fn run(gate: &mut Gate) -> Result<(), Stop> {
    for case in worked::CASES {
        let (script, paper) = sheet::texts(case);
        gate.check_against(&script, &paper)?;
    }
    for asked in all() {
        let output = gate.check(&asked.script)?;
        let checked = asked.check(&output);
        checked.map_err(|problem| gate.reject(&problem))?;
    }
    needed::run(gate)
}

fn all() -> impl Iterator<Item = Asked> {
    INBOXES.into_iter().map(with_inbox).chain(calls::all())
}

/// Every trial in every state with these inboxes.
fn with_inbox(inbox: [bool; 2]) -> Asked {
    let mut arranger = Arranger::from_power_on(Asked::default(), inbox);
    for (state, trial) in cases(inbox) {
        arranger.try_in(&state, trial);
    }
    arranger.asked
}

/// Every event in every state. An armed NAV says nothing to a refresh, so that is tried with one
/// pair of sets in turn.
fn cases(inbox: [bool; 2]) -> Vec<(State, Trial)> {
    let mut cases = Vec::new();
    for (turn, flags) in Flags::all().into_iter().enumerate() {
        for (number, state) in State::all(flags, inbox).into_iter().enumerate() {
            cases.extend((0..EVENT_COUNT).map(|event| (state, Trial::Event(event))));
            if number % 4 == turn % 4 {
                cases.extend([0, 1].map(|side| (state, Trial::Refresh(side))));
            }
        }
    }
    cases
}

#[cfg(test)]
mod tests {
    use super::*;
    use std::collections::BTreeSet;

    fn all_cases() -> Vec<(State, Trial)> {
        INBOXES.into_iter().flat_map(cases).collect()
    }

    #[test]
    fn every_event_is_tried_in_every_state() {
        let all = all_cases();
        let events = all
            .iter()
            .filter(|(_, trial)| matches!(trial, Trial::Event(_)));
        let tried: BTreeSet<String> = events.map(|case| format!("{case:?}")).collect();
        let flags = Flags::all().len();
        assert_eq!(flags, 2 * (4 + 3));
        // Inboxes, pilot flying, independent operation and two sets.
        assert_eq!(tried.len(), 21 * flags * 4 * 2 * 2 * 4);
    }

    #[test]
    fn every_refresh_is_tried_in_every_state_but_for_the_sets() {
        let (mut tried, mut pairs) = (BTreeSet::new(), BTreeSet::new());
        for (mut state, trial) in all_cases() {
            if let Trial::Refresh(side) = trial {
                pairs.insert(format!("{:?}", state.sets));
                state.sets = APPROACHES;
                tried.insert(format!("{side} {state:?}"));
            }
        }
        assert_eq!(tried.len(), 2 * 14 * 4 * 2 * 2);
        assert_eq!(pairs.len(), 4);
    }

    #[test]
    fn every_case_is_written() {
        for inbox in INBOXES {
            let asked = with_inbox(inbox);
            let text = String::from_utf8_lossy(asked.script.text());
            let shown = text.matches("display 0\ndisplay 1\nbench\n").count();
            assert_eq!(shown, cases(inbox).len());
        }
    }

    #[test]
    fn the_part_is_neither_small_nor_large() {
        let commands: usize = all().map(|asked| asked.script.commands()).sum();
        assert!((100_000..=160_000).contains(&commands), "{commands}");
    }
}
