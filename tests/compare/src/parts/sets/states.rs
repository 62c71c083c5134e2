//! The states of a bench ahead of a trial, and the calls that lead to them.

use super::Trial;
use crate::parts::words::{self, TRANSFER};
use crate::say;
use crate::script::Script;

/// Arrays go by side.
#[derive(Clone, Copy, PartialEq, Eq, PartialOrd, Ord, Debug)]
pub struct State {
    pub pf: usize,
    pub flag: bool,
    pub ap: bool,
    pub fd: [bool; 2],
    /// The flight director in the inbox.
    pub inbox: [bool; 2],
    /// The side that the mode changes go to: the active one after the call.
    pub acting: usize,
}

/// The states that a trial can tell apart. The acting side's own flight director and the one in
/// its inbox always count; the other side's only where a switch moves it.
pub fn of(trial: Trial) -> Vec<State> {
    (0..64).filter_map(|number| state(trial, number)).collect()
}

fn state(trial: Trial, number: u32) -> Option<State> {
    let bit = |index: u32| (number >> index) & 1 == 1;
    let (flag, own, other) = (bit(1), bit(3), bit(5));
    // The flag comes with a flight director that is On and then stays so.
    let needed = flag && !own;
    let is_fd_switch = matches!(trial, Trial::Event(6 | 7));
    if (needed && !other) || (other && !needed && !is_fd_switch) {
        return None;
    }
    let pf = usize::from(bit(0));
    let acting = if trial == Trial::Event(TRANSFER) {
        1 - pf
    } else {
        pf
    };
    let of_sides = |acts: bool, rests: bool| {
        if acting == 0 {
            [acts, rests]
        } else {
            [rests, acts]
        }
    };
    Some(State {
        pf,
        flag,
        ap: bit(2),
        fd: of_sides(own, other),
        inbox: of_sides(bit(4), false),
        acting,
    })
}

impl State {
    /// Writes the calls that put a bench from power-on into this state.
    pub fn put(&self, script: &mut Script) {
        let (pf, fd) = (0, [false; 2]);
        Arranger { script, pf, fd }.arrange(self);
    }
}

struct Arranger<'a> {
    script: &'a mut Script,
    pf: usize,
    fd: [bool; 2],
}

impl Arranger<'_> {
    fn arrange(&mut self, state: &State) {
        self.script.line("power-on");
        self.fill_inboxes(state);
        if state.ap {
            self.script.line("event 2");
            self.fd[self.pf] = true;
        }
        // A flight director that is to be Off has to be so before the flag is set.
        self.set_fds(state);
        if state.flag {
            self.move_pf(if state.fd[0] { 0 } else { 1 });
            self.script.line("event 4");
        }
        self.move_pf(state.pf);
    }

    /// An inbox gets its flight director by a send of the other side.
    fn fill_inboxes(&mut self, state: &State) {
        for side in 0..2 {
            if state.inbox[side] {
                self.press_fd(1 - side);
                say!(self.script, "send {}", 1 - side);
            }
        }
    }

    fn press_fd(&mut self, side: usize) {
        say!(self.script, "event {}", words::word(6 + side as u32));
        self.fd[side] = !self.fd[side];
    }

    fn set_fds(&mut self, state: &State) {
        for side in 0..2 {
            if self.fd[side] != state.fd[side] {
                self.press_fd(side);
            }
        }
    }

    fn move_pf(&mut self, side: usize) {
        if self.pf != side {
            say!(self.script, "event {}", words::word(TRANSFER));
            self.pf = side;
        }
    }
}

#[cfg(test)]
mod tests {
    use super::*;
    use std::collections::BTreeSet;

    #[test]
    fn every_state_occurs_once_for_each_trial() {
        for trial in Trial::all() {
            let all = of(trial);
            let different: BTreeSet<State> = all.iter().copied().collect();
            assert_eq!(different.len(), all.len());
            let is_fd_switch = matches!(trial, Trial::Event(6 | 7));
            assert_eq!(all.len(), if is_fd_switch { 56 } else { 32 }, "{trial}");
            let told: BTreeSet<_> = all
                .iter()
                .map(|state| (state.pf, state.flag, state.ap, state.fd[state.acting]))
                .collect();
            assert_eq!(told.len(), 16, "{trial}");
            let inboxes = all.iter().filter(|state| state.inbox[state.acting]).count();
            assert_eq!(2 * inboxes, all.len(), "{trial}");
        }
    }

    #[test]
    fn a_transfer_acts_on_the_side_that_takes_over() {
        for trial in Trial::all() {
            let moves = trial.to_string() == "event 32";
            assert!(of(trial)
                .iter()
                .all(|state| (state.acting != state.pf) == moves));
        }
    }

    #[test]
    fn a_flag_without_a_flight_director_is_never_asked_for() {
        let mut all = Trial::all().into_iter().flat_map(of);
        assert!(all.all(|state| !state.flag || state.fd.contains(&true)));
    }

    #[test]
    fn the_other_flight_director_is_tried_at_its_switch() {
        for event in [6, 7] {
            let all: BTreeSet<_> = of(Trial::Event(event))
                .iter()
                .map(|state| (state.pf, state.flag, state.fd))
                .collect();
            assert_eq!(all.len(), 2 * (4 + 3));
        }
    }

    fn calls(state: State) -> String {
        let mut script = Script::default();
        state.put(&mut script);
        String::from_utf8(script.text().to_vec()).unwrap()
    }

    #[test]
    fn calls_lead_to_a_state() {
        let plain = State {
            pf: 0,
            flag: false,
            ap: false,
            fd: [false; 2],
            inbox: [false; 2],
            acting: 0,
        };
        assert_eq!(calls(plain), "power-on\n");
        let right = State {
            pf: 1,
            flag: true,
            ap: true,
            fd: [true, false],
            inbox: [false, true],
            acting: 1,
        };
        let expected = "power-on\nevent 64\nsend 0\nevent 2\nevent 4\nevent 32\n";
        assert_eq!(calls(right), expected);
    }

    #[test]
    fn flight_directors_are_switched_back_before_the_flag_is_set() {
        let state = State {
            pf: 0,
            flag: true,
            ap: true,
            fd: [false, true],
            inbox: [true, false],
            acting: 0,
        };
        let expected = "power-on\nevent 128\nsend 1\nevent 2\nevent 64\nevent 32\n\
            event 4\nevent 32\n";
        assert_eq!(calls(state), expected);
    }
}
