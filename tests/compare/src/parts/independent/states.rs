//! The states of a bench ahead of a trial, and the calls that lead from one to the next.
//!
//! A case costs few commands only if it begins where the one before it ended, and for that it is
//! kept track of what the calls do while both sides fly an approach. The benches that the programs
//! show tell whether that is right.

use super::asked::Asked;
use super::APPROACHES;
use crate::parts::sets::Trial;
use crate::parts::shown::Shown;
use crate::parts::words::{Set, BOXES, INDEPENDENT, SIDES, TRANSFER};
use crate::say;

const AP_DISCONNECT: u32 = 0;
const AP_SWITCH: u32 = 1;
const OVERSPEED_BEGINS: u32 = 2;
const OVERSPEED_ENDS: u32 = 3;
const GO_AROUND: u32 = 4;
const FD_LEFT: u32 = 6;
const FD_RIGHT: u32 = 7;
const NAV: u32 = 15;

/// What no damage writes, so that calls have to bring it about.
#[derive(Clone, Copy, PartialEq, Eq, Debug)]
pub struct Flags {
    /// By side.
    pub fd: [bool; 2],
    pub ap: bool,
    pub overspeed: bool,
}

impl Flags {
    /// All that calls can bring about: the overspeed flag comes with a flight director that is On,
    /// and keeps it so.
    pub fn all() -> Vec<Flags> {
        let flags = |number: usize| Flags {
            fd: [bit(number, 0), bit(number, 1)],
            ap: bit(number, 2),
            overspeed: bit(number, 3),
        };
        let all = (0..16).map(flags);
        all.filter(|flags| !flags.overspeed || flags.fd.contains(&true))
            .collect()
    }
}

fn bit(number: usize, index: usize) -> bool {
    number >> index & 1 == 1
}

/// What a bench has to be ahead of a trial. Arrays go by side.
#[derive(Clone, Copy, PartialEq, Eq, Debug)]
pub struct State {
    pub flags: Flags,
    /// The flight director in the inbox.
    pub inbox: [bool; 2],
    pub pf: usize,
    pub independent: bool,
    pub sets: [Set; 2],
}

impl State {
    /// Every state with these flags and inboxes in which both sides fly an approach. Those that
    /// differ in the sets alone come together, by fours.
    pub fn all(flags: Flags, inbox: [bool; 2]) -> [State; 16] {
        std::array::from_fn(|number| State {
            flags,
            inbox,
            pf: usize::from(bit(number, 2)),
            independent: bit(number, 3),
            sets: [0, 1].map(|index| APPROACHES[usize::from(bit(number, index))]),
        })
    }
}

/// Whether each flight director in an inbox is On, in every combination.
pub const INBOXES: [[bool; 2]; 4] = [[false, false], [false, true], [true, false], [true, true]];

/// What is known of a bench. None stands where a call may have changed it.
#[derive(Clone, Copy, Debug)]
pub struct Known {
    flags: Flags,
    inbox: [bool; 2],
    pf: usize,
    independent: Option<bool>,
    sets: [Option<Set>; 2],
}

impl Known {
    pub fn is_shown(&self, shown: &Shown) -> bool {
        let flags = Flags {
            fd: shown.fd,
            ap: shown.ap,
            overspeed: shown.overspeed,
        };
        let set = |side: usize| self.sets[side].is_none_or(|set| set == shown.sets[side]);
        flags == self.flags
            && shown.inbox == self.inbox
            && usize::from(shown.pf) == self.pf
            && self.independent.is_none_or(|on| on == shown.independent)
            && set(0)
            && set(1)
    }

    /// Keeps track of what a call does.
    fn follow(&mut self, trial: Trial) {
        match trial {
            Trial::Event(INDEPENDENT) => self.independent = Some(true),
            Trial::Event(TRANSFER) => {
                self.independent = Some(false);
                self.pf = 1 - self.pf;
                self.sets[self.pf] = None;
            }
            Trial::Event(event) => self.follow_event(event),
            Trial::Send(side) => self.inbox[1 - side] = self.flags.fd[side],
            Trial::Refresh(side) => self.sets[side] = None,
        }
        if self.independent == Some(true) && self.sets.contains(&None) {
            self.independent = None;
        }
    }

    fn follow_event(&mut self, event: u32) {
        let acting: &[usize] = match (self.independent, self.pf) {
            (Some(false), 0) => &[0],
            (Some(false), _) => &[1],
            _ => &[0, 1],
        };
        let fd_on = self.asks_fd_on(event, acting);
        let flags = &mut self.flags;
        match event {
            AP_DISCONNECT | GO_AROUND => flags.ap = false,
            AP_SWITCH => flags.ap = !flags.ap,
            OVERSPEED_BEGINS => flags.overspeed = true,
            OVERSPEED_ENDS => flags.overspeed = false,
            FD_LEFT => flags.fd[0] = flags.overspeed || !flags.fd[0],
            FD_RIGHT => flags.fd[1] = flags.overspeed || !flags.fd[1],
            _ => {}
        }
        for &side in acting {
            flags.fd[side] |= fd_on;
            let on = flags.fd[side] || self.inbox[side] || flags.ap;
            if !on || !leaves_modes(event) {
                self.sets[side] = None;
            }
        }
    }

    fn asks_fd_on(&self, event: u32, acting: &[usize]) -> bool {
        let nav_armed = |side: usize| self.sets[side].is_some_and(|set| set.armed == 1);
        match event {
            AP_SWITCH => !self.flags.ap,
            OVERSPEED_BEGINS => !self.flags.overspeed,
            GO_AROUND | 14 | 17..=19 => true,
            NAV => !acting.iter().all(|&side| nav_armed(side)),
            _ => false,
        }
    }
}

/// Whether an event has no mode changes on a side that is on an approach and stays on.
fn leaves_modes(event: u32) -> bool {
    matches!(event, 0 | 1 | 3 | 6 | 7 | 10..=13)
}

/// Writes a script that goes from state to state.
pub struct Arranger {
    pub asked: Asked,
    known: Known,
    /// How many readings were given.
    readings: usize,
}

impl Arranger {
    /// Goes on with a script at power-on. An inbox gets its flight director by a send of the other
    /// side; its set and a reference are other than those of the sides, so that it is seen what is
    /// taken from it.
    pub fn from_power_on(mut asked: Asked, inbox: [bool; 2]) -> Arranger {
        let script = &mut asked.script;
        script.line("power-on");
        for side in (0..2).filter(|&side| inbox[side]) {
            say!(script, "press fd-{}", SIDES[1 - side]);
            say!(script, "send {}", 1 - side);
        }
        for (place, heading) in BOXES.iter().zip([10, 20, 30, 40]) {
            say!(script, "damage {place} heading {heading}");
        }
        script.line("damage left-inbox set 3 0 2 0");
        script.line("damage right-inbox set 2 2 4 1");
        let flags = Flags {
            fd: [inbox[1], inbox[0]],
            ap: false,
            overspeed: false,
        };
        let known = Known {
            flags,
            inbox,
            pf: 0,
            independent: Some(false),
            sets: [None; 2],
        };
        asked.bench(known);
        Arranger {
            asked,
            known,
            readings: 0,
        }
    }

    /// Leads to a state with the same inboxes. What calls have brought about is shown; the rest is
    /// put by damages, which nothing refuses.
    pub fn put(&mut self, state: &State) {
        assert_eq!(self.known.inbox, state.inbox);
        if self.known.flags != state.flags {
            self.bring(state.flags);
            self.asked.bench(self.known);
        }
        for (side, set) in state.sets.into_iter().enumerate() {
            if self.known.sets[side] != Some(set) {
                say!(self.asked.script, "damage {} set {set}", SIDES[side]);
                self.known.sets[side] = Some(set);
            }
        }
        self.say_pf(state.pf);
        self.say_independent(state.independent);
    }

    pub fn try_in(&mut self, state: &State, trial: Trial) {
        self.put(state);
        self.say_readings(trial);
        self.call(trial);
        self.show();
    }

    pub fn show(&mut self) {
        self.asked.show(self.known);
    }

    pub fn call(&mut self, trial: Trial) {
        self.call_by(&trial.to_string(), trial);
    }

    /// A line that has to be accepted and does the same as the call.
    pub fn call_by(&mut self, line: &str, trial: Trial) {
        let answer = match trial {
            Trial::Event(event) => format!("event 0 {event}"),
            Trial::Send(_) => "send 0".to_string(),
            Trial::Refresh(_) => "refresh 0".to_string(),
        };
        self.asked.answered(line, answer);
        self.known.follow(trial);
    }

    /// Brings flags about by calls that act on one side. A side whose flight director is to be On
    /// has the pilot flying where a call sets it On.
    fn bring(&mut self, target: Flags) {
        self.say_independent(false);
        let flags = self.known.flags;
        let fd_on = usize::from(!target.fd[0]);
        let goes_off = (0..2).any(|side| flags.fd[side] && !target.fd[side]);
        if flags.overspeed && (goes_off || !target.overspeed) {
            self.call(Trial::Event(OVERSPEED_ENDS));
        }
        if flags.ap && !target.ap {
            self.call(Trial::Event(AP_DISCONNECT));
        }
        if !flags.ap && target.ap {
            self.say_pf(fd_on);
            self.call(Trial::Event(AP_SWITCH));
        }
        for (side, switch) in [FD_LEFT, FD_RIGHT].into_iter().enumerate() {
            if self.known.flags.fd[side] != target.fd[side] {
                self.call(Trial::Event(switch));
            }
        }
        if !self.known.flags.overspeed && target.overspeed {
            self.say_pf(fd_on);
            self.call(Trial::Event(OVERSPEED_BEGINS));
        }
    }

    fn say_pf(&mut self, pf: usize) {
        if self.known.pf != pf {
            say!(self.asked.script, "damage pf {pf}");
            self.known.pf = pf;
        }
    }

    fn say_independent(&mut self, on: bool) {
        if self.known.independent != Some(on) {
            say!(self.asked.script, "damage independent {}", u8::from(on));
            self.known.independent = Some(on);
        }
    }

    /// New values of what the trial may load, so that an entry is seen.
    fn say_readings(&mut self, trial: Trial) {
        let kinds: &[(&str, usize)] = match trial {
            Trial::Event(2 | 18) => &[("airspeed", 251)],
            Trial::Event(17) => &[("vertical-speed", 21)],
            Trial::Event(19) => &[("altitude", 12_345)],
            Trial::Event(9 | 14) => &[("pitch", 3)],
            Trial::Event(5 | 8 | 16) => &[("roll", 11), ("pitch", 3)],
            _ => &[],
        };
        for (kind, value) in kinds {
            self.readings += 1;
            let value = value + self.readings % 9;
            say!(self.asked.script, "reading {kind} {value}.5");
        }
    }
}

#[cfg(test)]
mod tests {
    use super::*;
    use crate::parts::shown::tests::SOME;

    impl Known {
        /// All that a bench shows.
        pub fn of(shown: &Shown) -> Known {
            Known {
                flags: Flags {
                    fd: shown.fd,
                    ap: shown.ap,
                    overspeed: shown.overspeed,
                },
                inbox: shown.inbox,
                pf: usize::from(shown.pf),
                independent: Some(shown.independent),
                sets: shown.sets.map(Some),
            }
        }
    }

    #[test]
    fn what_is_known_has_to_be_shown() {
        let known = Known::of(&SOME);
        // What is not known may be shown in any way.
        let less = Known {
            independent: None,
            sets: [None; 2],
            ..known
        };
        let shown_after = |change: fn(&mut Shown)| {
            let mut shown = SOME;
            change(&mut shown);
            (known.is_shown(&shown), less.is_shown(&shown))
        };
        assert_eq!(shown_after(|_| {}), (true, true));
        let of_both: [fn(&mut Shown); 5] = [
            |shown| shown.pf = 0,
            |shown| shown.ap = true,
            |shown| shown.overspeed = false,
            |shown| shown.fd = [true, true],
            |shown| shown.inbox = [true, true],
        ];
        let of_one: [fn(&mut Shown); 3] = [
            |shown| shown.independent = true,
            |shown| shown.sets[0] = shown.sets[1],
            |shown| shown.sets[1] = shown.sets[0],
        ];
        assert!(of_both
            .map(shown_after)
            .iter()
            .all(|told| *told == (false, false)));
        assert!(of_one
            .map(shown_after)
            .iter()
            .all(|told| *told == (false, true)));
    }

    /// The lines from one state to another, after those from power-on to the first.
    fn way(from: &State, to: &State) -> String {
        let mut arranger = Arranger::from_power_on(Asked::default(), from.inbox);
        arranger.put(from);
        let start = arranger.asked.script.text().len();
        arranger.put(to);
        String::from_utf8(arranger.asked.script.text()[start..].to_vec()).unwrap()
    }

    const OFF: Flags = Flags {
        fd: [false; 2],
        ap: false,
        overspeed: false,
    };

    fn plain(flags: Flags) -> State {
        State {
            flags,
            inbox: [false; 2],
            pf: 0,
            independent: false,
            sets: APPROACHES,
        }
    }

    #[test]
    fn damages_lead_to_what_they_can_write() {
        let from = plain(OFF);
        let [left, right] = APPROACHES;
        let to = State {
            pf: 1,
            independent: true,
            sets: [right, left],
            ..from
        };
        let expected = "damage left set 4 1 7 0\ndamage right set 4 0 7 0\ndamage pf 1\n\
            damage independent 1\n";
        assert_eq!(way(&from, &to), expected);
        assert_eq!(way(&to, &to), "");
    }

    #[test]
    fn calls_lead_to_flags_and_are_shown() {
        let to = plain(Flags {
            fd: [false, true],
            ap: true,
            overspeed: true,
        });
        let expected = "damage pf 1\nevent 2\nevent 4\nbench\ndamage right set 4 1 7 0\n\
            damage pf 0\n";
        assert_eq!(way(&plain(OFF), &to), expected);
        let both = State {
            independent: true,
            ..to
        };
        let back = "damage independent 0\nevent 8\nevent 1\nevent 128\nbench\n\
            damage left set 4 0 7 0\n";
        assert_eq!(way(&both, &plain(OFF)), back);
    }

    /// What is known after a call in a state.
    fn after(state: &State, trial: Trial) -> Known {
        let mut arranger = Arranger::from_power_on(Asked::default(), state.inbox);
        arranger.put(state);
        arranger.call(trial);
        arranger.known
    }

    #[test]
    fn a_set_is_known_where_the_call_leaves_it() {
        let state = plain(Flags {
            fd: [true, false],
            ..OFF
        });
        let known = |independent: bool, trial: Trial| {
            let state = State {
                independent,
                ..state
            };
            let known = after(&state, trial);
            (known.independent, known.sets.map(|set| set.is_some()))
        };
        let (left, right) = (Trial::Event(0), Trial::Event(14));
        assert_eq!(known(false, left), (Some(false), [true, true]));
        assert_eq!(known(true, left), (None, [true, false]));
        assert_eq!(known(false, right), (Some(false), [false, true]));
        assert_eq!(known(true, right), (None, [false, false]));
        let transfer = Trial::Event(TRANSFER);
        assert_eq!(known(true, transfer), (Some(false), [true, false]));
        let begin = Trial::Event(INDEPENDENT);
        assert_eq!(known(false, begin), (Some(true), [true, true]));
    }

    #[test]
    fn flags_are_followed() {
        let all = State {
            independent: true,
            ..plain(OFF)
        };
        let flags = |event: u32, state: &State| after(state, Trial::Event(event)).flags;
        let on = Flags {
            fd: [true; 2],
            ..OFF
        };
        assert_eq!(flags(AP_SWITCH, &all), Flags { ap: true, ..on });
        assert_eq!(flags(NAV, &all), on);
        assert_eq!(flags(GO_AROUND, &all), on);
        assert_eq!(flags(16, &all), OFF);
        let one = plain(OFF);
        let left = Flags {
            fd: [true, false],
            ..OFF
        };
        assert_eq!(flags(19, &one), left);
        assert_eq!(flags(FD_LEFT, &all), left);
        let set = Flags {
            overspeed: true,
            ..left
        };
        assert_eq!(flags(OVERSPEED_BEGINS, &one), set);
        assert_eq!(flags(FD_LEFT, &plain(set)), set);
        assert_eq!(flags(OVERSPEED_ENDS, &plain(set)), left);
    }
}
