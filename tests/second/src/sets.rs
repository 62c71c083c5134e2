//! Mode sets: which of the twelve modes are engaged and which are armed.
//!
//! A set keeps two groups of modes, the engaged and the armed ones, and so can
//! also hold what the rules forbid; a damaged bench needs that. A mode that is
//! in neither group is cleared, and the set with both groups empty is Off.

#[derive(Clone, Copy, PartialEq, Eq, Debug)]
pub enum Mode {
    Roll,
    Hdg,
    Nav,
    Lappr,
    Lga,
    Pitch,
    Vs,
    Flc,
    Alt,
    Altsel,
    Vappr,
    Vga,
}

use Mode::*;

/// In the order of the lateral law numbers, from 1.
const LATERAL: [Mode; 5] = [Roll, Hdg, Nav, Lappr, Lga];
const VERTICAL: [Mode; 7] = [Pitch, Vs, Flc, Alt, Altsel, Vappr, Vga];

/// The modes that can wait for a signal, with their numbers in the armed sum.
const ARMABLE: [(Mode, u32); 4] = [(Nav, 1), (Lappr, 2), (Altsel, 4), (Vappr, 8)];

/// A group of modes, one bit for each.
type Group = u16;

const fn bit(mode: Mode) -> Group {
    1 << mode as u32
}

fn group(modes: &[Mode]) -> Group {
    modes.iter().fold(0, |sum, &mode| sum | bit(mode))
}

#[derive(Clone, Copy, PartialEq, Eq, Debug)]
pub struct ModeSet {
    engaged: Group,
    armed: Group,
    /// Whether an engaged ALTSEL is in track and no longer in capture.
    track: bool,
}

/// What is engaged and armed.
impl ModeSet {
    pub const OFF: ModeSet = ModeSet {
        engaged: 0,
        armed: 0,
        track: false,
    };

    /// What a side gets when it comes on: ROLL and PITCH, and with PITCH an
    /// armed ALTSEL.
    pub const BASIC: ModeSet = ModeSet {
        engaged: bit(Roll) | bit(Pitch),
        armed: bit(Altsel),
        track: false,
    };

    pub fn is_off(self) -> bool {
        self.engaged == 0
    }

    pub fn is_engaged(self, mode: Mode) -> bool {
        self.engaged & bit(mode) != 0
    }

    pub fn is_armed(self, mode: Mode) -> bool {
        self.armed & bit(mode) != 0
    }

    pub fn is_cleared(self, mode: Mode) -> bool {
        !self.is_engaged(mode) && !self.is_armed(mode)
    }

    /// Whether both approach modes steer.
    pub fn is_on_approach(self) -> bool {
        self.is_engaged(Lappr) && self.is_engaged(Vappr)
    }

    fn any_engaged(self, modes: &[Mode]) -> bool {
        self.engaged & group(modes) != 0
    }

    /// The bench rule for the arming of ALTSEL.
    fn altsel_waits(self) -> bool {
        self.any_engaged(&[Pitch, Vs, Flc, Vga])
    }
}

/// Coherence.
impl ModeSet {
    pub fn is_coherent(self) -> bool {
        if self.is_off() {
            return self == ModeSet::OFF;
        }
        self.one_engaged_on_each_axis() && self.arming_is_allowed() && self.approach_is_allowed()
    }

    fn one_engaged_on_each_axis(self) -> bool {
        let count = |axis: &[Mode]| (self.engaged & group(axis)).count_ones();
        count(&LATERAL) == 1
            && count(&VERTICAL) == 1
            && self.engaged & !(group(&LATERAL) | group(&VERTICAL)) == 0
            && (!self.track || self.is_engaged(Altsel))
    }

    fn arming_is_allowed(self) -> bool {
        let armable = ARMABLE.iter().fold(0, |sum, &(mode, _)| sum | bit(mode));
        self.armed & !armable == 0
            && self.armed & self.engaged == 0
            && !(self.is_armed(Nav) && self.is_armed(Lappr))
            && self.is_armed(Altsel) == self.altsel_waits()
    }

    fn approach_is_allowed(self) -> bool {
        (!self.is_engaged(Vappr) || self.is_engaged(Lappr))
            && (!self.is_armed(Lappr) || self.is_armed(Vappr))
            && (!self.is_cleared(Lappr) || self.is_cleared(Vappr))
    }
}

/// Changes. After the last of them `complete` has to follow.
impl ModeSet {
    /// Engages a mode: it is armed no longer, and what had its axis is cleared.
    pub fn engage(&mut self, mode: Mode) {
        let axis: &[Mode] = if LATERAL.contains(&mode) {
            &LATERAL
        } else {
            &VERTICAL
        };
        for &other in axis {
            if other != mode && self.is_engaged(other) {
                self.clear(other);
            }
        }
        self.armed &= !bit(mode);
        self.engaged |= bit(mode);
    }

    pub fn engage_if_armed(&mut self, mode: Mode) {
        if self.is_armed(mode) {
            self.engage(mode);
        }
    }

    pub fn arm(&mut self, mode: Mode) {
        self.armed |= bit(mode);
    }

    /// Clears a mode, armed or engaged. VAPPR cannot stay without LAPPR.
    pub fn clear(&mut self, mode: Mode) {
        self.engaged &= !bit(mode);
        self.armed &= !bit(mode);
        if mode == Lappr {
            self.clear(Vappr);
        }
        if mode == Altsel {
            self.track = false;
        }
    }

    pub fn clear_if_armed(&mut self, mode: Mode) {
        if self.is_armed(mode) {
            self.clear(mode);
        }
    }

    /// What a switch does whose mode has no arming.
    pub fn toggle(&mut self, mode: Mode) {
        if self.is_engaged(mode) {
            self.clear(mode);
        } else {
            self.engage(mode);
        }
    }

    /// ALTSEL from capture to track.
    pub fn start_track(&mut self) {
        if self.is_engaged(Altsel) {
            self.track = true;
        }
    }

    /// Fills an axis where nothing is left, and arms ALTSEL by its rule.
    pub fn complete(&mut self) {
        if !self.any_engaged(&LATERAL) {
            self.engage(Roll);
        }
        if !self.any_engaged(&VERTICAL) {
            self.engage(Pitch);
        }
        self.arm_altsel_by_rule();
    }

    fn arm_altsel_by_rule(&mut self) {
        self.armed &= !bit(Altsel);
        if self.altsel_waits() {
            self.arm(Altsel);
        }
    }
}

/// The numbers by which sets are shown and written.
impl ModeSet {
    pub fn lateral_law(self) -> u32 {
        let engaged = LATERAL.iter().position(|&mode| self.is_engaged(mode));
        engaged.map_or(0, |index| index as u32 + 1)
    }

    pub fn vertical_law(self) -> u32 {
        (1..=8)
            .find(|&law| {
                let (mode, track) = vertical_of_law(law);
                self.is_engaged(mode) && (mode != Altsel || self.track == track)
            })
            .unwrap_or(0)
    }

    pub fn armed_sum(self) -> u32 {
        let armed = ARMABLE.iter().filter(|(mode, _)| self.is_armed(*mode));
        armed.map(|(_, number)| number).sum()
    }

    /// The set of a lateral law 1 to 5, an armed lateral mode (1 for NAV and 2
    /// for LAPPR), a vertical law 1 to 8 and an armed VAPPR, coherent or not.
    /// ALTSEL is armed by its rule, as the four numbers do not say.
    pub fn from_numbers(lateral: u32, armed: u32, vertical: u32, vappr_armed: bool) -> ModeSet {
        let (vertical, track) = vertical_of_law(vertical);
        let mut set = ModeSet {
            engaged: bit(LATERAL[lateral as usize - 1]) | bit(vertical),
            armed: 0,
            track,
        };
        match armed {
            1 => set.arm(Nav),
            2 => set.arm(Lappr),
            _ => {}
        }
        if vappr_armed {
            set.arm(Vappr);
        }
        set.arm_altsel_by_rule();
        set
    }

    /// The four numbers of `from_numbers`, or four zeros for Off.
    pub fn numbers(self) -> [u32; 4] {
        let vappr_armed = u32::from(self.is_armed(Vappr));
        [
            self.lateral_law(),
            self.armed_lateral(),
            self.vertical_law(),
            vappr_armed,
        ]
    }

    /// The armed lateral mode: 1 for NAV, 2 for LAPPR, else 0.
    fn armed_lateral(self) -> u32 {
        match (self.is_armed(Nav), self.is_armed(Lappr)) {
            (true, _) => 1,
            (false, true) => 2,
            (false, false) => 0,
        }
    }
}

/// The mode of a vertical law 1 to 8, and whether it is ALTSEL in track.
fn vertical_of_law(law: u32) -> (Mode, bool) {
    match law {
        1 => (Pitch, false),
        2 => (Vs, false),
        3 => (Flc, false),
        4 => (Alt, false),
        5 => (Altsel, false),
        6 => (Altsel, true),
        7 => (Vappr, false),
        _ => (Vga, false),
    }
}

#[cfg(test)]
mod tests {
    use super::*;

    #[test]
    fn of_all_representable_sets_107_on_sets_are_coherent() {
        let mut on = 0;
        let mut off = 0;
        for engaged in 0..1 << 12 {
            for armed in 0..1 << 12 {
                for track in [false, true] {
                    let set = ModeSet {
                        engaged,
                        armed,
                        track,
                    };
                    if set.is_coherent() {
                        *if set.is_off() { &mut off } else { &mut on } += 1;
                    }
                }
            }
        }
        assert_eq!((on, off), (107, 1));
    }

    #[test]
    fn the_four_numbers_give_every_coherent_on_set_and_come_back() {
        let mut coherent = 0;
        for number in 0..5 * 3 * 8 * 2 {
            let (lateral, armed) = (number % 5 + 1, number / 5 % 3);
            let (vertical, vappr) = (number / 15 % 8 + 1, number / 120 == 1);
            let set = ModeSet::from_numbers(lateral, armed, vertical, vappr);
            assert_eq!(set.numbers(), [lateral, armed, vertical, u32::from(vappr)]);
            coherent += u32::from(set.is_coherent());
        }
        assert_eq!(coherent, 107);
    }

    #[test]
    fn the_basic_set_is_roll_and_pitch_with_altsel_armed() {
        assert!(ModeSet::BASIC.is_coherent());
        assert_eq!(ModeSet::BASIC, ModeSet::from_numbers(1, 0, 1, false));
        assert_eq!(ModeSet::OFF.numbers(), [0; 4]);
        assert_eq!(ModeSet::BASIC.armed_sum(), 4);
    }

    #[test]
    fn a_lost_lateral_approach_takes_vertical_approach_along() {
        let mut set = ModeSet::from_numbers(4, 1, 7, false);
        set.engage_if_armed(Nav);
        set.complete();
        assert_eq!(set, ModeSet::from_numbers(3, 0, 1, false));
    }
}
