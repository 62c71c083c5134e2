//! The rule of each event, in one place.
//!
//! A rule is drawn up once for a call, from the bench that came. It says what the
//! first step does with a switched flight director and with what both sides
//! share. What depends on a side's set is a function, because each side acted on
//! is judged on its own: for FD On as it came, and for the mode changes as it is
//! after the second step.

use crate::bench::Bench;
use crate::sets::{Mode::*, ModeSet};

type ModeChange = fn(&mut ModeSet);

/// Whether a side with this set asks for FD On.
type Asks = fn(ModeSet) -> bool;

const ALWAYS: Asks = |_| true;
const NEVER: Asks = |_| false;

pub struct Rule {
    pub asks_fd_on: Asks,
    /// The side whose FD switch it is, and what that FD becomes.
    pub fd_switch: Option<(usize, bool)>,
    pub ap: Option<bool>,
    pub overspeed: Option<bool>,
    pub transfer: bool,
    pub modes: ModeChange,
}

const NOTHING: Rule = Rule {
    asks_fd_on: NEVER,
    fd_switch: None,
    ap: None,
    overspeed: None,
    transfer: false,
    modes: |_| {},
};

const OVERSPEED_BEGINS: Rule = Rule {
    overspeed: Some(true),
    asks_fd_on: ALWAYS,
    modes: |set| {
        if !set.is_engaged(Alt) && !set.is_engaged(Altsel) {
            set.engage(Flc);
        }
    },
    ..NOTHING
};

const GO_AROUND: Rule = Rule {
    ap: Some(false),
    asks_fd_on: ALWAYS,
    modes: |set| {
        set.engage(Lga);
        set.engage(Vga);
    },
    ..NOTHING
};

/// The rule of an event from 0 to 19.
pub fn rule(event: u32, bench: &Bench) -> Rule {
    match event {
        0..=7 => shared_rule(event, bench),
        8..=13 => Rule {
            modes: signal_rule(event, bench),
            ..NOTHING
        },
        _ => switch_rule(event, bench),
    }
}

/// Events that change what both sides share, or an FD.
fn shared_rule(event: u32, bench: &Bench) -> Rule {
    match event {
        // AP disconnect.
        0 => Rule {
            ap: Some(false),
            ..NOTHING
        },
        // AP engage switch.
        1 => Rule {
            ap: Some(!bench.ap),
            asks_fd_on: if bench.ap { NEVER } else { ALWAYS },
            ..NOTHING
        },
        // Overspeed begins; a second beginning does nothing.
        2 if bench.overspeed => NOTHING,
        2 => OVERSPEED_BEGINS,
        // Overspeed ends.
        3 => Rule {
            overspeed: Some(false),
            ..NOTHING
        },
        // Go-around.
        4 => GO_AROUND,
        // Transfer: armed modes go, ROLL and PITCH come; what is left is basic.
        5 => Rule {
            transfer: true,
            modes: |set| *set = ModeSet::BASIC,
            ..NOTHING
        },
        // FD switch left, right.
        6 => fd_switch(0, bench),
        _ => fd_switch(1, bench),
    }
}

/// That side's FD goes On, or Off if it was On and the flag does not hold it.
fn fd_switch(side: usize, bench: &Bench) -> Rule {
    let on = bench.overspeed || !bench.sides[side].fd;
    Rule {
        fd_switch: Some((side, on)),
        ..NOTHING
    }
}

/// Events from the radios and the altitude capture, which change modes only.
fn signal_rule(event: u32, bench: &Bench) -> ModeChange {
    match event {
        // Navigation source or frequency changed.
        8 => |set| {
            set.clear(Nav);
            set.clear(Lappr);
            set.clear(Vappr);
        },
        // NAV captured.
        9 => |set| set.engage_if_armed(Nav),
        // LAPPR captured.
        10 => |set| set.engage_if_armed(Lappr),
        // VAPPR captured; not during overspeed.
        11 if bench.overspeed => NOTHING.modes,
        11 => |set| {
            if set.is_engaged(Lappr) {
                set.engage_if_armed(Vappr);
            }
        },
        // ALTSEL captured.
        12 => |set| set.engage_if_armed(Altsel),
        // ALTSEL on track.
        _ => |set| set.start_track(),
    }
}

/// The mode switches. One that finds its mode selected does not touch FD.
fn switch_rule(event: u32, bench: &Bench) -> Rule {
    let (asks_fd_on, modes): (Asks, ModeChange) = match event {
        // HDG.
        14 => (|set| !set.is_engaged(Hdg), |set| set.toggle(Hdg)),
        // NAV.
        15 => (|set| set.is_cleared(Nav), press_nav),
        // APPR.
        16 => (|set| set.is_cleared(Lappr), press_appr),
        // VS.
        17 => (|set| !set.is_engaged(Vs), |set| set.toggle(Vs)),
        // FLC; during overspeed an engaged one stays.
        18 if bench.overspeed => (|set| !set.is_engaged(Flc), |set| set.engage(Flc)),
        18 => (|set| !set.is_engaged(Flc), |set| set.toggle(Flc)),
        // ALT.
        _ => (|set| !set.is_engaged(Alt), |set| set.toggle(Alt)),
    };
    Rule {
        asks_fd_on,
        modes,
        ..NOTHING
    }
}

fn press_nav(set: &mut ModeSet) {
    if set.is_cleared(Nav) {
        set.clear_if_armed(Lappr);
        set.arm(Nav);
    } else {
        set.clear(Nav);
    }
}

fn press_appr(set: &mut ModeSet) {
    if set.is_cleared(Lappr) {
        set.clear_if_armed(Nav);
        set.arm(Lappr);
        set.arm(Vappr);
    } else {
        set.clear(Lappr);
    }
}
