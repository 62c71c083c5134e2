//! Mode sets, and what each event does to one. The code runs while the tables are made and never in
//! a call, so it is written to be read.

/// ROLL as a lateral law.
pub const ROLL: u8 = 1;
pub const HDG: u8 = 2;
pub const NAV: u8 = 3;
pub const LAPPR: u8 = 4;
pub const LGA: u8 = 5;

/// PITCH as a vertical law.
pub const PITCH: u8 = 1;
pub const VS: u8 = 2;
pub const FLC: u8 = 3;
pub const ALT: u8 = 4;
pub const CAPTURE: u8 = 5;
pub const TRACK: u8 = 6;
pub const VAPPR: u8 = 7;
pub const VGA: u8 = 8;

/// The byte of the set that is Off.
pub const OFF: u8 = 0;

/// An On set: the engaged modes by their laws, the armed lateral mode (0, NAV or LAPPR), and whether
/// VAPPR is armed. ALTSEL's arming follows from the vertical mode.
#[derive(Clone, Copy, Debug, PartialEq, Eq)]
pub struct Modes {
    pub lateral: u8,
    pub vertical: u8,
    pub armed: u8,
    pub vappr_armed: bool,
}

/// ROLL and PITCH: what coming on gives.
pub const BASIC: Modes = Modes {
    lateral: ROLL,
    vertical: PITCH,
    armed: 0,
    vappr_armed: false,
};

/// The byte of an On set: 1 to 240, coherent or not.
pub const fn code(m: Modes) -> u8 {
    let armed = if m.armed == 0 { 0 } else { m.armed - 2 };
    1 + (((m.lateral - 1) * 3 + armed) * 8 + (m.vertical - 1)) * 2 + m.vappr_armed as u8
}

/// The On set of a byte from 1 to 240.
pub const fn decoded(code: u8) -> Modes {
    let n = code - 1;
    let armed = n / 16 % 3;
    Modes {
        lateral: n / 48 + 1,
        vertical: n / 2 % 8 + 1,
        armed: if armed == 0 { 0 } else { armed + 2 },
        vappr_armed: n % 2 == 1,
    }
}

/// Whether ALTSEL is armed.
pub const fn altsel_armed(m: Modes) -> bool {
    matches!(m.vertical, PITCH | VS | FLC | VGA)
}

/// Whether a set is coherent: an engaged mode is not armed; an engaged VAPPR has LAPPR engaged, and
/// an armed one has LAPPR armed or engaged; an armed LAPPR has VAPPR armed.
pub const fn is_coherent(m: Modes) -> bool {
    let engaged = m.lateral == LAPPR;
    let selected = engaged || m.armed == LAPPR;
    m.armed != m.lateral
        && !(m.vertical == VAPPR && (!engaged || m.vappr_armed))
        && (!m.vappr_armed || selected)
        && (m.armed != LAPPR || m.vappr_armed)
}

/// Whether LAPPR and VAPPR are engaged.
pub const fn has_approach(m: Modes) -> bool {
    m.lateral == LAPPR && m.vertical == VAPPR
}

/// VAPPR neither armed nor engaged.
const fn without_vappr(mut m: Modes) -> Modes {
    m.vappr_armed = false;
    if m.vertical == VAPPR {
        m.vertical = PITCH;
    }
    m
}

/// LAPPR neither armed nor engaged, and so VAPPR too.
const fn without_lappr(mut m: Modes) -> Modes {
    if m.lateral == LAPPR {
        m.lateral = ROLL;
    }
    if m.armed == LAPPR {
        m.armed = 0;
    }
    without_vappr(m)
}

/// NAV neither armed nor engaged.
const fn without_nav(mut m: Modes) -> Modes {
    if m.lateral == NAV {
        m.lateral = ROLL;
    }
    if m.armed == NAV {
        m.armed = 0;
    }
    m
}

/// A lateral mode engages: it is armed no longer, and the one that was engaged is cleared.
const fn with_lateral(mut m: Modes, law: u8) -> Modes {
    if m.armed == law {
        m.armed = 0;
    }
    if m.lateral == LAPPR && law != LAPPR {
        m = without_vappr(m);
    }
    m.lateral = law;
    m
}

/// A vertical mode engages. An armed VAPPR stays so, unless it is the one that engages.
pub const fn with_vertical(mut m: Modes, law: u8) -> Modes {
    if law == VAPPR {
        m.vappr_armed = false;
    }
    m.vertical = law;
    m
}

/// The switch of a vertical mode.
const fn switched(m: Modes, law: u8) -> Modes {
    with_vertical(m, if m.vertical == law { PITCH } else { law })
}

/// 15, the NAV switch.
const fn nav_switched(m: Modes) -> Modes {
    if m.lateral == NAV || m.armed == NAV {
        return without_nav(m);
    }
    let mut next = if m.armed == LAPPR {
        without_lappr(m)
    } else {
        m
    };
    next.armed = NAV;
    next
}

/// 16, the APPR switch.
const fn appr_switched(mut m: Modes) -> Modes {
    if m.lateral == LAPPR || m.armed == LAPPR {
        return without_lappr(m);
    }
    m.armed = LAPPR;
    m.vappr_armed = true;
    m
}

/// The mode change of an event on an On set, by the overspeed flag as it was handed in.
pub const fn changed(event: u8, flag: bool, m: Modes) -> Modes {
    match event {
        2 if !flag && !matches!(m.vertical, ALT | CAPTURE | TRACK) => with_vertical(m, FLC),
        4 => with_vertical(with_lateral(m, LGA), VGA),
        5 => BASIC,
        8 => without_vappr(without_lappr(without_nav(m))),
        9 if m.armed == NAV => with_lateral(m, NAV),
        10 if m.armed == LAPPR => with_lateral(m, LAPPR),
        11 if m.vappr_armed && m.lateral == LAPPR && !flag => with_vertical(m, VAPPR),
        12 if altsel_armed(m) => with_vertical(m, CAPTURE),
        13 if m.vertical == CAPTURE => with_vertical(m, TRACK),
        14 => with_lateral(m, if m.lateral == HDG { ROLL } else { HDG }),
        15 => nav_switched(m),
        16 => appr_switched(m),
        17 => switched(m, VS),
        18 if m.vertical == FLC && flag => m,
        18 => switched(m, FLC),
        19 => switched(m, ALT),
        _ => m,
    }
}

/// Whether a side that acts asks for its FD On, by AP, the flag and its set as they were handed in.
/// None stands for a set that is Off.
pub const fn asks_fd(event: u8, ap: bool, flag: bool, set: Option<Modes>) -> bool {
    let (lateral, vertical, armed) = match set {
        Some(m) => (m.lateral, m.vertical, m.armed),
        None => (0, 0, 0),
    };
    match event {
        1 => !ap,
        2 => !flag,
        4 => true,
        14 => lateral != HDG,
        15 => lateral != NAV && armed != NAV,
        16 => lateral != LAPPR && armed != LAPPR,
        17 => vertical != VS,
        18 => vertical != FLC,
        19 => vertical != ALT,
        _ => false,
    }
}
