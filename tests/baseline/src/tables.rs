//! What the rules say of each mode set, as tables by the set's byte that the compiler fills. The
//! bytes 241 to 255 are no set; they are never coherent, so no call looks further.
use crate::modes::{self, Modes, OFF};

/// How many bytes stand for an On set, coherent or not.
pub const ON_SETS: u8 = 240;

/// What a display shows of a set. The lamps are those of the modes.
#[derive(Clone, Copy, Debug, PartialEq, Eq)]
pub struct Shown {
    pub lateral: u8,
    pub vertical: u8,
    pub armed: u8,
    pub lamps: u8,
}

/// A set is not coherent.
pub const INCOHERENT: u8 = 1;
/// A set has not both LAPPR and VAPPR engaged.
pub const NO_APPROACH: u8 = 2;

/// What a set lacks: the sum of these two.
pub static LACKS: [u8; 256] = lacks();
/// What a display shows of a set.
pub static SHOWN: [Shown; 256] = shown();
/// How many events go through the three steps: all but 20.
pub const STEPPED: usize = 20;
/// A set after the mode change of an event: by the event, the flag as handed in, and the set.
pub static CHANGED: [[[u8; 256]; 2]; STEPPED] = changed();
/// Whether a side asks for its FD On: by the event and the side's set, the bit 2 * AP + flag.
pub static ASKS_FD: [[u8; 256]; STEPPED] = asks_fd();
/// A set with PITCH engaged.
pub static PITCHED: [u8; 256] = pitched();
/// How many sets are coherent.
pub const SETS: u8 = 108;
/// The code of a coherent set. The bytes of the sets go up as their codes do.
pub static CODE: [u8; 256] = codes();
/// The set of a code, and Off for a number that is no code.
pub static SET: [u8; 256] = sets();

const fn lacks() -> [u8; 256] {
    let mut table = [INCOHERENT + NO_APPROACH; 256];
    table[OFF as usize] = NO_APPROACH;
    let mut set = 1;
    while set <= ON_SETS {
        let m = modes::decoded(set);
        table[set as usize] =
            INCOHERENT * !modes::is_coherent(m) as u8 + NO_APPROACH * !modes::has_approach(m) as u8;
        set += 1;
    }
    table
}

const fn shown_of(m: Modes) -> Shown {
    let nav = m.armed == modes::NAV;
    let lappr = m.armed == modes::LAPPR;
    let armed =
        nav as u8 + 2 * lappr as u8 + 4 * modes::altsel_armed(m) as u8 + 8 * m.vappr_armed as u8;
    let lamps = (m.lateral == modes::HDG) as u8
        + 2 * (nav || m.lateral == modes::NAV) as u8
        + 4 * (lappr || m.lateral == modes::LAPPR) as u8
        + 8 * (m.vertical == modes::VS) as u8
        + 16 * (m.vertical == modes::FLC) as u8
        + 32 * (m.vertical == modes::ALT) as u8;
    Shown {
        lateral: m.lateral,
        vertical: m.vertical,
        armed,
        lamps,
    }
}

const fn shown() -> [Shown; 256] {
    let mut table = [Shown {
        lateral: 0,
        vertical: 0,
        armed: 0,
        lamps: 0,
    }; 256];
    let mut set = 1;
    while set <= ON_SETS {
        table[set as usize] = shown_of(modes::decoded(set));
        set += 1;
    }
    table
}

const fn changed_by(event: u8, flag: bool) -> [u8; 256] {
    let mut table = [OFF; 256];
    let mut set = 1;
    while set <= ON_SETS {
        table[set as usize] = modes::code(modes::changed(event, flag, modes::decoded(set)));
        set += 1;
    }
    table
}

const fn changed() -> [[[u8; 256]; 2]; STEPPED] {
    let mut table = [[[OFF; 256]; 2]; STEPPED];
    let mut event = 0;
    while event < STEPPED {
        table[event] = [
            changed_by(event as u8, false),
            changed_by(event as u8, true),
        ];
        event += 1;
    }
    table
}

const fn asking(event: u8, set: Option<Modes>) -> u8 {
    let mut bits = 0;
    let mut case = 0;
    while case < 4 {
        bits |= (modes::asks_fd(event, case & 2 != 0, case & 1 != 0, set) as u8) << case;
        case += 1;
    }
    bits
}

const fn asks_fd() -> [[u8; 256]; STEPPED] {
    let mut table = [[0; 256]; STEPPED];
    let mut event = 0;
    while event < STEPPED {
        table[event][OFF as usize] = asking(event as u8, None);
        let mut set = 1;
        while set <= ON_SETS {
            table[event][set as usize] = asking(event as u8, Some(modes::decoded(set)));
            set += 1;
        }
        event += 1;
    }
    table
}

const fn pitched() -> [u8; 256] {
    let mut table = [OFF; 256];
    let mut set = 1;
    while set <= ON_SETS {
        let m = modes::decoded(set);
        table[set as usize] = modes::code(modes::with_vertical(m, modes::PITCH));
        set += 1;
    }
    table
}

const fn codes() -> [u8; 256] {
    let lacks = lacks();
    let mut table = [SETS; 256];
    let mut code = 0;
    let mut set = 0;
    while set < 256 {
        if lacks[set] & INCOHERENT == 0 {
            table[set] = code;
            code += 1;
        }
        set += 1;
    }
    assert!(code == SETS);
    table
}

const fn sets() -> [u8; 256] {
    let codes = codes();
    let mut table = [OFF; 256];
    let mut set = 0;
    while set < 256 {
        if codes[set] < SETS {
            table[codes[set] as usize] = set as u8;
        }
        set += 1;
    }
    table
}
