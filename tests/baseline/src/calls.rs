//! The calls. Each judges refusal 1 first, then what is its own, and changes the bench only where it
//! answers 0.
use crate::bench::{self, Bench, Kind, Reading, HIGHEST, LOWEST};
use crate::modes::{self, OFF};
use crate::tables::{ASKS_FD, CHANGED, PITCHED, SHOWN, STEPPED};

/// What a side shows.
#[derive(Clone, Copy, Debug, PartialEq, Eq)]
pub struct Display {
    pub fd: bool,
    pub lateral: u8,
    pub vertical: u8,
    pub armed: u8,
    pub references: [i32; 7],
    pub lamps: u16,
}

const BLANK: Display = Display {
    fd: false,
    lateral: 0,
    vertical: 0,
    armed: 0,
    references: [0; 7],
    lamps: 0,
};

/// Loads a reference from the whole value that is kept of its reading.
#[inline]
fn load(b: &mut Bench, side: usize, reference: usize, kind: Kind) {
    let whole = b.whole(kind);
    b.numbers[side][reference] = whole.clamp(LOWEST[reference], HIGHEST[reference]);
}

/// A side takes another set, with entry.
#[inline]
fn settle(b: &mut Bench, side: usize, set: u8) {
    let was = SHOWN[b.sets[side] as usize];
    let is = SHOWN[set as usize];
    b.sets[side] = set;
    if is.lateral == modes::ROLL && was.lateral != modes::ROLL {
        load(b, side, bench::ROLL, Kind::Roll);
    }
    if is.vertical == was.vertical {
        return;
    }
    match is.vertical {
        modes::PITCH => load(b, side, bench::PITCH, Kind::Pitch),
        modes::VS => load(b, side, bench::VERTICAL_SPEED, Kind::VerticalSpeed),
        modes::FLC => load(b, side, bench::IAS, Kind::Airspeed),
        modes::ALT => load(b, side, bench::HELD, Kind::Altitude),
        _ => {}
    }
}

/// The set of a side by the On rule.
#[inline]
fn on_rule(b: &Bench, side: usize) -> u8 {
    let set = b.sets[side];
    if !(b.fds[side] | b.fds[side + 2] | b.ap) {
        return OFF;
    }
    if set == OFF {
        modes::code(modes::BASIC)
    } else {
        set
    }
}

/// Makes a change on each side that acts: the active one, and in independent operation the other too.
/// That ends where the changes took from a side a mode that it needs.
#[inline]
fn on_acting(b: &mut Bench, change: impl Fn(&mut Bench, usize)) {
    let active = b.pf as usize & 1;
    change(b, active);
    if b.independent {
        change(b, active ^ 1);
        b.independent = b.has_both_approaches();
    }
}

/// The first step: flight directors, AP, flag and PF, all by the bench that came. Where one side that
/// acts asks for its flight director, all that act get theirs.
#[inline]
fn first_step(b: &mut Bench, event: usize) {
    let active = b.pf as usize & 1;
    let case = 2 * b.ap as u8 + b.overspeed as u8;
    let asks = |side: usize| ASKS_FD[event][b.sets[side] as usize] >> case & 1 != 0;
    let asked = asks(active) | (b.independent & asks(active ^ 1));
    b.fds[active] |= asked;
    b.fds[active ^ 1] |= asked & b.independent;
    match event {
        0 | 4 => b.ap = false,
        1 => b.ap = !b.ap,
        2 => b.overspeed = true,
        3 => b.overspeed = false,
        5 => {
            b.pf ^= 1;
            b.independent = false;
        }
        6 => b.fds[0] = !b.fds[0] | b.overspeed,
        7 => b.fds[1] = !b.fds[1] | b.overspeed,
        _ => {}
    }
}

/// The three steps. The last two are those of the sides that act after the first.
#[inline]
fn three_steps(b: &mut Bench, event: usize) {
    let flag = b.overspeed;
    first_step(b, event);
    on_acting(b, |b, side| {
        let on = on_rule(b, side);
        settle(b, side, CHANGED[event][flag as usize][on as usize]);
    });
}

/// An event word. Answers the refusal and the event.
#[inline]
pub fn event(b: &mut Bench, word: u32) -> (u32, u32) {
    if !b.is_sound() {
        return (1, 32);
    }
    if word >> 21 != 0 {
        return (4, 32);
    }
    let event = word.trailing_zeros();
    if event < STEPPED as u32 {
        three_steps(b, event as usize);
    } else if event == 20 {
        b.independent = b.has_both_approaches();
    }
    (0, event)
}

/// The wheel: it moves the reference of PITCH and VS, and engages PITCH in place of another mode.
#[inline]
fn turn_wheel(b: &mut Bench, side: usize, amount: i32) {
    match SHOWN[b.sets[side] as usize].vertical {
        0 | modes::VAPPR => {}
        modes::PITCH => add(b, side, bench::PITCH, amount),
        modes::VS => add(b, side, bench::VERTICAL_SPEED, amount),
        _ => settle(b, side, PITCHED[b.sets[side] as usize]),
    }
}

/// The altitude knob: another preselected altitude ends ALTSEL.
#[inline]
fn turn_altitude(b: &mut Bench, side: usize, amount: i32) {
    let was = b.numbers[side][bench::PRESELECTED];
    add(b, side, bench::PRESELECTED, 100 * amount);
    let set = b.sets[side];
    let altsel = matches!(SHOWN[set as usize].vertical, modes::CAPTURE | modes::TRACK);
    if altsel && b.numbers[side][bench::PRESELECTED] != was {
        settle(b, side, PITCHED[set as usize]);
    }
}

/// Adds to a reference, within its range.
#[inline]
fn add(b: &mut Bench, side: usize, reference: usize, amount: i32) {
    let sum = b.numbers[side][reference] + amount;
    b.numbers[side][reference] = sum.clamp(LOWEST[reference], HIGHEST[reference]);
}

/// What a knob's rotation does on a side.
#[inline]
fn turn_side(b: &mut Bench, side: usize, knob: u32, amount: i32) {
    match knob {
        0 => turn_wheel(b, side, amount),
        1 => turn_altitude(b, side, amount),
        2 => add(b, side, bench::IAS, amount),
        _ => {
            let heading = &mut b.numbers[side][bench::HEADING];
            *heading = (*heading + amount).rem_euclid(360);
        }
    }
}

/// A knob's new count. Answers the refusal.
#[inline]
pub fn turn(b: &mut Bench, knob: u32, new: u8) -> u32 {
    if !b.is_sound() {
        return 1;
    }
    if knob > 3 {
        return 3;
    }
    let old = b.counts[knob as usize];
    b.counts[knob as usize] = new;
    let amount = i32::from(new.wrapping_sub(old) as i8);
    if amount != 0 {
        on_acting(b, |b, side| turn_side(b, side, knob, amount));
    }
    0
}

/// A reading. Answers the refusal.
#[inline]
pub fn reading(b: &mut Bench, r: Reading) -> u32 {
    if !b.is_sound() {
        return 1;
    }
    let (_, x) = r.parts();
    if b.keep(r) {
        0
    } else if x.is_finite() {
        6
    } else {
        5
    }
}

/// The refusal of a call that names a side: 1, else 2, else none.
#[inline]
fn refusal_of_side(b: &Bench, side: u32) -> u32 {
    if !b.is_sound() {
        1
    } else if side > 1 {
        2
    } else {
        0
    }
}

/// What a side holds goes to the other side's inbox. Answers the refusal.
#[inline]
pub fn send(b: &mut Bench, side: u32) -> u32 {
    let refusal = refusal_of_side(b, side);
    if refusal != 0 {
        return refusal;
    }
    let (from, to) = (side as usize, side as usize ^ 3);
    b.numbers[to] = b.numbers[from];
    b.sets[to] = b.sets[from];
    b.fds[to] = b.fds[from];
    0
}

/// A side that acts applies the On rule; one that does not takes over what was sent to it. Answers the
/// refusal.
#[inline]
pub fn refresh(b: &mut Bench, side: u32) -> u32 {
    let refusal = refusal_of_side(b, side);
    if refusal != 0 {
        return refusal;
    }
    let at = side as usize;
    if (side == b.pf) | b.independent {
        let on = on_rule(b, at);
        settle(b, at, on);
        b.independent &= b.has_both_approaches();
    } else {
        b.numbers[at] = b.numbers[at + 2];
        b.sets[at] = b.sets[at + 2];
    }
    0
}

/// What a side shows, with the refusal.
#[inline]
pub fn display(b: &Bench, side: u32) -> (u32, Display) {
    let refusal = refusal_of_side(b, side);
    if refusal != 0 {
        return (refusal, BLANK);
    }
    let at = side as usize;
    let shown = SHOWN[b.sets[at] as usize];
    let [heading, preselected, held, vertical_speed, ias, roll, pitch, _] = b.numbers[at];
    let pf = if b.pf == 0 { 128 } else { 256 };
    let display = Display {
        fd: b.fds[at],
        lateral: shown.lateral,
        vertical: shown.vertical,
        armed: shown.armed,
        references: [heading, preselected, held, vertical_speed, ias, roll, pitch],
        lamps: u16::from(shown.lamps) + 64 * u16::from(b.ap) + pf,
    };
    (0, display)
}
