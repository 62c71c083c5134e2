//! The calls on a bench. A refused call changes nothing in it.

use crate::bench::{Bench, Channel, Kind, Reference, Refusal};
use crate::events::{self, Rule};
use crate::sets::{Mode::*, ModeSet};

/// The answer of an accepted event call whose word has no bit set, and of
/// every refused event call.
pub const NO_EVENT: u32 = 32;

/// The event that turns independent operation on.
const INDEPENDENT: u32 = 20;

/// The number of events; a word with a bit from here on is refused.
const EVENTS: u32 = 21;

fn check_sound(bench: &Bench) -> Result<(), Refusal> {
    if bench.is_sound() {
        Ok(())
    } else {
        Err(Refusal::Unsound)
    }
}

/// The side as an index of a sound bench.
pub fn check_side(bench: &Bench, side: u32) -> Result<usize, Refusal> {
    check_sound(bench)?;
    match side {
        0 => Ok(0),
        1 => Ok(1),
        _ => Err(Refusal::Side),
    }
}

// ---- Events ----

/// Acts on the lowest bit set and answers its number.
pub fn event(bench: &mut Bench, word: u32) -> Result<u32, Refusal> {
    check_sound(bench)?;
    if word >> EVENTS != 0 {
        return Err(Refusal::Word);
    }
    if word == 0 {
        return Ok(NO_EVENT);
    }
    let event = word.trailing_zeros();
    act(bench, event);
    Ok(event)
}

/// The event that touches nothing but independent operation has no steps.
fn act(bench: &mut Bench, event: u32) {
    if event == INDEPENDENT {
        bench.independent = bench.both_on_approach();
        return;
    }
    let rule = events::rule(event, bench);
    if rule.transfer {
        // From here on it is a transfer like any other.
        bench.independent = false;
    }
    with_entry(bench, |bench| three_steps(bench, &rule));
}

fn three_steps(bench: &mut Bench, rule: &Rule) {
    first_step(bench, rule);
    for &side in bench.acting() {
        second_step(bench, side);
        change_modes(&mut bench.sides[side], rule.modes);
    }
}

/// Flight directors, and what both sides share.
fn first_step(bench: &mut Bench, rule: &Rule) {
    let acting = bench.acting();
    let asks = |&side: &usize| (rule.asks_fd_on)(bench.sides[side].modes);
    let fd_on = acting.iter().any(asks);
    for &side in acting {
        bench.sides[side].fd |= fd_on;
    }
    if let Some((side, on)) = rule.fd_switch {
        bench.sides[side].fd = on;
    }
    if let Some(engaged) = rule.ap {
        bench.ap = engaged;
    }
    if let Some(set) = rule.overspeed {
        bench.overspeed = set;
    }
    if rule.transfer {
        bench.pf = 1 - bench.pf;
    }
}

/// The On rule, for one side.
fn second_step(bench: &mut Bench, side: usize) {
    let on = bench.sides[side].fd || bench.inboxes[side].fd || bench.ap;
    let modes = &mut bench.sides[side].modes;
    if !on {
        *modes = ModeSet::OFF;
    } else if modes.is_off() {
        *modes = ModeSet::BASIC;
    }
}

/// The mode changes of an event; a side that is Off has none.
fn change_modes(side: &mut Channel, change: fn(&mut ModeSet)) {
    let modes = &mut side.modes;
    if !modes.is_off() {
        change(modes);
        modes.complete();
    }
}

/// Does what a call does, and then entry on the sides that it acts on. Only
/// after both is it judged whether independent operation goes on.
fn with_entry(bench: &mut Bench, change: impl FnOnce(&mut Bench)) {
    let before = *bench;
    change(bench);
    for &side in bench.acting() {
        enter(&before, bench, side);
    }
    bench.independent &= bench.both_on_approach();
}

/// Loads the references of modes that the call has newly engaged on a side.
fn enter(before: &Bench, bench: &mut Bench, side: usize) {
    let loads = [
        (Roll, Reference::Roll, Kind::Roll),
        (Pitch, Reference::Pitch, Kind::Pitch),
        (Vs, Reference::VerticalSpeed, Kind::VerticalSpeed),
        (Flc, Reference::Ias, Kind::Airspeed),
        (Alt, Reference::Held, Kind::Altitude),
    ];
    let earlier = before.sides[side].modes;
    let now = bench.sides[side].modes;
    for (mode, reference, kind) in loads {
        if now.is_engaged(mode) && !earlier.is_engaged(mode) {
            load(bench, side, reference, kind);
        }
    }
}

fn load(bench: &mut Bench, side: usize, reference: Reference, kind: Kind) {
    // Rounded once, when the reading was accepted (document 02, 2026-05).
    let whole = bench.whole(kind);
    bench.sides[side].references.put_clamped(reference, whole);
}

// ---- Sends and refreshes ----

pub fn send(bench: &mut Bench, side: u32) -> Result<(), Refusal> {
    let side = check_side(bench, side)?;
    bench.inboxes[1 - side] = bench.sides[side];
    Ok(())
}

pub fn refresh(bench: &mut Bench, side: u32) -> Result<(), Refusal> {
    let side = check_side(bench, side)?;
    if bench.acting().contains(&side) {
        with_entry(bench, |bench| second_step(bench, side));
    } else {
        // FD stays the side's own.
        bench.sides[side].modes = bench.inboxes[side].modes;
        bench.sides[side].references = bench.inboxes[side].references;
    }
    Ok(())
}

// ---- Knobs ----

/// How far a knob went from one count to another: from -128 to 127.
pub fn rotation(old: u8, new: u8) -> i32 {
    i32::from(new.wrapping_sub(old) as i8)
}

pub fn turn(bench: &mut Bench, knob: u32, count: u8) -> Result<(), Refusal> {
    check_sound(bench)?;
    let Some(&old) = bench.counts.get(knob as usize) else {
        return Err(Refusal::Knob);
    };
    bench.counts[knob as usize] = count;
    let r = rotation(old, count);
    if r != 0 {
        with_entry(bench, |bench| {
            for &side in bench.acting() {
                turn_knob(&mut bench.sides[side], knob, r);
            }
        });
    }
    Ok(())
}

fn turn_knob(side: &mut Channel, knob: u32, r: i32) {
    match knob {
        0 => turn_wheel(side, r),
        1 => turn_altitude(side, r),
        2 => add(side, Reference::Ias, r),
        _ => turn_heading(side, r),
    }
}

/// Adds to a reference of a side and clamps it to its range.
fn add(side: &mut Channel, reference: Reference, amount: i32) {
    let old = side.references.get(reference);
    side.references.put_clamped(reference, old + amount);
}

fn turn_wheel(side: &mut Channel, r: i32) {
    let modes = side.modes;
    if modes.is_off() || modes.is_engaged(Vappr) {
        return;
    }
    if modes.is_engaged(Vs) {
        add(side, Reference::VerticalSpeed, r);
    } else if modes.is_engaged(Pitch) {
        add(side, Reference::Pitch, r);
    } else {
        change_modes(side, |set| set.engage(Pitch));
    }
}

fn turn_altitude(side: &mut Channel, r: i32) {
    let old = side.references.get(Reference::Preselected);
    add(side, Reference::Preselected, 100 * r);
    let changed = side.references.get(Reference::Preselected) != old;
    if changed && side.modes.is_engaged(Altsel) {
        // The captured altitude is no longer the target.
        change_modes(side, |set| set.engage(Pitch));
    }
}

fn turn_heading(side: &mut Channel, r: i32) {
    let heading = (side.references.get(Reference::Heading) + r).rem_euclid(360);
    side.references.put(Reference::Heading, heading);
}

// ---- Readings ----

pub fn reading(bench: &mut Bench, kind: Kind, bits: u64) -> Result<(), Refusal> {
    check_sound(bench)?;
    let whole = kind.whole(bits)?;
    bench.keep(kind, bits, whole);
    Ok(())
}

// ---- Display ----

/// What a side shows; the default is the display of a refused call.
#[derive(Clone, Copy, PartialEq, Eq, Debug, Default)]
pub struct Display {
    pub fd: bool,
    pub lateral: u32,
    pub vertical: u32,
    pub armed: u32,
    pub references: [i32; 7],
    pub lamps: u32,
}

pub fn display(bench: &Bench, side: u32) -> Result<Display, Refusal> {
    let side = check_side(bench, side)?;
    let shown = &bench.sides[side];
    Ok(Display {
        fd: shown.fd,
        lateral: shown.modes.lateral_law(),
        vertical: shown.modes.vertical_law(),
        armed: shown.modes.armed_sum(),
        references: shown.references.all(),
        lamps: lamps(bench, shown.modes),
    })
}

fn lamps(bench: &Bench, modes: ModeSet) -> u32 {
    let lit = [
        (modes.is_engaged(Hdg), 1),
        (!modes.is_cleared(Nav), 2),
        (!modes.is_cleared(Lappr), 4),
        (modes.is_engaged(Vs), 8),
        (modes.is_engaged(Flc), 16),
        (modes.is_engaged(Alt), 32),
        (bench.ap, 64),
        (bench.pf == 0, 128),
        (bench.pf == 1, 256),
    ];
    lit.iter().filter(|(on, _)| *on).map(|(_, lamp)| lamp).sum()
}

/// The two law numbers by which the guidance program picks its control laws.
pub fn pick(bench: &Bench, side: u32) -> Result<(u32, u32), Refusal> {
    let shown = display(bench, side)?;
    Ok((shown.lateral, shown.vertical))
}

#[cfg(test)]
mod tests {
    use super::*;

    /// No accepted call shows it, since a sound bench keeps nothing but the
    /// float's own whole value.
    #[test]
    fn entry_takes_the_kept_whole_value_and_rounds_nothing() {
        let mut bench = Bench::power_on();
        bench.keep(Kind::Roll, 3.75_f64.to_bits(), -7);
        load(&mut bench, 1, Reference::Roll, Kind::Roll);
        assert_eq!(bench.sides[1].references.get(Reference::Roll), -7);
        bench.keep(Kind::Roll, crate::float::NAN, i32::MIN);
        load(&mut bench, 1, Reference::Roll, Kind::Roll);
        assert_eq!(bench.sides[1].references.get(Reference::Roll), -27);
    }
}
