//! Every speed that is accepted, with calls that show both inboxes and the reading at work.

use super::{bench, display, say_start, DEFAULT, FLC, OFF, SPEEDS};
use crate::parts::sheet::Told;

/// The lamps with nothing lit but the pilot flying's, and what FLC adds to them.
const LEFT: u32 = 128;
const RIGHT: u32 = 256;
const LAMP: u32 = 16;

pub fn all() -> Told {
    let mut told = Told::default();
    told.say("area 19", "area 0");
    for speed in SPEEDS {
        say_speed(&mut told, speed);
    }
    told
}

fn say_speed(told: &mut Told, speed: i32) {
    say_fresh(told, speed);
    say_inboxes(told, speed);
    say_loaded(told, speed);
    say_overspeed(told, speed);
    say_knob(told, speed);
    say_damaged(told, speed);
}

/// By how much the speed knob is turned, so that no end of the range is met.
fn clicks(speed: i32) -> i32 {
    if speed < 230 {
        9
    } else {
        -9
    }
}

/// The bench as it is and as it is shown, and the frames of both sides.
fn say_fresh(told: &mut Told, speed: i32) {
    say_start(told, speed);
    told.say("bench", &bench(speed, 0));
    told.say("display left", &display(OFF, speed, LEFT));
    told.say("display right", &display(OFF, speed, LEFT));
    told.say("event 0", "event 0 32");
    told.say("write left 0", "write 0");
    let frame = format!("46474200010000000000321b14{speed:04x}1f401f40");
    told.say("bytes", &format!("bytes {frame}"));
    told.say("write right 0", "write 0");
    let read = format!("read 0 1 0 0 0 0 0 0 0 0 0 {speed} 0 0");
    told.say("read 0", &read);
}

/// Nothing is sent, so that each side, once it is passive, takes over what the start has put into
/// its inbox and nothing of what the other side has by then.
fn say_inboxes(told: &mut Told, speed: i32) {
    let moved = speed + clicks(speed);
    let knob = format!("knob speed {}", clicks(speed));
    told.say(&knob, "turn 0");
    told.say("refresh right", "refresh 0");
    told.say("display right", &display(OFF, speed, LEFT));
    told.say("display left", &display(OFF, moved, LEFT));
    told.say("press transfer", "event 0 5");
    told.say(&knob, "turn 0");
    told.say("refresh left", "refresh 0");
    told.say("display left", &display(OFF, speed, RIGHT));
    told.say("display right", &display(OFF, moved, RIGHT));
    told.say("press transfer", "event 0 5");
    told.say("refresh right", "refresh 0");
    told.say("display right", &display(OFF, speed, LEFT));
    let count = (2 * clicks(speed)) as u8;
    told.say("bench", &bench(speed, count));
}

/// The reference is moved first, so that it is the reading that brings the speed back.
fn say_loaded(told: &mut Told, speed: i32) {
    told.say(&format!("knob speed {}", clicks(speed)), "turn 0");
    told.say("press flc", "event 0 18");
    told.say("display left", &display(FLC, speed, LEFT + LAMP));
    told.say("send left", "send 0");
    told.say("refresh right", "refresh 0");
    // The flight director is not taken over.
    told.say("display right", &display("0 1 3 4", speed, LEFT + LAMP));
}

/// The same by overspeed on the other side, where FLC then stays.
fn say_overspeed(told: &mut Told, speed: i32) {
    say_start(told, speed);
    told.say("press transfer", "event 0 5");
    told.say(&format!("knob speed {}", clicks(speed)), "turn 0");
    told.say("signal overspeed-begins", "event 0 2");
    told.say("press flc", "event 0 18");
    told.say("display right", &display(FLC, speed, RIGHT + LAMP));
    told.say("display left", &display(OFF, speed, RIGHT));
    told.say("signal overspeed-ends", "event 0 3");
}

fn say_knob(told: &mut Told, speed: i32) {
    say_start(told, speed);
    let mut ias = speed;
    for clicks in [127, -128, -128, 1] {
        ias = (ias + clicks).clamp(*SPEEDS.start(), *SPEEDS.end());
        told.say(&format!("knob speed {clicks}"), "turn 0");
        told.say("display left", &display(OFF, ias, LEFT));
    }
    told.say("power-on", "power-on 0");
    told.say("display left", &display(OFF, DEFAULT, LEFT));
}

/// The float and its whole value are true, and a new start makes them so again.
fn say_damaged(told: &mut Told, speed: i32) {
    say_start(told, speed);
    told.say(&format!("damage reading airspeed {speed}.25"), "damage 0");
    told.say("event 0", "event 0 32");
    told.say(&format!("damage whole airspeed {}", speed + 1), "damage 0");
    told.say("event 0", "event 1 32");
    say_start(told, speed);
    told.say("bench", &bench(speed, 0));
}

#[cfg(test)]
mod tests {
    use super::*;

    #[test]
    fn every_speed_comes_and_none_is_refused() {
        let told = all();
        let text = String::from_utf8(told.script.text().to_vec()).unwrap();
        for speed in 60..=400 {
            let line = format!("start {speed}");
            let starts = text.lines().filter(|other| *other == line);
            assert_eq!(starts.count(), 5, "{speed}");
        }
        assert!(!told.paper.contains("start 10"));
    }

    #[test]
    fn the_knob_moves_the_reference_at_every_speed() {
        for speed in SPEEDS {
            assert!(SPEEDS.contains(&(speed + clicks(speed))));
        }
        assert_eq!((2 * clicks(60)) as u8, 18);
        assert_eq!((2 * clicks(400)) as u8, 238);
    }
}
