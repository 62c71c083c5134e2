//! Starts with a speed (document 02, 2026-06): the bench of every speed and how it goes on, every
//! sort of speed that is refused, and that nothing of an older bench is left. All answers are those
//! of the papers, so that two programs which err in the same way are noticed.

mod forms;
pub mod olds;
mod refused;
mod speeds;
mod worked;

use std::ops::RangeInclusive;

use super::helped;
use super::sheet::{self, Told};
use super::words::pattern;
use crate::gate::{Gate, Stop};

/// The speeds that a start may name.
const SPEEDS: RangeInclusive<i32> = 60..=400;

/// The speed of `power-on` and of a refused start.
const DEFAULT: i32 = 120;

pub fn run(gate: &mut Gate) -> Result<(), Stop> {
    for case in worked::CASES {
        let (script, paper) = sheet::texts(case);
        gate.check_against(&script, &paper)?;
    }
    for told in all() {
        gate.check_against(&told.script, &told.paper)?;
    }
    helped::run(gate, &["start"])
}

fn all() -> [Told; 4] {
    [speeds::all(), refused::all(), forms::all(), olds::all()]
}

/// A start with its answer, and the speed that the bench then has.
fn say_start(told: &mut Told, speed: i32) -> i32 {
    let accepted = SPEEDS.contains(&speed);
    let refusal = if accepted { 0 } else { 10 };
    told.say(&format!("start {speed}"), &format!("start {refusal}"));
    if accepted {
        speed
    } else {
        DEFAULT
    }
}

/// The answer to `bench` of a start with that speed, the speed knob having that count.
fn bench(speed: i32, count: u8) -> String {
    let (zero, airspeed) = (pattern(0.0), pattern(f64::from(speed)));
    let channel = format!(" 0 0 0 0 0 0 0 0 0 {speed} 0 0");
    format!(
        "bench 0 0 0 0 0 0 {count} 0 {zero} {airspeed} {zero} {zero} {zero} {zero} \
         0 {speed} 0 0 0 0{}",
        channel.repeat(4)
    )
}

/// Flight director, laws and armed sum of a display: modes off, and FLC engaged beside ROLL.
const OFF: &str = "0 0 0 0";
const FLC: &str = "1 1 3 4";

/// The answer to a display with that IAS and all other references as at a start.
fn display(modes: &str, ias: i32, lamps: u32) -> String {
    format!("display 0 {modes} 0 0 0 0 {ias} 0 0 {lamps}")
}

#[cfg(test)]
mod tests {
    use super::*;
    use crate::parts::sheet::assert_answered;

    #[test]
    fn the_answers_to_a_start_are_those_of_the_papers() {
        let channel = " 0 0 0 0 0 0 0 0 0 90 0 0";
        let expected = format!(
            "bench 0 0 0 0 0 0 7 0 0x0000000000000000 0x4056800000000000 0x0000000000000000 \
             0x0000000000000000 0x0000000000000000 0x0000000000000000 0 90 0 0 0 0\
             {channel}{channel}{channel}{channel}"
        );
        assert_eq!(bench(90, 7), expected);
        let flc = "display 0 1 1 3 4 0 0 0 0 400 0 0 144";
        assert_eq!(display(FLC, 400, 144), flc);
        let mut told = Told::default();
        let speeds = [59, 60, 400, 401, i32::MIN].map(|speed| say_start(&mut told, speed));
        assert_eq!(speeds, [120, 60, 400, 120, 120]);
        let answers = "start 10\nstart 0\nstart 0\nstart 10\nstart 10\n";
        assert_eq!(told.paper, answers);
    }

    #[test]
    fn every_command_has_its_answer() {
        assert_answered(&all());
    }

    #[test]
    fn the_part_is_neither_small_nor_large() {
        let commands: usize = all().iter().map(|told| told.script.commands()).sum();
        assert!((20_000..=60_000).contains(&commands), "{commands}");
    }
}
