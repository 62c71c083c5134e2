//! Every set that can be written, as a side's frame, and every code, as a byte of a frame.

use super::answers;
use super::frame::{self, all_bytes, CODE, LEFT, RIGHT, SHARE};
use crate::gate::{Gate, Stop};
use crate::parts::words::{self, Set, SIDES};
use crate::say;
use crate::script::Script;

/// Off and the coherent On sets, as the papers count them.
const CODES: usize = 108;

/// Where the frames stand, with a byte of the area on each side.
const START: usize = 1;

/// The commands ahead of the cases and in each of them.
const AHEAD: usize = 2;
const CASE: usize = 6;

/// Gives back the sets that have codes, each at its own.
pub fn run(gate: &mut Gate) -> Result<Vec<Set>, Stop> {
    let mut coded = Vec::new();
    for side in 0..2 {
        let output = gate.check(&written(side))?;
        coded = in_order(&output).map_err(|problem| gate.reject(&problem))?;
        let output = gate.check(&poked(side))?;
        read_back(&output, &coded).map_err(|problem| gate.reject(&problem))?;
    }
    Ok(coded)
}

/// In the order of the codes, with the sets between that have none.
fn candidates() -> Vec<Set> {
    let mut sets = vec![Set::OFF];
    sets.extend(words::on_sets());
    sets
}

/// Coherent sets for the side that is not asked for.
const RESTING: [Set; 3] = [
    Set::new(1, 0, 4, 0),
    Set::new(4, 1, 7, 0),
    Set::new(5, 2, 3, 1),
];

/// The frame of a side with each set.
fn written(side: usize) -> Script {
    let mut script = Script::default();
    frame::fill(&mut script, 21);
    for (index, set) in candidates().into_iter().enumerate() {
        let resting = RESTING[index % RESTING.len()];
        script.line("power-on");
        say!(script, "damage {} set {resting}", SIDES[1 - side]);
        say!(script, "damage {} set {set}", SIDES[side]);
        say!(script, "write {side} {START}");
        script.line("bytes");
        say!(script, "read {START}");
    }
    script
}

/// The sets that were written. Their codes have to rise from 0 without a gap.
fn in_order(output: &[u8]) -> Result<Vec<Set>, String> {
    let answers = answers(output);
    let cases = answers[AHEAD..].chunks(CASE);
    let mut coded = Vec::new();
    for (set, case) in candidates().into_iter().zip(cases) {
        match case[3].as_str() {
            "write 0" => {}
            "write 1" => continue,
            _ => {
                return Err(format!(
                    "the set {set} is neither written nor refused with 1"
                ))
            }
        }
        let code = format!("{:02x}", coded.len());
        let at = "bytes ".len() + 2 * (START + CODE.at);
        if case[4].get(at..at + 2) != Some(&code) {
            return Err(format!(
                "the set {set} has not the code 0x{code}: {}",
                case[4]
            ));
        }
        coded.push(set);
    }
    if coded.len() != CODES {
        return Err(format!("{} sets were written, not {CODES}", coded.len()));
    }
    Ok(coded)
}

/// Each code of a byte in a frame that is good but for it. Some of them share an area, so that a
/// script which shows a difference is short.
fn poked(side: usize) -> Script {
    let mut script = Script::default();
    for codes in all_bytes().chunks(SHARE) {
        frame::fill(&mut script, 21);
        frame::poke(&mut script, START, &[LEFT, RIGHT][side]);
        for &code in codes {
            frame::poke(&mut script, START + CODE.at, &[code]);
            say!(script, "read {START}");
        }
    }
    script
}

/// The answers to the reads among those to `poked`.
fn reads(answers: &[String]) -> impl Iterator<Item = &String> {
    let shares = answers.chunks(AHEAD + 1 + 2 * SHARE);
    shares.flat_map(|share| share.iter().skip(AHEAD + 2).step_by(2))
}

/// Whether each code gave the set that it was written for, and the others none.
fn read_back(output: &[u8], coded: &[Set]) -> Result<(), String> {
    for (code, read) in reads(&answers(output)).enumerate() {
        let words: Vec<&str> = read.split(' ').collect();
        let right = match coded.get(code) {
            Some(set) => words[1] == "0" && words[4..8].join(" ") == set.to_string(),
            None => words[1] == "9" && words[2..].iter().all(|word| *word == "0"),
        };
        if !right {
            return Err(format!("code {code} is answered {read}"));
        }
    }
    Ok(())
}

#[cfg(test)]
mod tests {
    use super::*;

    /// The answers to `written` if the first sets of all were the coherent ones.
    fn written_answers(count: usize) -> String {
        let mut output = "area 0\npoke 0\n".to_string();
        for code in 0..241 {
            output += "power-on 0\ndamage 0\ndamage 0\n";
            output += &if code < count {
                format!("write 0\nbytes 0146474200010000{code:02x}00\nread 0\n")
            } else {
                "write 1\nbytes 00\nread 8\n".to_string()
            };
        }
        output
    }

    #[test]
    fn every_set_is_written_and_every_code_is_poked() {
        for side in 0..2 {
            let script = written(side);
            assert_eq!(script.commands(), AHEAD + 241 * CASE);
            assert_eq!(poked(side).commands(), 16 * (AHEAD + 1 + 2 * 16));
        }
        for resting in RESTING {
            assert!(candidates().contains(&resting));
        }
    }

    #[test]
    fn codes_have_to_rise_from_0_to_107() {
        let good = written_answers(108);
        assert_eq!(in_order(good.as_bytes()).unwrap().len(), 108);
        for count in [107, 109] {
            let bad = written_answers(count);
            assert!(in_order(bad.as_bytes()).is_err());
        }
        let odd = good.replacen("write 1", "write 2", 1);
        assert!(in_order(odd.as_bytes()).is_err());
        let missing = good.replacen("write 0", "write 1", 1);
        assert!(in_order(missing.as_bytes()).is_err());
    }

    #[test]
    fn codes_have_to_give_back_their_sets() {
        let coded = candidates()[..108].to_vec();
        let mut good = String::new();
        for code in 0..256 {
            if code % SHARE == 0 {
                good += "area 0\npoke 0\npoke 0\n";
            }
            good += &match coded.get(code) {
                Some(set) => format!("poke 0\nread 0 0 0 {set} 0 0 0 0 120 0 0\n"),
                None => "poke 0\nread 9 0 0 0 0 0 0 0\n".to_string(),
            };
        }
        assert_eq!(read_back(good.as_bytes(), &coded), Ok(()));
        for (from, to) in [
            ("read 9", "read 8"),
            ("read 9 0 0", "read 9 0 1"),
            ("read 0 0 0 1 0 1 0", "read 0 0 0 1 0 1 1"),
            ("read 0 0 0 1 0 1 0", "read 9 0 0 0 0 0 0"),
        ] {
            let bad = good.replacen(from, to, 1);
            assert!(read_back(bad.as_bytes(), &coded).is_err(), "{to}");
        }
    }
}
