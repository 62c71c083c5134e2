//! The list of all sets as numbers (document 02, 2026-07): the answer to `codes` in every sort of
//! state, that asking changes nothing, and that the list agrees with what displays show and with
//! the codes in frames. The list is held to the papers, so that two programs which err in the same
//! way are noticed.

mod forms;
mod list;
mod sets;
mod states;
mod worked;

use super::helped;
use super::sheet::{self, Told};
use crate::compare;
use crate::gate::{Gate, Stop};
use crate::script::Script;
use worked::CODES;

pub fn run(gate: &mut Gate) -> Result<(), Stop> {
    for case in worked::CASES {
        let (script, paper) = sheet::texts(case);
        gate.check_against(&script, &paper)?;
    }
    for told in told() {
        gate.check_against(&told.script, &told.paper)?;
    }
    for script in scripts() {
        let output = gate.check(&script)?;
        kept(&output).map_err(|problem| gate.reject(&problem))?;
    }
    helped::run(gate, &["codes"])
}

/// What has an answer by the papers for every command.
fn told() -> [Told; 5] {
    [
        sets::all(),
        forms::accepted(),
        forms::wrong(),
        forms::with_every_byte(),
        forms::of_lengths(),
    ]
}

/// What asks for the bench too.
fn scripts() -> [Script; 3] {
    [states::olds(), states::calls(), states::damaged()]
}

/// Whether each answer to `codes` is the list, and the benches on both sides of one are the same.
fn kept(output: &[u8]) -> Result<(), String> {
    let line = format!("{CODES}\n");
    let answers = compare::blocks(output);
    let is_codes = |answer: &[u8]| answer.starts_with(b"codes");
    let is_wrong = |answer: &&&[u8]| is_codes(answer) && **answer != line.as_bytes();
    if let Some(wrong) = answers.iter().find(is_wrong) {
        let wrong = String::from_utf8_lossy(wrong);
        return Err(format!("not the list of the papers: {wrong}"));
    }
    let changes = |three: &[&[u8]]| {
        let benches = [three[0], three[2]].map(|answer| answer.starts_with(b"bench"));
        is_codes(three[1]) && benches == [true; 2] && three[0] != three[2]
    };
    match answers.windows(3).find(|three| changes(three)) {
        None => Ok(()),
        Some(three) => {
            let bench = String::from_utf8_lossy(three[0]);
            Err(format!("codes changes a bench: {bench}"))
        }
    }
}

#[cfg(test)]
mod tests {
    use super::*;
    use crate::parts::sheet::assert_answered;

    #[test]
    fn every_command_has_its_answer() {
        assert_answered(&told());
    }

    #[test]
    fn the_part_is_neither_small_nor_large() {
        let of_told: usize = told().iter().map(|told| told.script.commands()).sum();
        let others: usize = scripts().iter().map(Script::commands).sum();
        let commands = of_told + others;
        assert!((20_000..=40_000).contains(&commands), "{commands}");
    }

    #[test]
    fn codes_is_asked_in_every_script() {
        let all = told().map(|told| told.script);
        for script in all.iter().chain(&scripts()) {
            let text = String::from_utf8_lossy(script.text());
            let asked = text.lines().filter(|line| *line == "codes");
            assert!(asked.count() > 12);
        }
    }

    #[test]
    fn a_wrong_list_and_a_changed_bench_are_noticed() {
        let good =
            format!("bench 0\n{CODES}\nbench 0\nsend 0\nbench 1\n{CODES}\nsend 0\nbench 2\n");
        assert_eq!(kept(good.as_bytes()), Ok(()));
        for (from, to) in [
            ("codes 0 276", "codes 0 277"),
            ("codes 0 276", "codes 276"),
            ("1422\nsend", "1422 \nsend"),
            ("1422\nbench 0", "1422\nbench 1"),
            ("bench 0\ncodes", "bench 2\ncodes"),
        ] {
            let bad = good.replacen(from, to, 1);
            assert_ne!(bad, good);
            assert!(kept(bad.as_bytes()).is_err(), "{to}");
        }
    }
}
