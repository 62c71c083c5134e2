//! The bench sheet of document 01 as the requests up to 2026-06 left it: each case as a script from
//! power-on, with the answers that the paper gives. A display also has what the paper says of
//! power-on, references and lamps.

#[cfg(test)]
use crate::compare;
use crate::gate::{Gate, Stop};
#[cfg(test)]
use crate::script;
use crate::script::Script;

/// An answer to `bench` of a start, with the airspeed's float and the speed. Sides and inboxes are
/// alike.
macro_rules! started {
    ($airspeed:literal, $speed:literal) => {
        concat!(
            "bench 0 0 0 0 0 0 0 0 0x0000000000000000 ",
            $airspeed,
            " 0x0000000000000000 0x0000000000000000 0x0000000000000000 0x0000000000000000 0 ",
            $speed,
            " 0 0 0 0",
            started!($speed),
            started!($speed),
            started!($speed),
            started!($speed)
        )
    };
    ($speed:literal) => {
        concat!(" 0 0 0 0 0 0 0 0 0 ", $speed, " 0 0")
    };
}
pub(crate) use started;

/// Commands and their answers.
pub type Case = &'static [(&'static str, &'static str)];

pub fn run(gate: &mut Gate) -> Result<(), Stop> {
    for case in CASES {
        let (script, paper) = texts(case);
        gate.check_against(&script, &paper)?;
    }
    Ok(())
}

pub fn texts(case: Case) -> (Script, String) {
    let mut told = Told::default();
    told.case(case);
    (told.script, told.paper)
}

/// A script together with the answers that the papers give.
#[derive(Default)]
pub struct Told {
    pub script: Script,
    pub paper: String,
}

impl Told {
    pub fn say(&mut self, command: impl AsRef<[u8]>, answer: &str) {
        self.script.line(command);
        self.paper.push_str(answer);
        self.paper.push('\n');
    }

    pub fn case(&mut self, case: Case) {
        for (command, answer) in case {
            self.say(command, answer);
        }
    }

    /// A line that is an error. Every line so far has to have an answer, as its number is counted
    /// from them; the text of the error is free.
    pub fn error(&mut self, line: impl AsRef<[u8]>) {
        let number = self.script.commands() + 1;
        self.say(line, &format!("error {number}: x"));
    }
}

/// That each answer is one to its command: by its name, an error by its line, a bench by its length.
#[cfg(test)]
pub fn assert_fitting(cases: &[Case]) {
    for case in cases {
        for (index, (command, answer)) in case.iter().enumerate() {
            if answer.starts_with("error") {
                assert_eq!(*answer, format!("error {}: x", index + 1));
                continue;
            }
            let name = answer.split([' ', '\n']).next();
            assert_eq!(name, Some(answered(command)), "{command}");
            if name == Some("bench") {
                let words = answer.split_whitespace().count();
                assert_eq!(words, 1 + 4 + 4 + 6 + 6 + 4 * 12);
                assert!(!answer.contains("  "), "{answer}");
            }
        }
    }
}

/// What the words for people are answered as.
#[cfg(test)]
fn answered(command: &str) -> &str {
    match command.split_whitespace().next() {
        Some("press" | "signal") => "event",
        Some("knob") => "turn",
        name => name.unwrap_or(""),
    }
}

/// That every command of these scripts has an answer.
#[cfg(test)]
pub fn assert_answered(all: &[Told]) {
    for told in all {
        let answers = compare::blocks(told.paper.as_bytes());
        assert_eq!(answers.len(), told.script.commands());
    }
}

/// The lines of a script that are answered by an error, which has to have their number. Every line
/// has an answer of one line.
#[cfg(test)]
pub fn errors(told: &Told) -> Vec<Vec<u8>> {
    let lines = script::lines(told.script.text());
    let answers: Vec<&str> = told.paper.lines().collect();
    assert_eq!(lines.len(), answers.len());
    let mut errors = Vec::new();
    for (index, (line, answer)) in lines.iter().zip(answers).enumerate() {
        if answer.starts_with("error") {
            assert_eq!(answer, format!("error {}: x", index + 1));
            errors.push(line.strip_suffix(b"\n").unwrap_or(line).to_vec());
        }
    }
    errors
}

const CASES: [Case; 12] = [
    CASE_1, CASE_2, CASE_3, CASE_4, CASE_5, CASE_6, CASE_7, CASE_8, CASE_9, CASE_10, CASE_11,
    CASE_12,
];

/// Whole values, as entry to ROLL (the left flight director goes On), ALT and VS loads them. Each
/// is loaded over another number, so that nothing is taken for a load of 0.
const CASE_1: Case = &[
    ("reading roll 12.5", "reading 0"),
    ("event 64", "event 0 6"),
    ("display 0", "display 0 1 1 1 4 0 0 0 0 120 12 0 128"),
    ("reading roll 13.5", "reading 0"),
    ("event 64", "event 0 6"),
    ("display 0", "display 0 0 0 0 0 0 0 0 0 120 12 0 128"),
    ("event 64", "event 0 6"),
    ("display 0", "display 0 1 1 1 4 0 0 0 0 120 14 0 128"),
    ("reading roll -0.5", "reading 0"),
    ("event 64", "event 0 6"),
    ("event 64", "event 0 6"),
    ("display 0", "display 0 1 1 1 4 0 0 0 0 120 0 0 128"),
    ("reading altitude 12.5", "reading 0"),
    ("event 524288", "event 0 19"),
    ("display 0", "display 0 1 1 4 0 0 0 12 0 120 0 0 160"),
    ("reading vertical-speed 13.5", "reading 0"),
    ("event 131072", "event 0 17"),
    ("display 0", "display 0 1 1 2 4 0 0 12 14 120 0 0 136"),
    ("reading altitude -0.5", "reading 0"),
    ("event 524288", "event 0 19"),
    ("display 0", "display 0 1 1 4 0 0 0 0 14 120 0 0 160"),
];

/// North by its second number is accepted; the refused headings leave it in the bench as it came,
/// with the whole value 0 beside it.
const CASE_2: Case = &[
    ("reading heading 359.25", "reading 0"),
    ("reading heading 359.5", "reading 0"),
    ("reading heading 360.75", "reading 6"),
    ("reading heading -0.75", "reading 6"),
    (
        "bench",
        "bench 0 0 0 0 0 0 0 0 0x0000000000000000 0x405e000000000000 0x0000000000000000 \
         0x0000000000000000 0x0000000000000000 0x4076780000000000 0 120 0 0 0 0 \
         0 0 0 0 0 0 0 0 0 120 0 0 0 0 0 0 0 0 0 0 0 120 0 0 \
         0 0 0 0 0 0 0 0 0 120 0 0 0 0 0 0 0 0 0 0 0 120 0 0",
    ),
];

const CASE_3: Case = &[
    ("reading altitude 56000.5", "reading 0"),
    ("event 524288", "event 0 19"),
    ("display 0", "display 0 1 1 4 0 0 0 56000 0 120 0 0 160"),
    ("reading altitude 56001", "reading 6"),
];

/// Rotations, as the heading and the preselected altitude (100 feet a count) show them.
const CASE_4: Case = &[
    ("turn 3 250", "turn 0"),
    ("display 0", "display 0 0 0 0 0 354 0 0 0 120 0 0 128"),
    ("turn 3 3", "turn 0"),
    ("display 0", "display 0 0 0 0 0 3 0 0 0 120 0 0 128"),
    ("turn 3 250", "turn 0"),
    ("display 0", "display 0 0 0 0 0 354 0 0 0 120 0 0 128"),
    ("turn 1 250", "turn 0"),
    ("display 0", "display 0 0 0 0 0 354 -600 0 0 120 0 0 128"),
    ("turn 1 3", "turn 0"),
    ("display 0", "display 0 0 0 0 0 354 300 0 0 120 0 0 128"),
    ("turn 1 250", "turn 0"),
    ("display 0", "display 0 0 0 0 0 354 -600 0 0 120 0 0 128"),
    ("power-on", "power-on 0"),
    ("turn 3 128", "turn 0"),
    ("display 0", "display 0 0 0 0 0 232 0 0 0 120 0 0 128"),
    ("turn 3 0", "turn 0"),
    ("display 0", "display 0 0 0 0 0 104 0 0 0 120 0 0 128"),
    ("turn 1 100", "turn 0"),
    ("turn 1 200", "turn 0"),
    ("turn 1 0", "turn 0"),
    ("display 0", "display 0 0 0 0 0 104 25600 0 0 120 0 0 128"),
    ("turn 1 128", "turn 0"),
    ("display 0", "display 0 0 0 0 0 104 12800 0 0 120 0 0 128"),
    ("turn 1 0", "turn 0"),
    ("display 0", "display 0 0 0 0 0 104 0 0 0 120 0 0 128"),
];

const CASE_5: Case = &[
    ("turn 3 251", "turn 0"),
    ("display 0", "display 0 0 0 0 0 355 0 0 0 120 0 0 128"),
    ("turn 3 4", "turn 0"),
    ("display 0", "display 0 0 0 0 0 4 0 0 0 120 0 0 128"),
    ("reading vertical-speed 48", "reading 0"),
    ("event 131072", "event 0 17"),
    ("display 0", "display 0 1 1 2 4 4 0 0 48 120 0 0 136"),
    ("turn 0 9", "turn 0"),
    ("display 0", "display 0 1 1 2 4 4 0 0 50 120 0 0 136"),
];

const CASE_6: Case = &[
    ("event 16384", "event 0 14"),
    ("display 0", "display 0 1 2 1 4 0 0 0 0 120 0 0 129"),
    ("pick 0", "pick 0 2 1"),
];

const CASE_7: Case = &[
    ("event 16400", "event 0 4"),
    ("display 0", "display 0 1 5 8 4 0 0 0 0 120 0 0 128"),
    ("pick 0", "pick 0 5 8"),
];

const CASE_8: Case = &[
    ("event 65536", "event 0 16"),
    ("display 0", "display 0 1 1 1 14 0 0 0 0 120 0 0 132"),
    ("event 1024", "event 0 10"),
    ("display 0", "display 0 1 4 1 12 0 0 0 0 120 0 0 132"),
    ("event 2048", "event 0 11"),
    ("display 0", "display 0 1 4 7 0 0 0 0 0 120 0 0 132"),
    ("event 131072", "event 0 17"),
    ("display 0", "display 0 1 4 2 4 0 0 0 0 120 0 0 140"),
];

const CASE_9: Case = &[
    ("event 65536", "event 0 16"),
    ("event 1024", "event 0 10"),
    ("event 4", "event 0 2"),
    ("display 0", "display 0 1 4 3 12 0 0 0 0 120 0 0 148"),
    ("event 2048", "event 0 11"),
    ("display 0", "display 0 1 4 3 12 0 0 0 0 120 0 0 148"),
];

const CASE_10: Case = &[
    ("event 0", "event 0 32"),
    ("event 2097152", "event 4 32"),
    ("display 0", "display 0 0 0 0 0 0 0 0 0 120 0 0 128"),
];

const CASE_11: Case = &[
    ("event 16384", "event 0 14"),
    ("display 1", "display 0 0 0 0 0 0 0 0 0 120 0 0 128"),
    ("send 0", "send 0"),
    ("refresh 1", "refresh 0"),
    ("display 1", "display 0 0 2 1 4 0 0 0 0 120 0 0 129"),
];

/// Right is On after the transfer because its inbox says that left's flight director is On.
const CASE_12: Case = &[
    ("event 16384", "event 0 14"),
    ("send 0", "send 0"),
    ("refresh 1", "refresh 0"),
    ("event 32", "event 0 5"),
    ("display 1", "display 0 0 1 1 4 0 0 0 0 120 0 0 256"),
    ("display 0", "display 0 1 2 1 4 0 0 0 0 120 0 0 257"),
    ("refresh 0", "refresh 0"),
    ("display 0", "display 0 1 0 0 0 0 0 0 0 120 0 0 256"),
    ("pick 0", "pick 0 0 0"),
];

#[cfg(test)]
mod tests {
    use super::*;
    use crate::compare;

    #[test]
    fn every_command_has_one_answer_of_its_name() {
        for case in CASES {
            let (script, paper) = texts(case);
            assert_eq!(script.commands(), case.len());
            assert_eq!(compare::blocks(paper.as_bytes()).len(), case.len());
            for (command, answer) in case {
                assert_eq!(command.split(' ').next(), answer.split(' ').next());
            }
        }
    }

    #[test]
    fn answers_have_as_many_words_as_their_command_asks_for() {
        for (command, answer) in CASES.into_iter().flatten() {
            let expected = match command.split(' ').next() {
                Some("display") => 14,
                Some("bench") => 1 + 4 + 4 + 6 + 6 + 4 * 12,
                Some("event") => 3,
                Some("pick") => 4,
                _ => 2,
            };
            assert_eq!(answer.split(' ').count(), expected, "{command}");
        }
    }

    #[test]
    fn the_sheet_has_the_words_of_the_paper() {
        let given: Vec<&str> = CASES.into_iter().flatten().map(|entry| entry.0).collect();
        let words = [
            0, 4, 32, 1_024, 2_048, 16_384, 16_400, 65_536, 131_072, 2_097_152,
        ];
        for word in words {
            assert!(given.contains(&format!("event {word}").as_str()), "{word}");
        }
        for reading in [
            "heading 359.25",
            "heading 359.5",
            "altitude 56000.5",
            "altitude 56001",
            "roll -0.5",
        ] {
            assert!(
                given.contains(&format!("reading {reading}").as_str()),
                "{reading}"
            );
        }
    }
}
