//! A script together with what is known ahead of some of its answers. Where an answer is not as
//! known, the part would try less than it says.

use super::states::Known;
use crate::compare;
use crate::parts::shown::Shown;
use crate::say;
use crate::script::Script;

#[derive(Default)]
pub struct Asked {
    pub script: Script,
    /// Each with the index of its answer.
    expected: Vec<(usize, Expected)>,
}

enum Expected {
    Answer(String),
    Bench(Known),
}

impl Asked {
    /// A line whose answer is known.
    pub fn answered(&mut self, line: &str, answer: String) {
        let index = self.script.commands();
        self.expected.push((index, Expected::Answer(answer)));
        self.script.line(line);
    }

    /// A bench of which some is known.
    pub fn bench(&mut self, known: Known) {
        let index = self.script.commands();
        self.expected.push((index, Expected::Bench(known)));
        self.script.line("bench");
    }

    /// Both displays, and a bench of which some is known.
    pub fn show(&mut self, known: Known) {
        self.displays();
        self.bench(known);
    }

    /// Both displays, and a bench of which nothing is known.
    pub fn show_unknown(&mut self) {
        self.displays();
        self.script.line("bench");
    }

    fn displays(&mut self) {
        for side in 0..2 {
            say!(self.script, "display {side}");
        }
    }

    pub fn check(&self, output: &[u8]) -> Result<(), String> {
        let answers = compare::blocks(output);
        for (index, expected) in &self.expected {
            let answer = answers.get(*index).copied().unwrap_or(b"no answer\n");
            if let Err(problem) = expected.check(answer) {
                let shown = String::from_utf8_lossy(answer);
                return Err(format!("answer {index} has to be {problem}: {shown}"));
            }
        }
        Ok(())
    }
}

impl Expected {
    fn check(&self, answer: &[u8]) -> Result<(), String> {
        match self {
            Expected::Answer(text) if answer.strip_suffix(b"\n") == Some(text.as_bytes()) => Ok(()),
            Expected::Answer(text) => Err(text.clone()),
            Expected::Bench(known) => match Shown::read(answer) {
                Some(shown) if known.is_shown(&shown) => Ok(()),
                _ => Err(format!("a bench with {known:?}")),
            },
        }
    }
}

#[cfg(test)]
mod tests {
    use super::*;
    use crate::parts::shown::tests::{answer, SOME};

    fn known() -> Known {
        Known::of(&SOME)
    }

    fn asked() -> Asked {
        let mut asked = Asked::default();
        asked.script.line("power-on");
        asked.answered("event 4", "event 0 2".to_string());
        asked.show(known());
        asked.show_unknown();
        asked
    }

    #[test]
    fn a_script_has_all_its_lines() {
        let expected =
            "power-on\nevent 4\ndisplay 0\ndisplay 1\nbench\ndisplay 0\ndisplay 1\nbench\n";
        assert_eq!(asked().script.text(), expected.as_bytes());
    }

    #[test]
    fn an_answer_that_is_not_as_known_is_noticed() {
        let bench = answer(&SOME);
        let output = format!("power-on 0\nevent 0 2\ndisplay\ndisplay\n{bench}\nx\ny\nz\n");
        assert_eq!(asked().check(output.as_bytes()), Ok(()));
        for (right, wrong) in [
            ("event 0 2\n", "event 0 3\n"),
            ("event 0 2\n", "event 1 32\n"),
            ("event 0 2\n", ""),
            ("bench 1 0 1 0", "bench 1 0 0 0"),
            ("bench 1 0 1 0", "bench 1 0 1 1"),
            ("bench 1", "error 1"),
        ] {
            let bad = output.replacen(right, wrong, 1);
            assert_ne!(bad, output);
            assert!(asked().check(bad.as_bytes()).is_err(), "{wrong}");
        }
        assert!(asked().check(b"power-on 0\n").is_err());
    }
}
