//! Runs the two programs side by side and compares what they say.

use std::path::{Path, PathBuf};
use std::thread;

use crate::compare::{self, Difference};
use crate::report::Report;
use crate::run::{self, Attempt, Outcome};
use crate::script::{self, Script};
use crate::shrink::{self, Shortest};

const NAMES: [&str; 2] = ["console", "second"];

/// Why a run stops.
pub enum Stop {
    CannotStart(String),
    /// A difference, or answers that a part does not accept.
    Failed(String),
}

pub struct Gate {
    programs: [PathBuf; 2],
    pub seed: u64,
    pub part: &'static str,
    /// The commands of the part so far.
    pub commands: usize,
}

impl Gate {
    pub fn new(programs: [PathBuf; 2], seed: u64) -> Gate {
        Gate {
            programs,
            seed,
            part: "",
            commands: 0,
        }
    }

    pub fn start_part(&mut self, name: &'static str) {
        self.part = name;
        self.commands = 0;
    }

    /// Holds the answers of both programs to each other, and gives back those of the second.
    pub fn check(&mut self, script: &Script) -> Result<Vec<u8>, Stop> {
        let [console, second] = self.run(script.text(), Attempt::First)?;
        self.commands += script.commands();
        match compare::first_difference(script.text(), [&console, &second]) {
            None => Ok(second.output),
            Some(difference) => {
                let shortest = self.shortest(script.text(), difference.line);
                let runs = [(NAMES[0], &console), (NAMES[1], &second)];
                Err(self.failed(script.text(), &difference, runs, shortest))
            }
        }
    }

    /// As `check`, and holds both to the answers that the paper gives.
    pub fn check_against(&mut self, script: &Script, paper: &str) -> Result<(), Stop> {
        let text = script.text();
        let outcomes = self.run(text, Attempt::First)?;
        let paper = Outcome {
            output: paper.as_bytes().to_vec(),
            trouble: None,
        };
        for (name, outcome) in NAMES.into_iter().zip(&outcomes) {
            if let Some(difference) = compare::first_difference(text, [outcome, &paper]) {
                let shortest = Shortest {
                    text: difference
                        .line
                        .map_or(text, |line| script::up_to(text, line)),
                    shown_again: true,
                };
                let runs = [(name, outcome), ("the papers", &paper)];
                return Err(self.failed(text, &difference, runs, shortest));
            }
        }
        self.check(script).map(|_| ())
    }

    /// Runs the console alone, for what only its own answers can be held to.
    pub fn ask_console(&mut self, script: &Script) -> Result<Vec<u8>, Stop> {
        let outcome = start(&self.programs[0], script.text(), Attempt::First)?;
        self.commands += script.commands();
        match outcome.trouble {
            None => Ok(outcome.output),
            Some(trouble) => Err(self.reject(&format!("{} {trouble}", NAMES[0]))),
        }
    }

    /// Stops a part whose answers are the same but not what they have to be.
    pub fn reject(&self, problem: &str) -> Stop {
        Stop::Failed(format!(
            "FAILED in {}, seed {}\n{problem}\n",
            self.part, self.seed
        ))
    }

    fn run(&self, script: &[u8], attempt: Attempt) -> Result<[Outcome; 2], Stop> {
        let [console, second] = &self.programs;
        let (console, second) = thread::scope(|scope| {
            let console = scope.spawn(|| start(console, script, attempt));
            let second = start(second, script, attempt);
            (console.join().expect("a run does not panic"), second)
        });
        Ok([console?, second?])
    }

    fn shortest<'a>(&self, script: &'a [u8], line: Option<usize>) -> Shortest<'a> {
        shrink::shortest(script, line, &mut |text| {
            let outcomes = self.run(text, Attempt::Again);
            outcomes.is_ok_and(|[console, second]| {
                compare::first_difference(text, [&console, &second]).is_some()
            })
        })
    }

    fn failed(
        &self,
        script: &[u8],
        difference: &Difference,
        runs: [(&str, &Outcome); 2],
        shortest: Shortest,
    ) -> Stop {
        let report = Report {
            part: self.part,
            seed: self.seed,
            script,
            difference,
            names: runs.map(|run| run.0),
            troubles: runs.map(|run| run.1.trouble.as_deref()),
            shortest,
        };
        Stop::Failed(report.text())
    }
}

fn start(program: &Path, script: &[u8], attempt: Attempt) -> Result<Outcome, Stop> {
    run::run(program, script, attempt)
        .map_err(|error| Stop::CannotStart(format!("{}: {error}", program.display())))
}

#[cfg(test)]
mod tests {
    use super::*;

    /// `cat` gives each command back as its answer, and `true` gives none.
    fn gate(programs: [&str; 2]) -> Gate {
        Gate::new(programs.map(PathBuf::from), 7)
    }

    fn script() -> Script {
        let mut script = Script::default();
        script.line("# only commands");
        script.line("send 0");
        script.line("send 1");
        script
    }

    fn report(result: Result<(), Stop>) -> String {
        match result {
            Err(Stop::Failed(report)) => report,
            Err(Stop::CannotStart(problem)) => panic!("cannot start {problem}"),
            Ok(()) => panic!("no difference"),
        }
    }

    #[test]
    fn same_answers_are_counted_and_given_back() {
        let mut gate = gate(["cat", "cat"]);
        gate.start_part("x");
        let mut script = Script::default();
        script.line("send 0");
        for _ in 0..2 {
            assert!(gate
                .check(&script)
                .is_ok_and(|output| output == b"send 0\n"));
        }
        assert_eq!(gate.commands, 2);
        gate.start_part("y");
        assert_eq!((gate.part, gate.commands), ("y", 0));
    }

    #[test]
    fn a_difference_is_reported_for_either_program() {
        for programs in [["cat", "true"], ["true", "cat"]] {
            let mut gate = gate(programs);
            gate.start_part("x");
            let text = report(gate.check(&script()).map(|_| ()));
            assert!(text.starts_with("DIFFERENCE in x, seed 7\nscript line 2: send 0\n"));
            let name = NAMES[usize::from(programs[0] == "cat")];
            assert!(text.contains(&format!("\n{name}: (no answer)\n")), "{text}");
        }
    }

    #[test]
    fn both_programs_are_held_to_the_paper() {
        let mut script = Script::default();
        script.line("send 0");
        script.line("send 1");
        script.line("send 2");
        let paper = "send 0\nsend 1\nsend 2\n";
        assert!(gate(["cat", "cat"]).check_against(&script, paper).is_ok());
        let text = report(gate(["cat", "cat"]).check_against(&script, "send 0\nsend 3\nsend 2\n"));
        assert!(
            text.contains("console: send 1\nthe papers: send 3\n"),
            "{text}"
        );
        assert!(text.ends_with("(lines: 2):\nsend 0\nsend 1\n"), "{text}");
        let text = report(gate(["cat", "true"]).check_against(&script, paper));
        assert!(
            text.contains("second: (no answer)\nthe papers: send 0\n"),
            "{text}"
        );
    }

    #[test]
    fn the_console_alone_answers_and_its_bad_end_is_told() {
        let mut good = gate(["cat", "./nothing"]);
        let output = good.ask_console(&script());
        assert!(output.is_ok_and(|output| output == script().text()));
        assert_eq!(good.commands, 2);
        let text = report(gate(["false", "cat"]).ask_console(&script()).map(|_| ()));
        assert!(text.contains("\nconsole ended with "), "{text}");
    }

    #[test]
    fn a_watched_difference_is_cut_to_a_script_that_shows_it() {
        let mut script = Script::default();
        for line in ["power-on", "watch on", "bench", "power-on", "send 0"] {
            script.line(line);
        }
        // `cat` draws nothing, so the send differs, but not without the watch.
        let text = report(gate(["cat", "cat"]).check(&script).map(|_| ()));
        let place = "script line 5 (the drawing after its answer): send 0\n";
        assert!(text.contains(place), "{text}");
        let end = "(lines: 4):\nwatch on\nbench\npower-on\nsend 0\n";
        assert!(text.ends_with(end), "{text}");
    }

    #[test]
    fn a_program_that_is_not_there_is_no_difference() {
        for programs in [["cat", "./nothing"], ["./nothing", "cat"]] {
            let result = gate(programs).check(&script());
            assert!(
                matches!(result, Err(Stop::CannotStart(problem)) if problem.contains("nothing"))
            );
        }
    }
}
