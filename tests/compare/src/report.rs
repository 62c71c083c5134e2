//! What is printed at a difference.

use std::path::PathBuf;
use std::{env, fs, process};

use crate::compare::Difference;
use crate::script;
use crate::shrink::Shortest;

/// Longer scripts go to a file, and only their last lines are printed.
const MOST_LINES: usize = 200;
const LAST_LINES: usize = 40;

/// A very long line or answer is cut where it is printed.
const MOST_BYTES: usize = 1_000;

/// A difference and all that helps to see it again.
pub struct Report<'a> {
    pub part: &'a str,
    pub seed: u64,
    pub script: &'a [u8],
    pub difference: &'a Difference,
    /// Who gave which answer, and how their runs ended if not well.
    pub names: [&'a str; 2],
    pub troubles: [Option<&'a str>; 2],
    pub shortest: Shortest<'a>,
}

impl Report<'_> {
    pub fn text(&self) -> String {
        let mut text = format!("DIFFERENCE in {}, seed {}\n", self.part, self.seed);
        text += &self.place();
        for (index, name) in self.names.iter().enumerate() {
            let answer = self.difference.answers[index].as_deref();
            let answer = answer.map_or(self.no_answer().to_string(), readable);
            line(&mut text, &format!("{name}: {answer}"));
            if let Some(trouble) = self.troubles[index] {
                line(&mut text, &format!("{name} {trouble}"));
            }
        }
        if !self.shortest.shown_again {
            line(
                &mut text,
                "the difference did not come again in a second run",
            );
        }
        text + &self.listing()
    }

    fn no_answer(&self) -> &str {
        match self.difference.line {
            Some(_) => "(no answer)",
            None => "(no more answers)",
        }
    }

    fn place(&self) -> String {
        let lines = script::lines(self.script);
        match self.difference.line {
            Some(index) => {
                let what = if self.difference.in_drawing {
                    " (the drawing after its answer)"
                } else {
                    ""
                };
                let line = readable(lines[index]);
                format!("script line {}{what}: {line}\n", index + 1)
            }
            None => format!("after the last of {} script lines\n", lines.len()),
        }
    }

    /// The script, if it is short and can be printed as it is; else a file with it and its end.
    fn listing(&self) -> String {
        let lines = script::lines(self.shortest.text);
        let mut text = format!("script that shows it (lines: {}", lines.len());
        let mut shown = &lines[..];
        if lines.len() > MOST_LINES || !lines.iter().all(|line| is_plain(line)) {
            shown = &lines[lines.len().saturating_sub(LAST_LINES)..];
            text += &format!(", the last {} below), ", shown.len());
            text += &match self.write_file() {
                Ok(path) => format!("in {}", path.display()),
                Err(error) => format!("not stored: {error}"),
            };
        } else {
            text.push(')');
        }
        line(&mut text, ":");
        for entry in shown {
            line(&mut text, &readable(entry));
        }
        text
    }

    fn write_file(&self) -> std::io::Result<PathBuf> {
        let name = format!("compare-{}-{}.script", self.seed, process::id());
        let path = env::temp_dir().join(name);
        fs::write(&path, self.shortest.text)?;
        Ok(path)
    }
}

fn line(text: &mut String, line: &str) {
    text.push_str(line);
    text.push('\n');
}

/// Whether a line can be printed as it is.
fn is_plain(line: &[u8]) -> bool {
    let bare = line.strip_suffix(b"\n");
    let printable = |byte: &u8| (b' '..=b'~').contains(byte);
    bare.is_some_and(|bare| bare.len() <= MOST_BYTES && bare.iter().all(printable))
}

/// A line or an answer without its newline, with other bytes than text written as escapes.
fn readable(bytes: &[u8]) -> String {
    let bytes = bytes.strip_suffix(b"\n").unwrap_or(bytes);
    let start = &bytes[..bytes.len().min(MOST_BYTES)];
    let text = start.escape_ascii().to_string().replace("\\'", "'");
    if start.len() < bytes.len() {
        format!("{text}.. ({} bytes)", bytes.len())
    } else {
        text
    }
}

#[cfg(test)]
mod tests {
    use super::*;

    fn report(script: &str, index: Option<usize>, shortest: &str) -> String {
        let difference = Difference {
            line: index,
            in_drawing: false,
            answers: [Some(b"event 0 1\n".to_vec()), None],
        };
        report_of(&difference, script, shortest)
    }

    fn report_of(difference: &Difference, script: &str, shortest: &str) -> String {
        Report {
            part: "knobs",
            seed: 77,
            script: script.as_bytes(),
            difference,
            names: ["console", "second"],
            troubles: [None, Some("ended with exit status: 3")],
            shortest: Shortest {
                text: shortest.as_bytes(),
                shown_again: true,
            },
        }
        .text()
    }

    #[test]
    fn a_short_script_is_printed() {
        let expected = "DIFFERENCE in knobs, seed 77\nscript line 2: event 2\n\
            console: event 0 1\nsecond: (no answer)\nsecond ended with exit status: 3\n\
            script that shows it (lines: 1):\nevent 2\n";
        assert_eq!(report("event 1\nevent 2\n", Some(1), "event 2\n"), expected);
    }

    #[test]
    fn a_difference_in_a_drawing_is_told_from_one_in_an_answer() {
        let difference = Difference {
            line: Some(1),
            in_drawing: true,
            answers: [None, None],
        };
        let text = report_of(&difference, "watch on\nsend 0\n", "");
        let place = "script line 2 (the drawing after its answer): send 0\nconsole: (no answer)\n";
        assert!(text.contains(place), "{text}");
    }

    #[test]
    fn a_difference_at_the_end_names_no_command() {
        let text = report("event 1\n", None, "");
        assert!(text.contains("after the last of 1 script lines\n"));
        assert!(text.contains("\nsecond: (no more answers)\n"));
    }

    /// The stored script, which is removed again.
    fn stored(text: &str) -> String {
        let line = text.lines().find(|line| line.contains(", in ")).unwrap();
        let path = line.split(", in ").nth(1).unwrap();
        let path = path
            .split(", the last")
            .next()
            .unwrap()
            .trim_end_matches(':');
        let stored = fs::read_to_string(path).unwrap();
        fs::remove_file(path).unwrap();
        stored
    }

    #[test]
    fn a_script_that_is_long_or_no_text_goes_to_a_file() {
        let long: String = (1..=201)
            .map(|number| format!("event {number}\n"))
            .collect();
        let text = report(&long, Some(0), &long);
        assert_eq!(stored(&text), long);
        assert!(
            text.contains("(lines: 201, the last 40 below)")
                && text.contains(":\nevent 162\n")
                && text.ends_with("event 201\n")
        );
        let odd = report("a\tb\n", Some(0), "a\tb\n");
        assert_eq!(stored(&odd), "a\tb\n");
        assert!(odd.ends_with(":\na\\tb\n"));
        let unfinished = report("event 1", Some(0), "event 1");
        assert_eq!(stored(&unfinished), "event 1");
    }

    #[test]
    fn long_lines_are_cut() {
        let cut = readable(&[b'x'; 1_500]);
        assert!(cut.len() < 1_100 && cut.ends_with("x.. (1500 bytes)"));
        assert_eq!(readable(b"it's \"a\"\n"), "it's \\\"a\\\"");
    }
}
