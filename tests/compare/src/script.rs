//! Scripts, and which of their lines are answered.

use std::fmt::Arguments;
use std::io::Write;

/// The most bytes of a command, the newline not counted. A longer line is an error whatever it
/// holds, so a long comment is answered too.
pub const LONGEST: usize = 255;

#[derive(Default)]
pub struct Script {
    text: Vec<u8>,
    commands: usize,
}

impl Script {
    pub fn line(&mut self, line: impl AsRef<[u8]>) {
        self.without_newline(line);
        self.text.push(b'\n');
    }

    pub fn format(&mut self, line: Arguments) {
        let start = self.text.len();
        self.text.write_fmt(line).expect("a vector takes all bytes");
        self.commands += usize::from(is_answered(&self.text[start..]));
        self.text.push(b'\n');
    }

    /// Only for the last line of a script.
    pub fn without_newline(&mut self, line: impl AsRef<[u8]>) {
        self.commands += usize::from(is_answered(line.as_ref()));
        self.text.extend_from_slice(line.as_ref());
    }

    pub fn text(&self) -> &[u8] {
        &self.text
    }

    /// The number of lines that are answered.
    pub fn commands(&self) -> usize {
        self.commands
    }
}

/// Adds a line to a script, written as with `format!`.
#[macro_export]
macro_rules! say {
    ($script:expr, $($line:tt)*) => {
        $script.format(format_args!($($line)*))
    };
}

/// The lines of a script, each with its newline; the last may have none.
pub fn lines(text: &[u8]) -> Vec<&[u8]> {
    text.split_inclusive(|&byte| byte == b'\n').collect()
}

/// The start of a script, up to and with the line of that index.
pub fn up_to(text: &[u8], line: usize) -> &[u8] {
    let length = lines(text)
        .iter()
        .take(line + 1)
        .map(|line| line.len())
        .sum();
    &text[..length]
}

fn bare(line: &[u8]) -> &[u8] {
    line.strip_suffix(b"\n").unwrap_or(line)
}

/// Whether a line gets an answer: all do but empty ones and those with a comment alone.
pub fn is_answered(line: &[u8]) -> bool {
    let line = bare(line);
    line.len() > LONGEST || !words(line).is_empty()
}

/// Whether a line asks for a new bench, which nothing that went before shows in.
pub fn is_new_bench(line: &[u8]) -> bool {
    matches!(command(line)[..], [b"power-on"] | [b"start", _])
}

/// Whether a line asks for a new bus area, which nothing that went before shows in.
pub fn is_area(line: &[u8]) -> bool {
    matches!(command(line)[..], [b"area", _])
}

/// What a line switches the watch to, if it does.
pub fn watch(line: &[u8]) -> Option<bool> {
    match command(line)[..] {
        [b"watch", b"on"] => Some(true),
        [b"watch", b"off"] => Some(false),
        _ => None,
    }
}

/// The words of a line, or none if it is too long to be a command.
fn command(line: &[u8]) -> Vec<&[u8]> {
    let line = bare(line);
    if line.len() > LONGEST {
        return Vec::new();
    }
    words(line)
}

/// The bytes that part words.
pub const SEPARATORS: [u8; 3] = *b" \t\r";

/// The words ahead of a comment.
fn words(line: &[u8]) -> Vec<&[u8]> {
    let end = line.iter().position(|&byte| byte == b'#');
    let command = &line[..end.unwrap_or(line.len())];
    let parts = command.split(|byte| SEPARATORS.contains(byte));
    parts.filter(|part| !part.is_empty()).collect()
}

#[cfg(test)]
mod tests {
    use super::*;

    #[test]
    fn empty_lines_and_comments_alone_are_not_answered() {
        for line in [
            "",
            "\n",
            "  \n",
            "#",
            "# event 1\n",
            "   # x",
            "#\r\n",
            "\t",
            "\r\n",
            " \r\t \n",
            "\t\r# event 1\n",
        ] {
            assert!(!is_answered(line.as_bytes()), "{line:?}");
        }
    }

    #[test]
    fn every_other_line_is_answered() {
        for line in [
            "event 1\n",
            "x",
            "\tx\r\n",
            "\u{b}",
            "\u{c}\n",
            "\0",
            "event 1#x",
            " a # b",
        ] {
            assert!(is_answered(line.as_bytes()), "{line:?}");
        }
        assert!(is_answered(b"\xff\n"));
    }

    #[test]
    fn a_line_above_the_limit_is_answered_whatever_it_holds() {
        for filler in *b" #\t\r" {
            let mut line = vec![filler; 255];
            line.push(b'\n');
            assert!(!is_answered(&line));
            line.insert(0, filler);
            assert!(is_answered(&line));
        }
    }

    #[test]
    fn commands_are_the_answered_lines() {
        let mut script = Script::default();
        script.line("event 1");
        script.line("");
        script.line("# x");
        say!(script, "turn {} {}", 1, 2);
        say!(script, "  # {}", 3);
        script.without_newline("bench");
        assert_eq!(script.text(), b"event 1\n\n# x\nturn 1 2\n  # 3\nbench");
        assert_eq!(script.commands(), 3);
        let answered = lines(script.text())
            .into_iter()
            .filter(|line| is_answered(line));
        assert_eq!(answered.count(), script.commands());
    }

    #[test]
    fn a_start_holds_the_line_that_it_is_named_by() {
        let text = b"a\n\nb\nc";
        assert_eq!(up_to(text, 0), b"a\n");
        assert_eq!(up_to(text, 2), b"a\n\nb\n");
        assert_eq!(up_to(text, 3), text);
    }

    #[test]
    fn a_new_bench_is_told_from_what_looks_like_it() {
        for line in [
            "power-on\n",
            "power-on",
            "  power-on  # again\n",
            "power-on\r\n",
            "\tpower-on\t\n",
            "start 90\n",
            "\tstart\r-7 # 90",
        ] {
            assert!(is_new_bench(line.as_bytes()), "{line:?}");
        }
        for line in [
            "power-on 0\n",
            "Power-on\n",
            "# power-on\n",
            "power\t-on\n",
            "start\n",
            "start 90 91\n",
            "Start 90\n",
            "# start 90\n",
        ] {
            assert!(!is_new_bench(line.as_bytes()), "{line:?}");
        }
        let mut long = b"power-on #".to_vec();
        long.resize(256, b'x');
        assert!(!is_new_bench(&long));
    }

    #[test]
    fn a_new_area_is_told_from_what_looks_like_it() {
        for line in ["area 19\n", "area 0", "\tarea\r40 # 0\n"] {
            assert!(is_area(line.as_bytes()), "{line:?}");
        }
        for line in ["area\n", "area 1 2", "Area 1", "# area 1", "areas 1"] {
            assert!(!is_area(line.as_bytes()), "{line:?}");
        }
    }

    #[test]
    fn what_switches_the_watch_is_told_from_what_does_not() {
        for line in [
            "watch on\n",
            "watch on",
            "\twatch\r \ton\r\n",
            "watch on#off",
        ] {
            assert_eq!(watch(line.as_bytes()), Some(true), "{line:?}");
        }
        for line in ["watch off\n", "  watch off # on"] {
            assert_eq!(watch(line.as_bytes()), Some(false), "{line:?}");
        }
        for line in [
            "watch",
            "watch On",
            "watch 1",
            "watch on off",
            "Watch on",
            "watchon",
            "on",
            "# watch on",
            "watch # on",
        ] {
            assert_eq!(watch(line.as_bytes()), None, "{line:?}");
        }
        let mut line = b"watch on".to_vec();
        line.resize(255, b'\r');
        assert_eq!(watch(&line), Some(true));
        line.push(b'\r');
        assert_eq!(watch(&line), None);
    }
}
