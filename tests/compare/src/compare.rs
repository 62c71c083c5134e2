//! Which answers are the same, and where two programs first differ.

use crate::run::Outcome;
use crate::script;

/// The blocks of an output: a line with its newline, or all lines from `panel` or `help` to `end`.
///
/// A drawing that the watch adds to an answer is a block of its own.
pub fn blocks(output: &[u8]) -> Vec<&[u8]> {
    let mut blocks = Vec::new();
    let mut start = 0;
    let mut end = 0;
    let mut open = false;
    for line in output.split_inclusive(|&byte| byte == b'\n') {
        end += line.len();
        open = if open {
            line != b"end\n"
        } else {
            matches!(line, b"panel\n" | b"help\n")
        };
        if !open {
            blocks.push(&output[start..end]);
            start = end;
        }
    }
    if start < end {
        // A block without its end.
        blocks.push(&output[start..]);
    }
    blocks
}

#[derive(PartialEq)]
enum Form {
    Drawing,
    Help,
    Error,
    Plain,
    /// No answer that a program may give.
    Wrong,
}

/// The form of an answer to the script line of that number, from 1.
fn form(answer: &[u8], number: usize) -> Form {
    let right = if answer.starts_with(b"panel\n") {
        (answer.ends_with(b"\nend\n"), Form::Drawing)
    } else if answer.starts_with(b"help\n") {
        (answer.ends_with(b"\nend\n"), Form::Help)
    } else if answer.starts_with(b"error") {
        (is_error(answer, number), Form::Error)
    } else {
        (answer.ends_with(b"\n"), Form::Plain)
    };
    match right {
        (true, form) => form,
        (false, _) => Form::Wrong,
    }
}

/// The text of an error is free, but there has to be one that can be read.
fn is_error(answer: &[u8], number: usize) -> bool {
    let start = format!("error {number}: ");
    let rest = answer.strip_prefix(start.as_bytes());
    let text = rest.and_then(|rest| rest.strip_suffix(b"\n"));
    let readable = |byte: &u8| (b' '..=b'~').contains(byte);
    text.is_some_and(|text| !text.is_empty() && text.iter().all(readable))
}

/// Whether two answers to the script line of that number, from 1, are the same.
pub fn same(one: &[u8], other: &[u8], number: usize) -> bool {
    match form(one, number) {
        Form::Wrong => false,
        Form::Plain => one == other,
        free => free == form(other, number),
    }
}

/// The first words of the answers that a drawing follows while the watch is on.
const WATCHED: [&[u8]; 8] = [
    b"event",
    b"turn",
    b"reading",
    b"send",
    b"refresh",
    b"power-on",
    b"start",
    b"damage",
];

fn is_watched(answer: &[u8]) -> bool {
    let first = answer.split(|&byte| byte == b' ').next();
    first.is_some_and(|word| WATCHED.contains(&word))
}

/// Where two programs first differ, with the answer of each there.
#[derive(Debug, PartialEq)]
pub struct Difference {
    /// The script line, from 0; none if the programs differ only after the last answer.
    pub line: Option<usize>,
    /// Whether the answer to that line is the same and the drawing that has to follow it is not.
    pub in_drawing: bool,
    pub answers: [Option<Vec<u8>>; 2],
}

pub fn first_difference(script: &[u8], outcomes: [&Outcome; 2]) -> Option<Difference> {
    let mut blocks = Pairs {
        blocks: outcomes.map(|outcome| blocks(&outcome.output)),
        next: 0,
        in_drawing: false,
    };
    let mut watch = false;
    for (line, text) in script::lines(script).iter().enumerate() {
        if !script::is_answered(text) {
            continue;
        }
        watch = script::watch(text).unwrap_or(watch);
        if !blocks.answer_to(line + 1, watch) {
            return Some(blocks.difference(Some(line)));
        }
    }
    let trouble = outcomes.iter().any(|outcome| outcome.trouble.is_some());
    (!blocks.are_used_up() || trouble).then(|| blocks.difference(None))
}

/// The blocks of both programs, and the next pair that is to be compared.
struct Pairs<'a> {
    blocks: [Vec<&'a [u8]>; 2],
    next: usize,
    /// Whether that pair has to be a drawing of the watch.
    in_drawing: bool,
}

impl<'a> Pairs<'a> {
    /// Passes over the answers to the script line of that number, from 1, with the drawings of the
    /// watch. Stays at the first pair that differs, and tells whether there was none.
    fn answer_to(&mut self, number: usize, watch: bool) -> bool {
        let Some([one, other]) = self.pair() else {
            return false;
        };
        if !same(one, other, number) {
            return false;
        }
        self.next += 1;
        !(watch && is_watched(one)) || self.drawing(number)
    }

    /// Passes over a drawing of each program.
    fn drawing(&mut self, number: usize) -> bool {
        let drawn = |pair: [&[u8]; 2]| pair.map(|block| form(block, number)) == DRAWINGS;
        self.in_drawing = !self.pair().is_some_and(drawn);
        self.next += usize::from(!self.in_drawing);
        !self.in_drawing
    }

    fn pair(&self) -> Option<[&'a [u8]; 2]> {
        let [one, other] = &self.blocks;
        Some([one.get(self.next)?, other.get(self.next)?])
    }

    fn are_used_up(&self) -> bool {
        self.blocks.iter().all(|all| all.len() <= self.next)
    }

    fn difference(&self, line: Option<usize>) -> Difference {
        let all = self.blocks.each_ref();
        Difference {
            line,
            in_drawing: self.in_drawing,
            answers: all.map(|all| all.get(self.next).map(|block| block.to_vec())),
        }
    }
}

const DRAWINGS: [Form; 2] = [Form::Drawing, Form::Drawing];

#[cfg(test)]
mod tests {
    use super::*;

    fn outcome(output: &str) -> Outcome {
        let (output, trouble) = (output.as_bytes().to_vec(), None);
        Outcome { output, trouble }
    }

    fn difference(script: &str, one: &str, other: &str) -> Option<Difference> {
        first_difference(script.as_bytes(), [&outcome(one), &outcome(other)])
    }

    /// The line from 0 at which the outputs differ.
    fn line(script: &str, one: &str, other: &str) -> Option<usize> {
        difference(script, one, other)
            .expect("the outputs differ")
            .line
    }

    #[test]
    fn a_drawing_is_one_block() {
        let output = b"event 0 1\npanel\npanel\n end\nhelp\nend\nend\nsend 0\n";
        let expected: [&[u8]; 4] = [
            b"event 0 1\n",
            b"panel\npanel\n end\nhelp\nend\n",
            b"end\n",
            b"send 0\n",
        ];
        assert_eq!(blocks(output), expected);
        assert_eq!(blocks(b"a\npanel\nb"), [&b"a\n"[..], b"panel\nb"]);
        assert_eq!(blocks(b"a\nb"), [b"a\n".as_slice(), b"b"]);
        assert!(blocks(b"").is_empty());
    }

    #[test]
    fn help_is_one_block_and_so_is_each_of_two_drawings() {
        let output = b"help\nevent WORD\npanel\nend\nsend 0\npanel\nend\npanel\nend\n";
        let expected: [&[u8]; 4] = [
            b"help\nevent WORD\npanel\nend\n",
            b"send 0\n",
            b"panel\nend\n",
            b"panel\nend\n",
        ];
        assert_eq!(blocks(output), expected);
        assert_eq!(blocks(b"a\nhelp\nb"), [&b"a\n"[..], b"help\nb"]);
    }

    #[test]
    fn plain_answers_are_the_same_byte_for_byte() {
        assert!(same(b"event 0 1\n", b"event 0 1\n", 1));
        for other in [
            "event 0 2\n",
            "event 0  1\n",
            "event 0 1",
            "event 0 1 \n",
            "\n",
        ] {
            assert!(!same(b"event 0 1\n", other.as_bytes(), 1), "{other:?}");
            assert!(!same(other.as_bytes(), b"event 0 1\n", 1), "{other:?}");
        }
        assert!(!same(b"event 0 1", b"event 0 1", 1));
    }

    #[test]
    fn errors_are_the_same_up_to_their_text() {
        let good = b"error 7: no such command\n";
        assert!(same(good, b"error 7: ?\n", 7));
        assert!(!same(good, good, 8));
        let wrong: [&[u8]; 9] = [
            b"error 8: x\n",
            b"error 07: x\n",
            b"error 7: \n",
            b"error 7:\n",
            b"error 7: x",
            b"error 7: \t\n",
            b"error 7: \xc3\xa9\n",
            b"error 7: \x7f\n",
            b"event 0 1\n",
        ];
        for other in wrong {
            assert!(!same(good, other, 7), "{other:?}");
            assert!(!same(other, good, 7), "{other:?}");
            assert!(!same(other, other, 7) || other == b"event 0 1\n");
        }
    }

    #[test]
    fn drawings_are_the_same_if_both_have_an_end() {
        assert!(same(b"panel\nend\n", b"panel\nx\n\xff\nend\n", 1));
        for other in ["panel\nx\n", "panel\nend", "panel\n", "panel", "end\n"] {
            assert!(!same(b"panel\nend\n", other.as_bytes(), 1), "{other:?}");
            assert!(!same(other.as_bytes(), b"panel\nend\n", 1), "{other:?}");
        }
    }

    #[test]
    fn help_is_the_same_if_both_have_an_end() {
        assert!(same(b"help\nend\n", b"help\nx\nend\n", 1));
        for other in ["help\nx\n", "help\nend", "help\n", "panel\nend\n", "end\n"] {
            assert!(!same(b"help\nend\n", other.as_bytes(), 1), "{other:?}");
            assert!(!same(other.as_bytes(), b"help\nend\n", 1), "{other:?}");
        }
    }

    const WATCHED_SCRIPT: &str =
        "watch on\nsend 0\n# x\npanel\nx\npress hdg\nhelp\nbench\nwatch off\nsend 1\n";

    #[test]
    fn a_drawing_of_the_watch_belongs_to_the_line_ahead_of_it() {
        let good = "watch 0\nsend 0\npanel\nend\npanel\nend\nerror 5: a\nevent 0 14\n\
            panel\nend\nhelp\nend\nbench 0\nwatch 0\nsend 0\n";
        let drawn = good.replace("panel\n", "panel\nsend 1\n");
        assert_eq!(difference(WATCHED_SCRIPT, good, &drawn), None);
        let changes = [
            ("send 0\npanel", "send 1\npanel", 1),
            ("send 0\npanel\nend\n", "send 0\n", 3),
            ("send 0\npanel\nend\npanel\n", "send 0\nbench 0\npanel\n", 1),
            ("14\npanel\nend\n", "14\n", 5),
            ("error 5: a\n", "error 5: a\npanel\nend\n", 5),
            ("help\nend\n", "help\nend\npanel\nend\n", 7),
            ("bench 0\n", "bench 0\npanel\nend\n", 8),
        ];
        for (from, to, expected) in changes {
            let bad = good.replacen(from, to, 1);
            assert_ne!(bad, good);
            assert_eq!(line(WATCHED_SCRIPT, &drawn, &bad), Some(expected), "{to:?}");
            assert_eq!(line(WATCHED_SCRIPT, &bad, &drawn), Some(expected), "{to:?}");
        }
    }

    #[test]
    fn drawings_where_none_belong_differ_even_if_both_programs_have_them() {
        let off = "send 0\nwatch on\nwatch off\nsend 1\n";
        let answers = "send 0\nwatch 0\nwatch 0\nsend 0\n";
        assert_eq!(difference(off, answers, answers), None);
        let surplus = format!("{answers}panel\nend\n");
        assert_eq!(line(off, &surplus, &surplus), None);
        assert_eq!(line(off, answers, &surplus), None);
    }

    #[test]
    fn both_programs_have_to_draw_while_the_watch_is_on() {
        let started = "watch on\nstart 9\n";
        let silent = "watch 0\nstart 10\n";
        assert_eq!(line(started, silent, silent), Some(1));
        let drawn = "watch 0\nstart 10\npanel\nend\n";
        assert_eq!(difference(started, drawn, drawn), None);
        let watched = "watch on\npower-on\nsend 9\n";
        let silent = "watch 0\npower-on 0\nsend 2\n";
        assert_eq!(line(watched, silent, silent), Some(1));
        let cut = "watch 0\npower-on 0\npanel\nend\nsend 2\n";
        assert_eq!(line(watched, cut, cut), Some(2));
        let whole = format!("{cut}panel\nend\n");
        assert_eq!(difference(watched, &whole, &whole), None);
        assert_eq!(
            difference(watched, &whole, cut),
            Some(Difference {
                line: Some(2),
                in_drawing: true,
                answers: [Some(b"panel\nend\n".to_vec()), None],
            })
        );
    }

    #[test]
    fn no_drawing_belongs_to_the_commands_of_the_area() {
        let script = "watch on\narea 1\npoke 0 ff\nwrite 0 0\nread 0\nbytes\nsend 0\n";
        let answers = "watch 0\narea 0\npoke 0\nwrite 7\nread 7 0\nbytes ff\nsend 0\n\
            panel\nend\n";
        assert_eq!(difference(script, answers, answers), None);
        for answer in [
            "area 0\n",
            "poke 0\n",
            "write 7\n",
            "read 7 0\n",
            "bytes ff\n",
        ] {
            let drawn = answers.replacen(answer, &format!("{answer}panel\nend\n"), 1);
            assert!(difference(script, &drawn, answers).is_some(), "{answer}");
            assert!(difference(script, &drawn, &drawn).is_some(), "{answer}");
        }
    }

    #[test]
    fn no_drawing_belongs_to_the_list_of_sets() {
        let script = "watch on\ncodes\nsend 0\ncodes\n";
        let answers = "watch 0\ncodes 0 276\nsend 0\npanel\nend\ncodes 0 276\n";
        assert_eq!(difference(script, answers, answers), None);
        let drawn = answers.replacen("276\n", "276\npanel\nend\n", 1);
        assert_eq!(line(script, &drawn, answers), Some(2));
        assert!(difference(script, &drawn, &drawn).is_some());
        let last = format!("{answers}panel\nend\n");
        assert!(difference(script, &last, &last).is_some());
    }

    const SCRIPT: &str = "event 1\n\n# x\npanel\nx\nsend 0 # y\n";

    #[test]
    fn answers_are_mapped_to_the_lines_that_have_one() {
        let good = "event 0 0\npanel\nend\nerror 5: a\nsend 0\n";
        let drawn = "event 0 0\npanel\nsend 1\nend\nerror 5: b\nsend 0\n";
        assert_eq!(difference(SCRIPT, good, drawn), None);
        assert_eq!(difference("", "", ""), None);
        let changes = [
            ("event 0 0", 0),
            ("panel\n", 3),
            ("error 5", 4),
            ("send 0", 5),
        ];
        for (answer, expected) in changes {
            let bad = drawn.replacen(answer, "oops", 1);
            assert_eq!(line(SCRIPT, good, &bad), Some(expected), "{answer}");
            assert_eq!(line(SCRIPT, &bad, good), Some(expected), "{answer}");
        }
    }

    #[test]
    fn both_answers_are_told() {
        let found = difference("send 0\nsend 1\n", "send 0\nsend 1\n", "send 0\n");
        let answers = [Some(b"send 1\n".to_vec()), None];
        assert_eq!(
            found,
            Some(Difference {
                line: Some(1),
                in_drawing: false,
                answers
            })
        );
    }

    #[test]
    fn surplus_answers_and_a_bad_end_differ_after_the_last_line() {
        let surplus = difference("send 0\n#\n", "send 0\n", "send 0\nsend 0\n");
        let answers = [None, Some(b"send 0\n".to_vec())];
        assert_eq!(
            surplus,
            Some(Difference {
                line: None,
                in_drawing: false,
                answers
            })
        );
        let good = outcome("send 0\n");
        let mut bad = outcome("send 0\n");
        bad.trouble = Some("ended with exit status: 1".to_string());
        for pair in [[&good, &bad], [&bad, &good]] {
            let found = first_difference(b"send 0\n", pair).expect("the end differs");
            assert_eq!((found.line, found.answers), (None, [None, None]));
        }
    }
}
