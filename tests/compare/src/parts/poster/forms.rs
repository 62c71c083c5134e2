//! How `codes` may be written, and what looks like it and is an error.

use super::worked::CODES;
use crate::parts::sheet::Told;
use crate::script::{LONGEST, SEPARATORS};

const ACCEPTED: [&str; 20] = [
    "codes",
    " codes",
    "codes ",
    "\tcodes",
    "codes\t",
    "\rcodes",
    "codes\r",
    "  \t\r codes \r\t  ",
    "codes#",
    "codes #",
    "codes# 1",
    "codes # 1",
    "codes#codes",
    "codes\t#\tcodes 1",
    "codes\r#",
    "codes # \u{e9}",
    "codes ## 0 #",
    "\r\t\rcodes\t\r\t#\r",
    "codes\r\r\r",
    "codes#\0",
];

const SILENT: [&str; 6] = ["#codes", "# codes", "\t#codes\r", " # # codes", "", "\r\t"];

const WRONG: [&str; 70] = [
    "codes 0",
    "codes 1",
    "codes 2",
    "codes 107",
    "codes 108",
    "codes 255",
    "codes -1",
    "codes 4294967296",
    "codes 1 2",
    "codes 0 0 0 0",
    "codes 0 0 0 0 0 0 0 0 0 0 0 0 0 0 0 0",
    "codes 0 276",
    "codes\t0",
    "codes\r0",
    "codes 0 # x",
    "codes 0#",
    "codes x",
    "codes -",
    "codes .",
    "codes ,",
    "codes \0",
    "codes \u{e9}",
    "codes left",
    "codes right",
    "codes on",
    "codes off",
    "codes all",
    "codes set",
    "codes hdg",
    "codes wheel",
    "codes roll",
    "codes codes",
    "codes bench",
    "codes help",
    "codes poster",
    "codes power-on",
    "codes; codes",
    "codes; bench",
    "codes;",
    "codes,",
    "codes.",
    "codes:",
    "codes=",
    "codes?",
    "codes()",
    "codes0",
    "codes1",
    "codes-",
    "-codes",
    "--codes",
    "_codes",
    "\"codes\"",
    "'codes'",
    "code",
    "odes",
    "cods",
    "codse",
    "codess",
    "ccodes",
    "co des",
    "code\ts",
    "code#s",
    "code-s",
    "Codes",
    "CODES",
    "codeS",
    "cOdEs",
    "poster",
    "poster 0",
    "0 codes",
];

/// Each on a bench that is not the one of power-on, and that stays.
fn say_kept(told: &mut Told) {
    told.say("display 0", "display 0 1 2 1 4 9 0 0 0 120 0 0 129");
}

fn begun() -> Told {
    let mut told = Told::default();
    told.say("press hdg", "event 0 14");
    told.say("knob heading 9", "turn 0");
    told
}

pub fn accepted() -> Told {
    let mut told = begun();
    for form in ACCEPTED {
        told.say(form, CODES);
        say_kept(&mut told);
    }
    for silent in SILENT {
        told.say("codes", CODES);
        told.script.line(silent);
        say_kept(&mut told);
        told.say("codes", CODES);
    }
    told
}

pub fn wrong() -> Told {
    let mut told = begun();
    for wrong in WRONG {
        told.error(wrong);
        say_kept(&mut told);
        told.say("codes", CODES);
    }
    told
}

/// Every byte but the newline behind the word, ahead of it, in it and after it. A `#` ahead leaves
/// no command, and is among the silent lines.
pub fn with_every_byte() -> Told {
    let mut told = begun();
    for byte in (0..=u8::MAX).filter(|&byte| byte != b'\n') {
        let (parts, comment) = (SEPARATORS.contains(&byte), byte == b'#');
        say_bytes(&mut told, &[b"codes", &[byte]], parts || comment);
        say_bytes(&mut told, &[b"codes ", &[byte]], parts || comment);
        say_bytes(&mut told, &[b"cod", &[byte], b"es"], false);
        if !comment {
            say_bytes(&mut told, &[&[byte], b"codes"], parts);
        }
        told.say("codes", CODES);
    }
    told
}

/// A line that need not be text, answered by the list or by an error.
fn say_bytes(told: &mut Told, pieces: &[&[u8]], accepted: bool) {
    let line = pieces.concat();
    if accepted {
        told.say(line, CODES);
    } else {
        told.error(line);
    }
}

/// Lines about the longest that is read; those that are too long are errors whatever they hold.
pub fn of_lengths() -> Told {
    let forms: [(&[u8], u8, &[u8], bool); 12] = [
        (b"codes", b' ', b"", true),
        (b"", b' ', b"codes", true),
        (b"codes", b'\t', b"", true),
        (b"\t", b'\t', b"codes", true),
        (b"codes", b'\r', b"", true),
        (b"\r", b'\r', b"codes\r", true),
        (b"codes#", b'x', b"", true),
        (b"codes #", b' ', b"codes", true),
        (b"codes", b'#', b"0", true),
        (b"codes", b's', b"", false),
        (b"codes ", b'0', b"", false),
        (b"codes", b' ', b"0", false),
    ];
    let mut told = begun();
    for length in [252, 253, 254, 255, 256, 257, 258, 300, 511, 512, 513, 4_096] {
        for (start, filler, end, good) in forms {
            let middle = vec![filler; length - start.len() - end.len()];
            let accepted = good && length <= LONGEST;
            say_bytes(&mut told, &[start, &middle, end], accepted);
            say_kept(&mut told);
        }
        told.say("codes", CODES);
        told.say("codes", CODES);
    }
    told
}

#[cfg(test)]
mod tests {
    use super::*;
    use crate::parts::sheet;
    use crate::script::{self, is_answered};
    use std::collections::BTreeSet;

    #[test]
    fn forms_are_what_they_are_said_to_be() {
        for form in ACCEPTED {
            let bare = form.split('#').next().unwrap();
            assert_eq!(bare.split([' ', '\t', '\r']).collect::<String>(), "codes");
        }
        assert!(SILENT.iter().all(|line| !is_answered(line.as_bytes())));
        let wrong: BTreeSet<&str> = WRONG.into_iter().collect();
        assert_eq!(wrong.len(), WRONG.len());
        assert!(WRONG.iter().all(|line| !ACCEPTED.contains(line)));
    }

    #[test]
    fn errors_have_the_numbers_of_their_lines() {
        assert_eq!(
            sheet::errors(&wrong()),
            WRONG.map(|line| line.as_bytes().to_vec())
        );
        for told in [with_every_byte(), of_lengths()] {
            assert!(!sheet::errors(&told).is_empty());
        }
    }

    #[test]
    fn lines_are_accepted_up_to_255_bytes() {
        let told = of_lengths();
        let lines = script::lines(told.script.text());
        let answers: Vec<&str> = told.paper.lines().collect();
        let is_list = |answer: &str| answer.starts_with("codes");
        let longest = lines
            .iter()
            .zip(&answers)
            .filter(|(_, answer)| is_list(answer))
            .map(|(line, _)| line.len() - 1)
            .max();
        assert_eq!(longest, Some(255));
        let short = lines.iter().zip(&answers).filter(|(line, answer)| {
            (253..=256).contains(&line.len()) && answer.starts_with("error")
        });
        assert_eq!(short.count(), 4 * 3);
    }

    #[test]
    fn only_separators_and_a_comment_leave_the_word_as_it_is() {
        let told = with_every_byte();
        let lists = told.paper.matches("codes 0 276").count();
        // Behind the word and after it, ahead of it, and alone.
        assert_eq!(lists, 2 * 4 + 3 + 255);
    }
}
