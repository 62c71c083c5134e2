//! Lines that are commands, and lines that look like commands.

/// One of each form, as they should be.
pub const VALID: [&str; 62] = [
    "event 16384",
    "event 1048576",
    "event 0",
    "event 4294967295",
    "turn 0 9",
    "turn 3 255",
    "turn 4 0",
    "reading altitude -12.5",
    "reading airspeed 123.456",
    "reading vertical-speed 299.5",
    "reading heading 0x4076740000000000",
    "reading roll nan",
    "reading pitch inf",
    "reading pitch -inf",
    "send 0",
    "send 1",
    "refresh 0",
    "refresh 1",
    "display 0",
    "display 1",
    "pick 0",
    "pick 2",
    "power-on",
    "start 90",
    "start -7",
    "bench",
    "panel",
    "damage pf 1",
    "damage independent 0",
    "damage left set 2 0 1 0",
    "damage right-inbox set 0 0 0 0",
    "damage left-inbox held -8000",
    "damage right ias 250",
    // These keep the default bench sound, so that calls after them are carried out.
    "damage reading vertical-speed -0.5",
    "damage whole airspeed 120",
    "damage whole vertical-speed -0",
    "press hdg",
    "press ap-disconnect",
    "press independent",
    "signal nav-captured",
    "signal overspeed-begins",
    "turn heading 9",
    "knob wheel -9",
    "knob 3 127",
    "knob altitude -128",
    "send left",
    "refresh right",
    "display right",
    "pick left",
    "watch on",
    "watch off",
    "help",
    "area 24",
    "poke 5 46474200010000000000321b1400781f401f40",
    "read 5",
    "poke 10 01",
    "write 0 0",
    "write right 5",
    "write 2 0",
    "read 18446744073709551615",
    "bytes",
    "codes",
];

/// What parts words, alone and in company.
const SEPARATORS: [&str; 11] = [
    " ", "\t", "\r", "\t\t", " \t", "\t ", "\r ", " \r", "\t\r", "\r\t", " \t\r ",
];

/// What looks like white space and parts nothing.
const NO_SEPARATORS: [&str; 6] = ["\u{b}", "\u{c}", "\0", "\u{85}", "\u{a0}", "\u{2003}"];

/// Every separator between the words of a line, ahead of it, after it, and about its comment.
pub fn separated() -> Vec<String> {
    let mut lines = Vec::new();
    for line in VALID {
        for parts in SEPARATORS.iter().chain(&NO_SEPARATORS) {
            let inside = line.replace(' ', parts);
            lines.extend([
                format!("{parts}{line}"),
                format!("{line}{parts}"),
                format!("{parts}{inside}{parts}"),
                format!("{inside}{parts}#{parts}x{parts}"),
                format!("{parts}#{parts}{line}{parts}"),
            ]);
            lines.push(inside);
        }
    }
    lines.extend(SEPARATORS.map(String::from));
    lines.extend(NO_SEPARATORS.map(String::from));
    lines
}

/// Lines with too few and too many words, then others that are written out.
pub fn fixed() -> Vec<String> {
    let mut lines: Vec<String> = VALID.map(String::from).to_vec();
    for line in VALID {
        lines.extend(with_words_missing(line));
        lines.extend(
            [" 0", " x", " 0 0 0 0 0 0 0 0 0 0 0 0", " #", "#", "# 0 0"]
                .map(|end| format!("{line}{end}")),
        );
        lines.extend(
            [" ", "   ", "\t", "#", "# ", "-", "\u{a0}"].map(|start| format!("{start}{line}")),
        );
        lines.push(line.to_uppercase());
        lines.push(capitalized(line));
        lines.push(line.replace(' ', "   "));
        lines.push(line.replace(' ', "\t"));
        lines.push(line.replace(' ', ","));
        lines.push(line.replace('-', "_"));
        lines.push(format!("{line}\r"));
        lines.push(format!("{line}; {line}"));
        lines.push(format!("{line} {line}"));
    }
    lines.extend(ODD.map(String::from));
    lines
}

/// The line cut after each of its words but the last.
fn with_words_missing(line: &str) -> Vec<String> {
    let words: Vec<&str> = line.split(' ').collect();
    (1..words.len())
        .map(|count| words[..count].join(" "))
        .collect()
}

fn capitalized(line: &str) -> String {
    let (first, rest) = line.split_at(1);
    first.to_uppercase() + rest
}

const ODD: [&str; 134] = [
    "",
    "   ",
    "#",
    "##",
    "  # event 1",
    "#event 1",
    "event 1#x",
    "event 1 #",
    "event #1",
    "event#1",
    "ev#ent 1",
    "# panel",
    "events 1",
    "even 1",
    "event1",
    "event=1",
    "event: 1",
    "\"event\" 1",
    "event '1'",
    "turn 0",
    "turn 0,1",
    "turn wheel 1",
    "turns 0 1",
    "reading",
    "reading speed 1",
    "reading preselected 1",
    "reading held 1",
    "reading ias 1",
    "reading Roll 1",
    "reading vertical speed 1",
    "reading 3 1",
    "reading 12.5 roll",
    "send left",
    "refresh right",
    "display",
    "display both",
    "display 0 1",
    "pick",
    "poweron",
    "power on",
    "power-on 0",
    "power-on 1",
    "power-on 90",
    "power-on start 90",
    "start",
    "starts 90",
    "restart 90",
    "start90",
    "start-90",
    "start=90",
    "start speed 90",
    "start 90 speed",
    "start 90 91",
    "start 90 90",
    "start 90 kt",
    "start x",
    "start default",
    "start left",
    "start nan",
    "start 0x405e000000000000",
    "start 6e1",
    "start #90",
    "start 4294967416",
    "start 18446744073709551736",
    "bench 0",
    "panel 0",
    "end",
    "error 1: x",
    "help",
    "quit",
    "damage",
    "damage pf left",
    "damage pf set 1 0 1 0",
    "damage reading set 1 0 1 0",
    "damage reading left 1",
    "damage left reading roll 1",
    "whole roll 1",
    "damage whole",
    "damage whole roll",
    "damage whole 1",
    "damage whole 1 roll",
    "damage whole 3 1",
    "damage whole roll 1 2",
    "damage whole roll 1 x",
    "damage whole roll pitch 1",
    "damage whole roll 1.0",
    "damage whole roll nan",
    "damage whole roll -",
    "damage whole Roll 1",
    "damage whole speed 1",
    "damage whole ias 1",
    "damage whole held 1",
    "damage whole left 1",
    "damage whole vertical speed 1",
    "damage whole reading roll 1",
    "damage whole whole roll 1",
    "damage whole set 1 0 1 0",
    "damage left whole 1",
    "damage left whole roll 1",
    "damage reading whole 1",
    "damage wholes roll 1",
    "damage left altitude 1",
    "damage left airspeed 100",
    "damage left fd 1",
    "damage ap 1",
    "damage overspeed 1",
    "damage independent",
    "damage independent 2",
    "damage independent on",
    "damage independent heading 1",
    "damage independent set 1 0 1 0",
    "damage left independent 1",
    "independent 1",
    "damage middle heading 1",
    "damage inbox heading 1",
    "damage left_inbox heading 1",
    "damage 0 heading 1",
    "damage wheel 1",
    "damage watch on",
    "press hdg nav",
    "press event 16384",
    "signal press hdg",
    "knob wheel",
    "knob wheel up",
    "knob -1 wheel",
    "watch on off",
    "watch on on",
    "unwatch",
    "help help",
    "code",
    "codes1",
    "codes 107",
    "codes left",
    "poster",
];

#[cfg(test)]
mod tests {
    use super::*;
    use crate::script::is_answered;

    #[test]
    fn every_command_of_the_language_is_there() {
        for name in [
            "event", "turn", "reading", "send", "refresh", "display", "pick", "power-on", "bench",
            "panel", "damage", "press", "signal", "knob", "watch", "help", "area", "poke", "write",
            "read", "bytes", "start", "codes",
        ] {
            let found = VALID
                .iter()
                .any(|line| line.split(' ').next() == Some(name));
            assert!(found, "{name}");
        }
    }

    #[test]
    fn words_are_missing_and_surplus() {
        let all = fixed();
        for line in [
            "damage left set 2 0 1",
            "damage left set",
            "turn 0",
            "reading roll",
            "send 0 0",
            "bench x",
            "EVENT 16384",
            "Panel",
            "turn\t0\t9",
            "pick 0\r",
            "event 16384#",
            "   power-on",
            "start",
            "start 90 x",
            "START 90",
        ] {
            assert!(all.contains(&line.to_string()), "{line}");
        }
        assert!(all.iter().all(|line| !line.contains('\n')));
    }

    #[test]
    fn every_separator_stands_at_every_place() {
        let all = separated();
        let parts = SEPARATORS.len() + NO_SEPARATORS.len();
        assert_eq!(all.len(), parts * (6 * VALID.len() + 1));
        for line in [
            "\tpress hdg",
            "press hdg\r",
            "press\thdg",
            "\rknob\rwheel\r-9\r",
            "knob \twheel \t-9",
            "help\t#\tx\t",
            "\r#\rwatch on\r",
            "send\u{b}left",
            "\t",
            " \t\r ",
        ] {
            assert!(all.contains(&line.to_string()), "{line:?}");
        }
        let silent = all.iter().filter(|line| !is_answered(line.as_bytes()));
        assert_eq!(silent.count(), SEPARATORS.len() * (VALID.len() + 1));
    }

    #[test]
    fn some_lines_have_no_answer() {
        let silent = fixed()
            .into_iter()
            .filter(|line| !is_answered(line.as_bytes()));
        assert_eq!(silent.count(), 2 * VALID.len() + 7);
    }
}
