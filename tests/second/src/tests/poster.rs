//! The poster of all sets (document 02, 2026-07): its lines, its numbers, and
//! the console's command.

use std::collections::BTreeSet;
use std::ffi::OsString;

use super::scripts::{answers, assert_errors};
use super::starts::OLD;
use crate::bench::Bench;
use crate::calls;
use crate::codes;
use crate::poster;
use crate::{task, Task};

fn text() -> String {
    let mut output = Vec::new();
    poster::write(&mut output).unwrap();
    String::from_utf8(output).unwrap()
}

/// The four numbers of each line: code, lateral law, armed sum, vertical law.
fn rows() -> Vec<[i32; 4]> {
    let row = |line: &str| {
        let words = line.split(' ').map(|word| word.parse().unwrap());
        let numbers: Vec<i32> = words.collect();
        numbers.try_into().unwrap()
    };
    text().lines().map(row).collect()
}

// ---- The lines ----

#[test]
fn the_lines_that_the_paper_gives() {
    let text = text();
    assert!(text.starts_with("0 0 0 0\n1 1 4 1\n"));
    assert!(text.ends_with("\n107 5 14 8\n"));
    let lines: Vec<&str> = text.split_terminator('\n').collect();
    assert_eq!(lines.len(), 108);
    assert_eq!(lines[..2], ["0 0 0 0", "1 1 4 1"]);
    assert_eq!(lines[107], "107 5 14 8");
}

/// Decimal numbers without needless zeros, parted by single spaces, and
/// nothing but a line feed at the end of a line.
#[test]
fn a_line_is_written_in_one_way() {
    let rewritten: String = rows()
        .iter()
        .map(|[code, lateral, armed, vertical]| format!("{code} {lateral} {armed} {vertical}\n"))
        .collect();
    assert_eq!(text(), rewritten);
    assert!(rows().iter().map(|row| row[0]).eq(0..=107));
}

/// Worked out by hand. A lateral law has seven sets with each armed lateral mode:
/// none, NAV unless it is engaged, and LAPPR unless it is engaged. Beside LAPPR
/// engaged there are fifteen, as VAPPR may wait or not, or be engaged.
const BY_HAND: [&str; 36] = [
    // ROLL: ALT and both stages of ALTSEL leave ALTSEL unarmed.
    "4 1 0 4",
    "5 1 0 5",
    "6 1 0 6",
    "7 1 4 8",
    // ROLL with NAV armed, then with LAPPR and so VAPPR armed.
    "8 1 5 1",
    "14 1 5 8",
    "15 1 14 1",
    "18 1 10 4",
    "21 1 14 8",
    // HDG.
    "22 2 4 1",
    "31 2 5 3",
    "41 2 10 6",
    "42 2 14 8",
    // NAV engaged is not armed as well.
    "43 3 4 1",
    "49 3 4 8",
    "50 3 14 1",
    "54 3 10 5",
    "56 3 14 8",
    // LAPPR engaged: VAPPR waits or not in turn, and has one set engaged.
    "57 4 4 1",
    "58 4 12 1",
    "63 4 0 4",
    "64 4 8 4",
    "68 4 8 6",
    "69 4 0 7",
    "70 4 4 8",
    "71 4 12 8",
    "72 4 5 1",
    "73 4 13 1",
    "80 4 1 5",
    "84 4 1 7",
    "86 4 13 8",
    // LGA.
    "87 5 4 1",
    "93 5 4 8",
    "94 5 5 1",
    "101 5 14 1",
    "104 5 10 4",
];

#[test]
fn some_lines_by_hand() {
    let text = text();
    let lines: Vec<&str> = text.lines().collect();
    for line in BY_HAND {
        let code: usize = line.split(' ').next().unwrap().parse().unwrap();
        assert_eq!(lines[code], line);
    }
}

// ---- Every coherent set once, and no other ----

const NAV: i32 = 1;
const LAPPR: i32 = 2;
const ALTSEL: i32 = 4;
const VAPPR: i32 = 8;

/// Whether laws and armed sum are those of a coherent On set, by the papers'
/// words on what is shown.
fn is_coherent(lateral: i32, vertical: i32, armed: i32) -> bool {
    let waits = |mode: i32| armed & mode != 0;
    let approach = lateral == 4;
    let engaged_too = (waits(NAV) && lateral == 3)
        || (waits(LAPPR) && approach)
        || (waits(ALTSEL) && [5, 6].contains(&vertical))
        || (waits(VAPPR) && vertical == 7);
    let two_lateral = waits(NAV) && waits(LAPPR);
    let lappr_cleared = !approach && !waits(LAPPR);
    let vappr_cleared = vertical != 7 && !waits(VAPPR);
    !engaged_too
        && !two_lateral
        && waits(ALTSEL) == [1, 2, 3, 8].contains(&vertical)
        && (vertical != 7 || approach)
        && (!waits(LAPPR) || waits(VAPPR))
        && (!lappr_cleared || vappr_cleared)
}

/// All that could be shown, Off first, as code, laws and armed sum stand in a
/// line; those of the coherent sets in the order that request 2026-02 gives.
fn expected() -> Vec<[i32; 4]> {
    let mut sets = vec![[0; 3]];
    for shown in 0..5 * 8 * 16 {
        let (lateral, vertical, armed) = (shown % 5 + 1, shown / 5 % 8 + 1, shown / 40);
        if is_coherent(lateral, vertical, armed) {
            sets.push([lateral, armed, vertical]);
        }
    }
    // NAV is armed before LAPPR, and at most one of them is.
    sets.sort_by_key(|&[lateral, armed, vertical]| {
        (lateral, armed & (NAV | LAPPR), vertical, armed & VAPPR)
    });
    let coded = sets.iter().zip(0..);
    coded.map(|(&[a, b, c], code)| [code, a, b, c]).collect()
}

#[test]
fn every_coherent_set_stands_there_once_and_no_other() {
    assert_eq!(expected().len(), 108);
    assert_eq!(rows(), expected());
    let different: BTreeSet<[i32; 3]> = rows().iter().map(|row| [row[1], row[2], row[3]]).collect();
    assert_eq!(different.len(), 108);
}

/// A bench with the set of a code shows what stands in the line of that code.
#[test]
fn lines_are_what_displays_show() {
    for [code, lateral, armed, vertical] in rows() {
        let mut bench = Bench::power_on();
        bench.sides[1].modes = codes::set_of(code as u8).unwrap();
        let shown = calls::display(&bench, 1).unwrap();
        let laws = (shown.lateral, shown.armed, shown.vertical);
        assert_eq!(laws, (lateral as u32, armed as u32, vertical as u32));
    }
}

// ---- The numbers ----

#[test]
fn numbers_agree_with_the_lines() {
    let of_lines = rows().into_iter();
    let of_lines =
        of_lines.map(|[_, lateral, armed, vertical]| 256 * lateral + 16 * vertical + armed);
    assert_eq!(poster::numbers(), of_lines.collect::<Vec<_>>());
}

/// By hand: laws and armed sum are the three hexadecimal digits.
#[test]
fn some_numbers_by_hand() {
    let numbers = poster::numbers();
    assert_eq!(numbers.len(), 108);
    for (code, number) in [
        (0, 0),
        (1, 0x114),
        (2, 0x124),
        (4, 0x140),
        (6, 0x160),
        (15, 0x11e),
        (41, 0x26a),
        (50, 0x31e),
        (58, 0x41c),
        (69, 0x470),
        (84, 0x471),
        (94, 0x515),
        (107, 0x58e),
    ] {
        assert_eq!(numbers[code], number, "{code}");
    }
    let first = [0, 276, 292, 308, 320, 336, 352, 388, 277, 293, 309, 321];
    assert_eq!(numbers[..12], first);
    assert_eq!(numbers[107], 1_422);
}

// ---- The console ----

fn codes_line() -> String {
    let mut line = "codes".to_string();
    for number in poster::numbers() {
        line += &format!(" {number}");
    }
    line
}

#[test]
fn codes_is_answered_by_one_line() {
    let line = codes_line();
    assert_eq!(line.split(' ').count(), 109);
    assert!(line.starts_with("codes 0 276 292 308 320 336 352 388 277 "));
    assert!(line.ends_with(" 1386 1422"));
    for script in [
        "codes",
        "codes\n",
        "\t codes\r\n",
        "codes # 1\n",
        "\n#\ncodes#\n",
    ] {
        assert_eq!(
            answers(script.as_bytes()),
            format!("{line}\n"),
            "{script:?}"
        );
    }
    assert_eq!(answers(b"codes\ncodes\n"), format!("{line}\n{line}\n"));
}

/// Benches that `OLD` has not: one damaged in a side's set and in independent
/// operation, and one with something in the area.
const BENCHES: [&str; 2] = [
    "damage left set 3 1 7 1\ndamage independent 1",
    "area 21\npoke 0 ff\nwrite left 1",
];

#[test]
fn codes_says_and_leaves_the_same_on_every_bench() {
    for bench in OLD.into_iter().chain(BENCHES) {
        let kept = answers(format!("{bench}\nbench\nbytes\n").as_bytes());
        let script = format!("{bench}\nbench\ncodes\nbench\nbytes\n");
        let output = answers(script.as_bytes());
        let mut lines: Vec<&str> = kept.lines().collect();
        let (codes, at) = (codes_line(), lines.len() - 2);
        let again = lines[at];
        lines.splice(at + 1..at + 1, [codes.as_str(), again]);
        assert_eq!(output.lines().collect::<Vec<_>>(), lines, "{bench}");
    }
}

#[test]
fn calls_go_on_as_if_nobody_had_asked() {
    let calls = [
        "press appr",
        "signal lappr-captured",
        "turn 2 7",
        "display 0",
        "send 0",
        "refresh 1",
        "pick 1",
        "damage pf 2",
        "event 1",
        "start 90",
        "bench",
    ];
    let plain = answers(calls.join("\n").as_bytes());
    let mixed = answers(calls.join("\ncodes\n").as_bytes());
    let others: Vec<&str> = mixed.lines().filter(|line| *line != codes_line()).collect();
    assert_eq!(others, plain.lines().collect::<Vec<_>>());
    assert_eq!(mixed.lines().count(), 2 * calls.len() - 1);
}

#[test]
fn a_word_too_many_or_another_word_is_an_error() {
    let wrong = [
        "codes 1",
        "codes codes",
        "codes 0 0",
        "Codes",
        "CODES",
        "code",
        "codess",
    ];
    assert_errors("press hdg\ndamage right ias 300", &wrong);
}

#[test]
fn no_drawing_follows_codes() {
    let script = b"watch on\ncodes\nsend 0\ncodes\ndamage pf 2\ncodes\nwatch off\ncodes\n";
    let (line, drawing) = (codes_line(), "panel\nend");
    let expected = format!(
        "watch 0\n{line}\nsend 0\n{drawing}\n{line}\ndamage 0\n{drawing}\n{line}\nwatch 0\n{line}\n"
    );
    assert_eq!(answers(script), expected);
}

// ---- The arguments of the program ----

#[test]
fn the_poster_is_asked_for_by_one_argument() {
    let of = |words: &[&str]| {
        let arguments: Vec<OsString> = words.iter().map(OsString::from).collect();
        task(&arguments)
    };
    assert_eq!(of(&[]), Some(Task::Console));
    assert_eq!(of(&["poster"]), Some(Task::Poster));
    for word in [
        "", "Poster", "posters", "poste", "codes", "--poster", "poster ", "-", "0",
    ] {
        assert_eq!(of(&[word]), None, "{word}");
        assert_eq!(of(&["poster", word]), None, "{word}");
        assert_eq!(of(&[word, "poster"]), None, "{word}");
    }
    assert_eq!(of(&["poster", "poster"]), None);
}
