//! Reads a drawing of both panels and holds it to the displays of the same bench.
//!
//! Of the layout only the frames are read by columns; of a row only its words count.

use std::str;

use crate::parts::shown::Shown;

const SIDES: [&str; 2] = ["LEFT", "RIGHT"];
const LATERAL: [&str; 6] = ["Off", "ROLL", "HDG", "NAV", "LAPPR", "LGA"];
const VERTICAL: [&str; 9] = [
    "Off",
    "PITCH",
    "VS",
    "FLC",
    "ALT",
    "ALTSEL capture",
    "ALTSEL track",
    "VAPPR",
    "VGA",
];
const ARMED_LATERAL: [(i64, &str); 2] = [(1, "NAV"), (2, "LAPPR")];
const ARMED_VERTICAL: [(i64, &str); 2] = [(4, "ALTSEL"), (8, "VAPPR")];

const LAMPS: [(i64, &str); 7] = [
    (1, "HDG"),
    (2, "NAV"),
    (4, "APPR"),
    (8, "VS"),
    (16, "FLC"),
    (32, "ALT"),
    (AUTOPILOT, "AP"),
];
const AUTOPILOT: i64 = 64;
const PILOT_FLYING: [i64; 2] = [128, 256];

/// A target: its name, what it is shown in, and by how much its number is multiplied for that.
struct Target {
    name: &'static str,
    unit: &'static str,
    factor: i64,
    /// The laws that steer to it.
    lateral: &'static [i64],
    vertical: &'static [i64],
}

const fn target(
    name: &'static str,
    unit: &'static str,
    lateral: &'static [i64],
    vertical: &'static [i64],
) -> Target {
    Target {
        name,
        unit,
        factor: 1,
        lateral,
        vertical,
    }
}

/// In the order of a display.
const TARGETS: [Target; 7] = [
    target("heading", "deg", &[2], &[]),
    target("preselected altitude", "ft", &[], &[5, 6]),
    target("held altitude", "ft", &[], &[4]),
    Target {
        factor: 100,
        ..target("vertical speed", "ft/min", &[], &[2])
    },
    target("indicated airspeed", "kt", &[], &[3]),
    target("roll", "deg", &[1], &[]),
    target("pitch", "deg", &[], &[1]),
];

/// The legend of the marks, which is no mark itself.
const LEGEND: &str = "* = steered to";

const WIDTH: usize = 80;
const FRAME: usize = 39;

/// The numbers of a display.
#[derive(Clone, Copy, PartialEq, Debug)]
pub struct Display {
    pub refusal: i64,
    pub fd: i64,
    pub lateral: i64,
    pub vertical: i64,
    pub armed: i64,
    pub references: [i64; 7],
    pub lamps: i64,
}

impl Display {
    /// None if it is no answer to a `display`.
    pub fn read(answer: &[u8]) -> Option<Display> {
        let rest = str::from_utf8(answer).ok()?.strip_prefix("display ")?;
        let numbers: Result<Vec<i64>, _> = rest.split_whitespace().map(str::parse).collect();
        let [refusal, fd, lateral, vertical, armed, references @ .., lamps] = &numbers.ok()?[..]
        else {
            return None;
        };
        Some(Display {
            refusal: *refusal,
            fd: *fd,
            lateral: *lateral,
            vertical: *vertical,
            armed: *armed,
            references: references.try_into().ok()?,
            lamps: *lamps,
        })
    }
}

/// What a drawing shows of the bench and no display does.
#[derive(Clone, Copy, PartialEq, Debug)]
pub struct Flags {
    pub overspeed: bool,
    pub independent: bool,
}

impl Flags {
    /// None if it is no answer to a `bench`.
    pub fn read(answer: &[u8]) -> Option<Flags> {
        let shown = Shown::read(answer)?;
        Some(Flags {
            overspeed: shown.overspeed,
            independent: shown.independent,
        })
    }

    fn row(self) -> String {
        let overspeed = if self.overspeed {
            "OVERSPEED FLAG SET"
        } else {
            "overspeed flag clear"
        };
        let independent = if self.independent { INDEPENDENT } else { "" };
        words(&format!("{overspeed} {independent}"))
    }
}

/// What a row says while both sides are flown.
const INDEPENDENT: &str = "INDEPENDENT";

// ---- What has to be shown ----

/// The words of every row of a side, one space between them.
pub fn rows(side: usize, display: &Display, flags: Flags) -> Vec<String> {
    if display.refusal != 0 {
        return vec![format!("{} REFUSED {}", SIDES[side], display.refusal)];
    }
    let (lateral, vertical) = (display.lateral, display.vertical);
    let mut rows = vec![
        format!("{} {}", SIDES[side], role(side, display.lamps)),
        format!(
            "flight director {} autopilot {}",
            on(display.fd != 0),
            on(display.lamps & AUTOPILOT != 0)
        ),
        flags.row(),
        lamps(display.lamps),
        "MODES law".to_string(),
        format!("lateral engaged {} {lateral}", name(&LATERAL, lateral)),
        format!("armed {}", armed(&ARMED_LATERAL, display.armed)),
        format!("vertical engaged {} {vertical}", name(&VERTICAL, vertical)),
        format!("armed {}", armed(&ARMED_VERTICAL, display.armed)),
        format!("TARGETS {LEGEND}"),
    ];
    let targets = TARGETS.iter().zip(display.references);
    rows.extend(targets.map(|(target, value)| target.row(display, value)));
    rows
}

fn role(side: usize, lamps: i64) -> &'static str {
    if lamps & PILOT_FLYING[side] != 0 {
        "PILOT FLYING"
    } else {
        "passive"
    }
}

fn on(on: bool) -> &'static str {
    if on {
        "ON"
    } else {
        "off"
    }
}

fn lamps(lamps: i64) -> String {
    let shown = LAMPS.map(|(number, name)| {
        if lamps & number != 0 {
            format!("[{name}]")
        } else {
            name.to_lowercase()
        }
    });
    shown.join(" ")
}

/// The name of a law; a number without a name is none that a drawing may show.
fn name(names: &[&'static str], law: i64) -> &'static str {
    let index = usize::try_from(law).ok();
    index
        .and_then(|index| names.get(index).copied())
        .unwrap_or("(no such law)")
}

fn armed(names: &[(i64, &str)], sum: i64) -> String {
    let armed: Vec<&str> = names
        .iter()
        .filter(|(number, _)| sum & number != 0)
        .map(|(_, name)| *name)
        .collect();
    if armed.is_empty() {
        "-".to_string()
    } else {
        armed.join(" ")
    }
}

impl Target {
    fn row(&self, display: &Display, value: i64) -> String {
        let steered =
            self.lateral.contains(&display.lateral) || self.vertical.contains(&display.vertical);
        let mark = if steered { "* " } else { "" };
        let shown = value * self.factor;
        format!("{mark}{} {shown} {}", self.name, self.unit)
    }
}

// ---- What is shown ----

/// What is wrong with a drawing, if anything is.
pub fn check(drawing: &[u8], displays: &[Display; 2], flags: Flags) -> Result<(), String> {
    let panels = panels(drawing)?;
    for (side, (panel, display)) in panels.iter().zip(displays).enumerate() {
        let expected = rows(side, display, flags);
        let checked = if display.refusal == 0 {
            check_rows(panel, &expected)
        } else {
            check_refused(panel, &expected[0])
        };
        checked.map_err(|problem| format!("{}: {problem}", SIDES[side]))?;
    }
    Ok(())
}

/// The rows of both panels without their frames.
fn panels(drawing: &[u8]) -> Result<[Vec<&str>; 2], String> {
    let mut panels = [Vec::new(), Vec::new()];
    let lines = lines(drawing)?;
    let [top, rows @ .., bottom] = &lines[..] else {
        return Err("the drawing has no frame".to_string());
    };
    let edge = format!("+{}+", "-".repeat(FRAME - 2));
    let border = format!("{edge}  {edge}");
    if *top != border || *bottom != border {
        return Err("the frame has no proper top or bottom".to_string());
    }
    for row in rows {
        let (left, rest) = row.split_at(FRAME);
        let right = rest.strip_prefix("  ");
        let right = right.ok_or(format!("there is no gap between the panels: {row}"))?;
        for (panel, half) in panels.iter_mut().zip([left, right]) {
            panel.push(inside(half)?);
        }
    }
    Ok(panels)
}

/// The lines between the first and the last, all of the right width.
fn lines(drawing: &[u8]) -> Result<Vec<&str>, String> {
    let printable = |byte: &u8| (b' '..=b'~').contains(byte) || *byte == b'\n';
    let text = str::from_utf8(drawing).ok();
    let text = text.filter(|text| text.as_bytes().iter().all(printable));
    let text = text.ok_or("the drawing is not all printable ASCII")?;
    let body = text.strip_prefix("panel\n");
    let body = body.and_then(|rest| rest.strip_suffix("end\n"));
    let lines: Vec<&str> = body.ok_or("there is no drawing")?.lines().collect();
    match lines.iter().find(|line| line.len() != WIDTH) {
        Some(line) => Err(format!("a line has {} columns: {line}", line.len())),
        None => Ok(lines),
    }
}

/// The text of a row, which keeps a space from its frame.
fn inside(row: &str) -> Result<&str, String> {
    let text = row.strip_prefix("| ");
    let text = text.and_then(|rest| rest.strip_suffix(" |"));
    text.ok_or(format!("text at a border: {row}"))
}

/// The words of a row, a space apart. The brackets of two lit lamps may touch.
fn words(row: &str) -> String {
    let apart = row.replace("][", "] [");
    apart.split_whitespace().collect::<Vec<_>>().join(" ")
}

fn check_rows(panel: &[&str], expected: &[String]) -> Result<(), String> {
    if panel.len() != expected.len() {
        return Err(format!("{} rows, not {}", panel.len(), expected.len()));
    }
    for (row, expected) in panel.iter().zip(expected) {
        let shown = words(row);
        if shown != *expected {
            return Err(format!("`{shown}` where it has to be `{expected}`"));
        }
    }
    Ok(())
}

fn check_refused(panel: &[&str], title: &str) -> Result<(), String> {
    let (first, rest) = panel.split_first().ok_or("no rows")?;
    if words(first) != title {
        return Err(format!("`{}` where it has to be `{title}`", words(first)));
    }
    match rest.iter().find(|row| has_value(row)) {
        Some(row) => Err(format!("a refused panel shows `{}`", words(row))),
        None => Ok(()),
    }
}

/// Words of state, as a panel that is not refused writes them.
const STATES: [&str; 10] = [
    "ON",
    "off",
    "SET",
    "clear",
    INDEPENDENT,
    "PILOT",
    "FLYING",
    "passive",
    "capture",
    "track",
];

/// Whether a row says anything of the bench. What a target or an axis is called may stay.
fn has_value(row: &str) -> bool {
    let words = words(row).replace(LEGEND, "");
    let is_lamp = |word: &str| LAMPS.iter().any(|lamp| word.eq_ignore_ascii_case(lamp.1));
    let is_mode = |word: &str| {
        let armed = ARMED_LATERAL.iter().chain(&ARMED_VERTICAL);
        LATERAL.contains(&word)
            || VERTICAL.contains(&word)
            || armed.into_iter().any(|row| row.1 == word)
    };
    words.contains(|byte: char| byte.is_ascii_digit() || "*[]".contains(byte))
        || words
            .split(' ')
            .any(|word| is_lamp(word) || is_mode(word) || STATES.contains(&word))
}

#[cfg(test)]
pub mod tests {
    use super::*;
    use crate::parts::shown::tests::{answer, SOME};

    /// Two panels as a console draws them, for the displays below.
    pub const DRAWING: &str = "panel
+-------------------------------------+  +-------------------------------------+
| LEFT                   PILOT FLYING |  | RIGHT                       passive |
| flight director ON   autopilot ON   |  | flight director off  autopilot ON   |
| overspeed flag clear                |  | overspeed flag clear                |
| [HDG] nav [APPR] vs [FLC] alt [AP]  |  |  hdg  nav  appr  vs  flc  alt [AP]  |
| MODES                           law |  | MODES                           law |
| lateral   engaged  HDG            2 |  | lateral   engaged  Off            0 |
|           armed    LAPPR            |  |           armed    -                |
| vertical  engaged  FLC            3 |  | vertical  engaged  Off            0 |
|           armed    ALTSEL VAPPR     |  |           armed    -                |
| TARGETS             * = steered to  |  | TARGETS             * = steered to  |
| * heading                120 deg    |  |   heading                  0 deg    |
|   preselected altitude  3000 ft     |  |   preselected altitude     0 ft     |
|   held altitude            0 ft     |  |   held altitude            0 ft     |
|   vertical speed       -1100 ft/min |  |   vertical speed           0 ft/min |
| * indicated airspeed     341 kt     |  |   indicated airspeed     120 kt     |
|   roll                    -2 deg    |  |   roll                     0 deg    |
|   pitch                    4 deg    |  |   pitch                    0 deg    |
+-------------------------------------+  +-------------------------------------+
end
";

    pub const DISPLAYS: [&str; 2] = [
        "display 0 1 2 3 14 120 3000 0 -11 341 -2 4 213\n",
        "display 0 0 0 0 0 0 0 0 0 120 0 0 192\n",
    ];

    const REFUSED: &str = "display 1 0 0 0 0 0 0 0 0 0 0 0 0\n";

    pub fn displays() -> [Display; 2] {
        DISPLAYS.map(|answer| Display::read(answer.as_bytes()).unwrap())
    }

    fn refused() -> [Display; 2] {
        [Display::read(REFUSED.as_bytes()).unwrap(); 2]
    }

    /// A drawing of these rows, on either side the same but for the title.
    fn drawing_of(titles: [&str; 2], rows: &[&str]) -> String {
        let edge = format!("+{}+", "-".repeat(37));
        let mut text = format!("panel\n{edge}  {edge}\n");
        let [left, right] = titles;
        text += &format!("| {left:<35} |  | {right:<35} |\n");
        for row in rows {
            text += &format!("| {row:<35} |  | {row:<35} |\n");
        }
        text + &format!("{edge}  {edge}\nend\n")
    }

    pub const CLEAR: Flags = Flags {
        overspeed: false,
        independent: false,
    };

    const SET: Flags = Flags {
        overspeed: true,
        independent: false,
    };

    const TITLES: [&str; 2] = ["LEFT          REFUSED 1", "RIGHT         REFUSED 1"];

    fn checked(drawing: &str) -> Result<(), String> {
        check(drawing.as_bytes(), &displays(), CLEAR)
    }

    #[test]
    fn a_right_drawing_passes() {
        assert_eq!(checked(DRAWING), Ok(()));
        let set = DRAWING.replace("overspeed flag clear", "OVERSPEED FLAG SET  ");
        assert_eq!(check(set.as_bytes(), &displays(), SET), Ok(()));
        // Where the words of a row stand is free.
        let moved = DRAWING.replace(
            "lateral   engaged  HDG            2",
            "lateral engaged HDG  2             ",
        );
        assert_ne!(moved, DRAWING);
        assert_eq!(checked(&moved), Ok(()));
    }

    #[test]
    fn answers_are_read() {
        let [left, right] = displays();
        assert_eq!((left.fd, left.lateral, left.vertical), (1, 2, 3));
        assert_eq!(left.references, [120, 3_000, 0, -11, 341, -2, 4]);
        assert_eq!((left.armed, left.lamps, right.lamps), (14, 213, 192));
        for answer in [
            "display 0 1 2\n",
            "display 0 1 2 3 14 120 3000 0 -11 341 -2 213\n",
            "pick 0 1 2\n",
            "display x\n",
        ] {
            assert_eq!(Display::read(answer.as_bytes()), None, "{answer}");
        }
        let read = |shown: Shown| Flags::read(answer(&shown).as_bytes()).unwrap();
        for (overspeed, independent) in FLAGS {
            let shown = Shown {
                overspeed,
                independent,
                ..SOME
            };
            let expected = Flags {
                overspeed,
                independent,
            };
            assert_eq!(read(shown), expected);
        }
        assert_eq!(Flags::read(b"bench 1\n"), None);
        assert_eq!(Flags::read(b"display 1 0 1 0\n"), None);
    }

    const FLAGS: [(bool, bool); 4] = [(false, false), (false, true), (true, false), (true, true)];

    /// The row of the flags, on each panel as given.
    fn with_flags(rows: [&str; 2]) -> String {
        let [left, right] = rows.map(|row| format!("| {row:<35} |"));
        let row = "| overspeed flag clear                |";
        let drawing = DRAWING.replacen(row, &left, 1);
        drawing.replacen(row, &right, 1)
    }

    #[test]
    fn independent_operation_is_said_on_both_panels_exactly_while_it_is_on() {
        let texts = [
            "overspeed flag clear",
            "overspeed flag clear INDEPENDENT",
            "OVERSPEED FLAG SET",
            "OVERSPEED FLAG SET      INDEPENDENT",
        ];
        for (text, (overspeed, independent)) in texts.into_iter().zip(FLAGS) {
            let flags = Flags {
                overspeed,
                independent,
            };
            for left in texts {
                for right in texts {
                    let drawing = with_flags([left, right]);
                    let result = check(drawing.as_bytes(), &displays(), flags);
                    assert_eq!(result.is_ok(), left == text && right == text, "{drawing}");
                }
            }
        }
        let on = Flags {
            independent: true,
            ..CLEAR
        };
        for wrong in [
            "overspeed flag clear independent",
            "INDEPENDENT overspeed flag clear",
            "overspeed flag clear INDEPENDENT ON",
        ] {
            let drawing = with_flags([wrong, "overspeed flag clear INDEPENDENT"]);
            let problem = check(drawing.as_bytes(), &displays(), on).unwrap_err();
            assert!(problem.contains("where it has to be"), "{problem}");
        }
    }

    #[test]
    fn a_wrong_word_is_told() {
        for (right, wrong) in [
            (
                "LEFT                   PILOT FLYING",
                "LEFT                        passive",
            ),
            (
                "RIGHT                       passive",
                "RIGHT                  PILOT FLYING",
            ),
            ("| LEFT ", "| RIGHT"),
            ("director ON ", "director off"),
            ("director off  autopilot ON ", "director off  autopilot off"),
            ("overspeed flag clear", "OVERSPEED FLAG SET  "),
            ("[HDG]", " hdg "),
            (" nav ", "[NAV]"),
            ("[HDG]", "[hdg]"),
            (" nav [APPR] vs ", " [APPR] nav vs "),
            ("alt [AP]", "alt  ap "),
            ("HDG            2", "HDG            3"),
            ("HDG            2", "NAV            2"),
            ("HDG            2", "HDG             "),
            ("Off            0", "ROLL           0"),
            ("LAPPR  ", "-      "),
            ("LAPPR  ", "NAV    "),
            ("ALTSEL VAPPR", "ALTSEL      "),
            ("armed    -", "armed     "),
            ("* heading", "  heading"),
            ("  roll ", "* roll "),
            ("  pitch ", "* pitch "),
            ("* = steered to", "              "),
            ("TARGETS", "       "),
            ("120 deg", "121 deg"),
            ("120 deg", "120 ft "),
            ("-1100 ft/min", "  -11 ft/min"),
            (" 341 kt", " 342 kt"),
            ("120 kt", "160 kt"),
            ("   -2 deg", "    2 deg"),
        ] {
            let bad = DRAWING.replacen(right, wrong, 1);
            assert_ne!(bad, DRAWING, "{right}");
            let problem = checked(&bad).unwrap_err();
            assert!(problem.contains("where it has to be"), "{wrong}: {problem}");
        }
    }

    #[test]
    fn a_wrong_frame_is_told() {
        for (right, wrong, told) in [
            ("| LEFT ", "|LEFT  ", "at a border"),
            ("      passive |", "       passive|", "at a border"),
            ("| * heading", "|* heading ", "at a border"),
            ("| LEFT ", "  LEFT ", "at a border"),
            ("FLYING |  |", "FLYING | ||", "no gap"),
            ("MODES ", "MODES  ", "a line has 81 columns"),
            ("MODES ", "MODES", "a line has 79 columns"),
            ("+  +", "+ -+", "top or bottom"),
            ("panel\n+-", "panel\n--", "top or bottom"),
            ("+\nend", "|\nend", "top or bottom"),
            ("roll ", "r\u{f6}ll", "ASCII"),
            ("roll ", "roll\t", "ASCII"),
            ("end\n", "", "no drawing"),
            ("panel\n", "", "no drawing"),
        ] {
            let bad = DRAWING.replacen(right, wrong, 1);
            assert_ne!(bad, DRAWING, "{right}");
            let problem = checked(&bad).unwrap_err();
            assert!(problem.contains(told), "{wrong}: {problem}");
        }
        assert!(checked("panel\nend\n").unwrap_err().contains("no frame"));
        let mut lines: Vec<&str> = DRAWING.split_inclusive('\n').collect();
        lines.remove(9);
        assert!(checked(&lines.concat())
            .unwrap_err()
            .contains("16 rows, not 17"));
        lines.insert(9, lines[3]);
        lines.insert(9, lines[3]);
        assert!(checked(&lines.concat())
            .unwrap_err()
            .contains("18 rows, not 17"));
    }

    #[test]
    fn a_refused_panel_says_so_and_shows_no_value() {
        let on = Flags {
            independent: true,
            ..SET
        };
        let check = |drawing: String| check(drawing.as_bytes(), &refused(), on);
        assert_eq!(check(drawing_of(TITLES, &[])), Ok(()));
        let bare = [
            "",
            "MODES",
            "lateral",
            "heading  deg",
            "roll",
            "TARGETS  * = steered to",
            "--",
        ];
        assert_eq!(check(drawing_of(TITLES, &bare)), Ok(()));
        for row in [
            "heading  120 deg",
            "roll 0",
            "* heading",
            "[HDG]",
            "hdg nav appr",
            "lateral engaged Off",
            "vertical engaged PITCH",
            "armed ALTSEL",
            "ALTSEL capture",
            "flight director off",
            "autopilot ON",
            "overspeed flag clear",
            "INDEPENDENT",
            "PILOT FLYING",
            "passive",
            "REFUSED 1",
        ] {
            let problem = check(drawing_of(TITLES, &["", row])).unwrap_err();
            assert!(
                problem.contains("a refused panel shows"),
                "{row}: {problem}"
            );
        }
        for titles in [
            ["LEFT REFUSED 2", "RIGHT REFUSED 1"],
            ["LEFT REFUSED 1", "RIGHT"],
            ["RIGHT REFUSED 1", "LEFT REFUSED 1"],
            ["LEFT PILOT FLYING", "RIGHT REFUSED 1"],
        ] {
            let problem = check(drawing_of(titles, &[])).unwrap_err();
            assert!(problem.contains("where it has to be"), "{problem}");
        }
    }

    #[test]
    fn a_refused_display_and_a_panel_with_values_do_not_go_together() {
        assert!(check(DRAWING.as_bytes(), &refused(), CLEAR).is_err());
        let refused_title = DRAWING.replace(
            "LEFT                   PILOT FLYING",
            "LEFT                      REFUSED 1",
        );
        assert!(checked(&refused_title).is_err());
        let [_, right] = displays();
        let [left, _] = refused();
        let one = check(refused_title.as_bytes(), &[left, right], CLEAR);
        assert!(one.unwrap_err().starts_with("LEFT: a refused panel shows"));
    }

    #[test]
    fn every_law_is_named_and_steers_to_its_target() {
        let [mut display, _] = displays();
        let marks = |display: &Display| -> Vec<String> {
            let rows = rows(0, display, CLEAR).split_off(10);
            rows.into_iter()
                .filter(|row| row.starts_with('*'))
                .collect()
        };
        display.vertical = 8;
        let lateral = [None, Some("roll"), Some("heading"), None, None, None];
        for (law, steered) in lateral.into_iter().enumerate() {
            display.lateral = law as i64;
            let marks = marks(&display);
            assert_eq!(marks.len(), usize::from(steered.is_some()), "{law}");
            assert!(marks.iter().all(|row| row.contains(steered.unwrap())));
        }
        display.lateral = 5;
        let vertical = [
            None,
            Some("pitch"),
            Some("vertical speed"),
            Some("indicated airspeed"),
            Some("held altitude"),
            Some("preselected altitude"),
            Some("preselected altitude"),
            None,
            None,
        ];
        for (law, steered) in vertical.into_iter().enumerate() {
            display.vertical = law as i64;
            let marks = marks(&display);
            assert_eq!(marks.len(), usize::from(steered.is_some()), "{law}");
            assert!(marks.iter().all(|row| row.contains(steered.unwrap())));
        }
        display.vertical = 6;
        assert_eq!(rows(1, &display, SET)[7], "vertical engaged ALTSEL track 6");
        display.vertical = 9;
        assert_eq!(
            rows(1, &display, SET)[7],
            "vertical engaged (no such law) 9"
        );
    }
}
