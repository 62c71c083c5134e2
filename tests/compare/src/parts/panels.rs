//! The drawings of the console alone: each has to say what the displays of the same bench say, and
//! one that the watch adds has to be the one that `panel` then gives.

mod drawing;

use std::collections::BTreeSet;

use self::drawing::{Display, Flags};
use super::random;
use super::words::{self, Set, KINDS, REFERENCES, SIDES};
use crate::compare;
use crate::gate::{Gate, Stop};
use crate::script::{is_new_bench, Script};

/// Commands, of which the last is watched. Where the first asks for no new bench, the bench is the
/// one that the state before has left.
type State = Vec<String>;

/// What every state is asked for, the watched command first.
const ASKED: usize = 8;

/// Off and the On sets, as document 01 counts them.
const SETS: usize = 108;

/// Lists by chance, and the commands in each. They are short, so that a report of one is.
const LISTS: u64 = 24;
const LENGTH: usize = 60;

pub fn run(gate: &mut Gate) -> Result<(), Stop> {
    let states = states(gate.seed);
    let output = gate.ask_console(&script(&states))?;
    let checked = check(&output, &states).and_then(|seen| all_seen(&seen));
    checked.map_err(|problem| gate.reject(&problem))
}

fn script(states: &[State]) -> Script {
    let mut script = Script::default();
    for state in states {
        let (watched, earlier) = state.split_last().expect("a state has a command");
        for line in earlier {
            script.line(line);
        }
        for line in [
            "watch on",
            watched,
            "panel",
            "watch off",
            "display 0",
            "display 1",
            "bench",
        ] {
            script.line(line);
        }
    }
    script
}

// ---- The answers ----

/// What was shown, in the words of the rows, and the sets of each side.
#[derive(Default)]
struct Seen {
    rows: BTreeSet<(usize, String)>,
    sets: [BTreeSet<[i64; 3]>; 2],
}

impl Seen {
    fn add(&mut self, displays: &[Display; 2], flags: Flags) {
        for (side, display) in displays.iter().enumerate() {
            for row in drawing::rows(side, display, flags) {
                // The lamps are asked for one by one.
                let words = row.split(' ').map(String::from);
                self.rows.extend(words.map(|word| (side, word)));
                self.rows.insert((side, row));
            }
            if display.refusal == 0 {
                let set = [display.lateral, display.vertical, display.armed];
                self.sets[side].insert(set);
            }
        }
    }
}

fn check(output: &[u8], states: &[State]) -> Result<Seen, String> {
    let mut seen = Seen::default();
    let blocks = compare::blocks(output);
    let mut rest = &blocks[..];
    for (index, state) in states.iter().enumerate() {
        let split = rest.split_at_checked(state.len() - 1 + ASKED);
        let (answers, later) = split.ok_or("answers are missing at the end")?;
        check_state(&answers[state.len() - 1..], &mut seen)
            .map_err(|problem| told(&problem, &states[..=index], answers))?;
        rest = later;
    }
    match rest.first() {
        None => Ok(seen),
        Some(answer) => Err(format!("too many answers: {}", answer.escape_ascii())),
    }
}

/// The answers from `watch on` on.
fn check_state(answers: &[&[u8]], seen: &mut Seen) -> Result<(), String> {
    let [on, _, watched, panel, off, left, right, bench] = answers else {
        return Err("answers are missing".to_string());
    };
    if *on != b"watch 0\n" || *off != b"watch 0\n" {
        return Err("the watch is not answered where it has to be".to_string());
    }
    if watched != panel {
        return Err("the drawing of the watch is not that of the panel".to_string());
    }
    let displays = [Display::read(left), Display::read(right)];
    let (&[Some(left), Some(right)], Some(flags)) = (&displays, Flags::read(bench)) else {
        return Err("display or bench is not answered where it has to be".to_string());
    };
    drawing::check(panel, &[left, right], flags)?;
    seen.add(&[left, right], flags);
    Ok(())
}

/// The problem, the commands since the last new bench, and the answers to the last state.
fn told(problem: &str, states: &[State], answers: &[&[u8]]) -> String {
    let fresh = |state: &State| is_new_bench(state[0].as_bytes());
    let start = states.iter().rposition(fresh).unwrap_or(0);
    let commands = states[start..].concat().join("\n");
    let answers = answers.concat();
    let answers = String::from_utf8_lossy(&answers);
    format!(
        "{problem}\nafter the commands:\n{commands}\n\
         answers to the last of them, watched, and to what it was asked for:\n{answers}"
    )
}

/// Whether everything that a panel can show was shown; else the part would try less than it says.
fn all_seen(seen: &Seen) -> Result<(), String> {
    for (side, name) in SIDES.into_iter().enumerate() {
        if seen.sets[side].len() != SETS {
            let count = seen.sets[side].len();
            return Err(format!("{count} sets were shown on {name}, not {SETS}"));
        }
        let missing = needed(name)
            .into_iter()
            .find(|row| !seen.rows.contains(&(side, row.clone())));
        if let Some(row) = missing {
            return Err(format!("`{row}` was never shown on {name}"));
        }
    }
    Ok(())
}

/// What has to be shown on a side at one time or another.
fn needed(side: &str) -> Vec<String> {
    let side = side.to_uppercase();
    let mut needed: Vec<String> = ["PILOT FLYING", "passive", "REFUSED 1"]
        .map(|role| format!("{side} {role}"))
        .to_vec();
    for fd in ["ON", "off"] {
        needed.extend(["ON", "off"].map(|ap| format!("flight director {fd} autopilot {ap}")));
    }
    for overspeed in ["OVERSPEED FLAG SET", "overspeed flag clear"] {
        needed.extend(["", " INDEPENDENT"].map(|both| format!("{overspeed}{both}")));
    }
    for lamp in ["hdg", "nav", "appr", "vs", "flc", "alt", "ap"] {
        needed.extend([lamp.to_string(), format!("[{}]", lamp.to_uppercase())]);
    }
    for range in REFERENCES {
        let (name, unit, factor) = match range.name {
            "heading" => ("heading", "deg", 1),
            "preselected" => ("preselected altitude", "ft", 1),
            "held" => ("held altitude", "ft", 1),
            "vertical-speed" => ("vertical speed", "ft/min", 100),
            "ias" => ("indicated airspeed", "kt", 1),
            other => (other, "deg", 1),
        };
        for end in [range.low, range.high] {
            needed.extend(["", "* "].map(|mark| format!("{mark}{name} {} {unit}", end * factor)));
        }
    }
    needed
}

// ---- The states ----

fn states(seed: u64) -> Vec<State> {
    let mut states = vec![lines(&["power-on"])];
    states.extend((0..SHARED).map(|number| [lines(&["power-on"]), shared(number)].concat()));
    states.extend(with_sets());
    states.extend(with_references());
    states.extend(independent());
    states.extend(damaged());
    states.extend(WALK.map(|line| lines(&[line])));
    states.extend(by_chance(seed));
    states
}

fn lines(lines: &[&str]) -> State {
    lines.iter().map(|line| line.to_string()).collect()
}

/// The ways in which `shared` can be asked.
const SHARED: usize = 32;

/// Calls after which pilot flying, autopilot, flight directors and flag differ by the number.
fn shared(number: usize) -> State {
    let calls = [
        "press transfer",
        "press ap",
        "press fd-left",
        "press fd-right",
        "signal overspeed-begins",
    ];
    let chosen = calls.iter().enumerate();
    let mut state: State = chosen
        .filter(|(bit, _)| number >> bit & 1 == 1)
        .map(|(_, call)| call.to_string())
        .collect();
    // A state needs a command, and this one does nothing.
    state.push("event 0".to_string());
    state
}

/// Coherent sets for the side that is not tried: Off, and some with many modes and with few.
const RESTING: [Set; 5] = [
    Set::OFF,
    Set::new(1, 0, 1, 0),
    Set::new(2, 2, 3, 1),
    Set::new(4, 0, 7, 0),
    Set::new(3, 0, 6, 0),
];

/// Every set that can be written on each side, under two opposite shared states. Those that are
/// not coherent are refused.
fn with_sets() -> Vec<State> {
    let mut states = Vec::new();
    let sets = [vec![Set::OFF], words::on_sets()].concat();
    for (index, set) in sets.iter().enumerate() {
        for number in [index % SHARED, SHARED - 1 - index % SHARED] {
            for (side, name) in SIDES.iter().enumerate() {
                let resting = RESTING[(index + number) % RESTING.len()];
                let mut state = lines(&["power-on"]);
                state.extend(shared(number));
                state.push(format!("damage {} set {resting}", SIDES[1 - side]));
                state.push(format!("damage {name} set {set}"));
                states.push(state);
            }
        }
    }
    states
}

/// One for each target that can be steered to, and one that steers to none of them.
const STEERING: [Set; 8] = [
    Set::new(1, 0, 8, 0),
    Set::new(2, 0, 8, 0),
    Set::new(5, 0, 1, 0),
    Set::new(5, 0, 2, 0),
    Set::new(5, 0, 3, 0),
    Set::new(5, 0, 4, 0),
    Set::new(5, 0, 5, 0),
    Set::new(5, 0, 8, 0),
];

/// Every reference at its ends in every mode that steers; past its ends, where it is refused; and
/// all of them at once.
fn with_references() -> Vec<State> {
    let mut states = Vec::new();
    for side in SIDES {
        for reference in REFERENCES {
            let (name, low, high) = (reference.name, reference.low, reference.high);
            for set in STEERING {
                states.extend([low, high].map(|value| with(side, set, &[(name, value)])));
            }
            let others = [low + 1, high - 1, low - 1, high + 1, i32::MIN, i32::MAX];
            states.extend(others.map(|value| with(side, Set::OFF, &[(name, value)])));
        }
        for set in STEERING {
            states.push(with(side, set, &REFERENCES.map(|row| (row.name, row.low))));
            states.push(with(side, set, &REFERENCES.map(|row| (row.name, row.high))));
        }
    }
    states
}

fn with(side: &str, set: Set, values: &[(&str, i32)]) -> State {
    let mut state = lines(&["power-on"]);
    state.push(format!("damage {side} set {set}"));
    for (name, value) in values {
        state.push(format!("damage {side} {name} {value}"));
    }
    state
}

/// Independent operation put on with each two sets of an approach and without one, under every
/// shared state, and taken off again. Where a side has no approach it is refused.
fn independent() -> Vec<State> {
    let sets = [
        Set::new(4, 0, 7, 0),
        Set::new(4, 1, 7, 0),
        Set::new(4, 0, 1, 1),
    ];
    let mut states = Vec::new();
    for number in 0..SHARED {
        for (left, right) in (0..9).map(|pair| (sets[pair / 3], sets[pair % 3])) {
            let mut state = lines(&["power-on"]);
            state.extend(shared(number));
            state.push(format!("damage left set {left}"));
            state.push(format!("damage right set {right}"));
            state.push("damage independent 1".to_string());
            states.push(state);
            states.push(lines(&["damage independent 0"]));
        }
    }
    states
}

/// Damage away from what the panels show, on a bench with much to show; and some that is mended.
fn damaged() -> Vec<State> {
    let mut damages: Vec<String> = [2, 3, 128, 255].map(|pf| format!("pf {pf}")).to_vec();
    damages.push("independent 1".to_string());
    for side in SIDES {
        damages.extend([
            format!("{side}-inbox ias 59"),
            format!("{side}-inbox set 1 1 1 1"),
        ]);
    }
    for kind in KINDS {
        damages.extend([
            format!("reading {} nan", kind.name),
            format!("reading {} {}", kind.name, kind.last + 1),
            format!("whole {} 1", kind.name),
            format!("whole {} {}", kind.name, i32::MIN),
        ]);
    }
    let mut states = Vec::new();
    for damage in damages {
        let mut state = lines(&WALK[..9]);
        state.push(format!("damage {damage}"));
        states.push(state.clone());
        state.extend(lines(&["press ap", "knob heading 5"]));
        states.push(state);
    }
    for (damage, mend) in [("pf 2", "pf 1"), ("whole roll 1", "whole roll 0")] {
        let mut mended = lines(&WALK[..9]);
        mended.extend([damage, mend].map(|part| format!("damage {part}")));
        states.push(mended);
    }
    states
}

/// Every command that is watched, accepted and refused, on one bench after the other.
const WALK: [&str; 86] = [
    "power-on",
    "press hdg",
    "knob heading 120",
    "press appr",
    "turn altitude 30",
    "reading airspeed 341.4",
    "signal overspeed-begins",
    "send left",
    "refresh right",
    "press ap",
    "press transfer",
    "send right",
    "refresh left",
    "reading altitude 12345.6",
    "press alt",
    "reading pitch -7",
    "knob wheel -3",
    "knob wheel -3",
    "reading vertical-speed -11",
    "event 131072",
    "turn wheel 9",
    "knob 0 -20",
    "signal overspeed-ends",
    "press appr",
    "signal lappr-captured",
    "signal vappr-captured",
    "press go-around",
    "press fd-left",
    "press fd-right",
    "press nav",
    "signal nav-captured",
    "signal source-changed",
    "signal altsel-captured",
    "signal altsel-on-track",
    "knob altitude -1",
    "press independent",
    "press appr",
    "signal lappr-captured",
    "signal vappr-captured",
    "press independent",
    "send right",
    "refresh left",
    "press independent",
    "knob heading 30",
    "knob speed -9",
    "press ap",
    "refresh left",
    "send left",
    "press nav",
    "press fd-left",
    "press independent",
    "press transfer",
    "press go-around",
    "damage left set 4 0 7 0",
    "damage right set 4 1 7 0",
    "event 1048576",
    "press vs",
    "event 0",
    "event 1048576",
    "event 2097152",
    "turn 4 1",
    "send 2",
    "refresh 9",
    "reading roll nan",
    "reading roll 500",
    "damage left ias 250",
    "damage right set 4 0 7 0",
    "damage pf 2",
    "event 1",
    "press flc",
    "signal nav-captured",
    "knob speed 1",
    "turn 9 9",
    "reading roll 1",
    "send left",
    "refresh right",
    "damage pf 1",
    "press flc",
    "knob speed 127",
    "press ap-disconnect",
    "start 400",
    "press flc",
    "start 401",
    "damage pf 2",
    "start 60",
    "power-on",
];

/// Calm lists, each from power-on, without the commands that are not watched.
fn by_chance(seed: u64) -> Vec<State> {
    let mut states = Vec::new();
    for number in 0..LISTS {
        states.push(lines(&["power-on"]));
        let list = random::list(seed, 2 * number, LENGTH);
        let text = String::from_utf8_lossy(list.text()).into_owned();
        let watched = text.lines().filter(|line| is_watched(line));
        states.extend(watched.map(|line| lines(&[line])));
    }
    states
}

/// Whether a line of a calm list is of a command that can change the bench.
fn is_watched(line: &str) -> bool {
    let name = line.split(' ').next();
    !matches!(
        name,
        Some("display" | "pick" | "bench" | "area" | "poke" | "write" | "read" | "bytes" | "codes")
    )
}

#[cfg(test)]
mod tests {
    use super::drawing::tests::{displays, CLEAR, DISPLAYS, DRAWING};
    use super::*;
    use crate::parts::shown::tests::{answer, SOME};
    use crate::parts::shown::Shown;

    /// What a console would say to the states if all of them were the same bench.
    fn output(states: &[State]) -> String {
        let mut output = String::new();
        for state in states {
            output += &"damage 0\n".repeat(state.len() - 1);
            output += &asked(DRAWING, DRAWING);
        }
        output
    }

    fn asked(watched: &str, panel: &str) -> String {
        let displays = DISPLAYS.concat();
        let bench = answer(&Shown {
            pf: 0,
            overspeed: false,
            ..SOME
        });
        format!("watch 0\nevent 0 32\n{watched}{panel}watch 0\n{displays}{bench}")
    }

    fn problem(output: &str, states: &[State]) -> String {
        check(output.as_bytes(), states).err().expect("it is told")
    }

    #[test]
    fn a_script_asks_for_every_state() {
        let states = [lines(&["power-on", "press hdg"]), lines(&["send 0"])];
        let asked = "panel\nwatch off\ndisplay 0\ndisplay 1\nbench\n";
        let expected = format!("power-on\nwatch on\npress hdg\n{asked}watch on\nsend 0\n{asked}");
        assert_eq!(script(&states).text(), expected.as_bytes());
    }

    #[test]
    fn drawings_that_agree_pass() {
        let states = states(1);
        let seen =
            check(output(&states).as_bytes(), &states).unwrap_or_else(|told| panic!("{told}"));
        assert_eq!(seen.sets.map(|sets| sets.len()), [1, 1]);
        assert!(seen.rows.contains(&(0, "[HDG]".to_string())));
        assert!(seen.rows.contains(&(1, "RIGHT passive".to_string())));
    }

    #[test]
    fn a_problem_comes_with_the_commands_that_lead_to_it() {
        let states = [
            lines(&["power-on", "press hdg"]),
            lines(&["send 0"]),
            lines(&["power-on"]),
            lines(&["send 1"]),
            lines(&["send 2"]),
            lines(&["send 3"]),
        ];
        let good = output(&states);
        let broken = output(&states[..4]) + &asked("panel\nend\n", DRAWING) + &output(&states[5..]);
        let told = problem(&broken, &states);
        assert!(told.starts_with("the drawing of the watch is not that of the panel\n"));
        assert!(told.contains("after the commands:\npower-on\nsend 1\nsend 2\nanswers to"));
        let wrong = DRAWING.replace("120 deg", "119 deg");
        let broken = output(&states[..5]) + &asked(&wrong, &wrong);
        let told = problem(&broken, &states);
        assert!(
            told.starts_with("LEFT: `* heading 119 deg` where it has to be `* heading 120 deg`\n")
        );
        assert!(told.contains("\nsend 3\nanswers to") && told.contains(&wrong));
        let told = problem(&good.replacen(DRAWING, "", 1), &states);
        assert!(told.starts_with("the watch is not answered"), "{told}");
        let told = problem(&format!("{good}send 0\n"), &states);
        assert!(told.contains("too many answers"), "{told}");
        let told = problem(&output(&states[..5]), &states);
        assert!(told.contains("missing"), "{told}");
        let told = problem(&good.replace("bench 0", "bunch 0"), &states);
        assert!(
            told.starts_with("display or bench is not answered"),
            "{told}"
        );
    }

    #[test]
    fn what_is_never_shown_is_told() {
        let mut seen = Seen::default();
        seen.add(&displays(), CLEAR);
        assert_eq!(
            all_seen(&seen),
            Err("1 sets were shown on left, not 108".to_string())
        );
        for sets in &mut seen.sets {
            sets.extend((0..107).map(|number| [9, 9, number]));
        }
        let expected = "`LEFT passive` was never shown on left";
        assert_eq!(all_seen(&seen), Err(expected.to_string()));
        for (side, name) in SIDES.into_iter().enumerate() {
            let all = needed(name).into_iter().map(|row| (side, row));
            seen.rows.extend(all);
        }
        assert_eq!(all_seen(&seen), Ok(()));
    }

    #[test]
    fn states_are_many_and_all_watched() {
        let states = states(1);
        let with_sets = 241 * 4;
        let with_references = 2 * (7 * (8 * 2 + 6) + 16);
        let independent = SHARED * 9 * 2;
        let damaged = 2 * (4 + 1 + 4 + 24) + 2;
        let fixed = 1 + SHARED + with_sets + with_references + independent + damaged + WALK.len();
        let by_chance = states.len() - fixed;
        assert!(by_chance > LISTS as usize * LENGTH / 2, "{by_chance}");
        assert_eq!(states[0], ["power-on"]);
        assert!(states.iter().all(|state| !state.is_empty()));
        let last: BTreeSet<&str> = states
            .iter()
            .map(|state| state.last().unwrap().split(' ').next().unwrap())
            .collect();
        let watched = [
            "event", "press", "signal", "turn", "knob", "reading", "send", "refresh", "power-on",
            "damage", "start",
        ];
        assert_eq!(last, BTreeSet::from(watched));
    }

    #[test]
    fn independent_operation_has_to_be_shown_with_both_overspeed_flags() {
        for row in [
            "overspeed flag clear INDEPENDENT",
            "OVERSPEED FLAG SET INDEPENDENT",
            "overspeed flag clear",
            "OVERSPEED FLAG SET",
        ] {
            assert!(needed("left").contains(&row.to_string()), "{row}");
        }
    }

    #[test]
    fn readings_are_damaged_past_the_last_number_accepted() {
        let all = damaged().concat();
        for reading in ["altitude 56001", "pitch 90", "roll 181", "heading 361"] {
            let line = format!("damage reading {reading}");
            assert!(all.contains(&line), "{line}");
        }
    }

    #[test]
    fn each_set_stands_under_opposite_shared_states() {
        let states = with_sets();
        for pair in states.chunks(4) {
            for call in ["press transfer", "press ap", "signal overspeed-begins"] {
                let with = pair
                    .iter()
                    .filter(|state| state.contains(&call.to_string()));
                assert_eq!(with.count(), 2);
            }
        }
    }
}
