//! Every coherent set with every event, send and refresh, in every state of flag, autopilot, pilot
//! flying and flight directors that the call can tell apart.
//!
//! Which sets are coherent is asked of the programs, so that no rule for it stands here.

mod states;

use std::fmt;

use self::states::State;
use super::shown::Shown;
use super::words::{self, Set, BOXES, EVENT_COUNT, REFERENCES, SIDES};
use crate::compare;
use crate::gate::{Gate, Stop};
use crate::say;
use crate::script::Script;

/// As document 01 counts them.
const COHERENT: usize = 107;

pub fn run(gate: &mut Gate) -> Result<(), Stop> {
    let (accepted, refused) = asked(gate)?;
    let output = gate.check(&incoherent(&refused))?;
    all_refused(&output).map_err(|problem| gate.reject(&problem))?;
    for trial in Trial::all() {
        let (script, cases) = with_trial(trial, &accepted);
        let output = gate.check(&script)?;
        in_place(&output, &cases).map_err(|problem| gate.reject(&problem))?;
    }
    Ok(())
}

// ---- Which sets are coherent ----

/// The accepted sets, Off first, and the refused ones, as both programs tell them apart.
pub fn asked(gate: &mut Gate) -> Result<(Vec<Set>, Vec<Set>), Stop> {
    let output = gate.check(&probe())?;
    sort(&output).map_err(|problem| gate.reject(&problem))
}

fn candidates() -> Vec<Set> {
    let mut sets = vec![Set::OFF];
    sets.extend(words::on_sets());
    sets
}

/// Asks of each set whether a bench with it is sound.
fn probe() -> Script {
    let mut script = Script::default();
    for set in candidates() {
        script.line("power-on");
        say!(script, "damage left set {set}");
        script.line("event 0");
    }
    script
}

/// The accepted and the refused sets, from the answers to the probe.
fn sort(output: &[u8]) -> Result<(Vec<Set>, Vec<Set>), String> {
    let answers = compare::blocks(output);
    let verdicts = answers.into_iter().skip(2).step_by(3);
    let (mut accepted, mut refused) = (Vec::new(), Vec::new());
    for (set, verdict) in candidates().into_iter().zip(verdicts) {
        match verdict {
            b"event 0 32\n" => accepted.push(set),
            b"event 1 32\n" => refused.push(set),
            _ => {
                return Err(format!(
                    "the set {set} is neither accepted nor refused with 1"
                ))
            }
        }
    }
    if accepted.first() != Some(&Set::OFF) || accepted.len() != COHERENT + 1 {
        let count = accepted.len();
        return Err(format!(
            "{count} sets are accepted, and not Off and {COHERENT} On sets"
        ));
    }
    Ok((accepted, refused))
}

/// Every event on a bench with an incoherent set, on one side or the other.
fn incoherent(refused: &[Set]) -> Script {
    let mut script = Script::default();
    for (index, set) in refused.iter().enumerate() {
        for event in 0..EVENT_COUNT {
            let side = SIDES[(index + event as usize) % 2];
            script.line("power-on");
            say!(script, "damage {side} set {set}");
            say!(script, "event {}", words::word(event));
            script.line("display 0");
            script.line("bench");
        }
    }
    script
}

fn all_refused(output: &[u8]) -> Result<(), String> {
    let mut answers = compare::blocks(output).into_iter().skip(2).step_by(5);
    match answers.position(|answer| answer != b"event 1 32\n") {
        None => Ok(()),
        Some(index) => Err(format!(
            "event {index} of the incoherent sets is not refused with 1"
        )),
    }
}

// ---- The cases ----

/// What is tried on a bench that has been put in place.
#[derive(Clone, Copy, PartialEq, Eq, Debug)]
pub enum Trial {
    Event(u32),
    Send(usize),
    Refresh(usize),
}

impl Trial {
    fn all() -> Vec<Trial> {
        let mut all: Vec<Trial> = (0..EVENT_COUNT).map(Trial::Event).collect();
        for side in 0..2 {
            all.extend([Trial::Send(side), Trial::Refresh(side)]);
        }
        all
    }

    fn is_event(self) -> bool {
        matches!(self, Trial::Event(_))
    }
}

impl fmt::Display for Trial {
    fn fmt(&self, output: &mut fmt::Formatter) -> fmt::Result {
        match *self {
            Trial::Event(event) => write!(output, "event {}", words::word(event)),
            Trial::Send(side) => write!(output, "send {side}"),
            Trial::Refresh(side) => write!(output, "refresh {side}"),
        }
    }
}

/// A state and the sets of both sides, and which answer shows the bench put so.
struct Case {
    state: State,
    sets: [Set; 2],
    shown_at: usize,
}

impl Case {
    /// What `bench` has to show ahead of the trial.
    fn shown(&self) -> Shown {
        let State { fd, inbox, .. } = self.state;
        Shown {
            pf: self.state.pf as u8,
            ap: self.state.ap,
            overspeed: self.state.flag,
            independent: false,
            fd,
            sets: self.sets,
            inbox,
        }
    }
}

/// One trial in all its states with all accepted sets.
fn with_trial(trial: Trial, accepted: &[Set]) -> (Script, Vec<Case>) {
    let mut script = Script::default();
    let mut cases = Vec::new();
    for index in 0..accepted.len() {
        for (shift, state) in states::of(trial).into_iter().enumerate() {
            let set = |offset: usize| accepted[(index + offset) % accepted.len()];
            // Another set for the side that does not act, so that a rule judged on the wrong side
            // is seen.
            let (acts, rests) = (set(0), set(1 + shift));
            let sets = if state.acting == 0 {
                [acts, rests]
            } else {
                [rests, acts]
            };
            state.put(&mut script);
            say_readings(&mut script, trial);
            say_sets(&mut script, sets);
            if !trial.is_event() {
                say_inboxes(&mut script, [set(40 + shift), set(75 + shift)]);
                say_references(&mut script, index + shift);
            }
            let shown_at = script.commands();
            cases.push(Case {
                state,
                sets,
                shown_at,
            });
            say_trial(&mut script, trial);
        }
    }
    (script, cases)
}

/// Readings other than the references, so that an entry is seen; only those that can be loaded.
fn say_readings(script: &mut Script, trial: Trial) {
    script.line("reading roll -12.5");
    script.line("reading pitch 7.5");
    match trial {
        Trial::Event(2 | 18) => script.line("reading airspeed 251.5"),
        Trial::Event(17) => script.line("reading vertical-speed 33.5"),
        Trial::Event(19) => script.line("reading altitude 12345.5"),
        _ => {}
    }
}

fn say_sets(script: &mut Script, sets: [Set; 2]) {
    for (side, set) in SIDES.iter().zip(sets) {
        say!(script, "damage {side} set {set}");
    }
}

fn say_inboxes(script: &mut Script, sets: [Set; 2]) {
    for (side, set) in SIDES.iter().zip(sets) {
        say!(script, "damage {side}-inbox set {set}");
    }
}

/// One reference of every box, each other than the rest, so that it is seen what was copied.
fn say_references(script: &mut Script, number: usize) {
    let reference = REFERENCES[number % REFERENCES.len()];
    for (place, step) in BOXES.iter().zip([10, 20, 30, 40]) {
        say!(
            script,
            "damage {place} {} {}",
            reference.name,
            reference.low + step
        );
    }
}

fn say_trial(script: &mut Script, trial: Trial) {
    script.line("bench");
    say!(script, "{trial}");
    script.line("display 0");
    script.line("display 1");
    script.line("bench");
}

/// Whether the benches shown are those that the cases ask for; else the part would try less than
/// it says.
fn in_place(output: &[u8], cases: &[Case]) -> Result<(), String> {
    let answers = compare::blocks(output);
    for case in cases {
        let answer = answers[case.shown_at];
        if Shown::read(answer) != Some(case.shown()) {
            let (state, sets) = (case.state, case.sets);
            let shown = String::from_utf8_lossy(answer);
            return Err(format!("{state:?} with {sets:?} was not reached: {shown}"));
        }
    }
    Ok(())
}

#[cfg(test)]
mod tests {
    use super::*;
    use crate::parts::shown::tests::{answer, SOME};
    use std::collections::BTreeSet;

    /// Any sets do to count scripts.
    fn some_sets(count: usize) -> Vec<Set> {
        candidates().into_iter().take(count).collect()
    }

    fn lines(script: &Script) -> Vec<&str> {
        std::str::from_utf8(script.text())
            .unwrap()
            .lines()
            .collect()
    }

    fn with_answers(accepted: usize) -> Vec<u8> {
        let answer = |index| {
            if index < accepted {
                "event 0 32"
            } else {
                "event 1 32"
            }
        };
        let answers = (0..241).map(|index| format!("power-on 0\ndamage 0\n{}\n", answer(index)));
        answers.collect::<String>().into_bytes()
    }

    #[test]
    fn the_probe_asks_of_all_241_sets() {
        let script = probe();
        assert_eq!(script.commands(), 3 * 241);
        let asked: BTreeSet<&str> = lines(&script).into_iter().skip(1).step_by(3).collect();
        assert_eq!(asked.len(), 241);
    }

    #[test]
    fn exactly_107_on_sets_have_to_be_accepted() {
        let (accepted, refused) = sort(&with_answers(108)).unwrap();
        assert_eq!((accepted.len(), refused.len()), (108, 133));
        assert!(sort(&with_answers(107)).is_err());
        assert!(sort(&with_answers(109)).is_err());
        let odd = String::from_utf8(with_answers(108)).unwrap();
        assert!(sort(odd.replacen("event 0 32", "event 2 32", 1).as_bytes()).is_err());
        let no_off = odd.replacen("event 0 32", "event 1 32", 1);
        assert!(sort(no_off.replacen("event 1 32", "event 0 32", 2).as_bytes()).is_err());
    }

    #[test]
    fn incoherent_sets_have_to_be_refused_at_every_event() {
        let script = incoherent(&some_sets(133));
        assert_eq!(script.commands(), 133 * 21 * 5);
        let answers = "power-on 0\ndamage 0\nevent 1 32\ndisplay 1 0\nbench\n".repeat(9);
        assert!(all_refused(answers.as_bytes()).is_ok());
        let bad = answers.replacen("event 1 32", "event 0 3", 1);
        assert!(all_refused(bad.as_bytes()).is_err());
    }

    #[test]
    fn trials_are_21_events_and_the_sends_and_refreshes_of_both_sides() {
        let all: BTreeSet<String> = Trial::all().iter().map(Trial::to_string).collect();
        assert_eq!(all.len(), 25);
        for trial in [
            "event 1",
            "event 524288",
            "event 1048576",
            "send 0",
            "send 1",
            "refresh 0",
            "refresh 1",
        ] {
            assert!(all.contains(trial), "{trial}");
        }
    }

    #[test]
    fn every_set_and_state_is_tried_with_every_trial() {
        let sets = some_sets(108);
        for trial in Trial::all() {
            let (script, cases) = with_trial(trial, &sets);
            let is_fd_switch = matches!(trial, Trial::Event(6 | 7));
            assert_eq!(cases.len(), 108 * if is_fd_switch { 56 } else { 32 });
            let tried: BTreeSet<String> = cases
                .iter()
                .map(|case| format!("{:?} {}", case.state, case.sets[case.state.acting]))
                .collect();
            assert_eq!(tried.len(), cases.len(), "{trial}");
            let text = lines(&script);
            let tail = [
                "bench",
                &trial.to_string(),
                "display 0",
                "display 1",
                "bench",
            ];
            for case in &cases {
                assert_eq!(text[case.shown_at..case.shown_at + 5], tail);
            }
        }
    }

    #[test]
    fn the_two_sides_never_have_the_same_set() {
        let (_, cases) = with_trial(Trial::Event(6), &some_sets(108));
        assert!(cases.iter().all(|case| case.sets[0] != case.sets[1]));
    }

    #[test]
    fn a_refresh_finds_four_different_boxes() {
        let (script, cases) = with_trial(Trial::Refresh(0), &some_sets(108));
        let text = lines(&script);
        for case in cases {
            let damages = &text[case.shown_at - 8..case.shown_at];
            let (sets, references) = damages.split_at(4);
            let words = |line: &str, from: usize| line.split(' ').skip(from).collect::<String>();
            let sets: BTreeSet<String> = sets.iter().map(|line| words(line, 3)).collect();
            assert_eq!(sets.len(), 4, "{damages:?}");
            let values: BTreeSet<String> = references.iter().map(|line| words(line, 3)).collect();
            assert_eq!(values.len(), 4, "{damages:?}");
        }
        for reference in REFERENCES {
            assert!(reference.low + 40 <= reference.high);
            let name = format!("damage left {} ", reference.name);
            assert!(text.iter().any(|line| line.starts_with(&name)));
        }
    }

    #[test]
    fn a_bench_that_is_not_in_place_is_noticed() {
        let case = Case {
            state: State {
                pf: 1,
                flag: true,
                ap: false,
                fd: [true, false],
                inbox: [false, true],
                acting: 1,
            },
            sets: SOME.sets,
            shown_at: 0,
        };
        let check = |answer: &str| in_place(answer.as_bytes(), std::slice::from_ref(&case));
        assert_eq!(check(&answer(&SOME)), Ok(()));
        let changes: [fn(&mut Shown); 8] = [
            |shown| shown.pf = 0,
            |shown| shown.ap = true,
            |shown| shown.overspeed = false,
            |shown| shown.independent = true,
            |shown| shown.fd = [false, false],
            |shown| shown.inbox = [true, true],
            |shown| shown.sets[0] = shown.sets[1],
            |shown| shown.sets[1] = shown.sets[0],
        ];
        for change in changes {
            let mut shown = SOME;
            change(&mut shown);
            assert!(check(&answer(&shown)).is_err(), "{shown:?}");
        }
        assert!(check("bench 1 0 1 0\n").is_err());
    }
}
