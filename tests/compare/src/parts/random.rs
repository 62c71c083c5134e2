//! Lists of calls by chance.

mod approach;
mod bus;
mod values;

use std::collections::{BTreeMap, BTreeSet, VecDeque};

use self::approach::Step;
use self::bus::Bus;
use super::shown::Shown;
use super::words::{self, Ranged, Set, BOXES, EVENT_COUNT, KINDS, KNOBS, REFERENCES, SIDES};
use crate::compare;
use crate::gate::{Gate, Stop};
use crate::rng::Rng;
use crate::script::Script;

const LISTS: u64 = 4;

/// So long that the last line numbers do not fit in 16 bits.
const LENGTH: usize = 100_000;

/// Fewer On sets shown in all lists together would mean that the lists stay near power-on, from
/// where 105 of the 107 can be reached.
const FEWEST_SETS: usize = 100;

/// How often independent operation has to begin, and how often each answer has to end it.
const FEWEST_BEGINNINGS: usize = 500;
const FEWEST_ENDINGS: usize = 5;

pub fn run(gate: &mut Gate) -> Result<(), Stop> {
    let mut shown = BTreeSet::new();
    let mut moves = Moves::default();
    for number in 0..LISTS {
        let output = gate.check(&list(gate.seed, number, LENGTH))?;
        collect_shown(&output, &mut shown);
        moves.collect(&output);
    }
    if shown.len() < FEWEST_SETS {
        return Err(gate.reject(&format!("the displays show only {} On sets", shown.len())));
    }
    moves.are_enough().map_err(|problem| gate.reject(&problem))
}

/// The answers that stand between two benches of which only one is in independent operation, and
/// how often.
#[derive(Default)]
struct Moves {
    beginnings: BTreeMap<Vec<u8>, usize>,
    endings: BTreeMap<Vec<u8>, usize>,
}

impl Moves {
    fn collect(&mut self, output: &[u8]) {
        let independent = |answer| Shown::read(answer).map(|shown| shown.independent);
        for answers in compare::blocks(output).windows(3) {
            let moves = match (independent(answers[0]), independent(answers[2])) {
                (Some(false), Some(true)) => &mut self.beginnings,
                (Some(true), Some(false)) => &mut self.endings,
                _ => continue,
            };
            *moves.entry(answers[1].to_vec()).or_default() += 1;
        }
    }

    fn are_enough(&self) -> Result<(), String> {
        let count = |moves: &BTreeMap<Vec<u8>, usize>, answer: &str| {
            moves.get(answer.as_bytes()).copied().unwrap_or(0)
        };
        let begun = count(&self.beginnings, "event 0 20\n");
        if begun < FEWEST_BEGINNINGS {
            return Err(format!("independent operation began only {begun} times"));
        }
        let scarce = endings().into_iter().find(|answer| {
            let ended = count(&self.endings, answer);
            ended < FEWEST_ENDINGS
        });
        match scarce {
            None => Ok(()),
            Some(answer) => Err(format!(
                "too few ends of independent operation are answered {answer}"
            )),
        }
    }
}

/// The answers of all calls that can end independent operation.
fn endings() -> Vec<String> {
    let mut answers: Vec<String> = (0..words::INDEPENDENT)
        .map(|event| format!("event 0 {event}\n"))
        .collect();
    answers.push("refresh 0\n".to_string());
    answers
}

/// Lateral law, vertical law and armed sum of the accepted displays with modes on.
fn collect_shown(output: &[u8], shown: &mut BTreeSet<Vec<u8>>) {
    for answer in compare::blocks(output) {
        let words: Vec<&[u8]> = answer.split(|&byte| byte == b' ').collect();
        if let [b"display", b"0", _, lateral, vertical, armed, ..] = words[..] {
            if lateral != b"0" {
                shown.insert([lateral, vertical, armed].join(&b' '));
            }
        }
    }
}

/// A list of that many commands from power-on. Every second list is calm: it has neither damage
/// nor errors, and so no `power-on` that would take it back to the start. Every second calm list
/// begins with a start of its own.
pub fn list(seed: u64, number: u64, length: usize) -> Script {
    let mut maker = Maker {
        rng: Rng::of_list(seed, number),
        counts: [0; 4],
        bus: Bus::default(),
        calm: number.is_multiple_of(2),
        until_new_bench: None,
        next: None,
        planned: VecDeque::new(),
    };
    let mut script = Script::default();
    if number % 4 == 2 {
        script.line(maker.start());
    }
    while script.commands() < length {
        script.line(maker.line());
    }
    script
}

struct Maker {
    rng: Rng,
    /// The last counts given, so that most turns are small.
    counts: [u8; 4],
    /// The bus area, which a new bench leaves as it is.
    bus: Bus,
    calm: bool,
    /// After a damage, how many calls come ahead of the next new bench.
    until_new_bench: Option<usize>,
    /// A damage that belongs to the one before it.
    next: Option<String>,
    /// What is left of a sequence that was begun.
    planned: VecDeque<Step>,
}

type Make = fn(&mut Maker) -> String;

/// Commands of every list, by weight.
const CALM: [(usize, Make); 15] = [
    (400, Maker::event),
    (6, Maker::sequence),
    (140, Maker::turn),
    (130, Maker::reading),
    (60, |maker| maker.on_side("send")),
    (70, |maker| maker.on_side("refresh")),
    (160, |maker| maker.on_side("display")),
    (20, |maker| maker.on_side("pick")),
    (20, |_| "bench".to_string()),
    (4, |maker| maker.bus.area(&mut maker.rng)),
    (25, |maker| maker.bus.poke(&mut maker.rng)),
    (35, Maker::write),
    (40, |maker| maker.bus.read(&mut maker.rng)),
    (19, |_| "bytes".to_string()),
    // Seldom, as the answer is long and always the same.
    (1, |_| "codes".to_string()),
];

/// How many of a hundred lines go on with a sequence that was begun.
const PLANNED: usize = 97;

/// How many of a hundred damaged readings get their whole value too.
const WITH_WHOLE: usize = 80;

/// How many of a hundred new benches are started with a speed.
const STARTED: usize = 50;

/// How many of a hundred events, knobs and sides are named where they can be.
const NAMED: usize = 40;

/// Events by weight: those that arm and capture more often than those that clear, because an
/// approach needs several of them in a row.
const EVENTS: [(usize, u32); 21] = [
    (2, 0),
    (3, 1),
    (2, 2),
    (3, 3),
    (3, 4),
    (2, 5),
    (1, 6),
    (1, 7),
    (1, 8),
    (6, 9),
    (6, 10),
    (5, 11),
    (6, 12),
    (4, 13),
    (4, 14),
    (6, 15),
    (7, 16),
    (5, 17),
    (5, 18),
    (4, 19),
    (3, 20),
];

/// What only the other lists have.
const ROUGH: [(usize, Make); 5] = [
    (10, Maker::damage),
    (8, |maker| maker.rng.pick(&ERRORS).to_string()),
    (2, |_| "panel".to_string()),
    (1, |_| "help".to_string()),
    (1, Maker::new_bench),
];

impl Maker {
    fn line(&mut self) -> String {
        match self.until_new_bench {
            Some(0) => return self.new_bench(),
            Some(calls) => self.until_new_bench = Some(calls - 1),
            None => {}
        }
        if let Some(line) = self.next.take() {
            return line;
        }
        if !self.calm && self.rng.below(50) == 0 {
            return self.rng.weighted(&ROUGH)(self);
        }
        if !self.planned.is_empty() && self.rng.percent(PLANNED) {
            return self.step();
        }
        self.rng.weighted(&CALM)(self)
    }

    fn sequence(&mut self) -> String {
        self.planned = approach::sequence(&mut self.rng).into();
        self.step()
    }

    fn step(&mut self) -> String {
        let step = self.planned.pop_front().expect("a step is left");
        match step {
            Step::Event(event) => self.event_line(words::word(event)),
            Step::Send(side) => self.side_line("send", side as u32),
            Step::Refresh(side) => self.side_line("refresh", side as u32),
            Step::Bench => "bench".to_string(),
        }
    }

    fn new_bench(&mut self) -> String {
        if self.rng.percent(STARTED) {
            return self.start();
        }
        self.forget();
        "power-on".to_string()
    }

    /// Mostly with a speed that is accepted, and often with one at an end of those.
    fn start(&mut self) -> String {
        self.forget();
        let speed = match self.rng.below(10) {
            0..=5 => self.rng.between(60, 400),
            6..=7 => self.rng.pick(&[58, 59, 60, 61, 399, 400, 401, 402]),
            8 => self.rng.between(-600, 1_000),
            _ => i64::from(self.rng.next() as i32),
        };
        format!("start {speed}")
    }

    /// Nothing is left of the bench that the list has made so far.
    fn forget(&mut self) {
        self.until_new_bench = None;
        self.next = None;
        self.counts = [0; 4];
    }

    fn event(&mut self) -> String {
        let bit = words::word(self.rng.weighted(&EVENTS));
        let any = self.rng.next() as u32;
        let low_bits = (1 << EVENT_COUNT) - 1;
        let word = match self.rng.below(100) {
            0..=87 => bit,
            // The bits above are to be lost.
            88..=91 => bit | (any & low_bits & !(bit - 1)),
            92..=93 => any & low_bits,
            94 => 0,
            95..=96 => words::word(21 + self.rng.below(11) as u32) | any & low_bits,
            97 => words::word(self.rng.below(32) as u32),
            98 => self.rng.pick(&[1 << 21, 1 << 31, u32::MAX, low_bits]),
            _ => any,
        };
        self.event_line(word)
    }

    /// The line of a word, which may be a name where it has one bit.
    fn event_line(&mut self, word: u32) -> String {
        if word.is_power_of_two() && word >> EVENT_COUNT == 0 && self.rng.percent(NAMED) {
            return words::by_name(word.trailing_zeros());
        }
        format!("event {word}")
    }

    fn turn(&mut self) -> String {
        let knob = self.rng.below(4);
        let step = match self.rng.below(10) {
            0..=6 => self.rng.between(-5, 5),
            7..=8 => self.rng.between(-40, 40),
            _ => self.rng.between(-128, 127),
        };
        if self.rng.percent(3) {
            let none = self.rng.pick(&[4, 5, 255, 256, 1 << 31, u32::MAX]);
            return format!("turn {none} {}", self.rng.below(256));
        }
        let count = self.counts[knob].wrapping_add(step as u8);
        self.counts[knob] = count;
        let name = if self.rng.percent(NAMED) {
            KNOBS[knob].to_string()
        } else {
            knob.to_string()
        };
        if self.rng.percent(NAMED) {
            format!("knob {name} {step}")
        } else {
            format!("turn {name} {count}")
        }
    }

    fn reading(&mut self) -> String {
        let (kind, value) = self.kind_and_value();
        format!("reading {} {value}", kind.name)
    }

    fn kind_and_value(&mut self) -> (Ranged, String) {
        let kind = self.rng.pick(&KINDS);
        (kind, values::value(kind, &mut self.rng))
    }

    fn on_side(&mut self, command: &str) -> String {
        let side = match self.rng.below(100) {
            0..=96 => self.rng.below(2) as u32,
            _ => self.rng.pick(&[2, 3, 256, 1 << 31, u32::MAX]),
        };
        self.side_line(command, side)
    }

    fn side_line(&mut self, command: &str, side: u32) -> String {
        match SIDES.get(side as usize) {
            Some(name) if self.rng.percent(NAMED) => format!("{command} {name}"),
            _ => format!("{command} {side}"),
        }
    }

    fn write(&mut self) -> String {
        let start = self.bus.write_start(&mut self.rng);
        format!("{} {start}", self.on_side("write"))
    }

    fn damage(&mut self) -> String {
        // Room for the damage that belongs to this one and for a call after both.
        self.until_new_bench.get_or_insert(2 + self.rng.below(7));
        let place = self.rng.pick(&BOXES);
        match self.rng.below(11) {
            0 => format!("damage pf {}", self.rng.pick(&[0, 1, 1, 2, 255])),
            8 => format!("damage independent {}", self.rng.below(2)),
            9 => self.damaged_whole(),
            1 | 10 => self.damaged_reading(),
            2..=4 => self.damaged_reference(place),
            _ => format!("damage {place} set {}", self.any_set()),
        }
    }

    /// A float put into the bench, mostly with its whole value after it; then it is the range that
    /// decides whether the bench is sound.
    fn damaged_reading(&mut self) -> String {
        let (kind, value) = self.kind_and_value();
        let [float, whole] = words::stored(kind, &value);
        if self.rng.percent(WITH_WHOLE) {
            self.next = Some(whole);
        }
        float
    }

    /// A whole value for some float, right or wrong. Mostly that float is put into the bench ahead
    /// of it; else it is seldom right.
    fn damaged_whole(&mut self) -> String {
        let (kind, value) = self.kind_and_value();
        let whole = values::whole(kind, &value, &mut self.rng);
        let line = format!("damage whole {} {whole}", kind.name);
        if self.rng.percent(40) {
            return line;
        }
        self.next = Some(line);
        format!("damage reading {} {value}", kind.name)
    }

    fn damaged_reference(&mut self, place: &str) -> String {
        let reference = self.rng.pick(&REFERENCES);
        let (low, high) = (i64::from(reference.low), i64::from(reference.high));
        let value = match self.rng.below(10) {
            0 => i64::from(self.rng.next() as i32),
            1..=3 => self.rng.pick(&[low - 1, low, high, high + 1]),
            _ => self.rng.between(low, high),
        };
        format!("damage {place} {} {value}", reference.name)
    }

    fn any_set(&mut self) -> Set {
        if self.rng.percent(10) {
            return Set::OFF;
        }
        let mut number = |count| self.rng.below(count) as u8;
        Set::new(1 + number(5), number(3), 1 + number(8), number(2))
    }
}

/// Each is answered by an error.
const ERRORS: [&str; 44] = [
    "event",
    "event x",
    "event 4294967296",
    "event 1 2",
    "event,1",
    "event hdg",
    "press 14",
    "press nav-captured",
    "signal hdg",
    "signal independent",
    "turn 0 256",
    "turn 0",
    "knob 4 1",
    "knob wheel 128",
    "reading roll 1e5",
    "reading speed 1",
    "reading roll 0x123",
    "send both",
    "refresh -1",
    "Display 0",
    "power-on 1",
    "start",
    "start x",
    "start 60.0",
    "start 2147483648",
    "damage left set 6 0 1 0",
    "damage independent 2",
    "damage left ias 2147483648",
    "damage whole roll",
    "damage whole ias 1",
    "damage whole roll 2147483648",
    "area",
    "area 2049",
    "poke 0",
    "poke 0 0",
    "poke 0 0g",
    "poke 2048 00",
    "poke 18446744073709551615 ff",
    "write 0",
    "write 0 18446744073709551616",
    "write left-inbox 0",
    "read -1",
    "bytes 0",
    "codes 0",
];

#[cfg(test)]
mod tests {
    use super::*;
    use crate::parts::shown::tests::{answer, SOME};

    fn text(script: &Script) -> &str {
        std::str::from_utf8(script.text()).unwrap()
    }

    /// How often each command stands in a list.
    fn counts(script: &Script) -> BTreeMap<&str, usize> {
        let mut counts = BTreeMap::new();
        for line in text(script).lines() {
            *counts.entry(line.split(' ').next().unwrap()).or_default() += 1;
        }
        counts
    }

    #[test]
    fn lists_have_their_length_and_depend_on_seed_and_number() {
        let first = list(1, 0, 1_000);
        assert_eq!(first.commands(), 1_000);
        assert_eq!(list(1, 0, 1_000).text(), first.text());
        assert_ne!(list(2, 0, 1_000).text(), first.text());
        assert_ne!(list(1, 2, 1_000).text(), first.text());
        assert!(LISTS as usize * LENGTH >= 250_000);
    }

    #[test]
    fn a_list_has_all_calls_often_enough() {
        for number in 0..2 {
            let script = list(1, number, 20_000);
            let counts = counts(&script);
            for name in [
                "event", "press", "signal", "turn", "knob", "reading", "send", "refresh",
                "display", "pick", "bench", "poke", "write", "read", "bytes",
            ] {
                assert!(counts.get(name) > Some(&250), "{name} {counts:?}");
            }
        }
    }

    #[test]
    fn the_list_of_all_sets_comes_seldom() {
        for number in 0..2 {
            let script = list(1, number, 100_000);
            let count = counts(&script).get("codes").copied().unwrap_or(0);
            assert!((40..=200).contains(&count), "{count}");
        }
    }

    #[test]
    fn only_rough_lists_have_damage_and_errors() {
        let (calm, rough) = (list(1, 0, 20_000), list(1, 1, 20_000));
        for name in ["damage", "power-on", "start", "panel", "help", "Display"] {
            assert_eq!(counts(&calm).get(name), None, "{name}");
            assert!(counts(&rough).contains_key(name), "{name}");
        }
    }

    #[test]
    fn every_event_comes_alone_and_in_company_and_bad_words_come_too() {
        let script = list(1, 0, 200_000);
        let lines: BTreeSet<&str> = text(&script).lines().collect();
        for event in 0..32 {
            assert!(
                lines.contains(format!("event {}", 1_u32 << event).as_str()),
                "{event}"
            );
        }
        for line in [
            "event 0",
            "send 2",
            "display 2",
            "turn 4294967295 ",
            "reading roll nan",
        ] {
            assert!(lines.iter().any(|other| other.starts_with(line)), "{line}");
        }
    }

    #[test]
    fn every_name_comes_and_the_watch_stays_off() {
        for number in 0..2 {
            let script = list(1, number, 300_000);
            let lines: BTreeSet<&str> = text(&script).lines().collect();
            for event in 0..EVENT_COUNT {
                let line = words::by_name(event);
                assert!(lines.contains(line.as_str()), "{line}");
            }
            for knob in ["wheel", "altitude", "speed", "heading", "0", "3"] {
                for line in [format!("turn {knob} 7"), format!("knob {knob} -5")] {
                    assert!(lines.contains(line.as_str()), "{line}");
                }
            }
            for command in ["send", "refresh", "display", "pick"] {
                for side in ["left", "right", "0", "1", "2"] {
                    let line = format!("{command} {side}");
                    assert!(lines.contains(line.as_str()), "{line}");
                }
            }
            for side in ["left", "right", "0", "1", "2"] {
                let start = format!("write {side} ");
                assert!(lines.iter().any(|line| line.starts_with(&start)), "{start}");
            }
            assert!(!lines.iter().any(|line| line.starts_with("watch")));
        }
    }

    #[test]
    fn every_second_calm_list_begins_with_a_start() {
        for number in 0..8 {
            let script = list(1, number, 1_000);
            let first = text(&script).lines().next().unwrap();
            assert_eq!(first.starts_with("start "), number % 4 == 2, "{first}");
            let starts = counts(&script).get("start").copied().unwrap_or(0);
            assert!(number % 2 == 1 || starts == usize::from(number == 2 || number == 6));
        }
    }

    #[test]
    fn starts_are_accepted_and_refused_and_power_ons_stay() {
        let script = list(1, 1, 300_000);
        let lines: Vec<&str> = text(&script).lines().collect();
        let given: Vec<i64> = lines
            .iter()
            .filter_map(|line| line.strip_prefix("start ")?.parse().ok())
            .filter(|&speed| i32::try_from(speed).is_ok())
            .collect();
        let good = given.iter().filter(|speed| (60..=400).contains(*speed));
        let good = good.count();
        assert!(good > 200 && given.len() - good > 100, "{good}");
        for speed in [58, 59, 60, 61, 399, 400, 401, 402] {
            assert!(given.contains(&speed), "{speed}");
        }
        let power_ons = lines.iter().filter(|&&line| line == "power-on").count();
        assert!(power_ons > 200, "{power_ons}");
    }

    #[test]
    fn after_a_damage_a_new_bench_comes_soon() {
        let script = list(1, 1, 50_000);
        let mut since = None;
        let mut damages = 0;
        for line in text(&script).lines() {
            let errs = ERRORS.contains(&line);
            since = match (since, line.split(' ').next()) {
                (_, Some("power-on" | "start")) if !errs => None,
                (Some(calls), _) => Some(calls + 1),
                (None, Some("damage")) if !errs => {
                    damages += 1;
                    Some(0)
                }
                (None, _) => None,
            };
            assert!(since <= Some(8));
        }
        assert!(damages > 200, "{damages}");
    }

    #[test]
    fn independent_operation_is_damaged_and_so_is_all_else() {
        let script = list(1, 1, 200_000);
        let lines: BTreeSet<&str> = text(&script).lines().collect();
        for line in [
            "damage independent 0",
            "damage independent 1",
            "damage pf 1",
            "damage left set 0 0 0 0",
        ] {
            assert!(lines.contains(line), "{line}");
        }
    }

    #[test]
    fn most_floats_are_put_into_the_bench_with_their_whole_values() {
        let script = list(1, 1, 300_000);
        let lines: Vec<&str> = text(&script).lines().collect();
        let (mut own, mut other, mut alone) = (0, 0, 0);
        for pair in lines.windows(2) {
            let Some(stored) = pair[0].strip_prefix("damage reading ") else {
                continue;
            };
            let (name, value) = stored.split_once(' ').unwrap();
            let kind = KINDS.into_iter().find(|kind| kind.name == name).unwrap();
            match pair[1].strip_prefix(&format!("damage whole {name} ")) {
                Some(whole) if whole == kind.whole(words::float(value)).to_string() => own += 1,
                Some(_) => other += 1,
                None => alone += 1,
            }
        }
        assert!(
            own > 200 && other > 50 && alone > 50,
            "{own} {other} {alone}"
        );
        for kind in KINDS {
            let line = format!("damage whole {} ", kind.name);
            let found = lines.iter().filter(|other| other.starts_with(&line));
            assert!(found.count() > 50, "{line}");
        }
    }

    /// A bench, an answer and another bench, again and again.
    fn moved(answers: &[(bool, String, bool)]) -> Moves {
        let bench = |independent| {
            answer(&Shown {
                independent,
                ..SOME
            })
        };
        let mut moves = Moves::default();
        for (before, between, after) in answers {
            let output = format!("{}{between}{}", bench(*before), bench(*after));
            moves.collect(output.as_bytes());
        }
        moves
    }

    #[test]
    fn a_move_is_an_answer_between_two_benches() {
        let moves = moved(&[
            (false, "event 0 20\n".to_string(), true),
            (true, "event 0 5\n".to_string(), false),
            (true, "event 0 5\n".to_string(), false),
            (true, "event 0 1\n".to_string(), true),
            (false, "event 0 2\n".to_string(), false),
            (true, "send 0\nevent 0 3\n".to_string(), false),
        ]);
        let counted = |answer: &[u8], count| BTreeMap::from([(answer.to_vec(), count)]);
        assert_eq!(moves.beginnings, counted(b"event 0 20\n", 1));
        assert_eq!(moves.endings, counted(b"event 0 5\n", 2));
    }

    #[test]
    fn too_few_moves_are_noticed() {
        let begin = (false, "event 0 20\n".to_string(), true);
        let ends: Vec<_> = endings()
            .into_iter()
            .map(|answer| (true, answer, false))
            .collect();
        assert_eq!(ends.len(), 21);
        let mut all = vec![begin; FEWEST_BEGINNINGS];
        for end in &ends {
            all.extend(vec![end.clone(); FEWEST_ENDINGS]);
        }
        assert_eq!(moved(&all).are_enough(), Ok(()));
        for index in [0, FEWEST_BEGINNINGS, all.len() - 1] {
            let mut fewer = all.clone();
            fewer.remove(index);
            assert!(moved(&fewer).are_enough().is_err(), "{index}");
        }
    }

    #[test]
    fn shown_sets_are_collected_from_accepted_displays() {
        let mut shown = BTreeSet::new();
        let output = b"display 0 1 2 1 4 0 0 0 0 120 0 0 129\nevent 0 3 1 2\n\
            display 0 0 2 1 4 7 7 7 7 120 0 0 129\ndisplay 2 0 0 0 0 0 0 0 0 0 0 0 0\n\
            display 0 1 0 0 0 0 0 0 0 120 0 0 128\ndisplay 0 1 4 7 0 0 0 0 0 120 0 0 128\n";
        collect_shown(output, &mut shown);
        let expected = [b"2 1 4".to_vec(), b"4 7 0".to_vec()];
        assert_eq!(shown, BTreeSet::from(expected));
    }
}
