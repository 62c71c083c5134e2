//! Why the prover refused each edit, by the line that `rt ci` prints of it, also of an edit that an earlier
//! run tried. The line has the first message that is not only of a name that the edit took away, and of
//! that no more than its first line and 160 characters, so the patterns below look at how it begins.
use crate::{list, Report, Tree};
use std::collections::BTreeMap;
use Refusal::{Fact, Name, Unfit, Unknown};

/// What `rt ci` printed, as .ci/run keeps it.
pub const LOG: &str = "tests/target/rt-ci.log";

#[derive(Clone, Copy, Debug, PartialEq)]
enum Refusal {
    /// a fact does not hold, or could not be shown
    Fact,
    /// a proof no longer fits the code or the definitions: no fact was judged
    Unfit,
    /// the edited file is no program or no definition
    Name,
    Unknown,
}

/// How errors in proofs/ and open goals begin, behind the names of the declarations, and what they tell. A
/// * is any text, a % one without a space or a backquote. The first that fits counts.
const PATTERNS: [(Refusal, &str, &str); 28] = [
    (
        Unfit,
        "module `*` has no `",
        "the proof names a goal or a place that the code no longer has, or a definition that is gone",
    ),
    (
        Unfit,
        "record `*` has no field `",
        "the proof reads a call, test or argument at a place of the code that has another there",
    ),
    (
        Unfit,
        "`%` is not a field of record `",
        "the proof gives a field that the record of specs/ no longer has",
    ),
    (
        Unfit,
        "`%` has no function `%` for this file to be the proof of",
        "the function is gone or has another name",
    ),
    (
        Unfit,
        "this tuple has * components but its type has ",
        "the code has more goals or fewer than the proof answers",
    ),
    (
        Unfit,
        "`search`: no proof of `%ℕ` was found",
        "a number was asked for and no fact: the goals of the code have other places than in the proof",
    ),
    (
        Unfit,
        "`rw`: no occurrence of the path's ",
        "the proof rewrites by an equation whose side is not in the goal, so the goal was not judged",
    ),
    (
        Unfit,
        "`rw`: no part of the goal `",
        "the same, where the equation leaves arguments open",
    ),
    (
        Unfit,
        "`simp`: no equation of the list ",
        "the same, of a list of equations",
    ),
    (
        Unfit,
        "*expected type `goal.%`, but this has type `",
        "the proof answers one goal or place of the code with another",
    ),
    (
        Unfit,
        "*where one has `Rattle.%.Goals.After-",
        "the same, where the names are written out",
    ),
    (
        Unfit,
        "*expected type `%`, but this has type `%`",
        "two types of values and no statement: neither has an argument",
    ),
    (
        Unfit,
        "* but this has type `Type ",
        "a loop has other variables than the invariant or measure of the proof",
    ),
    (
        Unfit,
        "*and `Type %` (found)",
        "the same, and where the two types differ",
    ),
    (
        Fact,
        "as printed, the two ",
        "what is to be shown and what the proof shows differ",
    ),
    (
        Fact,
        "computed as far as they go, the two ",
        "the same, and where they differ",
    ),
    (
        Fact,
        "compared part by part, the two ",
        "the same",
    ),
    (
        Fact,
        "expected type `% ",
        "the same, and both are short; what is to be shown is a statement, since it has an argument",
    ),
    (
        Fact,
        "expected type `%`, but this has type `% ",
        "the same, where what is shown has one",
    ),
    (
        Fact,
        "on the face `*` this λ's body is `",
        "an end of an equation is not what the proof makes of it",
    ),
    (
        Fact,
        "`*` ≟ `*` does not hold",
        "two sides that the proof needs to be equal are not",
    ),
    (
        Fact,
        "`omega`: the *goal* does not follow",
        "there are numbers for which the goal does not hold",
    ),
    (
        Fact,
        "`grind`: the goal does not follow",
        "there are values for which the goal does not hold",
    ),
    (
        Fact,
        "`search`: no proof of `",
        "the goal could not be shown",
    ),
    (Fact, "`grind` found no proof", "the same"),
    (
        Fact,
        "give a proof of that as the last argument, `",
        "a rewriting leaves an equation whose two sides differ",
    ),
    (
        Fact,
        "list the missing equation with its arguments, ",
        "the known equations do not join the two sides of the goal",
    ),
    (
        Fact,
        "it is not proved that ",
        "a goal that no file answers could not be shown",
    ),
];

/// An error that only follows from another.
const FOLLOWS: &str = "`%` was not admitted (";

/// What the prover says at the place of a hole or an axiom, which is no error to it.
const NOT_ADMITTED: &str = "`%` is not admitted: ";

/// How `rt` begins what it says of an edit that was refused; its reason stands behind a colon.
const REFUSED: &str = "refused, as it must be";

/// What it adds where each message was of a name that is gone, and where the prover came to no verdict.
const GONE: &str = " (only because a proof file names what the edit took away";
const LIMIT: &str = " (only by a limit of the prover";

/// Whether a text begins as a pattern says.
fn fits(pattern: &str, text: &str) -> bool {
    let Some(first) = pattern.chars().next() else {
        return true;
    };
    let rest = &pattern[first.len_utf8()..];
    let mut ends = text.char_indices().map(|(at, _)| at).chain([text.len()]);
    match first {
        '*' => ends.any(|at| fits(rest, &text[at..])),
        '%' => {
            let word = text.find([' ', '`']).unwrap_or(text.len());
            ends.take_while(|at| *at <= word)
                .any(|at| fits(rest, &text[at..]))
        }
        _ => text
            .strip_prefix(first)
            .is_some_and(|text| fits(rest, text)),
    }
}

/// The text of an error behind the name of its declaration.
fn behind_name(text: &str) -> Option<&str> {
    let (name, rest) = text.strip_prefix('`')?.split_once("`: ")?;
    (!name.contains([' ', '`'])).then_some(rest)
}

/// Whether a text begins as a pattern says, itself or behind the names before it.
fn is(pattern: &str, text: &str) -> bool {
    let mut texts = std::iter::successors(Some(text), |text| behind_name(text));
    texts.any(|text| fits(pattern, text))
}

fn told(text: &str) -> Refusal {
    let known = PATTERNS.iter().find(|(_, pattern, _)| is(pattern, text));
    known.map_or(Unknown, |(refusal, ..)| *refusal)
}

/// Why an edit was refused, by a message as `rt` shows it.
fn refusal(message: &str) -> Refusal {
    let goal = message.strip_prefix("note: ");
    let Some((place, text)) = goal.unwrap_or(message).split_once(": ") else {
        return Unknown;
    };
    let place = place.strip_prefix("./").unwrap_or(place);
    let edited = place.starts_with("src/") || place.starts_with("specs/");
    let error = text
        .split_once(": ")
        .filter(|(word, _)| *word == "error" || word.starts_with("error["));
    match error {
        _ if goal.is_some() => told(text),
        Some(_) if edited => Name,
        Some((_, text)) if place.starts_with("proofs/") => told(text),
        None if edited && fits(NOT_ADMITTED, text) => Name,
        _ => Unknown,
    }
}

/// What is wrong with the refusal of an edit whose line has the word `unfit` or not.
fn fault(refusal: Refusal, unfit: bool) -> Option<&'static str> {
    match refusal {
        Unknown => Some("was refused for a reason that tests/edits does not know"),
        Name => Some("is no program or no definition"),
        Unfit if !unfit => Some("was refused by a proof that no longer fits, and not for a fact"),
        Unfit | Fact => None,
    }
}

/// Why an edit was refused, by what `rt` says of it, or nothing if it was not.
fn of_line(said: &str) -> Option<Refusal> {
    let reason = said.strip_prefix(REFUSED)?;
    let (note, message) = reason.split_once(": ").unwrap_or((reason, ""));
    if note.is_empty() {
        return Some(refusal(message));
    }
    if note.starts_with(LIMIT) {
        return Some(Unknown);
    }
    // the note has a colon of its own
    let message = note
        .starts_with(GONE)
        .then(|| reason.split_once("): "))
        .flatten()?
        .1;
    let text = message.split_once(": error: ").map_or("", |(_, text)| text);
    Some(if is(FOLLOWS, text) { Unknown } else { Unfit })
}

/// What `rt` says of edits, by their names, and how many of them it tried in an earlier run.
fn said(log: &str) -> (BTreeMap<&str, Vec<&str>>, usize) {
    let (mut found, mut earlier) = (BTreeMap::<_, Vec<_>>::new(), 0);
    for line in log.lines().filter_map(|line| line.strip_prefix("rt: ")) {
        let edit = line.strip_prefix("must-fail ");
        if let Some((name, said)) = edit.and_then(|edit| edit.split_once(".edit: ")) {
            found.entry(name).or_default().push(said);
        } else if line.contains(": BAD EDIT: ") {
            found.entry(line).or_default().push(line);
        } else if line.contains("must-fail edits were tried by an earlier run") {
            let count = line
                .split_once(": ")
                .and_then(|(_, count)| count.split(' ').next());
            earlier += count.and_then(|count| count.parse().ok()).unwrap_or(0);
        }
    }
    (found, earlier)
}

pub fn report(tree: &Tree, read: impl Fn(&str) -> Option<String>) -> Report {
    let (listed, mut faults) = list::read(tree);
    let log = read(LOG).unwrap_or_default();
    let (mut said, earlier) = said(&log);
    let (mut notes, mut refusals) = (Vec::new(), Vec::new());
    for (name, (_, unfit)) in &listed.edits {
        let said = said.remove(name.as_str()).unwrap_or_default();
        let [said] = said[..] else {
            faults.push(format!(
                "{name} has {} lines in {LOG}, and not one",
                said.len()
            ));
            continue;
        };
        let Some(refusal) = of_line(said) else {
            faults.push(format!("{name} was not refused: {said}"));
            continue;
        };
        let fault = fault(refusal, *unfit);
        faults.extend(fault.map(|fault| format!("{name} {fault}: {said}")));
        if refusal == Fact && *unfit {
            notes.push(format!(
                "{name} was refused for a fact: its line needs no unfit"
            ));
        }
        refusals.push(refusal);
    }
    let others = said.keys();
    faults.extend(others.map(|name| format!("{LOG}: of no edit in the list: {name}")));
    if listed.edits.is_empty() {
        faults.push(format!("{}: it has no edit", list::LIST));
    }
    let count = |wanted| {
        refusals
            .iter()
            .filter(|refusal| **refusal == wanted)
            .count()
    };
    let (facts, unfits) = (count(Fact), count(Unfit));
    let last = format!(
        "{facts} edits refused for a fact, {unfits} for a proof that no longer fits; {earlier} tried by an \
         earlier run"
    );
    Report {
        faults,
        notes,
        last,
    }
}

#[cfg(test)]
mod tests {
    use super::*;
    use crate::tests::tree;

    /// How much `rt` shows of a message.
    const CUT: usize = 160;

    /// A text for each pattern, in the order of the patterns.
    const TEXTS: [&str; PATTERNS.len()] = [
        "`returns-then-w-lt1`: `goal.returns-then-w-lt1`: module `Rattle.low.proofs.f.Goals` has no `returns-then-w-lt1` that can be named from here",
        "`low_is`: record `Rattle.low.proofs.f.Goals.After-sum` has no field `args`",
        "`sheet`: `half_back` is not a field of record `Sheet`",
        "`low` has no function `f` for this file to be the proof of: help: delete the folder `proofs/f`",
        "`returns`: this tuple has 4 components but its type has 2 (`×` is flat: `(a , b , c)` is one triple)",
        "`f_all`: `search`: no proof of `Prim.Native.Nat.ℕ` was found. Every way was tried",
        "`returns`: `rw`: no occurrence of the path's left endpoint in the goal: write the family yourself",
        "`again`: `rw`: no part of the goal `(get_or 3 (c.locals) x)` is an instance of `◌+◌ (?0 c) 1`",
        "`again`: `simp`: no equation of the list can be applied in `get_or 3 x`",
        "`returns`: expected type `goal.returns-2`, but this has type `goal.returns`",
        "`returns`: computed as far as they go, the two types differ only where one has `Rattle.low.proofs.f.Goals.After-a` (expected) and the other has `Rattle.low.proofs.f.Goals.After-b` (found)",
        "`f_all`: expected type `Bool`, but this has type `ℤ`",
        "`invariant-loop`: expected type `goal.Given → Type 0`, but this has type `Type 0`",
        "`invariant-loop`: computed as far as they go, the two types are `ℕ → Type 0` (expected) and `Type 0` (found)",
        "`returns`: as printed, the two types first differ where one has `T` (expected), at the start",
        "`returns`: computed as far as they go, the two types differ only where one has `361` (expected)",
        "`returns`: compared part by part, the two types differ only where one has `361` (expected)",
        "`returns`: expected type `T (rises sets)`, but this has type `Unit {?ℓ0}`",
        "`returns`: expected type `⊥`, but this has type `Unit {?ℓ1}`",
        "`returns`: on the face `i = 0` this λ's body is `record {event = 1}`",
        "`returns`: `get_or 7 (x)` ≟ `◌&&◌ (y)` does not hold (this comparison had to wait)",
        "`no_byte`: `omega`: the goal does not follow from what it read. All of that holds",
        "`returns`: `grind`: the goal does not follow. The hypotheses hold, and the goal fails at",
        "`f_all`: `search`: no proof of `Kept (get_or 1 x)` was found. Every way was tried",
        "`returns-in_default-2`: `grind` found no proof. It did not look into `λ d vs. base.Fml.fex (mathlib.Co",
        "`f_all`: give a proof of that as the last argument, `rw L t` (`rw L ?` shows it as a hole's goal), or add what is missing to the list",
        "`f_all`: list the missing equation with its arguments, or rewrite by `rw` or `simp`",
        "it is not proved that what the function ensures holds when it returns (`returns`)",
    ];

    /// What `rt` says of an edit with this message.
    fn line(message: &str) -> String {
        let shown: String = message.chars().take(CUT).collect();
        format!("{REFUSED}: {shown}")
    }

    fn why(message: &str) -> Refusal {
        of_line(&line(message)).unwrap()
    }

    fn at(place: &str, text: &str) -> String {
        format!("./{place}: error: {text}")
    }

    #[test]
    fn each_pattern_is_met() {
        for ((known, pattern, _), text) in PATTERNS.iter().zip(TEXTS) {
            let first = PATTERNS.iter().find(|(_, other, _)| is(other, text));
            assert_eq!(first.map(|(_, other, _)| other), Some(pattern));
            assert_eq!(
                why(&at("proofs/f/Answers.antt:7:13", text)),
                *known,
                "{text}"
            );
        }
    }

    #[test]
    fn other_forms_of_the_same() {
        let texts = [
            "`returns`: `omega`: the part `κs.0` of the goal does not follow from what it read.",
            "`returns`: computed as far as they go, the two sides are `Prim.Unit` (left) and `Prim.⊥` (right)",
            "`returns`: computed as far as they go, the two values differ only where one has `1` (found)",
            "`returns`: expected type `T (f x)`, but this has type `Prim.Unit {?ℓ1}`",
        ];
        for text in texts {
            assert_eq!(
                why(&at("proofs/+f/Answers.antt:30:11", text)),
                Fact,
                "{text}"
            );
        }
    }

    #[test]
    fn messages_that_are_cut_off() {
        // as rt printed them
        let facts = [
            "./proofs/Joins.antt:33:69: error: `code_agrees`: expected type `T (Rattle.modes.specs.Every.every_modes (λ m. lib.Dec.eqb (arithmetic m) (code_of (ModeSet.On m)",
            "./proofs/altsel_captured/Answers.antt:11:51: error: `returns-in-1-to-3`: expected type `Path Rattle.modes.specs.declared.Modes.Modes (Rattle.modes.specs.Sets.wi",
            "./proofs/modes_code/Answers.antt:14:34: error: `returns-then-not-is_coherent`: as printed, the two types differ only where one has `0` (expected), at the start,",
            "note: src/lib.rt:152:1: it is not proved that what the function ensures holds when it returns (`returns-in-5`); the facts known there allow values at which this",
            "note: src/lib.rt:9:1: it is not proved that what the function ensures holds when it returns (`returns-clause-accepted`); the facts known there allow values at w",
            "note: src/lib.rt:93:5: it is not proved that the invariant of the loop holds (`loop-passed-init`)",
        ];
        for message in facts {
            assert!(message.chars().count() <= CUT);
            assert_eq!(why(message), Fact, "{message}");
        }
        // too little is left to tell
        let long = "a".repeat(CUT);
        for text in ["expected type `", "`omega`: the part `"] {
            let text = format!("`returns`: {text}{long}");
            assert_eq!(
                why(&at("proofs/f/Answers.antt:7:13", &text)),
                Unknown,
                "{text}"
            );
        }
    }

    #[test]
    fn an_edited_file_with_an_error_is_no_edit() {
        let own = [
            at(
                "specs/Sets.antt:18:28",
                "`clamp_of`: `le_zz` is not in scope; did you mean `le_z`?",
            ),
            at(
                "specs/Sets.antt:9:1",
                "`mod_of`: `mod_of` has no clause for 1 case",
            ),
            at("specs/Sets.antt", "no `mod` line names this file"),
            at(
                "specs/Sets.antt:9:23",
                "`mod_of`: an operand is missing before `%`",
            ),
            at("specs/Sets.antt:9:23", TEXTS[14]),
            at("src/lib.rt:15:30", "`ensures-1`: `f` is not in scope"),
            at(
                "src/lib.rt:4:70",
                "module `low` has no `f` that can be named from here",
            ),
            "src/lib.rt:17:18: error[unknown-name]: cannot find value `f` in this scope"
                .to_string(),
            "specs/Sets.antt:8:12: `mod_of` is not admitted: has-holes".to_string(),
            "./specs/Sets.antt:17:11: `clamp_of` is not admitted: axiom".to_string(),
        ];
        for message in own {
            assert_eq!(why(&message), Name, "{message}");
        }
    }

    #[test]
    fn names_that_are_gone_and_limits_say_nothing_of_a_fact() {
        let gone = format!("{REFUSED}{GONE}, so this says little of the contract: change a value and keep the names): ");
        let of = |text: &str| of_line(&format!("{gone}{}", at("proofs/f/Answers.antt:6:26", text)));
        for number in [0, 1, 14] {
            assert_eq!(of(TEXTS[number]), Some(Unfit));
        }
        let limit = format!("{REFUSED}{LIMIT}, which gave no verdict, so this says less of the contract: choose a change that it refuses sooner): ");
        assert_eq!(
            of_line(&format!(
                "{limit}{}",
                at("proofs/f/Answers.antt:6:26", TEXTS[14])
            )),
            Some(Unknown)
        );
        assert_eq!(
            of_line(&format!(
                "{REFUSED} (anything else): {}",
                at("proofs/f/Answers.antt:6:26", TEXTS[14])
            )),
            None
        );
    }

    /// `rt` shows one message of a check; an error that only follows from another is no reason.
    #[test]
    fn what_follows_from_another_error_is_passed_over() {
        let follows = at(
            "proofs/f/Answers.antt:6:26",
            "`g_is`: `close` was not admitted (it has holes)",
        );
        let gone = format!("{REFUSED}{GONE}, so this says little of the contract: change a value and keep the names): ");
        assert_eq!(why(&follows), Unknown);
        assert_eq!(of_line(&format!("{gone}{follows}")), Some(Unknown));
        assert_eq!(
            of_line(&format!(
                "{gone}{}",
                at("proofs/f/Answers.antt:6:26", TEXTS[0])
            )),
            Some(Unfit)
        );
    }

    #[test]
    fn what_is_not_known_is_told() {
        let place = "proofs/f/Answers.antt:7:13";
        assert_eq!(why(&at(place, "`f`: it is too long")), Unknown);
        assert_eq!(why(&at("other/f/Answers.antt:7:13", TEXTS[14])), Unknown);
        assert_eq!(why(&at("/kit/lib/Dec.antt:1:1", TEXTS[14])), Unknown);
        assert_eq!(why("error: it ran out of memory"), Unknown);
        assert_eq!(of_line(REFUSED), Some(Unknown));
        assert_eq!(why(&format!("./{place}: note: {}", TEXTS[14])), Unknown);
        assert_eq!(why(&format!("./{place}: {}", TEXTS[14])), Unknown);
        // the words of a pattern further on in a text are no match
        let inner = "`f`: it is too long, and `g`: as printed, the two types first differ";
        assert_eq!(why(&at(place, inner)), Unknown);
        assert_eq!(why(&format!("note: src/lib.rt:1:1: {inner}")), Unknown);
    }

    /// What is reported of one edit with a line of the list, and the log.
    fn reported(line: &str, log: Option<&str>) -> (usize, usize, String) {
        let tree = tree(&format!("@{}\n{line}\n", list::LIST));
        let report = report(&tree, |path| {
            log.filter(|_| path == LOG).map(str::to_string)
        });
        (report.faults.len(), report.notes.len(), report.last)
    }

    #[test]
    fn each_fault_is_seen() {
        let last = |facts, unfits, earlier| {
            format!("{facts} edits refused for a fact, {unfits} for a proof that no longer fits; {earlier} tried by an earlier run")
        };
        let (listed, marked) = ("edit low/one program", "edit low/one program unfit");
        let log = |said: &str| {
            format!("== low\nfn low::f: proved\nrt: low: trying its must-fail edits (1)\nrt: must-fail low/one.edit: {said}\nrt: ok\n1 passed, 0 failed\n")
        };
        let of = |listed: &str, said: &str| reported(listed, Some(&log(said)));
        let fact = line(&at("proofs/f/Answers.antt:7:13", TEXTS[14]));
        let unfit = line(&at("proofs/f/Answers.antt:7:13", TEXTS[0]));
        let name = line(&at("src/lib.rt:7:13", TEXTS[0]));
        assert_eq!(of(listed, &fact), (0, 0, last(1, 0, 0)));
        assert_eq!(of(marked, &fact), (0, 1, last(1, 0, 0)));
        assert_eq!(of(listed, &unfit), (1, 0, last(0, 1, 0)));
        assert_eq!(of(marked, &unfit), (0, 0, last(0, 1, 0)));
        assert_eq!(of(marked, &name), (1, 0, last(0, 0, 0)));
        assert_eq!(of(marked, REFUSED), (1, 0, last(0, 0, 0)));
        for said in [
            "NOT REFUSED: the crate is still proved with this edit",
            "NOT TRIED: its check was killed",
            "BAD EDIT: it did not reach the prover",
            "BAD EDIT: an 'old:' text is in src/lib.rt 0 times, and not once",
            "skipped",
        ] {
            assert_eq!(of(marked, said), (1, 0, last(0, 0, 0)), "{said}");
        }
        assert_eq!(reported(listed, None), (1, 0, last(0, 0, 0)));
        assert_eq!(reported(listed, Some("rt: ok\n")), (1, 0, last(0, 0, 0)));
        let twice = format!("{}{}", log(&fact), log(&fact));
        assert_eq!(reported(listed, Some(&twice)), (1, 0, last(0, 0, 0)));
        let other = format!("{}rt: must-fail low/two.edit: {fact}\n", log(&fact));
        assert_eq!(reported(listed, Some(&other)), (1, 0, last(1, 0, 0)));
        let stray = format!("{}rt: crates/low/must-fail/inner/a.edit: BAD EDIT: an edit stands right in must-fail/\n", log(&fact));
        assert_eq!(reported(listed, Some(&stray)), (1, 0, last(1, 0, 0)));
        assert_eq!(reported("", Some("")), (1, 0, last(0, 0, 0)));
        assert_eq!(reported("edit", Some("")), (2, 0, last(0, 0, 0)));
    }

    #[test]
    fn an_edit_that_an_earlier_run_tried_has_its_line_too() {
        let fact = line(&at("proofs/f/Answers.antt:7:13", TEXTS[14]));
        let kept = "rt: low is kept: an earlier run on this machine proved the same files\nrt: low: 1 of its 1 must-fail edits were tried by an earlier run on this machine, and nothing that they stand on has changed\n";
        let log = format!("{kept}rt: must-fail low/one.edit: {fact}\n");
        let (faults, _, last) = reported("edit low/one program", Some(&log));
        assert_eq!(faults, 0);
        assert!(last.ends_with("; 1 tried by an earlier run"));
        assert_eq!(reported("edit low/one program", Some(kept)).0, 1);
    }
}
