//! Reads every Rattle source below the folder that it is given and lists the functions whose
//! contract breaks a rule of the repository:
//! - a public function has an `ensures`, and no `requires` and no ghost value; what only the crate's
//!   own modules see, `pub(crate)`, is not public, and a method that a trait asks for, with no body, is;
//! - the `ensures` of a public function are equations that settle all that it answers: one on its
//!   result, `result ≡ ..` or, of a reference, `result.now ≡ ..`, and one on what each `&mut` parameter
//!   and `&mut self` holds at the end, `x.new ≡ ..`. Nothing stands around the result or the place, and no right side
//!   mentions `result`, a `.new` or an `.exit`, since such an equation may hold of every answer;
//! - any other `ensures` of a public function is a theorem. `PROMISING` lists the functions that have some
//!   beside those equations; and a function that has no parameter, no result and an empty body is there for its
//!   theorems alone. A theorem is of any form and may mention the answer, since it takes nothing from the
//!   equations. Each has a name, which no other clause of the function has;
//! - an `impl From` says what it gives: `ghost from_gives = { λ x y. y ≡ .. }`, an equation of the same kind; so does an
//!   `impl TryFrom`, of its whole result: `ghost try_from_gives = { λ x y. y ≡ .. }`; or, where its error is a struct of
//!   this file without fields, so that there is one, for which values it gives what: `λ x y. result_ok y ≡ ..`;
//! - `result` is what the function returns: no parameter, no ghost value and no variable of a clause is
//!   called so, since the result would be captured, and the contract would say nothing;
//! - `≡` is that of the library's Prelude or of mathlib.Core.Path, and no `ghost use` gives `⌜`, `⌝`,
//!   `∗`, `result`, or a projection of a reference another meaning.
//!
//! What it cannot read is listed too, and so is a function of `PROMISING` without a theorem.
//! It proves nothing. The exit status is 0 only where the list is empty.
use contracts::text::{behind, bracketed, names, on_one_line, pieces, without_comments};
use contracts::{functions, is_term, Head};
use std::path::{Path, PathBuf};
use std::{env, fs, process};

/// Public functions that do some work and whose `ensures` have theorems, each with the reason.
const PROMISING: &[(&str, &str)] = &[
    (
        "replay::run",
        "demand 3 is of the very calls that it was handed, with the bench and the answers that they left",
    ),
    (
        "replay::fly",
        "demand 3 and page twelve are of the very flight that it answers",
    ),
];

/// Where `≡` comes from.
const EQUALITY: [&str; 2] = ["Rattle.std.specs.Prelude.{", "mathlib.Core.Path.{"];

/// Names that no `ghost use` may give another meaning: the result, and what a reference points to.
const READINGS: [&str; 5] = ["result", "now", "old", "new", "exit"];

/// The sources below a folder, `depth` folders below that of the crates.
fn sources(folder: &Path, depth: usize, found: &mut Vec<PathBuf>) {
    let Ok(entries) = fs::read_dir(folder) else {
        return;
    };
    for path in entries.flatten().map(|entry| entry.path()) {
        if path.is_dir() {
            // rt makes the out/ of a crate
            if depth != 1 || !path.ends_with("out") {
                sources(&path, depth + 1, found);
            }
        } else if path.extension().is_some_and(|end| end == "rt") {
            found.push(path);
        }
    }
}

/// The items of a file that give a meaning of their own to what the contracts are made of.
fn strange_items(text: &str) -> Vec<String> {
    let items = text
        .split(';')
        .filter_map(|item| item.split_once("ghost use "));
    let strange = |item: &&str| {
        let known = EQUALITY.iter().any(|path| item.starts_with(path));
        let path = known && names(item).all(|name| name != "as");
        let read = names(item).any(|name| READINGS.contains(&name));
        read || item.contains(['⌜', '⌝', '∗']) || item.contains('≡') && !path
    };
    let strange = items.map(|(_, item)| item).filter(strange);
    strange.map(|item| format!("ghost use {item}")).collect()
}

/// Whether a clause has a variable of its own that is called as the result is.
fn captures(text: &str) -> bool {
    let text = &text.replace(['«', '»'], "");
    let named = |text: &str| names(text).any(|name| name == "result");
    let first = |text: &str, ends: &[char]| text.split(ends).next().is_some_and(named);
    let typed = |text: &str| {
        let end = text.find([':', '(', ')', '{', '}', '=']);
        end.is_some_and(|end| text[end..].starts_with(':') && named(&text[..end]))
    };
    let case = |text: &str| text.rsplit(['[', '|']).next().is_some_and(named);
    let cases = text.split('↦').collect::<Vec<_>>();
    behind(text, "λ").any(|text| first(text, &['.']))
        || behind(text, "let ").any(|text| first(text, &['=', ':']))
        || behind(text, "(").chain(behind(text, "{")).any(typed)
        || cases[..cases.len() - 1].iter().copied().any(case)
}

/// What is wrong with the `ensures` of a public function, which is in `PROMISING` or not.
fn open(head: &Head, promising: bool) -> Vec<String> {
    let theorems = head.theorems();
    if !theorems.is_empty() && !promising && !head.only_states {
        return vec!["has an ensures that is no equation which settles its answer".to_string()];
    }
    let mut found = Vec::new();
    let same = |name: &str| {
        let ensures = head.of_kind("ensures");
        ensures.filter(|clause| clause.name == name).count()
    };
    let own = |name: &str| !name.is_empty() && same(name) == 1;
    if !theorems.iter().all(|theorem| own(&theorem.name)) {
        found.push("has a theorem without a name of its own".to_string());
    }
    let settled = head.settled();
    let of_result = |side: &String| side == "result" || side == "result.now";
    if head.answer.is_some() && !settled.iter().any(of_result) {
        found.push("has no equation on its result".to_string());
    }
    let written = head.written().into_iter();
    let open = written.filter(|name| !settled.contains(&format!("{name}.new")));
    found.extend(open.map(|name| format!("has no equation on what {name} holds at the end")));
    found
}

fn faults(head: &Head, promising: bool) -> Vec<String> {
    let mut found = Vec::new();
    let has = |kind| head.of_kind(kind).next().is_some();
    if head.public && !has("ensures") {
        found.push("is public and has no ensures".to_string());
    } else if head.public {
        let open = open(head, promising).into_iter();
        found.extend(open.map(|open| format!("is public and {open}")));
    }
    for kind in ["requires", "ghost"] {
        if head.public && has(kind) {
            found.push(format!("is public and has a {kind}"));
        }
    }
    let ghosts = head.clauses.iter().filter(|clause| clause.kind == "ghost");
    let mut ghosts = ghosts.map(|clause| clause.name.trim_end_matches(':'));
    let parameter = head.parameters.iter().any(|(name, _)| name == "result");
    if parameter || ghosts.any(|name| name == "result") {
        found.push("has a parameter or a ghost value called result".to_string());
    }
    // of an equation its form says more
    let free = !head.public || promising || head.only_states;
    if free && head.clauses.iter().any(|clause| captures(&clause.text)) {
        found.push("has a clause with a variable called result".to_string());
    }
    let mut ensures = head.of_kind("ensures");
    if free && ensures.any(|clause| clause.text.trim_start().starts_with('λ')) {
        found.push("has an ensures with a name of its own for the result".to_string());
    }
    found
}

/// The conversions of a file that do not say what they give.
fn silent_conversions(text: &str) -> Vec<String> {
    let starts = text.match_indices("impl").filter(|(at, _)| {
        let before = text[..*at].trim_end_matches([' ', '\t']);
        before.is_empty() || before.ends_with('\n')
    });
    let each = starts.filter_map(|(at, _)| {
        let brace = at + text[at..].find('{')?;
        let head = on_one_line(&text[at..brace]);
        let body = bracketed(&text[brace..], '{', '}').map_or("", |(body, _)| body);
        let is = |name: &str| {
            head.contains(&format!(" {name}<")) || head.contains(&format!("> {name}<"))
        };
        let says = if is("From") {
            gives(body, "from_gives", "")
        } else if is("TryFrom") {
            gives(body, "try_from_gives", "")
                || has_one_error(text, body) && gives(body, "try_from_gives", "result_ok ")
        } else {
            true
        };
        (!says).then_some(head)
    });
    each.collect()
}

/// Whether the error of a conversion's block is a struct of the file without fields.
fn has_one_error(text: &str, body: &str) -> bool {
    let error = body
        .split_once("type Error = ")
        .and_then(|(_, rest)| rest.split_once(';'));
    error.is_some_and(|(name, _)| text.contains(&format!("struct {name};")))
}

/// Whether a conversion's block has an equation, in the member of this name, on what it gives, or on a part of it.
fn gives(body: &str, member: &str, part: &str) -> bool {
    let Some((_, rest)) = body.split_once(&format!("ghost {member} = ")) else {
        return false;
    };
    let Some((text, _)) = bracketed(rest, '{', '}') else {
        return false;
    };
    let Some((bound, fact)) = text
        .trim()
        .strip_prefix('λ')
        .and_then(|text| text.split_once('.'))
    else {
        return false;
    };
    let bound: Vec<&str> = bound.split_whitespace().collect();
    let sides = pieces(fact, |c| c == '≡');
    let ([_, given], [left, right]) = (&bound[..], &sides[..]) else {
        return false;
    };
    left.trim() == format!("{part}{given}")
        && is_term(right)
        && names(right).all(|name| name != *given)
}

/// The number of functions of the files, each given by its path and text, and all faults.
fn report(files: &[(String, String)], promising: &[(&str, &str)]) -> (usize, Vec<String>) {
    let (mut count, mut found) = (0, Vec::new());
    let mut stale: Vec<&str> = promising.iter().map(|(name, _)| *name).collect();
    for (path, text) in files {
        let (heads, unread) = functions(path, text);
        let text = without_comments(text);
        count += heads.len();
        let strange = strange_items(&text).into_iter();
        found.extend(
            strange.map(|item| format!("{path}: a sign of contracts from elsewhere: {item}")),
        );
        let silent = silent_conversions(&text).into_iter();
        found.extend(silent.map(|head| format!("{path}: {head} does not say what it gives")));
        let unread = unread.iter().map(|line| line.trim());
        found.extend(unread.map(|line| format!("{path}: cannot be read: {line}")));
        for head in &heads {
            let name = head.path();
            let listed = promising.iter().any(|(known, _)| *known == name);
            if head.public && !head.theorems().is_empty() {
                stale.retain(|known| *known != name);
            }
            let each = faults(head, listed).into_iter();
            found.extend(each.map(|fault| format!("{path}: fn {} {fault}", head.name)));
        }
    }
    let stale = stale.into_iter();
    found.extend(stale.map(|name| format!("PROMISING: no function {name} has a theorem")));
    (count, found)
}

fn main() {
    let folder = env::args().nth(1).unwrap_or_else(|| String::from("crates"));
    let mut paths = Vec::new();
    sources(Path::new(&folder), 0, &mut paths);
    paths.sort();
    let within = |path: &PathBuf| {
        let inner = path.strip_prefix(&folder).unwrap_or(path);
        inner.to_string_lossy().to_string()
    };
    let text = |path: &PathBuf| fs::read_to_string(path).unwrap_or_default();
    let files: Vec<_> = paths
        .iter()
        .map(|path| (within(path), text(path)))
        .collect();
    let (count, faults) = report(&files, PROMISING);
    for fault in &faults {
        println!("{fault}");
    }
    println!("{count} functions in {} files", files.len());
    process::exit(i32::from(!faults.is_empty() || count == 0));
}

#[cfg(test)]
mod tests {
    use super::*;

    /// The faults of a file of the crate low, some of whose functions are listed as `PROMISING`.
    fn with(listed: &[&str], text: &str) -> Vec<String> {
        let listed: Vec<_> = listed.iter().map(|name| (*name, "")).collect();
        let file = ("low/src/lib.rt".to_string(), text.to_string());
        report(&[file], &listed).1
    }

    /// The same, where none is listed.
    fn said(text: &str) -> Vec<String> {
        with(&[], text)
    }

    /// The faults of a public function of a number and a slice, with these clauses.
    fn of_clauses(clauses: &str) -> Vec<String> {
        said(&format!(
            "pub fn f(x: u8, y: &mut [u8]) -> u8\n    {clauses}\n{{\n}}\n"
        ))
    }

    /// The faults of a public function of a number, with this fact of its result.
    fn of_fact(fact: &str) -> Vec<String> {
        said(&format!(
            "pub fn f(x: u8) -> u8\n    ensures {{ {fact} }}\n{{\n}}\n"
        ))
    }

    #[test]
    fn a_good_function_passes() {
        let good = [
            "pub fn f(x: u8) -> u8\n    ensures { result ≡ x }\n{\n    x\n}\n",
            "pub fn f(x: u8) -> u8\n    ensures same { result ≡ x }\n{\n    x\n}\n",
            "pub fn f(x: &mut [u8])\n    ensures { x.new ≡ x.old }\n{\n}\n",
            "pub fn f(x: &[u8]) -> &[u8]\n    ensures { result.now ≡ x.now }\n{\n}\n",
            "pub(crate) fn g(x: u8) -> u8 {\n    x\n}\n",
            "pub(crate) fn g(x: u8) -> u8\n    ensures { result ≤ 3 }\n{\n    x\n}\n",
            "fn g(x: u8) -> u8\n    requires { x < 3 }\n    ensures { Small x result }\n{\n    x\n}\n",
            "fn g(x: u8) -> u8\n    ghost top: { ℕ }\n    requires low { x < 3 }\n    requires high { x < top }\n    ensures* { ⌜ Small x result ⌝ }\n{\n    x\n}\n",
            "// a fn of the past\nconst A: u8 = 1;\n#[unsafe(no_mangle)]\npub extern \"C\" fn f() -> u8\n    ensures { result ≡ 1 }\n{\n}\n",
            "#![tactic(auto)]\n#[tactic(auto, using(a_law, b_law), unfolding(f))]\npub fn f(x: u8) -> u8\n    ensures { result ≡ x }\n{\n}\n",
            "fn f<T: Fn<u8>>(a: [u8; 2]) -> [u8; 2] {\n}\n",
            "fn f<F: FnMut(&mut [u8; 2], u8) -> u8>(a: F) -> [u8; 2] {\n}\n",
            "pub(crate) trait T {\n    fn f(x: u8) -> u8;\n\n    fn g(x: u8) -> [u8; 2];\n}\n",
            "pub trait T {\n    ghost g: { Self → ℕ → ℕ };\n\n    fn f(self, x: u8) -> u8\n        ensures { result ≡ g self x };\n}\n",
        ];
        for text in good {
            assert_eq!(said(text), Vec::<String>::new(), "{text}");
        }
    }

    #[test]
    fn each_fault_is_seen() {
        let faulty = [
            "pub fn f(x: u8) -> u8 {\n    x\n}\n",
            "pub fn f(x: u8) -> u8\n    requires { x < 3 }\n    ensures { result ≡ x }\n{\n    x\n}\n",
            "pub fn f(x: u8) -> u8\n    requires* { ⌜ x < 3 ⌝ }\n    ensures { result ≡ x }\n{\n    x\n}\n",
            "pub fn f(x: u8) -> u8\n    ghost none: { ⊥ }\n    ensures { result ≡ x }\n{\n    x\n}\n",
            "fn f(result: u8) -> u8\n    ensures { result ≡ result }\n{\n    result\n}\n",
            "fn f(r: u8) -> u8\n    ensures { λ r. r ≡ r }\n{\n    r\n}\n",
            "pub fn f(r: u8) -> u8\n    ensures { λ r. r ≡ r }\n{\n    r\n}\n",
            "pub fn f(x: u8) -> u8\n    ensures { x ≡ x }\n{\n    x\n}\n",
            "pub fn f(x: u8) -> u8\n    ensures* { ⌜ result ≡ x ⌝ }\n{\n    x\n}\n",
            "pub(crate) fn f(result: u8) -> u8 {\n    result\n}\n",
            "pub extern \"C\" fn f(x: u8) -> u8 {\n    x\n}\n",
            "pub\nfn f(x: u8) -> u8 {\n    x\n}\n",
            "pub trait T {\n    fn f(self, x: u8) -> u8\n        requires { x < 3 }\n        ensures { result ≡ x };\n}\n",
            "pub trait T {\n    fn f(self, x: u8) -> u8\n        ensures { result ≤ x };\n}\n",
            "pub trait T {\n    fn f(x: u8) -> [u8; 2];\n}\n",
            "pub fn f(x: u8) -> u8\n    ensures { first_of result ≡ x }\n{\n    x\n}\n",
        ];
        for text in faulty {
            assert_eq!(said(text).len(), 1, "{text}");
        }
    }

    #[test]
    fn a_lent_self_is_settled_too() {
        let of = |clauses: &str| {
            said(&format!(
                "impl S {{\n    pub fn f(&mut self, x: u8) -> u8\n    {clauses}\n    {{\n    }}\n}}\n"
            ))
        };
        let both = "ensures answer { result ≡ x }\n    ensures place { self.new ≡ f self.old x }";
        assert_eq!(of(both), Vec::<String>::new());
        assert_eq!(of("ensures { result ≡ x }").len(), 1);
    }

    #[test]
    fn an_array_vec_is_its_items() {
        let vector = |clause: &str| {
            said(&format!(
                "pub fn f(x: &mut ArrayVec<u8, 2>)\n    ensures {{ {clause} }}\n{{\n}}\n"
            ))
        };
        assert_eq!(vector("x.new.items ≡ x.old.items"), Vec::<String>::new());
        assert_eq!(vector("x.new.length ≡ x.old.length").len(), 1);
    }

    #[test]
    fn a_conversion_says_what_it_gives() {
        let of = |line: &str| {
            said(&format!(
                "impl From<E> for u32 {{\n    {line}\n    fn from(e: E) -> u32 {{\n    }}\n}}\n"
            ))
        };
        assert_eq!(
            of("ghost from_gives = { λ e n. n ≡ f e };"),
            Vec::<String>::new()
        );
        let silent = [
            "",
            "ghost from_gives = { λ e n. n ≡ n };",
            "ghost from_gives = { λ e n. e ≡ e };",
            "ghost from_gives = { λ e n. ⊤ };",
            "ghost other = { λ e n. n ≡ f e };",
        ];
        for line in silent {
            assert_eq!(of(line).len(), 1, "{line}");
        }
        let generic = "impl<T> From<E> for S<T> {\n    fn from(e: E) -> S<T> {\n    }\n}\n";
        assert_eq!(said(generic).len(), 1);
    }

    #[test]
    fn a_conversion_that_can_fail_says_what_it_gives() {
        let of = |error: &str, line: &str| {
            said(&format!(
                "{error}\nimpl TryFrom<u32> for E {{\n    type Error = No;\n    {line}\n    fn try_from(n: u32) -> Result<E, No> {{\n    }}\n}}\n"
            ))
        };
        let good = "ghost try_from_gives = { λ n r. result_ok r ≡ f n };";
        assert_eq!(of("struct No;", good), Vec::<String>::new());
        assert_eq!(of("struct No(u32);", good).len(), 1);
        // the whole result, whatever the error is
        let whole = "ghost try_from_gives = { λ n r. r ≡ f n };";
        assert_eq!(of("struct No;", whole), Vec::<String>::new());
        assert_eq!(of("struct No(u32);", whole), Vec::<String>::new());
        let silent = [
            "",
            "ghost try_from_gives = { λ n r. r ≡ r };",
            "ghost try_from_gives = { λ n r. result_ok r ≡ result_ok r };",
            "ghost try_from_gives = { λ n r. ⊤ };",
            "ghost from_gives = { λ n r. result_ok r ≡ f n };",
        ];
        for line in silent {
            assert_eq!(of("struct No;", line).len(), 1, "{line}");
        }
    }

    #[test]
    fn the_result_is_not_captured() {
        let of = |clauses: &str| {
            said(&format!(
                "fn f(r: u8) -> u8\n    {clauses}\n{{\n    r\n}}\n"
            ))
        };
        let captured = [
            "ensures { let result = r in result ≡ r }",
            "ensures { let result : ℕ = r in result ≡ r }",
            "ensures { All (λ result. result ≡ result) [] }",
            "ensures { All (λ (v, result). result ≡ v) [] }",
            "ensures { (result : ℕ) → result ≡ result }",
            "ensures { (k result : ℕ) × (result ≡ k) }",
            "ensures { {result : ℕ} → result ≡ result }",
            "ensures { elim o [ Some result ↦ result ≡ r | None ↦ r ≡ r ] }",
            "ensures { let «result» = r in result ≡ r }",
            "ghost result: { ℕ }\n    ensures { result ≡ r }",
        ];
        for clauses in captured {
            assert_eq!(of(clauses).len(), 1, "{clauses}");
        }
        let free = [
            "ensures { let half = r / 2 in result ≡ half }",
            "ensures { (k : ℕ) → k < result → k < r }",
            "ensures { All (λ v. v < result) [] }",
            "ensures { elim o [ Some v ↦ result ≡ v | None ↦ result ≡ r ] }",
            "ensures { result ≡ record { a = r } }",
        ];
        for clauses in free {
            assert_eq!(of(clauses), Vec::<String>::new(), "{clauses}");
        }
    }

    #[test]
    fn what_cannot_be_read_is_a_fault() {
        let unread = [
            "pub const fn f(x: u8) -> u8 {\n    x\n}\n",
            "pub unsafe fn f(x: u8) -> u8 {\n    x\n}\n",
            "pub(in crate::a) fn f(x: u8) -> u8 {\n    x\n}\n",
            "pub(super) fn f(x: u8) -> u8 {\n    x\n}\n",
            "#[inline pub fn f(x: u8) -> u8 {\n    x\n}\n",
            "pub fn f {\n}\n",
            "pub fn f(x: u8 -> u8 {\n    x\n}\n",
            "pub fn f<T(x: u8) -> u8 {\n    x\n}\n",
            "pub fn f(x: u8) -> u8\n",
            "fn f(x: u8) -> u8;\nstruct S {\n}\n",
            "pub fn f(x: u8) -> u8\n    ensures { result ≡ x\n",
            "pub fn f(x: u8) -> u8\n    ensures { result ≡ x }\n    promises { 1 }\n{\n}\n",
            "pub fn f(x: u8) -> u8\n    ensures { result ≡ x }\n    more ensures { 1 }\n{\n}\n",
            "pub fn f(x: u8) -> u8\n    ensures two names { result ≡ x }\n{\n}\n",
            "/* pub fn",
        ];
        for text in unread {
            let faults = said(text);
            assert_eq!(faults.len(), 1, "{text}");
            let line = text.lines().next().unwrap_or("");
            assert_eq!(faults[0], format!("low/src/lib.rt: cannot be read: {line}"));
        }
    }

    #[test]
    fn words_that_are_no_function_are_passed_over() {
        let text = "struct fn_of {\n    defn : u8,\n}\n// pub const fn f\nfn f(x: u8) {\n}\n";
        assert_eq!(said(text), Vec::<String>::new());
        assert_eq!(functions("low/src/lib.rt", text).0.len(), 1);
    }

    #[test]
    fn the_signs_of_contracts_keep_their_meaning() {
        let own = |item: &str| {
            said(&format!(
                "ghost use Rattle.low.specs.Dec.{{eqb}};\nghost use {item};\n"
            ))
        };
        let good = [
            "Rattle.std.specs.Prelude.{◌≡◌}",
            "Rattle.std.specs.Prelude.{◌+◌, ◌≡◌, refl}",
            "Rattle.std.specs.Prelude.{\n    ◌+◌, ◌≡◌,\n}",
            "mathlib.Core.Path.{◌≡◌}",
            "a.{known, now_is, renewed}",
        ];
        for item in good {
            assert_eq!(own(item), Vec::<String>::new(), "{item}");
        }
        let strange = [
            "Rattle.low.specs.Own.{◌≡◌}",
            "Rattle.std.specs.Prelude.{◌≢◌ as ◌≡◌}",
            "Rattle.std.specs.Prelude.{◌≢◌\n    as ◌≡◌}",
            "mathlib.Core.Path.{◌∙◌ as ◌≡◌}",
            "Rattle.low.specs.Own.{same as ◌≡◌}",
            "Rattle.low.specs.Own.{⌜◌⌝}",
            "Rattle.low.specs.Own.{◌∗◌}",
            "Rattle.low.specs.Own.{result}",
            "Rattle.low.specs.Own.{same as result}",
            "Rattle.low.specs.Own.{◌result◌}",
            "Rattle.low.specs.Own.{now}",
            "Rattle.low.specs.Own.{new}",
        ];
        for item in strange {
            assert_eq!(own(item).len(), 1, "{item}");
        }
    }

    #[test]
    fn an_equation_settles_the_result() {
        let good = [
            "result ≡ f x.a (g x) 3",
            "result ≡ x +ℤ 1",
            "result ≡ «a_b» x'",
            "result ≡ record { a = x }",
        ];
        for fact in good {
            assert_eq!(of_fact(fact), Vec::<String>::new(), "{fact}");
        }
        let open = [
            "result ≡ result",
            "result ≡ f result",
            "result ≡ f (result.a)",
            "result ≡ f result.a",
            "result ≡ f «result»",
            "x ≡ result",
            "f result ≡ x",
            "result.a ≡ x",
            "result.now ≡ x",
            "result ≤ x",
            "result ≡ x ⊎ True",
            "result ≡ x → True",
            "False → result ≡ x",
            "(result ≡ x)",
            "(result.a ≡ x) × (result.b ≡ x)",
            "result ≡ λ y. y",
            "let y = x in result ≡ y",
            "result ≡",
            "result ≡ x ⊎ x ≡ x",
            "Small x result",
            "result ≡ x ≡ x",
            "result ≡ℤ x",
            "⌜ result ≡ x",
        ];
        for fact in open {
            assert_eq!(of_fact(fact).len(), 1, "{fact}");
        }
    }

    #[test]
    fn an_equation_settles_what_is_written() {
        let good = [
            "ensures answer { result ≡ x }\n    ensures written { y.new ≡ f x y.old }",
            "ensures answer { result ≡ f y.old }\n    ensures written { y.new ≡ f x }",
        ];
        for clauses in good {
            assert_eq!(of_clauses(clauses), Vec::<String>::new(), "{clauses}");
        }
        let both = |answer: &str, written: &str| {
            of_clauses(&format!(
                "ensures a {{ {answer} }}\n    ensures b {{ {written} }}"
            ))
        };
        assert_eq!(of_clauses("ensures { result ≡ x }").len(), 1);
        assert_eq!(of_clauses("ensures { y.new ≡ f x }").len(), 1);
        let open = [
            ("result ≡ x", "y.new ≡ y.new"),
            ("result ≡ x", "y.new ≡ f «y».«new»"),
            ("result ≡ x", "y.new ≡ y.exit.now"),
            ("result ≡ x", "y.new ≡ f result"),
            ("result ≡ length y.new", "y.new ≡ f x"),
            ("result ≡ x", "x.new ≡ f x"),
            ("result ≡ x", "y.old ≡ f x"),
        ];
        for (answer, written) in open {
            assert_eq!(both(answer, written).len(), 1, "{answer}, {written}");
        }
    }

    #[test]
    fn a_parameter_can_be_called_new() {
        let of = |fact: &str| {
            said(&format!(
                "pub fn f(b: u8, new: u8) -> u8\n    ensures {{ {fact} }}\n{{\n}}\n"
            ))
        };
        assert_eq!(of("result ≡ f b (turn 3 new)"), Vec::<String>::new());
        assert_eq!(of("result ≡ f b.new").len(), 1);
        assert_eq!(of_fact("result ≡ f new").len(), 1);
    }

    #[test]
    fn nothing_stands_around_the_result_or_a_place() {
        let around = [
            "told 32 result ≡ f x",
            "as_answer result ≡ f x",
            "refusal_number result ≡ f x",
            "(result) ≡ f x",
            "record { outcome = result; bench = y.new } ≡ f x",
        ];
        for answer in around {
            assert_eq!(of_fact(answer).len(), 1, "{answer}");
            let clauses = format!("ensures a {{ {answer} }}\n    ensures b {{ y.new ≡ f x }}");
            assert_eq!(of_clauses(&clauses).len(), 1, "{answer}");
        }
        let written = "ensures a { result ≡ x }\n    ensures b { told y.new ≡ f x }";
        assert_eq!(of_clauses(written).len(), 1);
        // a place that is not written settles nothing
        let read = "ensures a { result ≡ x }\n    ensures b { y.new ≡ f x }\n    ensures c { x.new ≡ f x }";
        assert_eq!(of_clauses(read).len(), 1);
    }

    /// A public function of a number and a slice, as in `of_clauses`, that is listed.
    fn of_listed(clauses: &str) -> Vec<String> {
        let text = format!("pub fn f(x: u8, y: &mut [u8]) -> u8\n    {clauses}\n{{\n}}\n");
        with(&["low::f"], &text)
    }

    const EQUATIONS: &str = "ensures a { result ≡ x }\n    ensures b { y.new ≡ f x }";

    #[test]
    fn a_listed_function_has_theorems_beside_its_equations() {
        let good = [
            "ensures c { Claim x }",
            "ensures c { Claim result y.new }",
            "ensures c { told 32 result ≡ f x }",
            "ensures c { sound y.old ≡ true → result ≡ x }\n    ensures d { y.new ≡ f y.new }",
        ];
        for theorems in good {
            let clauses = format!("{EQUATIONS}\n    {theorems}");
            assert_eq!(of_listed(&clauses), Vec::<String>::new(), "{theorems}");
            assert_eq!(of_clauses(&clauses).len(), 1, "{theorems}");
        }
    }

    #[test]
    fn the_functions_of_the_list_settle_what_they_answer() {
        let run = "pub fn run(b: &mut Bench, calls: &[Call], answers: &mut [Result<Reply, Refusal>])
    ensures bench { b.new ≡ after b.old (calls_to calls.now answers.old) }
    ensures answers { answers.new ≡ laid (replies b.old (calls_to calls.now answers.old)) answers.old }
    ensures claim { sound b.old ≡ true → Claim b.old calls.now answers.new }
{
    work();
}
";
        let fly = "pub fn fly(speed: i32, calls: &[Call], answers: &mut [Result<Reply, Refusal>]) -> Flight
    ensures flight { result ≡ flown speed (calls_to calls.now answers.old) }
    ensures answers { answers.new ≡ laid (told speed calls.now) answers.old }
    ensures claim { Claim speed calls.now answers.new }
    ensures page_twelve { Guided result }
{
    work()
}
";
        let faults = |text: &str| {
            let file = ("replay/src/lib.rt".to_string(), text.to_string());
            report(&[file], PROMISING).1.len()
        };
        let both = format!("{run}\n{fly}");
        assert_eq!(faults(&both), 0);
        for line in both.lines().filter(|line| line.contains("ensures")) {
            let theorem = line.contains("Claim") || line.contains("Guided");
            let lost = both.replace(&format!("{line}\n"), "");
            // of two theorems one is enough for the list
            let missed = !theorem || line.contains("b.old");
            assert_eq!(faults(&lost), usize::from(missed), "{line}");
        }
    }

    #[test]
    fn a_theorem_settles_nothing() {
        let result = "ensures a { result ≡ x }";
        let place = "ensures b { y.new ≡ f x }";
        let lost = [
            format!("{result}\n    ensures c {{ Claim y.new }}"),
            format!("{place}\n    ensures c {{ Claim result }}"),
            format!("{place}\n    ensures c {{ told 32 result ≡ f x }}"),
            format!("{place}\n    ensures c {{ result ≡ x → True }}"),
            format!("{place}\n    ensures c {{ result ≡ f result }}"),
            format!("{result}\n    ensures c {{ y.new ≡ f result }}"),
            format!("{result}\n    ensures c {{ y.old ≡ f x }}"),
            format!("{result}\n    ensures* c {{ ⌜ y.new ≡ f x ⌝ }}"),
        ];
        for clauses in lost {
            assert_eq!(of_listed(&clauses).len(), 1, "{clauses}");
        }
        assert_eq!(of_listed("ensures c { told 32 result ≡ f x }").len(), 2);
    }

    #[test]
    fn a_theorem_has_a_name_of_its_own() {
        let unnamed = [
            "ensures { Claim x }",
            "ensures a { Claim x }",
            "ensures c { Claim x }\n    ensures c { Other x }",
            "ensures { Claim x }\n    ensures d { Other x }",
        ];
        for theorems in unnamed {
            let clauses = format!("{EQUATIONS}\n    {theorems}");
            assert_eq!(of_listed(&clauses).len(), 1, "{theorems}");
            let bare = format!("pub fn f()\n    ensures a {{ First }}\n    {theorems}\n{{\n}}\n");
            assert_eq!(said(&bare).len(), 1, "{theorems}");
        }
        assert_eq!(said("pub fn f()\n    ensures { Laws }\n{\n}\n").len(), 1);
    }

    #[test]
    fn a_theorem_does_not_capture_the_result() {
        let captured = [
            "let result = x in Claim result",
            "All (λ result. result ≡ result) []",
            "λ r. Claim r",
        ];
        for theorem in captured {
            let clauses = format!("{EQUATIONS}\n    ensures c {{ {theorem} }}");
            assert_eq!(of_listed(&clauses).len(), 1, "{theorem}");
        }
    }

    #[test]
    fn a_function_that_does_nothing_has_theorems_alone() {
        let good = [
            "pub fn f()\n    ensures laws { Laws }\n{\n}\n",
            "pub fn f() ensures laws { Laws } {}\n",
            "#[tactic(auto, using(laws))]\npub fn f()\n    ensures laws { Laws }\n    ensures guides { (n : ℕ) → Guides n }\n{\n    // nothing\n}\n",
        ];
        for text in good {
            assert_eq!(said(text), Vec::<String>::new(), "{text}");
        }
        let theorem = "\n    ensures laws { Laws }\n";
        let faulty = [
            format!("pub fn f(x: u8){theorem}{{\n}}\n"),
            format!("pub fn f(_: ()){theorem}{{\n}}\n"),
            format!("pub fn f<T>(){theorem}{{\n}}\n"),
            format!("pub fn f() -> u8{theorem}{{\n}}\n"),
            format!("pub fn f() -> (){theorem}{{\n}}\n"),
            format!("pub fn f(){theorem}{{\n    g();\n}}\n"),
            format!("pub fn f(){theorem}{{\n    ()\n}}\n"),
            format!("pub fn f(){theorem}{{\n    {{}}\n}}\n"),
            format!("pub fn f()\n    requires {{ ⊥ }}{theorem}{{\n}}\n"),
            format!("pub fn f()\n    ghost none: {{ ⊥ }}{theorem}{{\n}}\n"),
            format!("impl S {{\n    pub fn f(){theorem}    {{\n    }}\n}}\n"),
            format!("impl S {{\n    pub fn f(self){theorem}    {{\n    }}\n}}\n"),
            format!("pub trait T {{\n    fn f(){theorem}    ;\n}}\n"),
            "pub fn f() {\n}\n".to_string(),
        ];
        for text in faulty {
            assert_eq!(said(&text).len(), 1, "{text}");
        }
    }

    #[test]
    fn the_list_has_no_other_function() {
        let theorem = "pub fn f(x: u8) -> u8\n    ensures a { result ≡ x }\n    ensures c { Small x result }\n{\n}\n";
        assert_eq!(with(&["low::f"], theorem), Vec::<String>::new());
        assert_eq!(with(&["low::g"], theorem).len(), 2);
        assert_eq!(with(&["low::f", "low::g"], theorem).len(), 1);
        let plain = "pub fn f(x: u8) -> u8\n    ensures { result ≡ x }\n{\n}\n";
        assert_eq!(with(&["low::f"], plain).len(), 1);
        let hidden = theorem.replace("pub fn", "pub(crate) fn");
        assert_eq!(with(&["low::f"], &hidden).len(), 1);
        let method = format!("impl S {{\n    {}}}\n", theorem.replace('\n', "\n    "));
        assert_eq!(with(&["low::S::f"], &method), Vec::<String>::new());
        assert_eq!(with(&["low::f"], &method).len(), 2);
        let inner = [("low/src/a/b.rt".to_string(), theorem.to_string())];
        assert!(report(&inner, &[("low::a::b::f", "")]).1.is_empty());
        assert_eq!(report(&inner, &[("low::f", "")]).1.len(), 2);
    }
}
