//! One edit: the lines that `rt` reads of it, and what is wrong with it before it is tried.

use contracts::{functions, Head};
use std::collections::BTreeMap;
use std::ops::Range;

/// Words and signs of a contract in a source of Rattle: an edit of a program leaves them alone, since a
/// contract that was changed says nothing of the program. A source without a program has theorems alone, and an
/// edit may change those, as it may change a definition.
const CONTRACT: [&str; 6] = ["requires", "ensures", "ghost", "≡", "⌜", "⌝"];

/// What asks for a proof in a source, which is no part of the program either.
const PROOF: &str = "[tactic(";

#[derive(Default)]
pub struct Edit {
    says: bool,
    /// the files that it names, and their text where the crate has them
    files: BTreeMap<String, Option<String>>,
    /// the file, the old text and the new one
    pairs: Vec<(String, String, String)>,
    passed_over: Vec<String>,
}

/// Reads an edit as `rt` does: a `file: ` holds for the pairs of `old: ` and `new:` below it. `source` gives the
/// files of the crate.
pub fn read(text: &str, source: impl Fn(&str) -> Option<String>) -> Edit {
    let (mut edit, mut file, mut old) = (Edit::default(), String::new(), String::new());
    for line in text.lines() {
        if let Some(comment) = line.strip_prefix('#') {
            edit.says |= comment.contains(char::is_alphanumeric);
        } else if let Some(path) = line.strip_prefix("file: ") {
            file = path.to_string();
            edit.files.insert(file.clone(), source(path));
        } else if let Some(text) = line.strip_prefix("old: ") {
            old = text.to_string();
        } else if let Some(new) = line.strip_prefix("new:") {
            let new = new.strip_prefix(' ').unwrap_or(new).to_string();
            edit.pairs
                .push((file.clone(), std::mem::take(&mut old), new));
        } else if !line.trim().is_empty() {
            edit.passed_over.push(line.to_string());
        }
    }
    edit
}

/// Where the clauses of a source stand, and what it brings in for them: each in lines of its own.
fn contracts(source: &str) -> Vec<Range<usize>> {
    let (mut found, mut next) = (Vec::new(), 0);
    for line in source.split_inclusive('\n') {
        let start = next;
        next += line.len();
        let word = line.trim_start().split(|c: char| !c.is_alphabetic()).next();
        if !word.is_some_and(|word| CONTRACT[..3].contains(&word)) {
            continue;
        }
        let (mut depth, mut end) = (0, source.len());
        for (at, c) in source[start..].char_indices() {
            depth += i32::from(c == '{') - i32::from(c == '}');
            if depth == 0 && (c == '}' || c == ';') {
                end = start + at + 1;
                break;
            }
        }
        found.push(start..end);
    }
    found
}

/// Whether each function of a source is there for its theorems alone.
fn only_states(source: &str) -> bool {
    let (heads, unread) = functions("", source);
    let states = |head: &Head| head.only_states && !head.theorems().is_empty();
    unread.is_empty() && !heads.is_empty() && heads.iter().all(states)
}

/// Whether two texts differ in more than spaces.
fn differ(old: &str, new: &str) -> bool {
    !old.split_whitespace().eq(new.split_whitespace())
}

impl Edit {
    /// Whether a file has a part of the program.
    fn is_program(&self, file: &str) -> bool {
        let source = self.files.get(file).and_then(|text| text.as_deref());
        file.starts_with("src/") && !source.is_some_and(only_states)
    }

    /// `program` if it changes the program alone, `definition` if some files are of specs/ or have theorems alone.
    pub fn kind(&self) -> Option<&'static str> {
        let known = |file: &String| file.starts_with("src/") || file.starts_with("specs/");
        if self.files.is_empty() || !self.files.keys().all(known) {
            return None;
        }
        let program = self.files.keys().all(|file| self.is_program(file));
        Some(if program { "program" } else { "definition" })
    }

    pub fn faults(&self) -> Vec<String> {
        let mut found = Vec::new();
        if !self.says {
            found.push("has no comment that says what is wrong".to_string());
        }
        if self.files.keys().any(|file| file.starts_with("proofs/")) {
            found.push("changes a proof".to_string());
        } else if self.kind().is_none() {
            found.push("names no file, or one that is not of src/ or specs/".to_string());
        }
        if self.pairs.is_empty() {
            found.push("changes nothing".to_string());
        }
        for (file, old, new) in &self.pairs {
            if !differ(old, new) {
                found.push(format!("has a new text that is the old one: {new}"));
            }
            let cites = |word: &str| old.contains(word) || new.contains(word);
            if self.is_program(file) && CONTRACT.iter().any(|word| cites(word)) {
                found.push(format!("changes a contract: {old}"));
            }
            if file.starts_with("src/") && cites(PROOF) {
                found.push(format!("changes a proof: {old}"));
            }
        }
        let lines = self.passed_over.iter();
        found.extend(lines.map(|line| format!("has a line that rt passes over: {line}")));
        found
    }

    /// The old texts that stand in a contract of the crate and have none of its words.
    pub fn in_contracts(&self) -> Vec<String> {
        let (mut found, mut sources) = (Vec::new(), self.files.clone());
        for (file, old, new) in &self.pairs {
            if !self.is_program(file) || CONTRACT.iter().any(|word| old.contains(word)) {
                continue;
            }
            let Some(Some(source)) = sources.get_mut(file) else {
                continue;
            };
            let Some(at) = source.find(old.as_str()) else {
                continue;
            };
            let inside = |range: &Range<usize>| at < range.end && range.start < at + old.len();
            if contracts(source).iter().any(inside) {
                found.push(format!("changes a contract: {old}"));
            }
            *source = source.replacen(old.as_str(), new, 1);
        }
        found
    }
}

#[cfg(test)]
mod tests {
    use super::*;

    /// An edit of a crate that has no file.
    fn alone(text: &str) -> Edit {
        read(text, |_| None)
    }

    const GOOD: &str = "# Wrong answer: 2.\nfile: src/lib.rt\nold: 1\nnew: 2\n";

    #[test]
    fn kinds() {
        let kind = |text: &str| alone(text).kind();
        assert_eq!(kind(GOOD), Some("program"));
        assert_eq!(
            kind("file: src/a.rt\nfile: specs/A.antt\n"),
            Some("definition")
        );
        assert_eq!(kind("file: specs/A.antt\n"), Some("definition"));
        assert_eq!(kind("file: src/a.rt\nfile: proofs/A.antt\n"), None);
        assert_eq!(kind("file: other/a.rt\n"), None);
        assert_eq!(kind("old: 1\nnew: 2\n"), None);
    }

    #[test]
    fn good_edits_pass() {
        let two = "# a\n# b\n\nfile: specs/A.antt\nold: a ⌜\nnew:\nold: b\nnew: c\n";
        for text in [GOOD, two] {
            assert_eq!(alone(text).faults(), Vec::<String>::new(), "{text}");
        }
    }

    #[test]
    fn each_fault_is_seen() {
        let faulty = [
            "file: src/lib.rt\nold: 1\nnew: 2\n",
            "# \nfile: src/lib.rt\nold: 1\nnew: 2\n",
            "# a\nfile: proofs/Laws.antt\nold: 1\nnew: 2\n",
            "# a\nfile: src/a.rt\nold: 1\nnew: 2\nfile: proofs/Laws.antt\nold: 1\nnew: 2\n",
            "# a\nfile: must-fail/a.edit\nold: 1\nnew: 2\n",
            "# a\nold: 1\nnew: 2\n",
            "# a\nfile: src/a.rt\n",
            "# a\nfile: src/a.rt\nold: a b\nnew: a  b\n",
            "# a\nfile: src/a.rt\nold: 1\nnew: 2\nold: 3\nnew: 3\n",
            "# a\nfile: src/a.rt\nold: ensures { Small result }\nnew: 2\n",
            "# a\nfile: src/a.rt\nold: result ≡ 1\nnew: 2\n",
            "# a\nfile: src/a.rt\nold: 1\nnew: 2 ⌝\n",
            "# a\nfile: src/a.rt\nold: 1\nnew: #[tactic(auto, using(a))] 2\n",
            "# a\nfile: src/a.rt\nold: 1\nnew: 2\nfile:proofs/Laws.antt\n",
            "# a\nfile: src/a.rt\nold: 1\nnew: 2\nanything\n",
        ];
        for text in faulty {
            assert_eq!(alone(text).faults().len(), 1, "{text}");
        }
    }

    #[test]
    fn a_part_of_a_clause_is_seen() {
        let source = "ghost use Rattle.a.{\n    known,\n};\nfn f(x: u8) -> u8\n    requires low { x < 3 }\n    ensures {\n        Small x result\n    }\n{\n    known(x < 4, 3)\n}\n";
        let a = |file: &str| (file == "src/a.rt").then(|| source.to_string());
        let faults = |old: &str, new: &str| {
            let edit = format!("# a\nfile: src/a.rt\nold: {old}\nnew: {new}\n");
            read(&edit, a).in_contracts().len()
        };
        for old in [
            "    known,",
            "low { x < 3",
            "x < 3 }",
            "Small x result",
            "x result",
        ] {
            assert_eq!(faults(old, "2"), 1, "{old}");
        }
        for old in ["known(x", "x < 4", "fn f(x: u8)", ", 3)", "gone"] {
            assert_eq!(faults(old, "2"), 0, "{old}");
        }
        // the second text stands where the first was
        let two = "# a\nfile: src/a.rt\nold: x < 4\nnew: y < 9\nold: y < 9\nnew: 2\nfile: src/gone.rt\nold: 1\nnew: 2\n";
        assert_eq!(read(two, a).in_contracts(), Vec::<String>::new());
    }

    #[test]
    fn a_source_of_theorems_is_changed_as_a_definition() {
        let theorems = "ghost use Rattle.a.{true};\n#[tactic(auto, using(laws))]\npub fn hold()\n    ensures laws { Laws }\n    ensures on { f 1 ≡ true }\n{\n}\n";
        let of = |source: &str, pairs: &str| {
            let edit = format!("# a\nfile: src/a.rt\n{pairs}");
            let edit = read(&edit, |_| Some(source.to_string()));
            let faults = [edit.faults(), edit.in_contracts()].concat();
            (edit.kind().unwrap_or("neither"), faults.len())
        };
        let good = [
            "old: { Laws }\nnew: { Others }\n",
            "old: f 1 ≡ true\nnew: f 1 ≡ false\n",
            "old: {true}\nnew: {false}\nold: f 1 ≡ true\nnew: f 1 ≡ false\n",
            "old: ensures on {\nnew: ensures on { ⊥ ×\n",
        ];
        for pairs in good {
            assert_eq!(of(theorems, pairs), ("definition", 0), "{pairs}");
            // of a program the same is the change of a contract
            let program = theorems.replace("hold()", "hold(x: u8)");
            assert_eq!(of(&program, pairs).0, "program");
            assert_ne!(of(&program, pairs).1, 0, "{pairs}");
            let beside = format!("{theorems}fn f() {{\n    g();\n}}\n");
            assert_ne!(of(&beside, pairs).1, 0, "{pairs}");
        }
        let proof = "old: #[tactic(auto, using(laws))]\nnew: #[tactic(auto)]\n";
        assert_eq!(of(theorems, proof), ("definition", 1));
    }
}
