//! docs/wrong-answers.txt against the tree. A line of it is `crate NAME` or `edit NAME/LABEL KIND`, with
//! the word `unfit` behind it where the edit is refused by a proof that no longer fits; a # starts a
//! comment.
use crate::edit::{self, Edit};
use crate::{crates_of, Report, Tree};
use std::collections::{BTreeMap, BTreeSet};

pub const LIST: &str = "docs/wrong-answers.txt";

/// What the list has: the crates, and of each edit its kind and whether it may be unfit.
#[derive(Default)]
pub struct Listed {
    crates: BTreeSet<String>,
    pub edits: BTreeMap<String, (String, bool)>,
}

pub fn read(tree: &Tree) -> (Listed, Vec<String>) {
    let (mut listed, mut faults) = (Listed::default(), Vec::new());
    let Some(text) = tree.get(LIST) else {
        return (listed, vec![format!("{LIST}: it is not there")]);
    };
    for (number, line) in (1..).zip(text.lines()) {
        let words: Vec<&str> = line
            .split('#')
            .next()
            .unwrap_or("")
            .split_whitespace()
            .collect();
        let new = match words[..] {
            [] => true,
            ["crate", name] => listed.crates.insert(name.to_string()),
            ["edit", name, kind] => listed.add(name, kind, false),
            ["edit", name, kind, "unfit"] => listed.add(name, kind, true),
            _ => {
                faults.push(format!("{LIST}:{number}: cannot be read: {line}"));
                true
            }
        };
        if !new {
            faults.push(format!("{LIST}:{number}: stands there twice: {line}"));
        }
    }
    (listed, faults)
}

impl Listed {
    fn add(&mut self, name: &str, kind: &str, unfit: bool) -> bool {
        let new = (kind.to_string(), unfit);
        self.edits.insert(name.to_string(), new).is_none()
    }
}

/// The edits that `rt` runs, by crate and label, and the other files of must-fail/.
fn edits_of(tree: &Tree) -> (BTreeMap<String, Edit>, Vec<String>) {
    let (mut found, mut strays) = (BTreeMap::new(), Vec::new());
    let crates = crates_of(tree);
    for (path, text) in tree {
        let parts: Vec<&str> = path.split('/').collect();
        match parts[..] {
            ["crates", name, "must-fail", file] if crates.iter().any(|known| known == name) => {
                let source = |file: &str| tree.get(&format!("crates/{name}/{file}")).cloned();
                match file.strip_suffix(".edit") {
                    Some(label) => {
                        _ = found.insert(format!("{name}/{label}"), edit::read(text, source))
                    }
                    None => strays.push(path.clone()),
                }
            }
            ["crates", _, "must-fail", ..] => strays.push(path.clone()),
            _ => {}
        }
    }
    (found, strays)
}

/// What is in the tree and not in the list, and the other way round.
fn differences<'a>(
    tree: impl Iterator<Item = &'a String>,
    list: impl Iterator<Item = &'a String>,
) -> Vec<String> {
    let (tree, list): (BTreeSet<_>, BTreeSet<_>) = (tree.collect(), list.collect());
    let missing = tree.difference(&list);
    let missing = missing.map(|name| format!("{LIST}: {name} is not in the list"));
    let gone = list.difference(&tree);
    let gone = gone.map(|name| format!("{LIST}: {name} is in the list and not in the tree"));
    missing.chain(gone).collect()
}

pub fn report(tree: &Tree) -> Report {
    let (listed, mut faults) = read(tree);
    let (edits, strays) = edits_of(tree);
    let crates = crates_of(tree);
    faults.extend(differences(crates.iter(), listed.crates.iter()));
    faults.extend(differences(edits.keys(), listed.edits.keys()));
    let strays = strays.iter();
    faults.extend(strays.map(|path| format!("{path}: rt does not run it as an edit")));
    let mut counts = BTreeMap::new();
    for (name, edit) in &edits {
        let kind = edit.kind().unwrap_or("neither");
        *counts.entry(kind).or_insert(0) += 1;
        let each = edit.faults().into_iter().chain(edit.in_contracts());
        faults.extend(each.map(|fault| format!("{name} {fault}")));
        let said = listed.edits.get(name).map(|(said, _)| said);
        if said.is_some_and(|said| said != kind) {
            faults.push(format!("{LIST}: {name} changes the {kind}"));
        }
    }
    let count = |kind: &str| counts.get(kind).copied().unwrap_or(0);
    let last = format!(
        "{} crates, {} edits: {} of a program, {} of a definition",
        crates.len(),
        edits.len(),
        count("program"),
        count("definition")
    );
    Report {
        faults,
        last,
        notes: Vec::new(),
    }
}

/// The list as the tree has it, with the comments at the top of the old one and its words `unfit`.
pub fn written(tree: &Tree) -> String {
    let old = tree.get(LIST).map_or("", String::as_str);
    let comment = |line: &&str| line.starts_with('#') || line.trim().is_empty();
    let mut lines: Vec<String> = old
        .lines()
        .take_while(comment)
        .map(str::to_string)
        .collect();
    let (listed, _) = read(tree);
    let (edits, _) = edits_of(tree);
    for name in crates_of(tree) {
        lines.push(format!("crate {name}"));
        let own = |edit: &&String| edit.split('/').next() == Some(&name);
        for edit in edits.keys().filter(own) {
            let kind = edits[edit].kind().unwrap_or("neither");
            let unfit = listed.edits.get(edit).is_some_and(|(_, unfit)| *unfit);
            lines.push(format!(
                "edit {edit} {kind}{}",
                if unfit { " unfit" } else { "" }
            ));
        }
    }
    lines.join("\n") + "\n"
}

#[cfg(test)]
mod tests {
    use super::*;
    use crate::tests::tree;

    const FILES: &str = "@crates.txt
low:
high: low
@crates/low/must-fail/one.edit
# Wrong answer: 2.
file: src/lib.rt
old: 1
new: 2
@crates/high/must-fail/two.edit
# Wrong answer: 2.
file: specs/Sets.antt
old: 1
new: 2
";

    const LINES: &str = "# What is refused.

crate low # a leaf
edit low/one program
crate high
edit high/two definition unfit
";

    fn with(lines: &str, more: &str) -> Tree {
        tree(&format!("{FILES}{more}@{LIST}\n{lines}"))
    }

    fn faults(lines: &str, more: &str) -> Vec<String> {
        report(&with(lines, more)).faults
    }

    #[test]
    fn a_true_list_passes() {
        let report = report(&with(LINES, ""));
        assert_eq!(report.faults, Vec::<String>::new());
        let last = "2 crates, 2 edits: 1 of a program, 1 of a definition";
        assert_eq!(report.last, last);
    }

    #[test]
    fn each_fault_of_the_list_is_seen() {
        let change = |old: &str, new: &str| faults(&LINES.replace(old, new), "");
        assert_eq!(change("crate high\n", "").len(), 1);
        assert_eq!(change("edit low/one program\n", "").len(), 1);
        assert_eq!(change("crate high", "crate high\ncrate gone").len(), 1);
        assert_eq!(
            change("crate high", "crate high\nedit low/gone program").len(),
            1
        );
        assert_eq!(change("one program", "one definition").len(), 1);
        assert_eq!(change("two definition", "two program").len(), 1);
        assert_eq!(change("crate high", "crate high\ncrate high").len(), 1);
        assert_eq!(
            change("crate high", "crate high\nedit low/one program unfit").len(),
            1
        );
        assert_eq!(change("crate high", "crate high\nedit").len(), 1);
        assert_eq!(change("crate high", "crate high\ncrate high more").len(), 1);
        assert_eq!(change("definition unfit", "definition unfitting").len(), 2);
        assert_eq!(report(&tree(FILES)).faults.len(), 5);
    }

    #[test]
    fn each_fault_of_the_tree_is_seen() {
        let good = "# a\nfile: src/a.rt\nold: 1\nnew: 2\n";
        let more = |path: &str, text: &str| faults(LINES, &format!("@{path}\n{text}"));
        assert_eq!(more("crates/low/must-fail/new.edit", good).len(), 1);
        assert_eq!(more("crates/low/must-fail/notes.txt", "").len(), 1);
        assert_eq!(more("crates/low/must-fail/inner/new.edit", good).len(), 1);
        assert_eq!(more("crates/other/must-fail/new.edit", good).len(), 1);
        let proof = "# a\nfile: proofs/A.antt\nold: 1\nnew: 2\n";
        let lines = LINES.replace("crate high", "edit low/new program\ncrate high");
        let added = format!("@crates/low/must-fail/new.edit\n{proof}");
        assert_eq!(faults(&lines, &added).len(), 2);
        let source =
            |clause: &str| format!("@crates/low/src/lib.rt\nfn f()\n    {clause}\n{{\n}}\n");
        assert_eq!(faults(LINES, &source("requires { x < 1 }")).len(), 1);
        assert_eq!(faults(LINES, &source("// requires { x < 1 }")).len(), 0);
    }

    #[test]
    fn the_list_is_written_from_the_tree() {
        let lines = LINES.replace("crate high\n", "edit low/gone program\n");
        let new = "@crates/low/must-fail/new.edit\n# a\nfile: src/a.rt\nold: 1\nnew: 2\n";
        let wanted = "# What is refused.

crate low
edit low/new program
edit low/one program
crate high
edit high/two definition unfit
";
        assert_eq!(written(&with(&lines, new)), wanted);
        assert_eq!(faults(wanted, new), Vec::<String>::new());
        assert!(written(&tree(FILES)).starts_with("crate low\n"));
    }
}
