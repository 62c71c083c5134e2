//! Holds the repository below ROOT to what it says of its wrong answers. A wrong answer is an edit,
//! crates/NAME/must-fail/LABEL.edit, which `rt` applies to a copy of the crate and which the prover must
//! refuse.
//! - `edits list ROOT`: docs/wrong-answers.txt lists every crate and every edit, and each edit is one
//!   that says something. With `--write` it writes the list anew from the tree.
//! - `edits refused ROOT`, after `rt ci`: each edit was refused for a fact that does not hold, or its
//!   line in the list has the word `unfit`.
//!
//! They print what is wrong. The exit status is 0 only where nothing is.
mod edit;
mod list;
mod refused;

use std::collections::BTreeMap;
use std::path::Path;
use std::{env, fs, process};

/// The repository's files by their path from the root, with their text.
type Tree = BTreeMap<String, String>;

/// What a command found: what is wrong, what is worth knowing, and its last line.
#[derive(Default)]
struct Report {
    faults: Vec<String>,
    notes: Vec<String>,
    last: String,
}

fn text_at(root: &Path, path: &str) -> Option<String> {
    let bytes = fs::read(root.join(path)).ok()?;
    Some(String::from_utf8_lossy(&bytes).to_string())
}

/// Whether `rt` makes a folder: the out/ of a crate.
fn is_made(path: &str) -> bool {
    let parts: Vec<&str> = path.split('/').collect();
    matches!(parts[..], ["crates", _, "out"])
}

fn load(root: &Path, folder: &str, tree: &mut Tree) {
    let Ok(entries) = fs::read_dir(root.join(folder)) else {
        return;
    };
    for entry in entries.flatten() {
        let path = format!("{folder}/{}", entry.file_name().to_string_lossy());
        if entry.path().is_dir() {
            if !is_made(&path) {
                load(root, &path, tree);
            }
        } else {
            tree.extend(text_at(root, &path).map(|text| (path, text)));
        }
    }
}

/// The files that the commands read, but for the logs.
fn tree_of(root: &Path) -> Tree {
    let mut tree = Tree::new();
    load(root, "crates", &mut tree);
    for path in ["crates.txt", list::LIST] {
        tree.extend(text_at(root, path).map(|text| (path.to_string(), text)));
    }
    tree
}

/// The crates that crates.txt lists, in its order.
fn crates_of(tree: &Tree) -> Vec<String> {
    let text = tree.get("crates.txt").map_or("", String::as_str);
    let lines = text.lines().filter_map(|line| line.split('#').next());
    let names = lines.filter_map(|line| line.split_once(':'));
    names.map(|(name, _)| name.trim().to_string()).collect()
}

fn write(root: &Path, tree: &mut Tree) {
    let text = list::written(tree);
    if let Err(error) = fs::write(root.join(list::LIST), &text) {
        println!("{}: {error}", list::LIST);
        process::exit(2);
    }
    tree.insert(list::LIST.to_string(), text);
}

fn main() {
    let words: Vec<String> = env::args().skip(1).collect();
    let words: Vec<&str> = words.iter().map(String::as_str).collect();
    let root = Path::new(words.get(1).copied().unwrap_or("."));
    let mut tree = tree_of(root);
    let report = match words[..] {
        ["list", _] => list::report(&tree),
        ["list", _, "--write"] => {
            write(root, &mut tree);
            list::report(&tree)
        }
        ["refused", _] => refused::report(&tree, |path| text_at(root, path)),
        _ => {
            println!("edits list ROOT [--write] | edits refused ROOT");
            process::exit(2);
        }
    };
    for line in report.notes.iter().chain(&report.faults) {
        println!("{line}");
    }
    println!("{}", report.last);
    process::exit(i32::from(!report.faults.is_empty()));
}

#[cfg(test)]
mod tests {
    use super::*;

    /// A small repository from one text: each file's path behind an @, its text below.
    pub fn tree(files: &str) -> Tree {
        let files = files.split('@').filter_map(|file| file.split_once('\n'));
        files
            .map(|(path, text)| (path.to_string(), text.to_string()))
            .collect()
    }

    #[test]
    fn crates_are_read_in_order() {
        let tree = tree("@crates.txt\n# leaves: none\nlow:\n\nhigh: low # two: three\n");
        assert_eq!(crates_of(&tree), ["low", "high"]);
        assert!(crates_of(&Tree::new()).is_empty());
    }
}
