//! Reads docs/CLAIMS.md below the root that it is given and lists what it cites, between backquotes,
//! that does not exist, and the theorems on contracts that it does not cite. The exit status is 0 only where the
//! list is empty. Forms of citations:
//! - `docs/..`, `tests/..`, `crates/..`, `lessons/..`, `.ci/..`, `file.txt`: a path from the root;
//! - `crate/specs/..`, or src, proofs, must-fail: a path in crates/; `specs/..`: one in some crate;
//! - `crate/edit`: crates/crate/must-fail/edit.edit;
//! - `crate::function`, `crate::module::function`: a function with an `ensures`, which is public
//!   unless the crate is a program; and behind it, as in "`crate::function`, clause `name`, `name`", the names
//!   of clauses of its `ensures`;
//! - a word of `CITE_NOTHING`;
//! - anything else is names, each declared in the first of these that the text gives:
//!   1. the file of "`name` in `file`" or "`name`, `name` and `name` in `file`";
//!   2. what is named last in the same cell, list item or paragraph, with no semicolon or end of a
//!      sentence between: an .antt or .rt file, `crates.txt`, a package `tests/package` (its tests),
//!      or by the word before a piece: second (tests of tests/second), compare or part (parts of
//!      tests/compare), crate;
//!   3. any of those files and packages that the text since the last heading, outside of tables, has
//!      named so far; and the crates, by name;
//! - in "`name`, `name` of `Type`" the names are also fields or cases of that type.
//!
//! A theorem is an `ensures` of a public function that is no equation for its answer; tests/contracts tells which
//! functions may have one. The page cites each, as a clause, and in some row, item or paragraph together with a
//! definition that the clause has behind its premises: so a theorem is missed when it is gone, and when its clause
//! says something else.
use contracts::text::on_one_line;
use contracts::Head;
use std::collections::{BTreeMap, BTreeSet};
use std::path::Path;
use std::{env, fs, process};

/// Words between backquotes that cite nothing, each with its reason.
const CITE_NOTHING: [(&str, &str); 8] = [
    ("requires", "a keyword of Rattle"),
    ("ensures", "a keyword of Rattle"),
    ("u32::trailing_zeros", "a function of the language"),
    ("List", "a type of the language's library"),
    ("cs", "the variable of the claim, any list of calls"),
    ("#", "a character of the scripts"),
    (
        "name",
        "stands for any test or clause where the forms are explained",
    ),
    ("part", "stands for any part where the forms are explained"),
];

const PARTS: &str = "tests/compare/src/parts.rs";
const CRATES: &str = "crates.txt";

/// Two kinds of citations.
const DEFINITIONS: &str = "definitions and theorems";
const CLAUSES: &str = "clauses";

/// The repository's files by their path from the root, with their text.
type Tree = BTreeMap<String, String>;

struct Repository {
    tree: Tree,
    functions: Vec<Head>,
}

/// A name, and the type whose field or case it is.
type Name = (String, Option<String>);

/// The text from the piece before up to a piece, and what stands between its backquotes.
type Piece<'a> = (&'a str, &'a str);

/// What is cited, of what kind it is, and in which row, item or paragraph of the page it stands.
struct Citation {
    place: usize,
    kind: &'static str,
    what: String,
}

/// Whether `rt` makes a folder: the out/ of a crate.
fn is_made(path: &str) -> bool {
    let parts: Vec<&str> = path.split('/').collect();
    matches!(parts[..], ["crates", _, "out"])
}

fn load(root: &Path, folder: &str, tree: &mut Tree) {
    let Ok(entries) = fs::read_dir(root.join(folder)) else {
        return;
    };
    for entry in entries.flatten() {
        let name = entry.file_name().to_string_lossy().to_string();
        let path = format!("{folder}{name}");
        if !entry.path().is_dir() {
            tree.insert(path, fs::read_to_string(entry.path()).unwrap_or_default());
        } else if name != "target" && name != ".git" && !is_made(&path) {
            load(root, &format!("{path}/"), tree);
        }
    }
}

/// The pieces of a document, or the fault that a backquote has no partner.
fn pieces(document: &str) -> Result<Vec<Piece<'_>>, String> {
    let odd = |line: &str| line.matches('`').count() % 2 == 1;
    if let Some(at) = document.lines().position(odd) {
        return Err(format!(
            "{}: a backquote has no partner in its line",
            at + 1
        ));
    }
    let parts: Vec<&str> = document.split('`').collect();
    Ok(parts
        .chunks_exact(2)
        .map(|pair| (pair[0], pair[1]))
        .collect())
}

/// The words of a line of code but those that only say how something is declared.
fn words(line: &str) -> Vec<&str> {
    let skipped = "pub pub(crate) extern \"C\" pattern abbrev unfoldable";
    let words = line.split_whitespace();
    words
        .filter(|w| skipped.split(' ').all(|s| s != *w))
        .collect()
}

fn ident(word: &str) -> String {
    let parts = word.split(['(', ':', ',', ';', '<', '{']);
    parts.take(1).collect()
}

/// What a file declares: functions, constants, theorems, types, and the types' fields and cases.
fn declared(text: &str, antt: bool) -> Vec<Name> {
    let (comment, step) = if antt { ("--", 2) } else { ("//", 4) };
    let mut found = Vec::new();
    // the block that is open: a type, or a module, which has no name
    let mut open: Option<Option<String>> = None;
    for line in text.lines().filter_map(|line| line.split(comment).next()) {
        let words = words(line);
        match line.len() - line.trim_start().len() {
            _ if words.is_empty() => continue,
            0 => open = None,
            indent if open.is_none() || indent != step => continue,
            _ => {}
        }
        let owner = open.clone().flatten();
        let second = words.get(1).map(|word| ident(word)).unwrap_or_default();
        match words[0] {
            "record" | "data" | "struct" | "enum" => {
                found.push((second.clone(), None));
                open = Some(Some(second));
            }
            "module" => open = Some(None),
            "fn" | "const" => found.push((second, None)),
            _ if antt => {
                let names = line
                    .split(" : ")
                    .next()
                    .filter(|names| !names.contains('='));
                let names = names.filter(|_| words.contains(&":")).unwrap_or("");
                found.extend(
                    self::words(names)
                        .iter()
                        .map(|w| (w.to_string(), owner.clone())),
                );
            }
            word => found.extend(owner.map(|owner| (ident(word), Some(owner)))),
        }
    }
    found
}

fn tests(text: &str) -> Vec<String> {
    let mut found = Vec::new();
    let mut test = false;
    for line in text.lines().map(str::trim) {
        let name = line.strip_prefix("fn ").filter(|_| test);
        found.extend(name.map(ident));
        test = line == "#[test]" || test && line.starts_with("#[");
    }
    found
}

/// The names that a file or package has.
fn names(tree: &Tree, source: &str) -> Vec<Name> {
    let text = tree.get(source).map_or("", String::as_str);
    let found: Vec<String> = if source.ends_with(".antt") || source.ends_with(".rt") {
        return declared(text, source.ends_with(".antt"));
    } else if source == PARTS {
        text.split("run: ").skip(1).map(ident).collect()
    } else if source == CRATES {
        let lines = text.lines().filter(|line| !line.starts_with('#'));
        lines.filter(|line| line.contains(':')).map(ident).collect()
    } else {
        let folder = format!("{source}/");
        let files = tree.iter().filter(|(path, _)| path.starts_with(&folder));
        files.flat_map(|(_, text)| tests(text)).collect()
    };
    found.into_iter().map(|name| (name, None)).collect()
}

/// Whether names are looked up in what a path names.
fn is_source(tree: &Tree, path: &str) -> bool {
    let package = tree.contains_key(&format!("{path}/Cargo.toml"));
    let code = path.ends_with(".antt") || path.ends_with(".rt");
    path == CRATES || package || code && !path.contains('*')
}

fn exists(tree: &Tree, path: &str) -> bool {
    let folder = format!("{path}/");
    match path.strip_prefix("crates/*") {
        Some(end) => tree.keys().any(|path| path.ends_with(end)),
        None => tree.contains_key(path) || tree.keys().any(|path| path.starts_with(&folder)),
    }
}

/// The path that a piece stands for, with * for any crate, or nothing if it is no path.
fn path_of(piece: &str) -> Option<String> {
    let piece = piece.trim_end_matches('/');
    let parts: Vec<&str> = piece.split('/').collect();
    let inner = |part: &str| ["specs", "proofs", "src", "must-fail"].contains(&part);
    let outer = ["docs", "tests", "crates", "lessons", ".ci"].contains(&parts[0]);
    match parts[..] {
        _ if piece.contains(' ') => None,
        _ if outer => Some(piece.to_string()),
        [file] => file.contains('.').then(|| file.to_string()),
        [first, ..] if inner(first) => Some(format!("crates/*/{piece}")),
        [_, second, ..] if inner(second) => Some(format!("crates/{piece}")),
        [name, edit] => Some(format!("crates/{name}/must-fail/{edit}.edit")),
        _ => None,
    }
}

impl Repository {
    /// A tree with the functions of its sources, as tests/contracts reads them.
    fn new(tree: Tree) -> Repository {
        let sources = tree.iter().filter(|(path, _)| path.ends_with(".rt"));
        let inner = sources.filter_map(|(path, text)| Some((path.strip_prefix("crates/")?, text)));
        let functions = inner.flat_map(|(path, text)| contracts::functions(path, text).0);
        let functions = functions.collect();
        Repository { tree, functions }
    }
}

/// The function whose contract a piece cites, or why there is none.
fn contract<'a>(repository: &'a Repository, piece: &str) -> Result<&'a Head, &'static str> {
    let name = piece.split("::").next().unwrap_or("");
    let program = (repository.tree).contains_key(&format!("crates/{name}/src/main.rt"));
    // in a program a method is cited without its type too
    let short = |head: &Head| format!("{}::{}", head.module, head.name);
    let is = |head: &&Head| head.path() == piece || program && short(head) == piece;
    let head = repository.functions.iter().find(is);
    let head = head.ok_or("there is no such function")?;
    if head.of_kind("ensures").next().is_none() {
        return Err("the function has no ensures");
    }
    if program || head.public {
        Ok(head)
    } else {
        Err("the function is not public")
    }
}

/// What is wrong with the citation of a function's clause, if anything is.
fn clause(repository: &Repository, function: &str, name: &str) -> Option<String> {
    let has = |head: &Head| head.of_kind("ensures").any(|clause| clause.name == name);
    match contract(repository, function) {
        Ok(head) if has(head) => None,
        Ok(_) => Some(format!("{function} has no such clause")),
        Err(why) => Some(why.to_string()),
    }
}

/// The function that a piece names a clause of, if it does: the contract before the word, or before that a clause and a
/// comma.
fn clause_of<'a>(
    (before, text): Piece,
    last: Option<&'a str>,
    function: Option<&'a str>,
) -> Option<&'a str> {
    let is_name = path_of(text).is_none() && !text.contains("::");
    match before.split_whitespace().collect::<Vec<_>>()[..] {
        [",", "clause"] => last.filter(|last| last.contains("::")),
        [","] if is_name => function,
        _ => None,
    }
}

/// The piece behind the row of names that the first piece begins, joined by commas and 'and', if the
/// text before it is `word` alone.
fn behind<'a>(row: &[Piece<'a>], word: &str) -> Option<&'a str> {
    let joined = |before: &str| [",", "and", ", and"].contains(&before.trim());
    let next = row[1..].iter().find(|(before, _)| !joined(before))?;
    (next.0.trim() == word).then_some(next.1)
}

/// Where names are looked up from a piece on, by the text before it: in what that text announces, or
/// in what was named last, if it still counts.
fn carried(scope: Option<String>, before: &str) -> Option<String> {
    let word = before.split_whitespace().next_back().unwrap_or("");
    let announced = match word.trim_matches(['*', '(']).to_lowercase().as_str() {
        "second" => "tests/second",
        "compare" | "part" => PARTS,
        "crate" => CRATES,
        _ => {
            let ends = [";", "|", ". ", ".\n", "\n\n", "\n- ", "\n#"];
            return scope.filter(|_| !ends.iter().any(|end| before.contains(end)));
        }
    };
    Some(announced.to_string())
}

/// The kind of a citation, one word of the piece at the start of `row`, and what is wrong with it. It is a clause, if
/// a function is given.
fn check(
    repository: &Repository,
    word: &str,
    row: &[Piece],
    sources: &[String],
    function: Option<&str>,
) -> (&'static str, Option<String>) {
    let tree = &repository.tree;
    if CITE_NOTHING.iter().any(|(known, _)| *known == word) {
        return ("words that cite nothing", None);
    } else if let Some(function) = function {
        return (CLAUSES, clause(repository, function, word));
    } else if let Some(path) = path_of(word) {
        let kind = if path.ends_with(".edit") {
            "edits"
        } else {
            "paths"
        };
        return (
            kind,
            (!exists(tree, &path)).then(|| format!("there is no {path}")),
        );
    } else if word.contains("::") {
        let fault = contract(repository, word).err();
        return ("contracts", fault.map(str::to_string));
    }
    let owner = behind(row, "of");
    let is = |(name, of): &Name| name == word && (owner.is_none() || of.as_deref() == owner);
    let found = sources
        .iter()
        .find(|source| names(tree, source).iter().any(is));
    let of = owner.map_or(String::new(), |owner| format!(" of {owner}"));
    let fault = match sources {
        [only] if only == CRATES => format!("no crate{of}, and no file is named for it"),
        _ => format!("no such name{of} in {}", sources.join(", ")),
    };
    match found.map(String::as_str) {
        None => ("unknown", Some(fault)),
        Some(PARTS) => ("parts of compare", None),
        Some(CRATES) => ("crates", None),
        Some(source) if source.starts_with("tests/") => ("tests", None),
        Some(source) if source.ends_with(".rt") => ("declarations", None),
        Some(_) => (DEFINITIONS, None),
    }
}

/// All that a page cites, and the faults with their lines.
fn report(repository: &Repository, document: &str) -> (Vec<Citation>, Vec<String>) {
    let (mut found, mut faults) = (Vec::new(), Vec::new());
    let pieces = pieces(document).unwrap_or_else(|fault| {
        faults.push(fault);
        Vec::new()
    });
    let (mut line, mut place, mut in_table) = (1, 0, document.starts_with('|'));
    let (mut scope, mut section, mut function) = (None, Vec::new(), None);
    for (at, (before, text)) in pieces.iter().enumerate() {
        line += before.matches('\n').count();
        let starts = ["\n\n", "\n|", "\n- ", "\n#"];
        place += usize::from(starts.iter().any(|start| before.contains(start)));
        if let Some((_, start)) = before.rsplit_once('\n') {
            in_table = start.starts_with('|');
        }
        if before.contains("\n#") {
            section.clear();
        }
        scope = carried(scope, before);
        let own = behind(&pieces[at..], "in")
            .and_then(path_of)
            .or(scope.clone());
        let sources = own.map_or([&section[..], &[CRATES.to_string()]].concat(), |own| {
            vec![own]
        });
        let last = at.checked_sub(1).map(|at| pieces[at].1);
        function = clause_of((before, text), last, function);
        for word in text.split(' ') {
            let (kind, fault) = check(repository, word, &pieces[at..], &sources, function);
            faults.extend(fault.map(|why| format!("{line}: `{text}`: {why}")));
            let clause = function.map(|function| clause_name(function, word));
            let what = clause.or(path_of(word)).unwrap_or(word.to_string());
            found.push(Citation { place, kind, what });
        }
        if let Some(path) = path_of(text).filter(|path| is_source(&repository.tree, path)) {
            section.extend((!in_table).then(|| path.clone()));
            scope = Some(path);
        }
    }
    (found, faults)
}

/// The theorems of public functions that are not cited, or not beside what they say.
fn missing(functions: &[Head], citations: &[Citation]) -> Vec<String> {
    let mut found = Vec::new();
    for head in functions.iter().filter(|head| head.public) {
        for theorem in head.theorems() {
            let what = clause_name(&head.path(), &theorem.name);
            let cited = citations
                .iter()
                .filter(|cited| cited.kind == CLAUSES && cited.what == what);
            let places: Vec<usize> = cited.map(|cited| cited.place).collect();
            let concluded = theorem.concluded();
            let beside = |cited: &Citation| {
                let definition = cited.kind == DEFINITIONS && places.contains(&cited.place);
                definition && concluded.contains(&cited.what.as_str())
            };
            if places.is_empty() {
                found.push(format!(" {what}: it is not cited"));
            } else if !citations.iter().any(beside) {
                let text = on_one_line(&theorem.text);
                found.push(format!(
                    " {what}: no definition of what it says is cited beside it: {text}"
                ));
            }
        }
    }
    found
}

/// How a clause is told from all others.
fn clause_name(function: &str, clause: &str) -> String {
    format!("{function}, clause {clause}")
}

fn main() {
    let root = env::args().nth(1).unwrap_or_else(|| String::from("."));
    let mut tree = Tree::new();
    load(Path::new(&root), "", &mut tree);
    let repository = Repository::new(tree);
    let document = repository.tree.get("docs/CLAIMS.md");
    let document = document.map_or("", String::as_str);
    let (citations, mut faults) = report(&repository, document);
    faults.extend(missing(&repository.functions, &citations));
    if !document.contains('`') {
        faults.push(String::from(" it is not there, or cites nothing"));
    }
    for fault in &faults {
        println!("docs/CLAIMS.md:{fault}");
    }
    let (mut counts, mut cited) = (BTreeMap::<_, usize>::new(), BTreeSet::new());
    for citation in &citations {
        *counts.entry(citation.kind).or_default() += 1;
        cited.insert(&citation.what);
    }
    let edits = repository
        .tree
        .keys()
        .filter(|path| path.ends_with(".edit"));
    let uncited: Vec<_> = edits
        .filter(|path| !cited.contains(path))
        .cloned()
        .collect();
    println!("edits not cited: {} {}", uncited.len(), uncited.join(" "));
    for (kind, count) in &counts {
        println!("{kind}: {count}");
    }
    println!("{} faults", faults.len());
    process::exit(i32::from(!faults.is_empty()));
}

#[cfg(test)]
mod tests {
    use super::*;

    /// A small repository: paths, each with its text behind it.
    const FILES: &str = "crates.txt
# leaves
low:
high: low
@docs/MANUAL.md
@crates/low/specs/Sets.antt
-- gone : T
abbrev pub side_of : N
side_of x = λ (y : N). y
@crates/low/specs/Laws.antt
pub record Law (x : N) : Type 0 where
  pub first : N
@crates/low/proofs/Laws.antt
module _ (x : N) where
  law mine : N
pub data D : T where
  A B : D
@crates/low/src/lib.rt
#[tactic(auto, using(mine))]
pub fn said(x: u8) -> u8
    ensures same { result ≡ x }
{
}
pub fn silent() {
}
fn hidden()
    ensures { 0 ≡ 0 }
{
}
impl Other {
    pub fn shown(&self) {
    }
}
impl Held {
    pub fn shown(&self) -> u8
        ensures { result ≡ 1 }
    {
    }
    fn kept(&self) -> u8
        ensures { result ≡ 1 }
    {
    }
}
@crates/low/src/types.rt
#[derive(Clone, Copy)]
pub enum E {
    Off,
    On(u8),
}
const TOP: u8 = 1;
struct S {
    pub field: u8,
}
@crates/high/src/main.rt
fn hidden()
    ensures { 0 ≡ 0 }
{
}
@crates/low/must-fail/wrong.edit
@tests/second/Cargo.toml
@tests/second/src/tests.rs
#[test]
fn case() {}
fn helper() {}
@tests/compare/src/parts.rs
mod words;
run: random::run,
";

    fn repository(files: &str) -> Repository {
        let files = files.split('@').filter_map(|file| file.split_once('\n'));
        let tree = files.map(|(path, text)| (path.to_string(), text.to_string()));
        Repository::new(tree.collect())
    }

    fn faults(document: &str) -> Vec<String> {
        report(&repository(FILES), document).1
    }

    /// The pieces of a document that are faults.
    fn faulty(document: &str) -> String {
        let faults = faults(document);
        let pieces = faults.iter().filter_map(|fault| fault.split('`').nth(1));
        pieces.collect::<Vec<_>>().join(" ")
    }

    #[test]
    fn paths_and_edits() {
        let text =
            "`docs/MANUAL.md`, `docs/GONE.md`, `tests/second`, `tests/third`, `crates/`, `x.txt`";
        assert_eq!(faulty(text), "docs/GONE.md tests/third x.txt");
        let text =
            "`low/specs/Sets.antt`, `low/specs/Gone.antt`, `specs/Sets.antt`, `specs/Gone.antt`";
        assert_eq!(faulty(text), "low/specs/Gone.antt specs/Gone.antt");
        assert_eq!(faulty("`low/wrong`, `low/right`"), "low/right");
    }

    #[test]
    fn contracts() {
        assert_eq!(faulty("contracts of `low::said`, `high::hidden`"), "");
        let text = "`low::silent`, `low::hidden`, `low::gone`, `low::types::said`, `gone::said`";
        assert_eq!(faulty(text).split(' ').count(), 5);
        assert_eq!(faulty("contracts of `low::Held::shown`"), "");
        let text = "`low::Other::shown`, `low::Held::kept`, `low::Held::said`, `low::shown`, `low::Gone::shown`";
        assert_eq!(faulty(text).split(' ').count(), 5);
    }

    /// A crate of theorems: the page has to cite each clause of `hold`, and one of `run`.
    const THEOREMS: &str = "@crates/top/specs/Laws.antt
pub record Laws : Type 0 where
  pub first : N
pub Guides : N → Type 0
@crates/top/proofs/Laws.antt
pub laws : Laws
@crates/top/src/lib.rt
pub fn hold()
    ensures laws { Laws }
    ensures guides { (n : N) → n ≤ 1 → Guides n }
{
}
pub fn run(x: u8) -> u8
    ensures answer { result ≡ x }
    ensures claim { Laws × Guides result }
{
    x
}
fn lemma()
    ensures own { Laws }
{
}
";

    /// A page that cites all of it.
    const CITED: &str = "# Laws

| `top/specs/Laws.antt`: `Laws`, `Guides` | contract of `top::hold`, clause `laws`, `guides` | `top/proofs/Laws.antt` |

Of a run: `Guides` in `top/specs/Laws.antt`, by the contract of `top::run`,
clause `claim`.
";

    /// The faults of a page and such a crate, of which a text is another each.
    fn changed(page: (&str, &str), files: (&str, &str)) -> Vec<String> {
        let (document, tree) = (
            CITED.replace(page.0, page.1),
            THEOREMS.replace(files.0, files.1),
        );
        assert!(page.0.is_empty() || document != CITED, "{}", page.0);
        assert!(files.0.is_empty() || tree != THEOREMS, "{}", files.0);
        let repository = repository(&tree);
        let (citations, mut faults) = report(&repository, &document);
        faults.extend(missing(&repository.functions, &citations));
        faults
    }

    const AS_IT_IS: (&str, &str) = ("", "");

    #[test]
    fn each_clause_that_is_cited_is_there() {
        assert_eq!(changed(AS_IT_IS, AS_IT_IS), Vec::<String>::new());
        let gone = "    ensures guides { (n : N) → n ≤ 1 → Guides n }\n";
        for (old, new) in [
            (gone, ""),
            ("ensures guides", "ensures guided"),
            ("ensures guides", "ensures"),
            ("ensures guides {", "ensures laws {"),
            ("pub fn hold", "fn hold"),
            ("fn hold", "fn held"),
        ] {
            let faults = changed(AS_IT_IS, (old, new));
            assert!(
                faults
                    .iter()
                    .any(|fault| fault.starts_with("3: `guides`: ")),
                "{old}"
            );
        }
        // the function's equations have names too, a lemma has none for others, and a name behind the row is no clause
        for (old, new, count) in [
            ("clause `claim`", "clause `answer`, `claim`", 0),
            ("clause `claim`", "clause `claim`, `laws`", 1),
            ("clause `claim`", "clause `name`, `claim`", 0),
            (
                "`guides` |",
                "`guides`, contract of `top::lemma`, clause `own` |",
                2,
            ),
            (
                "`guides` |",
                "`guides`, `top/specs/Laws.antt`: `first` |",
                0,
            ),
            ("`guides` |", "`guides`, `top::run` |", 0),
            ("`guides` |", "`guides`; `laws` |", 1),
        ] {
            assert_eq!(changed((old, new), AS_IT_IS).len(), count, "{new}");
        }
    }

    #[test]
    fn each_theorem_of_a_contract_is_cited() {
        for (old, new) in [
            (", `guides` |", " |"),
            ("clause `laws`, ", "clause "),
            (", clause `laws`, `guides`", ""),
            (",\nclause `claim`", ""),
            ("contract of `top::run`,\nclause `claim`", "clause `claim`"),
            ("`top::hold`, clause", "`top::hold` and its clause"),
        ] {
            assert!(!changed((old, new), AS_IT_IS).is_empty(), "{new}");
        }
        let added = |old: &str, more: &str| {
            let new = format!("    ensures more {{ {more} }}\n{old}");
            changed(AS_IT_IS, (old, &new)).len()
        };
        assert_eq!(added("    ensures laws", "Laws"), 1);
        assert_eq!(added("    ensures claim", "Laws"), 1);
        assert_eq!(changed(AS_IT_IS, ("ensures laws", "ensures")).len(), 2);
        // no equation is a theorem, and no fact of a private function
        assert_eq!(added("    ensures answer", "result ≡ x"), 0);
        assert_eq!(added("    ensures own", "Laws"), 0);
    }

    #[test]
    fn a_theorem_is_cited_beside_what_it_says() {
        for (old, new) in [
            ("laws { Laws }", "laws { N }"),
            ("laws { Laws }", "laws { Laws → ⊤ }"),
            ("n ≤ 1 → Guides n", "Guides n → n ≤ 1"),
            ("n ≤ 1 → Guides n", "n ≤ 1"),
            ("Laws × Guides result", "Laws"),
        ] {
            assert_eq!(changed(AS_IT_IS, (old, new)).len(), 1, "{new}");
        }
        for (old, new) in [
            ("`Laws`, `Guides` |", "`Laws` |"),
            ("`Guides` in `top/specs/Laws.antt`, by", "by"),
            ("Of a run: `Guides` in", "`first` in"),
            (
                "`Laws`, `Guides` |",
                "`Guides` |\n| `top/specs/Laws.antt`: `Laws` |",
            ),
        ] {
            assert_eq!(changed((old, new), AS_IT_IS).len(), 1, "{new}");
        }
        // one place is enough
        let twice = "- contract of `top::hold`, clause `laws`\n\n# Laws";
        assert_eq!(changed(("# Laws", twice), AS_IT_IS).len(), 0);
        // a name that a source declares says nothing
        let cited = ("`Laws`, `Guides` |", "`Guides`; `N` in `top/src/lib.rt` |");
        let old = "pub fn hold()\n    ensures laws { Laws }";
        let new = "struct N {\n}\npub fn hold()\n    ensures laws { N }";
        assert_eq!(changed(cited, (old, new)).len(), 1);
    }

    #[test]
    fn tests_parts_and_crates() {
        assert_eq!(faulty("second `case`, `helper`, `random`"), "helper random");
        assert_eq!(
            faulty("compare `random`, `words`; part `case`"),
            "words case"
        );
        assert_eq!(
            faulty("`low` and the crate `high`; the crate `case`"),
            "case"
        );
        assert_eq!(
            faulty("`crates.txt`: `low`, `E`; `tests/second`: `case`, `low`"),
            "E low"
        );
    }

    #[test]
    fn names_in_a_file() {
        let text = "`low/specs/Sets.antt`: `side_of`, `gone`, `y`, `low`; `D`, `law` in `low/specs/Laws.antt`";
        assert_eq!(faulty(text), "gone y low D law");
        assert_eq!(
            faulty("`low/proofs/Laws.antt`: `law`, `mine`, `D`, with `B`, not `side_of`"),
            "side_of"
        );
        assert_eq!(faulty("`D` and `law` in\n`low/proofs/Laws.antt`"), "");
        assert_eq!(
            faulty("`low/src/types.rt`: `E`, `On`, `TOP`, `S`, `field`, `u8`"),
            "u8"
        );
        assert_eq!(
            faulty("| `low/specs/Sets.antt`: `side_of` | `side_of` |"),
            "side_of"
        );
        assert_eq!(
            faulty("| `low/specs/Sets.antt`: `side_of`; `side_of` |"),
            "side_of"
        );
    }

    #[test]
    fn names_in_a_section_and_of_a_type() {
        let text =
            "In `low/specs/Sets.antt`.\n\n| `side_of`, `low`, `D` |\n\n# Next\n\n| `side_of` |\n";
        assert_eq!(faulty(text), "D side_of");
        assert_eq!(faulty("`low/specs/Laws.antt`: `first` of `Law`"), "");
        assert_eq!(
            faulty("`low/src/types.rt`: `Off`, `field` and `On` of `E`"),
            "field"
        );
    }

    #[test]
    fn what_is_unknown_is_a_fault_with_its_line() {
        assert_eq!(
            faulty("a `requires`, `unknown`, `a/b/c`, `low cs other`"),
            "unknown a/b/c low cs other"
        );
        assert_eq!(faults("a `` b").len(), 1);
        assert!(faults("a\n\n| `low`, `unknown` |\n")[0].starts_with("3: `unknown`: "));
        assert!(faults("a\nb `low`, `low\n")[0].starts_with("2: "));
    }
}
