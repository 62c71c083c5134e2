//! Holds the listings of the documents for people to the lessons below the root that it is given, and lists where
//! they differ. The exit status is 0 only where that list is empty. A listing is a block of indented lines or a table
//! of answers, and a comment in a line of its own, in front of it, says where it comes from:
//! - `<!-- lessons/NAME.txt -->`: the block is that whole lesson;
//! - `<!-- lessons/NAME.out -->`, or the stored output of another program: the block is lines that follow on each other in it;
//! - `<!-- lessons/NAME -->`: the table's rows have the numbers of the lesson's lines, and the answers to them;
//! - `<!-- shell -->`: the block is commands; files of lessons/ and docs/ that they name exist.
//!
//! An indented block without such a comment is a fault, as is a comment without a listing.
use std::path::Path;
use std::{env, fs, process};

const DOCUMENTS: [&str; 2] = ["docs/MANUAL.md", "docs/INSTRUCTORS.md"];

/// A listing: the comment in front of it, the number of its first line, and its lines.
#[derive(PartialEq, Debug)]
struct Listing<'a> {
    source: Option<&'a str>,
    line: usize,
    lines: Vec<&'a str>,
}

impl Listing<'_> {
    fn is_table(&self) -> bool {
        self.lines.iter().all(|line| line.starts_with('|'))
    }
}

fn source_of(line: &str) -> Option<&str> {
    line.strip_prefix("<!-- ")?.strip_suffix(" -->")
}

/// The indented blocks, the tables that have a comment, and the comments that have neither.
fn listings(text: &str) -> Vec<Listing<'_>> {
    let mut found = Vec::new();
    let mut source = None;
    let mut lines = text.lines().enumerate().peekable();
    while let Some((at, line)) = lines.next() {
        if let Some(name) = source_of(line) {
            source = Some((at, name));
            continue;
        }
        let indented = line.starts_with("    ");
        let table = source.is_some() && line.starts_with('|');
        if !indented && !table {
            if let Some((at, name)) = source.take_if(|_| !line.is_empty()) {
                found.push(listing(Some(name), at, vec![]));
            }
            continue;
        }
        let mut block = vec![line];
        let goes_on = |next: &str| {
            if table {
                next.starts_with('|')
            } else {
                next.starts_with("    ") || next.is_empty()
            }
        };
        while let Some((_, next)) = lines.next_if(|(_, next)| goes_on(next)) {
            block.push(next);
        }
        while block.last().is_some_and(|last| last.is_empty()) {
            block.pop();
        }
        found.push(listing(source.take().map(|(_, name)| name), at, block));
    }
    found
}

fn listing<'a>(source: Option<&'a str>, at: usize, lines: Vec<&'a str>) -> Listing<'a> {
    Listing {
        source,
        line: at + 1,
        lines,
    }
}

/// What is wrong with a listing, if anything; `read` gives the text of a file.
fn fault(listing: &Listing, read: &dyn Fn(&str) -> Option<String>) -> Option<String> {
    let Some(source) = listing.source else {
        return Some("no comment says where this comes from".to_string());
    };
    if listing.lines.is_empty() {
        return Some(format!("no listing follows the comment `{source}`"));
    }
    if source == "shell" {
        return missing_file(&listing.lines, read);
    }
    if listing.is_table() {
        return wrong_answers(&listing.lines, source, read);
    }
    let Some(text) = read(source) else {
        return Some(format!("there is no file {source}"));
    };
    let shown: Vec<&str> = listing
        .lines
        .iter()
        .map(|line| line.strip_prefix("    ").unwrap_or(""))
        .collect();
    let stored: Vec<&str> = text.lines().collect();
    if source.ends_with(".txt") {
        return (shown != stored).then(|| format!("this is not all of {source}, as it stands"));
    }
    let inside = stored.windows(shown.len()).any(|part| part == shown);
    (!inside).then(|| format!("these lines do not stand in {source}"))
}

/// A file of the repository that a command names and that is not there.
fn missing_file(lines: &[&str], read: &dyn Fn(&str) -> Option<String>) -> Option<String> {
    let words = lines
        .iter()
        .flat_map(|line| line.split('#').next().unwrap_or("").split_whitespace());
    let named = words.filter(|word| word.starts_with("lessons/") || word.starts_with("docs/"));
    let missing = named
        .into_iter()
        .find(|word| !word.contains("NAME") && read(word).is_none())?;
    Some(format!("there is no file {missing}"))
}

/// The rows of a table of answers against the lesson's output. Lessons with drawings or lines that get no answer have
/// no such table.
fn wrong_answers(
    rows: &[&str],
    lesson: &str,
    read: &dyn Fn(&str) -> Option<String>,
) -> Option<String> {
    let Some((text, output)) = read(&format!("{lesson}.txt")).zip(read(&format!("{lesson}.out")))
    else {
        return Some(format!("there is no lesson {lesson}"));
    };
    let answers: Vec<&str> = output.lines().collect();
    if text.lines().count() != answers.len() {
        return Some(format!(
            "{lesson} has lines without an answer line of their own"
        ));
    }
    let mut shown = Vec::new();
    for row in rows.iter().skip(2) {
        let cells: Vec<&str> = row.split('|').map(str::trim).collect();
        let [_, numbers, given, ..] = cells[..] else {
            return Some(format!("a row with too few cells: {row}"));
        };
        let numbers = line_numbers(numbers);
        let given: Vec<&str> = given.split('`').skip(1).step_by(2).collect();
        if given.is_empty() || given.len() > 1 && given.len() != numbers.len() {
            return Some(format!("as many answers as lines, or one for all: {row}"));
        }
        for (i, number) in numbers.into_iter().enumerate() {
            shown.push((number, given[i.min(given.len() - 1)]));
        }
    }
    let expected: Vec<(usize, &str)> = (1..).zip(answers).collect();
    let differs =
        (0..shown.len().max(expected.len())).find(|&i| shown.get(i) != expected.get(i))?;
    Some(format!(
        "the table has {:?}, {lesson} has {:?}",
        shown.get(differs),
        expected.get(differs)
    ))
}

/// `7`, `2 to 4` or `18, 19`; a number that is none is 0, which no line has.
fn line_numbers(cell: &str) -> Vec<usize> {
    let number = |word: &str| word.trim().parse().unwrap_or(0);
    match cell.split_once(" to ") {
        Some((first, last)) => (number(first)..=number(last)).collect(),
        None => cell.split(',').map(number).collect(),
    }
}

fn faults(document: &str, text: &str, read: &dyn Fn(&str) -> Option<String>) -> Vec<String> {
    let all = listings(text);
    let wrong = all
        .iter()
        .filter_map(|listing| Some((listing.line, fault(listing, read)?)));
    wrong
        .map(|(line, what)| format!("{document}:{line}: {what}"))
        .collect()
}

fn main() {
    let root = env::args().nth(1).unwrap_or_else(|| ".".to_string());
    let read = |path: &str| fs::read_to_string(Path::new(&root).join(path)).ok();
    let mut found = Vec::new();
    let mut count = 0;
    for document in DOCUMENTS {
        let Some(text) = read(document) else {
            found.push(format!("{document}: it is not there"));
            continue;
        };
        count += listings(&text).len();
        found.extend(faults(document, &text, &read));
    }
    for fault in &found {
        println!("{fault}");
    }
    println!("{count} listings, {} faults", found.len());
    process::exit(i32::from(!found.is_empty()));
}

#[cfg(test)]
mod tests {
    use super::*;

    fn file(path: &str) -> Option<String> {
        match path {
            "lessons/a.txt" => Some("send 0\npick 1\nsend 1\n".to_string()),
            "lessons/a.out" => Some("send 0\npick 0 1 2\nsend 0\n".to_string()),
            "lessons/b.txt" => Some("# b\n\npanel\n".to_string()),
            "lessons/b.out" => Some("panel\n+\n\n|\nend\n".to_string()),
            _ => None,
        }
    }

    fn faults_of(text: &str) -> Vec<String> {
        faults("d", text, &file)
    }

    #[test]
    fn listings_that_are_right() {
        for text in [
            "<!-- lessons/a.txt -->\n\n    send 0\n    pick 1\n    send 1\n\nText.\n",
            "<!-- lessons/b.txt -->\n\n    # b\n\n    panel\n",
            "<!-- lessons/b.out -->\n\n    +\n\n    |\n",
            "<!-- shell -->\n\n    console < lessons/a.txt   # lessons/x\n",
            "<!-- lessons/a -->\n\n| line | answer |\n| --- | --- |\n| 1 | `send 0` |\n| 2, 3 | `pick 0 1 2`, `send 0` |\n",
            "| a | table |\n| --- | --- |\n",
        ] {
            assert_eq!(faults_of(text), Vec::<String>::new(), "{text}");
        }
    }

    #[test]
    fn listings_that_differ() {
        for text in [
            "    send 0\n",
            "<!-- lessons/a.txt -->\n\n    send 0\n    pick 1\n",
            "<!-- lessons/a.txt -->\n\n    send 0\n    pick 1 \n    send 1\n",
            "<!-- lessons/b.out -->\n\n    +\n    |\n",
            "<!-- lessons/c.out -->\n\n    +\n",
            "<!-- lessons/a.txt -->\n\nText.\n",
            "<!-- shell -->\n\n    cat lessons/c.txt\n",
        ] {
            assert_eq!(faults_of(text).len(), 1, "{text}");
        }
    }

    #[test]
    fn tables_that_differ() {
        let table =
            |rows: &str| format!("<!-- lessons/a -->\n\n| line | answer |\n| --- | --- |\n{rows}");
        for rows in [
            "| 1 | `send 0` |\n| 2 | `pick 0 1 2` |\n",
            "| 1 to 3 | `send 0` |\n",
            "| 1 | `send 0` |\n| 2 | `pick 0 1 2` |\n| 3 | `send 1` |\n",
            "| 1 | `send 0` |\n| 2 | `pick 0 1 2` |\n| 4 | `send 0` |\n",
            "| 1 | `send 0` |\n| 2, 3 | pick |\n",
            "| 1 | `send 0` |\n| 2 | `pick 0 1 2` |\n| 3, 4 | `send 0` |\n",
        ] {
            assert_eq!(faults_of(&table(rows)).len(), 1, "{rows}");
        }
        let drawn = "<!-- lessons/b -->\n\n| line | answer |\n| --- | --- |\n| 3 | `panel` |\n";
        assert_eq!(faults_of(drawn).len(), 1);
    }

    #[test]
    fn numbers_of_lines() {
        assert_eq!(line_numbers("7"), [7]);
        assert_eq!(line_numbers("2 to 4"), [2, 3, 4]);
        assert_eq!(line_numbers("18, 19"), [18, 19]);
        assert_eq!(line_numbers("x"), [0]);
    }
}
