//! Pieces of a source's text: its brackets, its words and its names.

pub fn without_comments(text: &str) -> String {
    let lines = text
        .lines()
        .map(|line| line.split("//").next().unwrap_or(""));
    lines.collect::<Vec<_>>().join("\n")
}

/// What stands between the bracket at the start of `text` and its partner, and what follows that.
pub fn bracketed(text: &str, open: char, close: char) -> Option<(&str, &str)> {
    let mut depth = 0;
    for (at, c) in text.char_indices() {
        if c == open {
            depth += 1;
        } else if c == close {
            depth -= 1;
        }
        if at == 0 && depth != 1 {
            return None;
        }
        if depth == 0 {
            return Some((&text[open.len_utf8()..at], &text[at + close.len_utf8()..]));
        }
    }
    None
}

/// The pieces of a text between the characters that are asked for and stand outside of brackets.
pub fn pieces(text: &str, wanted: impl Fn(char) -> bool) -> Vec<&str> {
    let (mut found, mut depth, mut from) = (Vec::new(), 0, 0);
    for (at, c) in text.char_indices() {
        match c {
            '(' | '[' | '{' => depth += 1,
            ')' | ']' | '}' => depth -= 1,
            _ if depth == 0 && wanted(c) => {
                found.push(&text[from..at]);
                from = at + c.len_utf8();
            }
            _ => {}
        }
    }
    found.push(&text[from..]);
    found
}

/// What follows the type parameters that a text begins with. The bound of a closure has an arrow.
pub fn behind_generics(text: &str) -> Option<&str> {
    let mut depth = 0;
    for (at, c) in text.char_indices() {
        match c {
            '<' => depth += 1,
            '>' if !text[..at].ends_with('-') => depth -= 1,
            '{' | '}' => return None,
            _ => {}
        }
        if depth == 0 {
            return Some(&text[at + 1..]);
        }
    }
    None
}

/// The text behind each place of a mark.
pub fn behind<'a>(text: &'a str, mark: &'a str) -> impl Iterator<Item = &'a str> {
    text.match_indices(mark)
        .map(move |(at, _)| &text[at + mark.len()..])
}

pub fn on_one_line(text: &str) -> String {
    text.split_whitespace().collect::<Vec<_>>().join(" ")
}

pub fn in_name(c: char) -> bool {
    c.is_alphanumeric() || c == '_'
}

/// The names in a text of clauses, each part of a name with dots by itself.
pub fn names(text: &str) -> impl Iterator<Item = &str> {
    let words = text.split(|c: char| !(in_name(c) || c == '-' || c == '\''));
    words.map(|word| word.trim_matches(['-', '\'']))
}
