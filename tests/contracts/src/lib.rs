//! The functions of a Rattle source: their heads, their clauses, and which of these are equations that
//! settle what the function answers. Every other `ensures` is a theorem.
pub mod text;

use text::{
    behind, behind_generics, bracketed, in_name, names, on_one_line, pieces, without_comments,
};

/// The words that may stand before `fn`.
const QUALIFIERS: [&str; 4] = ["pub", "pub(crate)", "extern", "\"C\""];

const CLAUSES: [&str; 3] = ["requires", "ensures", "ghost"];

/// Operators of numbers, flags and lists, which a right side may have outside of brackets, since no
/// equation can be their operand. An operator of propositions could join the equation to another.
const OPERATORS: [&str; 11] = ["+", "*", "/", "%", "^", "+ℤ", "*ℤ", "&&", "||", "∷", "++"];

/// A clause before a body.
pub struct Clause {
    pub kind: String,
    /// what stands between the kind and the brace
    pub name: String,
    pub text: String,
}

impl Clause {
    /// The names in what it says of its variables, behind its premises.
    pub fn concluded(&self) -> Vec<&str> {
        let last = pieces(&self.text, |c| c == '→').pop();
        last.map_or(Vec::new(), |text| names(text).collect())
    }
}

/// A function's head, as far as its body.
pub struct Head {
    /// the crate and the module that it stands in
    pub module: String,
    /// the trait or the type whose block it stands in
    pub owner: Option<String>,
    pub name: String,
    pub public: bool,
    /// names and types
    pub parameters: Vec<(String, String)>,
    /// the type of the result, if there is one
    pub answer: Option<String>,
    pub clauses: Vec<Clause>,
    /// whether it is there for its clauses alone: it takes, answers and does nothing
    pub only_states: bool,
}

impl Head {
    /// The name with all that it stands in, as another crate writes it.
    pub fn path(&self) -> String {
        let owner = self.owner.as_deref();
        let parts = [Some(self.module.as_str()), owner, Some(self.name.as_str())];
        parts.into_iter().flatten().collect::<Vec<_>>().join("::")
    }

    /// The clauses of a kind. A starred clause, of memory, is of its kind too.
    pub fn of_kind<'a>(&'a self, kind: &'a str) -> impl Iterator<Item = &'a Clause> {
        let is = move |clause: &&Clause| clause.kind.trim_end_matches('*') == kind;
        self.clauses.iter().filter(is)
    }

    /// The parameters through which it writes.
    pub fn written(&self) -> Vec<&str> {
        let is = |kind: &str| {
            kind.starts_with('&') && kind.split_whitespace().any(|word| word.ends_with("mut"))
        };
        let each = self.parameters.iter().filter(|(_, kind)| is(kind));
        each.map(|(name, _)| name.as_str()).collect()
    }

    /// What its equations settle: the result, or what a place holds at the end.
    pub fn settled(&self) -> Vec<String> {
        let ensures = self.of_kind("ensures");
        ensures
            .filter_map(|clause| equation(self, clause))
            .collect()
    }

    /// The `ensures` that are no equations.
    pub fn theorems(&self) -> Vec<&Clause> {
        let ensures = self.of_kind("ensures");
        ensures
            .filter(|clause| equation(self, clause).is_none())
            .collect()
    }
}

/// The words before a function, without the attributes.
fn qualifiers(before: &str) -> Option<Vec<&str>> {
    let (mut found, mut rest) = (Vec::new(), before);
    while let Some((words, attribute)) = rest.split_once('#') {
        found.extend(words.split_whitespace());
        let attribute = attribute.strip_prefix('!').unwrap_or(attribute);
        rest = bracketed(attribute, '[', ']')?.1;
    }
    found.extend(rest.split_whitespace());
    found
        .iter()
        .all(|word| QUALIFIERS.contains(word))
        .then_some(found)
}

fn parameters(text: &str) -> Vec<(String, String)> {
    let each = pieces(text, |c| c == ',').into_iter();
    let pair = |piece: &str| {
        // a method's self may be lent as any other parameter is
        if on_one_line(piece) == "&mut self" {
            return Some(("self".to_string(), "&mut Self".to_string()));
        }
        let (name, kind) = piece.split_once(':')?;
        let name = name.trim().trim_start_matches("mut ").trim();
        Some((name.to_string(), kind.trim().to_string()))
    };
    each.filter_map(pair).collect()
}

/// Whether a semicolon, outside of brackets, comes before a brace.
fn ends_at_once(rest: &str) -> bool {
    let head = rest.split('{').next().unwrap_or("");
    pieces(head, |c| c == ';').len() > 1
}

/// The clauses of a function, and the text from its body on, if it has one.
fn clauses(mut rest: &str, in_trait: bool) -> Option<(Vec<Clause>, Option<&str>)> {
    let mut found = Vec::<Clause>::new();
    loop {
        if !found.is_empty() && rest.trim_start().starts_with(';') {
            return Some((found, None));
        }
        if found.is_empty() && in_trait && ends_at_once(rest) {
            return Some((found, None));
        }
        let brace = rest.find('{')?;
        let before = &rest[..brace];
        let words: Vec<&str> = before.split_whitespace().collect();
        if pieces(before, |c| c == ';').len() > 1 {
            // the function has no body, and the brace is another's
            return None;
        }
        let is_kind = |word: &&str| CLAUSES.contains(&word.trim_end_matches('*'));
        let Some(at) = words.iter().position(is_kind) else {
            let known = found.is_empty() || words.is_empty();
            return known.then_some((found, Some(&rest[brace..])));
        };
        let name = words[at + 1..].join(" ");
        let named = name
            .trim_end_matches(':')
            .chars()
            .all(|c| in_name(c) || c == '-');
        if !named || at > 0 && !found.is_empty() {
            return None;
        }
        let (text, after) = bracketed(&rest[brace..], '{', '}')?;
        let (kind, text) = (words[at].to_string(), text.to_string());
        found.push(Clause { kind, name, text });
        rest = after;
    }
}

/// A trait, or the block of a type's functions.
struct Block {
    name: String,
    is_trait: bool,
    public: bool,
}

/// The block in whose braces a place stands, by the text before it.
fn block(before: &str) -> Option<Block> {
    // items begin at the left edge, and a brace there ends them
    let edge = |line: &&str| line.starts_with(in_name) || line.starts_with('}');
    let line = before.lines().rfind(edge)?;
    let item = line.strip_prefix("pub(crate) ").unwrap_or(line);
    let item = item.strip_prefix("pub ").unwrap_or(item);
    let of_trait = item.strip_prefix("trait ");
    let mut rest = of_trait.or(item.strip_prefix("impl"))?;
    if rest.starts_with('<') {
        rest = behind_generics(rest)?;
    }
    let kind = rest.rsplit(" for ").next().unwrap_or(rest).trim_start();
    Some(Block {
        name: kind.split(|c| !in_name(c)).next().unwrap_or("").to_string(),
        is_trait: of_trait.is_some(),
        public: line.starts_with("pub "),
    })
}

/// Whether the body that a text begins with is empty.
fn is_empty(body: &str) -> bool {
    bracketed(body, '{', '}').is_some_and(|(inner, _)| inner.trim().is_empty())
}

/// The head whose `fn` stands at a place of the text, if it can be read.
fn head(module: &str, text: &str, at: usize) -> Option<Head> {
    let before = text[..at].rsplit([';', '{', '}']).next()?;
    let words = qualifiers(before)?;
    let rest = text[at + 2..].trim_start();
    let (name, mut rest) = rest.split_at(rest.find(|c| !in_name(c))?);
    let generic = rest.starts_with('<');
    if generic {
        rest = behind_generics(rest)?;
    }
    let (inner, after) = bracketed(rest, '(', ')')?;
    let answer = after.trim_start().strip_prefix("->");
    let kind = |answer: &str| answer.split('{').next().unwrap_or("").trim().to_string();
    let block = block(&text[..at]);
    let in_trait = block.as_ref().filter(|block| block.is_trait);
    let (clauses, body) = clauses(after, in_trait.is_some())?;
    let asked_for = body.is_none() && in_trait.is_some_and(|block| block.public);
    let takes = generic || !inner.trim().is_empty();
    let indented = line_at(text, at).starts_with(char::is_whitespace);
    Some(Head {
        module: module.to_string(),
        name: name.to_string(),
        public: words.contains(&"pub") || asked_for,
        parameters: parameters(inner),
        only_states: !takes && answer.is_none() && body.is_some_and(is_empty) && !indented,
        answer: answer.map(kind),
        clauses,
        owner: block.map(|block| block.name),
    })
}

/// The line in which a place of the text stands.
fn line_at(text: &str, at: usize) -> &str {
    let start = text[..at].rfind('\n').map_or(0, |end| end + 1);
    text[start..].lines().next().unwrap_or("")
}

/// The name of the module that a file is, from its path in the folder of the crates.
fn module(path: &str) -> String {
    let path = path.trim_end_matches(".rt");
    match path.split_once("/src/") {
        Some((name, "lib" | "main")) => name.to_string(),
        Some((name, inner)) => format!("{name}::{}", inner.replace('/', "::")),
        None => path.to_string(),
    }
}

/// The heads of the functions of a file, by its path in the folder of the crates and its text, and the
/// lines that cannot be read.
pub fn functions(path: &str, text: &str) -> (Vec<Head>, Vec<String>) {
    let (module, text) = (module(path), without_comments(text));
    let block = text.lines().filter(|line| line.contains("/*"));
    let (mut found, mut unread) = (Vec::new(), block.map(str::to_string).collect::<Vec<_>>());
    for (at, _) in text.match_indices("fn") {
        let space = text[at + 2..].starts_with(char::is_whitespace);
        if text[..at].ends_with(in_name) || !space {
            continue;
        }
        match head(&module, &text, at) {
            Some(head) => found.push(head),
            None => unread.push(line_at(&text, at).to_string()),
        }
    }
    (found, unread)
}

/// Whether a text mentions the result, or what a reference points to at the end. `new` alone can be a
/// parameter.
fn speaks(text: &str, parameters: &[(String, String)]) -> bool {
    let text = text.replace(['«', '»'], "");
    let left = |rest: &str| names(rest.trim_start()).next() == Some("new");
    let parameter = parameters.iter().any(|(name, _)| name == "new");
    let said = |name: &str| name == "result" || name == "exit" || name == "new" && !parameter;
    names(&text).any(said) || behind(&text, ".").any(left)
}

/// Whether a word of a right side, outside of brackets, can only be a part of a term.
fn is_of_a_term(word: &str) -> bool {
    let first = word.split(['(', '[', '{']).next().unwrap_or("");
    let named = first.chars().all(|c| in_name(c) || "-'.«»".contains(c));
    word != "λ" && (named || OPERATORS.contains(&word))
}

/// Whether the right side of an equation is one term.
pub fn is_term(right: &str) -> bool {
    let words = pieces(right, char::is_whitespace);
    !right.trim().is_empty() && words.iter().all(|word| is_of_a_term(word))
}

/// What a clause settles, if it is an equation on the result or on what a place holds at the end.
fn equation(head: &Head, clause: &Clause) -> Option<String> {
    let sides = pieces(&clause.text, |c| c == '≡');
    let [left, right] = sides[..] else {
        return None;
    };
    let apart = left.ends_with(char::is_whitespace) && right.starts_with(char::is_whitespace);
    let left = left.replace(['«', '»'], "").trim().to_string();
    // an ArrayVec is its items
    let is_items = |name: &str| {
        let named = |(known, kind): &(String, String)| known == name && kind.contains("ArrayVec<");
        head.parameters.iter().any(named)
    };
    let left = match left.strip_suffix(".new.items") {
        Some(name) if is_items(name) => format!("{name}.new"),
        _ => left,
    };
    let settles = match (left.strip_suffix(".new"), &head.answer) {
        (Some(place), _) => head.written().contains(&place),
        (None, Some(kind)) => left == "result" || left == "result.now" && kind.starts_with('&'),
        (None, None) => false,
    };
    let fact = apart && !clause.kind.ends_with('*');
    let closed = is_term(right) && !speaks(right, &head.parameters);
    (settles && fact && closed).then_some(left)
}

#[cfg(test)]
mod tests {
    use super::*;

    #[test]
    fn a_function_is_named_with_what_it_stands_in() {
        let text = "fn first() {\n}\nimpl<T: Copy> Told<T> {\n    pub fn of() {\n    }\n}\nimpl From<E> for u32 {\n    fn from() {\n    }\n}\npub trait Change: Copy {\n    fn change();\n}\npub(crate) trait Own<T> {\n    fn own();\n}\npub fn last() {\n}\n";
        let named = |path: &str| {
            let (heads, unread) = functions(path, text);
            assert_eq!(unread, Vec::<String>::new());
            let each = heads.iter().map(|head| (head.path(), head.public));
            each.collect::<Vec<_>>()
        };
        let all = [
            ("low::first", false),
            ("low::Told::of", true),
            ("low::u32::from", false),
            ("low::Change::change", true),
            ("low::Own::own", false),
            ("low::last", true),
        ];
        let all = all.map(|(name, public)| (name.to_string(), public));
        assert_eq!(named("low/src/lib.rt"), all);
        assert_eq!(named("low/src/a/b.rt")[1].0, "low::a::b::Told::of");
    }

    #[test]
    fn a_clause_concludes_what_stands_behind_its_premises() {
        let of = |text: &str| {
            let (kind, name) = ("ensures".to_string(), String::new());
            let text = text.to_string();
            let clause = Clause { kind, name, text };
            let each = clause.concluded().into_iter();
            let names = each.filter(|name| !name.is_empty()).map(str::to_string);
            names.collect::<Vec<_>>().join(" ")
        };
        assert_eq!(of(" Laws "), "Laws");
        assert_eq!(
            of("(n : ℕ) → Small n → Guides (at n).b cs"),
            "Guides at n b cs"
        );
        assert_eq!(of("((n : ℕ) → A n) × B"), "n ℕ A n B");
    }
}
