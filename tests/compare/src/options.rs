//! What the tool is asked for.

use std::path::PathBuf;

pub const USAGE: &str = "usage: compare CONSOLE SECOND
       compare CONSOLE SECOND --random CALLS [--seed SEED]";

/// The number of the report that the bench comes from; any other number would do.
const DEFAULT_SEED: u64 = 2_003_212_426;

#[derive(Debug, PartialEq)]
pub struct Options {
    pub console: PathBuf,
    pub second: PathBuf,
    /// The calls of a long run of random lists; none for the parts of the gate.
    pub random: Option<u64>,
    pub seed: u64,
}

/// None if the arguments are not of the usage.
pub fn parse(arguments: &[String]) -> Option<Options> {
    let (programs, rest) = arguments.split_at_checked(2)?;
    let rest: Vec<&str> = rest.iter().map(String::as_str).collect();
    let (random, seed) = match rest[..] {
        [] => (None, DEFAULT_SEED),
        ["--random", calls] => (Some(positive(calls)?), DEFAULT_SEED),
        ["--random", calls, "--seed", seed] => (Some(positive(calls)?), seed.parse().ok()?),
        _ => return None,
    };
    Some(Options {
        console: PathBuf::from(&programs[0]),
        second: PathBuf::from(&programs[1]),
        random,
        seed,
    })
}

/// A run of no calls would always find the same answers.
fn positive(calls: &str) -> Option<u64> {
    calls.parse().ok().filter(|&calls| calls > 0)
}

#[cfg(test)]
mod tests {
    use super::*;

    fn of(arguments: &str) -> Option<Options> {
        let words: Vec<String> = arguments.split_whitespace().map(String::from).collect();
        parse(&words)
    }

    #[test]
    fn the_forms_of_the_usage_are_understood() {
        let gate = of("a b").unwrap();
        assert_eq!((gate.random, gate.seed), (None, DEFAULT_SEED));
        assert_eq!((gate.console, gate.second), ("a".into(), "b".into()));
        let long = of("a b --random 5000000").unwrap();
        assert_eq!((long.random, long.seed), (Some(5_000_000), DEFAULT_SEED));
        let seeded = of("a b --random 7 --seed 18446744073709551615").unwrap();
        assert_eq!((seeded.random, seeded.seed), (Some(7), u64::MAX));
    }

    #[test]
    fn other_forms_are_not() {
        for arguments in [
            "",
            "a",
            "a b c",
            "a b --random",
            "a b --random x",
            "a b --random 0",
            "a b --random -1",
            "a b --seed 1",
            "a b --random 1 --seed",
            "a b --random 1 --seed x",
            "a b --random 1 --seed 2 3",
            "a b --seed 2 --random 1",
        ] {
            assert_eq!(of(arguments), None, "{arguments}");
        }
    }
}
