//! The exit status and what is printed, with programs that every system has.

use std::process::{Command, Output};

fn compare(arguments: &[&str]) -> (i32, String, String) {
    let tool = env!("CARGO_BIN_EXE_compare");
    let Output {
        status,
        stdout,
        stderr,
    } = Command::new(tool).args(arguments).output().unwrap();
    let text = |bytes| String::from_utf8(bytes).unwrap();
    (status.code().unwrap(), text(stdout), text(stderr))
}

#[test]
fn same_answers_give_0() {
    let expected = "seed 5\nrandom lists: 1000 commands, same answers\n";
    let (status, printed, _) = compare(&["cat", "cat", "--random", "1000", "--seed", "5"]);
    assert_eq!((status, printed.as_str()), (0, expected));
}

#[test]
fn a_difference_gives_1() {
    let (status, printed, _) = compare(&["cat", "true", "--random", "1000", "--seed", "5"]);
    assert_eq!(status, 1);
    assert!(printed.starts_with("seed 5\nDIFFERENCE in random lists, seed 5\nscript line 1: "));
}

/// Programs that agree with each other but not with the paper.
#[test]
fn wrong_answers_of_both_give_1() {
    let (status, printed, _) = compare(&["cat", "cat"]);
    assert_eq!(status, 1);
    assert!(printed.contains("\nDIFFERENCE in bench sheet, seed "));
    assert!(printed.contains("\nconsole: reading roll 12.5\nthe papers: reading 0\n"));
}

#[test]
fn bad_usage_and_missing_programs_give_2() {
    for arguments in [&[][..], &["cat"], &["cat", "cat", "--seed", "1"]] {
        let (status, printed, problem) = compare(arguments);
        assert_eq!((status, printed.as_str()), (2, ""));
        assert!(problem.starts_with("usage: compare CONSOLE SECOND\n"));
    }
    let (status, _, problem) = compare(&["./no-such-program", "cat"]);
    assert_eq!(status, 2);
    assert!(problem.starts_with("compare: cannot start ./no-such-program: "));
}
