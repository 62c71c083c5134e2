//! The program as it is started: what it reads and writes, and how it ends.

use std::fs::File;
use std::io::Seek;
use std::process::{Command, Output, Stdio};

/// Runs the program on a file as standard input, and tells whether it ended
/// well, what it wrote, and how far the file was read. The two share the place
/// in the file, so that nothing read by the program stays unseen.
fn run(arguments: &[&str]) -> (bool, String, String, u64) {
    let mut input = File::open("Cargo.toml").unwrap();
    let Output {
        status,
        stdout,
        stderr,
    } = Command::new(env!("CARGO_BIN_EXE_second"))
        .args(arguments)
        .stdin(Stdio::from(input.try_clone().unwrap()))
        .output()
        .unwrap();
    let text = |bytes| String::from_utf8(bytes).unwrap();
    let read = input.stream_position().unwrap();
    (status.success(), text(stdout), text(stderr), read)
}

#[test]
fn the_poster_is_written_and_nothing_is_read() {
    let (good, poster, problem, read) = run(&["poster"]);
    assert_eq!((good, problem.as_str(), read), (true, "", 0));
    assert_eq!(poster.lines().count(), 108);
    assert!(poster.starts_with("0 0 0 0\n1 1 4 1\n2 1 4 2\n"));
    assert!(poster.ends_with("\n106 5 10 6\n107 5 14 8\n"));
    assert!(!poster.contains('\r'));
}

#[test]
fn without_an_argument_it_is_the_console() {
    let (good, answers, problem, read) = run(&[]);
    let length = File::open("Cargo.toml").unwrap().metadata().unwrap().len();
    assert_eq!((good, problem.as_str(), read), (true, "", length));
    // No line of that file is a command.
    assert!(answers.starts_with("error 1: "));
}

#[test]
fn other_arguments_are_an_error() {
    for arguments in [
        &["posters"][..],
        &["Poster"],
        &[""],
        &["console"],
        &["poster", "poster"],
        &["poster", "1"],
        &["-", "poster"],
    ] {
        let (good, answers, problem, read) = run(arguments);
        assert_eq!((good, answers.as_str(), read), (false, "", 0));
        assert!(problem.starts_with("usage: second\n"), "{problem}");
    }
}
