//! A second implementation of the flight guidance bench.
//!
//! Without an argument it is the console: a script comes in on standard input,
//! and each of its commands is answered on standard output, by a line, or by a
//! block of lines that `end` closes. With the argument `poster` it writes the
//! poster of all sets and reads nothing.

mod bench;
mod calls;
mod codes;
mod console;
mod events;
mod float;
mod frames;
mod names;
mod poster;
mod script;
mod sets;
#[cfg(test)]
mod tests;

use std::env;
use std::ffi::OsString;
use std::io::{self, BufWriter, Write};
use std::process::ExitCode;

/// What the program is started for.
#[derive(PartialEq, Eq, Debug)]
enum Task {
    Console,
    Poster,
}

fn main() -> ExitCode {
    let arguments: Vec<OsString> = env::args_os().skip(1).collect();
    let Some(task) = task(&arguments) else {
        eprintln!("usage: second\n       second poster");
        return ExitCode::FAILURE;
    };
    match carry_out(task) {
        Ok(()) => ExitCode::SUCCESS,
        Err(error) => {
            eprintln!("second: {error}");
            ExitCode::FAILURE
        }
    }
}

/// `None` if the arguments name nothing that it does.
fn task(arguments: &[OsString]) -> Option<Task> {
    match arguments {
        [] => Some(Task::Console),
        [word] if word == "poster" => Some(Task::Poster),
        _ => None,
    }
}

fn carry_out(task: Task) -> io::Result<()> {
    let mut output = BufWriter::new(io::stdout().lock());
    match task {
        Task::Console => console::run(&mut io::stdin().lock(), &mut output)?,
        Task::Poster => poster::write(&mut output)?,
    }
    output.flush()
}
