//! Runs a program on a script.

use std::io::{self, Read, Write};
use std::path::Path;
use std::process::{Child, Command, Stdio};
use std::sync::mpsc;
use std::thread;
use std::time::{Duration, Instant};

/// A program that takes longer for one script is taken to hang.
const PATIENCE: Duration = Duration::from_secs(60);

/// The search for a short script may run a program that hangs a dozen times.
const PATIENCE_AGAIN: Duration = Duration::from_secs(10);

/// A program that writes more is cut off, so that one that never stops cannot fill the memory.
const MOST_OUTPUT: u64 = 1 << 29;

pub struct Outcome {
    pub output: Vec<u8>,
    /// How the program ended, if not well.
    pub trouble: Option<String>,
}

#[derive(Clone, Copy)]
pub enum Attempt {
    First,
    /// On a script that is known to make trouble: messages would only come again, and are dropped.
    Again,
}

/// Fails only if the program cannot be started.
pub fn run(program: &Path, script: &[u8], attempt: Attempt) -> io::Result<Outcome> {
    let mut command = Command::new(program);
    match attempt {
        Attempt::First => run_within(PATIENCE, &mut command, script),
        Attempt::Again => run_within(PATIENCE_AGAIN, command.stderr(Stdio::null()), script),
    }
}

fn run_within(patience: Duration, command: &mut Command, script: &[u8]) -> io::Result<Outcome> {
    let piped = command.stdin(Stdio::piped()).stdout(Stdio::piped());
    let mut child = piped.spawn()?;
    let mut input = child.stdin.take().expect("standard input is piped");
    let output = child.stdout.take().expect("standard output is piped");
    let deadline = Instant::now() + patience;
    let (done, finished) = mpsc::channel();
    thread::scope(|scope| {
        // A program that stops reading is judged by its answers, so a failed write says nothing.
        scope.spawn(move || input.write_all(script));
        let reader = scope.spawn(move || {
            let bytes = read(output);
            // Nobody listens any more if this comes too late.
            let _ = done.send(());
            bytes
        });
        let _ = finished.recv_timeout(patience);
        let trouble = end(&mut child, deadline);
        let output = reader.join().expect("the reader does not panic");
        Ok(Outcome { output, trouble })
    })
}

fn read(output: impl Read) -> Vec<u8> {
    let mut bytes = Vec::new();
    // What was read before an error is kept; the missing rest is seen as missing answers.
    let _ = output.take(MOST_OUTPUT).read_to_end(&mut bytes);
    bytes
}

/// Waits until the program has ended, kills it at the deadline, and says what was wrong.
fn end(child: &mut Child, deadline: Instant) -> Option<String> {
    loop {
        match child.try_wait() {
            Ok(Some(status)) if status.success() => return None,
            Ok(Some(status)) => return Some(format!("ended with {status}")),
            Err(error) => return Some(format!("cannot be waited for: {error}")),
            Ok(None) if Instant::now() >= deadline => break,
            Ok(None) => thread::sleep(Duration::from_millis(1)),
        }
    }
    // Where it ended by itself at the last moment there is nothing to kill.
    let _ = child.kill();
    let _ = child.wait();
    Some("did not end in time and was stopped".to_string())
}

#[cfg(test)]
mod tests {
    use super::*;

    fn shell(text: &str, script: &[u8], patience: Duration) -> Outcome {
        let mut command = Command::new("sh");
        command.args(["-c", text]).stderr(Stdio::null());
        run_within(patience, &mut command, script).unwrap()
    }

    #[test]
    fn a_script_larger_than_any_pipe_passes_through() {
        let script = b"0123456789abcde\n".repeat(1 << 18);
        let outcome = run(Path::new("cat"), &script, Attempt::Again).unwrap();
        assert!(outcome.output == script);
        assert_eq!(outcome.trouble, None);
    }

    #[test]
    fn a_program_that_reads_nothing_is_no_trouble() {
        let script = b"x\n".repeat(1 << 20);
        let outcome = shell("echo a", &script, PATIENCE);
        assert_eq!(outcome.output, b"a\n");
        assert_eq!(outcome.trouble, None);
    }

    #[test]
    fn a_bad_status_and_a_death_are_told() {
        let status = shell("echo a; exit 3", b"", PATIENCE);
        assert_eq!(status.output, b"a\n");
        assert!(status.trouble.unwrap().contains('3'));
        let death = shell("kill -9 $$", b"", PATIENCE);
        assert!(death.trouble.unwrap().contains('9'));
    }

    #[test]
    fn a_program_that_hangs_is_stopped() {
        let patience = Duration::from_millis(50);
        let start = Instant::now();
        let silent = shell("exec sleep 60", b"", patience);
        assert!(silent.trouble.unwrap().contains("in time"));
        let closed = shell("exec >&-; exec sleep 60", b"", patience);
        assert!(closed.trouble.unwrap().contains("in time"));
        assert!(start.elapsed() < Duration::from_secs(30));
    }

    #[test]
    fn a_program_that_is_not_there_cannot_be_started() {
        assert!(run(Path::new("./no-such-program"), b"", Attempt::Again).is_err());
    }
}
