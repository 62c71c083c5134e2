//! Runs two programs on the same scripts and compares their answers. The last part runs only the
//! first program, and holds its drawings to its displays.
//!
//! Without options it runs the parts of the gate; with `--random` only random lists, as many as
//! are asked for. It exits with 0 if all answers are the same and all drawings right, with 1 at the
//! first that is not, and with 2 if it is called wrongly or a program cannot be started.

mod compare;
mod gate;
mod options;
mod parts;
mod report;
mod rng;
mod run;
mod script;
mod shrink;

use std::env;
use std::process::ExitCode;
use std::time::{Duration, Instant};

use gate::{Gate, Stop};
use options::Options;

/// The lines of one script of a long run: enough that starting the programs costs little, and few
/// enough that the answers need little memory.
const CHUNK: u64 = 200_000;

const BETWEEN_PROGRESS: Duration = Duration::from_secs(5);

fn main() -> ExitCode {
    let arguments: Result<Vec<String>, _> = env::args_os()
        .skip(1)
        .map(|argument| argument.into_string())
        .collect();
    let Some(options) = arguments.ok().and_then(|words| options::parse(&words)) else {
        eprintln!("{}", options::USAGE);
        return ExitCode::from(2);
    };
    match run_all(options) {
        Ok(()) => ExitCode::SUCCESS,
        Err(Stop::Failed(report)) => {
            print!("{report}");
            ExitCode::from(1)
        }
        Err(Stop::CannotStart(problem)) => {
            eprintln!("compare: cannot start {problem}");
            ExitCode::from(2)
        }
    }
}

fn run_all(options: Options) -> Result<(), Stop> {
    println!("seed {}", options.seed);
    let mut gate = Gate::new([options.console, options.second], options.seed);
    match options.random {
        None => run_parts(&mut gate),
        Some(calls) => run_random(&mut gate, calls),
    }
}

fn run_parts(gate: &mut Gate) -> Result<(), Stop> {
    let mut commands = 0;
    for part in parts::ALL {
        gate.start_part(part.name);
        (part.run)(gate)?;
        println!("{}: {} commands, {}", part.name, gate.commands, part.found);
        commands += gate.commands;
    }
    println!("all parts: {commands} commands, same answers");
    Ok(())
}

/// Each chunk is a list of its own from power-on.
fn run_random(gate: &mut Gate, calls: u64) -> Result<(), Stop> {
    gate.start_part("random lists");
    let mut told = Instant::now();
    let mut done = 0;
    for number in 0.. {
        let length = CHUNK.min(calls - done);
        gate.check(&parts::random::list(gate.seed, number, length as usize))?;
        done += length;
        if done == calls {
            break;
        }
        if told.elapsed() >= BETWEEN_PROGRESS {
            println!("{done} of {calls} commands, same answers so far");
            told = Instant::now();
        }
    }
    println!("random lists: {done} commands, same answers");
    Ok(())
}
