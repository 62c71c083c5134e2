//! The benchmark: `speed PROGRAM [frames] [CALLS]` times the program of the crate `speed` and the
//! baseline over the same lists and prints the two rates of each kind of call with their ratio: of
//! the calls over any bench, of those of a bench that is known to be sound, and of frames; with
//! `frames` those alone. Both run as a process of their own, in turn:
//! `speed --list SEED CALLS KIND LIVE` is the baseline's. The exit status is 1 where a checksum
//! differs or a process fails.
use baseline::list::{run, List, READS, WRITES};
use std::hint::black_box;
use std::process::{exit, Command};
use std::time::Instant;
use std::{env, ops::RangeInclusive, path::PathBuf};

const USAGE: &str = "speed PROGRAM [frames] [CALLS]";

const KINDS: [&str; 9] = [
    "event", "turn", "reading", "send", "refresh", "display", "mixed", "write", "read",
];
const SEED: u64 = 2026;
const CALLS: u64 = 400_000;
const ROUNDS: usize = 7;
/// The baseline goes through each list this many times, so that its runs are as long as the
/// library's.
const REPEATS: u64 = 20;
/// A read judges no bench and is quick: its list is this many times longer, and gone through that
/// many times less often.
const READS_LONGER: u64 = 10;

/// How the library makes the calls of a list, as its program has it for its last argument. The
/// baseline makes them in one way.
#[derive(Clone, Copy)]
enum Calls {
    Bare = 0,
    AnyBench = 1,
    SoundBench = 2,
}

/// The nanoseconds a call that the runs of one program took for one list: with the calls, and
/// without them.
#[derive(Default)]
struct Times {
    live: Vec<f64>,
    bare: Vec<f64>,
}

impl Times {
    /// What a call takes in the best runs, without the list and the checksum.
    fn call(&self) -> f64 {
        best(&self.live) - best(&self.bare)
    }

    /// How far the middle run with calls lies above the best one, in percent.
    fn noise(&self) -> f64 {
        let mut sorted = self.live.clone();
        sorted.sort_by(f64::total_cmp);
        100.0 * (sorted[sorted.len() / 2] / best(&sorted) - 1.0)
    }
}

fn best(times: &[f64]) -> f64 {
    times.iter().copied().fold(f64::INFINITY, f64::min)
}

fn stop(message: &str) -> ! {
    eprintln!("speed: {message}");
    exit(1)
}

/// A number with its thousands apart.
fn grouped(x: f64) -> String {
    let digits = format!("{x:.0}");
    let mut text = String::new();
    for (i, digit) in digits.chars().enumerate() {
        if i > 0 && (digits.len() - i) % 3 == 0 {
            text.push(',');
        }
        text.push(digit);
    }
    text
}

/// How much longer the list of a kind is, and how often the baseline goes through it.
fn lengths(chosen: u64) -> (u64, u64) {
    if chosen == READS {
        (READS_LONGER, REPEATS / READS_LONGER)
    } else {
        (1, REPEATS)
    }
}

/// Runs a program over a list; answers its checksum and the nanoseconds that it took.
fn timed(program: &PathBuf, first: &[&str], list: List, how: u64) -> (String, f64) {
    let numbers = [list.seed, list.calls, list.chosen, how];
    let mut command = Command::new(program);
    command.args(first).args(numbers.map(|n| n.to_string()));
    let start = Instant::now();
    let output = command.output();
    let took = start.elapsed().as_secs_f64() * 1e9;
    match output {
        Ok(done) if done.status.success() => (
            String::from_utf8_lossy(&done.stdout).trim().to_string(),
            took,
        ),
        Ok(done) => stop(&format!("{} ended with {}", program.display(), done.status)),
        Err(e) => stop(&format!("{} can't be run: {e}", program.display())),
    }
}

/// One round over a list: the library, then the baseline. The two have to give one checksum.
fn round(
    program: &PathBuf,
    list: List,
    how: Calls,
    library: &mut Vec<f64>,
    baseline: &mut Vec<f64>,
) {
    let own = env::current_exe().unwrap_or_else(|e| stop(&format!("no path of its own: {e}")));
    let (sum, took) = timed(program, &[], list, how as u64);
    library.push(took / list.calls as f64);
    let (own_sum, own_took) = timed(&own, &["--list"], list, u64::from(list.live));
    let (_, repeats) = lengths(list.chosen);
    baseline.push(own_took / (list.calls * repeats) as f64);
    if sum != own_sum {
        let List {
            seed,
            calls,
            chosen,
            live,
        } = list;
        let name = KINDS[chosen as usize];
        stop(&format!(
            "the answers differ: seed {seed}, {calls} calls, list {name}, calls made: {live}: \
             the library's sum is {sum}, the baseline's {own_sum}"
        ));
    }
}

fn print_line(name: &str, library: &Times, baseline: &Times) {
    println!(
        "{name:8} {:>12} {:>12} {:>6.1} {:>6.1} {:>7.1} {:>6.2} {:>7.1} {:>6.2} {:>6.1}% {:>5.1}%",
        grouped(1e9 / library.call()),
        grouped(1e9 / baseline.call()),
        library.call() / baseline.call(),
        best(&library.live) / best(&baseline.live),
        library.call(),
        baseline.call(),
        best(&library.bare),
        best(&baseline.bare),
        library.noise(),
        baseline.noise()
    );
}

fn print_head(what: &str) {
    println!("Seed {SEED}, {what}; the best of {ROUNDS} rounds.");
    println!("Ratio: the library's time over the baseline's, for the calls and for the runs whole. Call:");
    println!(
        "ns a call. List: ns a call for the list and the checksum, which are taken off. Noise: the"
    );
    println!("middle run above the best.");
    println!();
    println!(
        "              calls a second         ratio           call           list         noise"
    );
    println!(
        "list      library     baseline  calls  whole library  base. library  base. library base."
    );
}

/// All lists of some kinds in each round, so that what disturbs the machine for a while spoils one
/// round of many lists and not all rounds of one.
fn benchmark(program: &PathBuf, calls: u64, kinds: RangeInclusive<u64>, how: Calls, what: &str) {
    let mut library: [Times; 9] = Default::default();
    let mut baseline: [Times; 9] = Default::default();
    for _ in 0..ROUNDS {
        for chosen in kinds.clone() {
            let theirs = &mut library[chosen as usize];
            let ours = &mut baseline[chosen as usize];
            let (longer, _) = lengths(chosen);
            let live = List {
                seed: SEED,
                calls: calls * longer,
                chosen,
                live: true,
            };
            let bare = List {
                live: false,
                ..live
            };
            round(program, live, how, &mut theirs.live, &mut ours.live);
            round(program, bare, Calls::Bare, &mut theirs.bare, &mut ours.bare);
        }
    }
    print_head(what);
    for chosen in kinds.map(|chosen| chosen as usize) {
        print_line(KINDS[chosen], &library[chosen], &baseline[chosen]);
    }
    println!();
    println!("Every checksum of the library is the baseline's.");
}

/// The six calls, and all of them mixed: over any bench, and of one that is known to be sound.
fn benchmark_calls(program: &PathBuf, calls: u64) {
    let what = format!("{calls} calls a list, gone through {REPEATS} times by the baseline");
    benchmark(program, calls, 0..=6, Calls::AnyBench, &what);
    println!();
    let what = format!("{what}; the library's bench is known to be sound");
    benchmark(program, calls, 0..=6, Calls::SoundBench, &what);
}

/// Frames, written and read.
fn benchmark_frames(program: &PathBuf, calls: u64) {
    let (longer, repeats) = lengths(READS);
    let reads = calls * longer;
    let what = format!(
        "{calls} writes and {reads} reads, gone through {REPEATS} and {repeats} times by the baseline"
    );
    benchmark(program, calls, WRITES..=READS, Calls::AnyBench, &what);
}

/// The baseline's own process: the list, time and again.
fn run_list(numbers: &[u64]) {
    let &[seed, calls, chosen, live] = numbers else {
        stop("--list takes a seed, a number of calls, a kind and 0 or 1");
    };
    let list = List {
        seed,
        calls,
        chosen,
        live: live == 1,
    };
    let sum = run(list);
    let (_, repeats) = lengths(chosen);
    for _ in 1..repeats {
        if run(black_box(list)) != sum {
            stop("a list gave two sums");
        }
    }
    println!("{sum}");
}

fn number(text: &String) -> u64 {
    text.parse()
        .unwrap_or_else(|_| stop(&format!("not a number: {text}")))
}

fn main() {
    let words: Vec<String> = env::args().skip(1).collect();
    match words.split_first() {
        Some((first, rest)) if first == "--list" => {
            run_list(&rest.iter().map(number).collect::<Vec<_>>());
        }
        Some((program, rest)) => {
            let program = PathBuf::from(program);
            let frames_alone = rest.first().is_some_and(|word| word == "frames");
            let rest = &rest[usize::from(frames_alone)..];
            if rest.len() > 1 {
                stop(USAGE);
            }
            let calls = rest.first().map_or(CALLS, number).max(1);
            if !frames_alone {
                benchmark_calls(&program, calls);
                println!();
            }
            benchmark_frames(&program, calls);
        }
        None => stop(USAGE),
    }
}
