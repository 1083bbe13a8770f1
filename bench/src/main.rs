//! Measures the proved core, `rust/bb8-core`, without futures and managers, beside a `Mutex` around
//! a `VecDeque`.
//!
//! Without arguments it prints a table of times. With a mode it makes one run for a profiler, and
//! prints its checksum; see `USAGE`.

mod opening;
mod serving;
mod waiting;

use std::collections::VecDeque;
use std::env;
use std::fs;
use std::hint::black_box;
use std::process::ExitCode;
use std::sync::Mutex;
use std::time::Instant;

const USAGE: &str =
    "usage: bench [rounds SIZE ROUNDS | drain SIZE | reaps SIZE REAPS | crowd GETS | give-ups GETS FROM COUNT | floor ROUNDS]";
const SIZES: [u32; 4] = [1, 10, 1_000, 100_000];
const ROUNDS: u64 = 1_000_000;
const REPETITIONS: usize = 9;
/// The length of the queue of the floor.
const FLOOR_SIZE: u64 = 10;

/// Returns the nanoseconds that a call takes, and its result.
fn timed<T>(call: impl FnOnce() -> T) -> (f64, T) {
    let start = Instant::now();
    let result = black_box(call());
    (start.elapsed().as_nanos() as f64, result)
}

/// Returns the median of the repetitions.
fn median(mut measure: impl FnMut() -> f64) -> f64 {
    let mut figures: Vec<f64> = (0..REPETITIONS).map(|_| measure()).collect();
    figures.sort_by(f64::total_cmp);
    figures[REPETITIONS / 2]
}

/// Returns the checksum of this many rounds: connections are served in turn.
fn rounds_sum(size: u64, rounds: u64) -> u64 {
    let (turns, rest) = (rounds / size, rounds % size);
    turns * (size * (size + 1) / 2) + rest * (rest + 1) / 2
}

/// Returns the nanoseconds of a round over `size` connections, which are open before.
fn core_round(size: u32) -> f64 {
    let (opening, none) = timed(|| serving::rounds(size, 0));
    assert_eq!(none, Some(0));
    let (whole, sum) = timed(|| serving::rounds(size, black_box(ROUNDS)));
    assert_eq!(sum, Some(rounds_sum(size.into(), ROUNDS)));
    (whole - opening) / ROUNDS as f64
}

/// Returns the nanoseconds in which one of this many connections is opened and served.
fn core_drain(size: u32) -> f64 {
    let (whole, sum) = timed(|| serving::drain(size));
    assert_eq!(sum, Some(rounds_sum(size.into(), size.into())));
    whole / f64::from(size)
}

/// The least that any pool does for a round: lock, pop, unlock, lock, push, unlock.
#[inline(never)]
fn floor_rounds(rounds: u64) -> u64 {
    let queue = Mutex::new((0..FLOOR_SIZE).collect::<VecDeque<u64>>());
    let mut sum = 0;
    for _ in 0..rounds {
        let number = black_box(&queue)
            .lock()
            .expect("nobody panics")
            .pop_front()
            .expect("it is not empty");
        sum += number + 1;
        black_box(&queue).lock().expect("nobody panics").push_back(number);
    }
    sum
}

/// Returns the nanoseconds of a round of the floor.
fn floor_round() -> f64 {
    let (whole, sum) = timed(|| floor_rounds(black_box(ROUNDS)));
    assert_eq!(sum, rounds_sum(FLOOR_SIZE, ROUNDS));
    whole / ROUNDS as f64
}

/// Returns the name of the processor and how many there are.
fn processor() -> String {
    let info = fs::read_to_string("/proc/cpuinfo").unwrap_or_default();
    let model = info.lines().find(|line| line.starts_with("model name"));
    let name = model.and_then(|line| line.split(": ").nth(1)).unwrap_or("unknown");
    let many = info.lines().filter(|line| line.starts_with("processor")).count();
    format!("{name}, {many} processors")
}

fn print_table() {
    println!("| time | median of {REPETITIONS} |");
    println!("|---|---|");
    for size in SIZES {
        println!("| a round, {size} connections | {:.1} ns |", median(|| core_round(size)));
    }
    println!(
        "| floor: a `Mutex` around a `VecDeque` of {FLOOR_SIZE} | {:.1} ns |",
        median(floor_round)
    );
    for size in SIZES {
        println!(
            "| to open and serve one of {size} connections | {:.1} ns |",
            median(|| core_drain(size))
        );
    }
    println!();
    println!("{}", processor());
}

/// Makes one run for a profiler, and returns its checksum. None if there is no such mode or the run
/// failed.
fn run_once(words: &[&str]) -> Option<u64> {
    match words {
        ["rounds", size, rounds] => serving::rounds(size.parse().ok()?, rounds.parse().ok()?),
        ["drain", size] => serving::drain(size.parse().ok()?),
        ["reaps", size, count] => serving::reaps(size.parse().ok()?, count.parse().ok()?),
        ["crowd", gets] => waiting::crowd(gets.parse().ok()?),
        ["give-ups", gets, from, count] => waiting::give_ups(gets.parse().ok()?, from.parse().ok()?, count.parse().ok()?),
        ["floor", rounds] => Some(floor_rounds(rounds.parse().ok()?)),
        _ => None,
    }
}

fn main() -> ExitCode {
    let words: Vec<String> = env::args().skip(1).collect();
    if words.is_empty() {
        print_table();
        return ExitCode::SUCCESS;
    }
    let words: Vec<&str> = words.iter().map(String::as_str).collect();
    match run_once(&words) {
        Some(sum) => {
            println!("{sum}");
            ExitCode::SUCCESS
        }
        None => {
            eprintln!("{USAGE}");
            ExitCode::from(2)
        }
    }
}
