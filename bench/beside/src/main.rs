//! Gets and returns of pools for tokio and for threads, one run for a profiler or a clock: `beside
//! MODE COUNT SIZE [THREADS]`. It is built once for each pool, with the feature `crate` (rust/bb8),
//! `original` or `r2d2`, and once for each size of a connection, with the feature `bytes-8`,
//! `bytes-128` or `bytes-512`.
//!
//! Each get is polled once by hand, over a pool of `SIZE` connections, with the default limits on
//! their ages:
//!
//! - `hand`: a get and its return, with the check off; `free`: the same without limits on ages;
//!   `check`: with the default settings, so with the check on;
//! - `threads`: in a number of threads, by default four, with the check off;
//!   `threads-check`: with the default settings;
//! - `crowd`: this many gets wait at once for the connections, which are all checked out, and are
//!   served one by one; `crowd25000`: the same in 25,000 boxes, whatever the number of gets;
//!   `crowd16`: they come in batches of 16, each of which is served before the next; `let-go25000`,
//!   `let-go16`: they are cancelled instead; `wait`: they wait for a while;
//! - `wake`: two threads take turns with one connection of r2d2, and sleep in their gets; it prints
//!   two figures;
//! - `core`: rounds of the original's locked core alone; `core-free`: the same without limits on
//!   ages;
//! - `tasks-HELD`: for some milliseconds a number of tasks get a connection, hold it as HELD says
//!   (`nothing`, `yield`, `compute` for 20 microseconds, `sleep` of a millisecond) and start again;
//!   `fair-tasks-HELD`: the same with the crate's `fair_after` of a millisecond. It prints how many
//!   gets timed out, and the rounds of each task, sorted;
//! - `sizes`: how many bytes the future of a get has.
//!
//! Otherwise it prints how many gets were served or cancelled, or the size.

#[cfg(any(feature = "crate", feature = "original"))]
mod futures;
mod numbers;
#[cfg(feature = "r2d2")]
mod threads;

#[cfg(feature = "original")]
use numbers::{Connection, Numbered, Numbers};
use std::env;
use std::process::ExitCode;

/// The settings of one run.
pub struct Run {
    pub mode: String,
    pub count: u64,
    pub size: u32,
    pub threads: u32,
}

/// Makes a run over the crate. None if there is no such mode.
#[cfg(feature = "crate")]
fn answer(run: &Run) -> Option<String> {
    if run.mode.contains("tasks") {
        return futures::bb8::shares(run);
    }
    futures::bb8::answer(run).map(|number| number.to_string())
}

/// Makes a run over the original. None if there is no such mode.
#[cfg(feature = "original")]
fn answer(run: &Run) -> Option<String> {
    let rounds = |limits| original::rounds(Numbers, Connection::of, run.size, limits, run.count);
    let number = match run.mode.as_str() {
        "core" => rounds(true),
        "core-free" => rounds(false),
        mode if mode.starts_with("tasks") => return futures::original::shares(run),
        _ => futures::original::answer(run)?,
    };
    Some(number.to_string())
}

/// Makes a run over r2d2. None if there is no such mode.
#[cfg(feature = "r2d2")]
fn answer(run: &Run) -> Option<String> {
    if run.mode == "wake" {
        return threads::woken(run.count);
    }
    threads::answer(run).map(|number| number.to_string())
}

/// Reads the arguments. None if they are not those of a run.
fn parsed(words: &[String]) -> Option<Run> {
    let [mode, count, size, rest @ ..] = words else {
        return None;
    };
    Some(Run {
        mode: mode.clone(),
        count: count.parse().ok()?,
        size: size.parse().ok()?,
        threads: rest.first().map_or(Some(4), |text| text.parse().ok())?,
    })
}

fn main() -> ExitCode {
    let words: Vec<String> = env::args().skip(1).collect();
    match parsed(&words).and_then(|run| answer(&run)) {
        Some(line) => {
            println!("{line}");
            ExitCode::SUCCESS
        }
        None => {
            eprintln!("usage: beside MODE COUNT SIZE [THREADS]");
            ExitCode::from(2)
        }
    }
}
