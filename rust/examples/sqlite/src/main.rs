//! A service over SQLite: 64 tasks read and write one file through a pool of eight connections.
//!
//! ```text
//! cargo run --release -p sqlite-service -- --seconds 3
//! ```
//!
//! It prints requests, latencies and the pool's statistics, and checks the sums in the database and
//! in the statistics. The exit status is 1 if they are wrong or a request failed.

mod database;

use bb8::{ErrorSink, Pool, State};
use database::{balance, transfer, Database, Sums, ACCOUNTS};
use std::error::Error;
use std::io::{stderr, IsTerminal};
use std::process::ExitCode;
use std::sync::atomic::Ordering::SeqCst;
use std::time::{Duration, Instant};
use std::{env, fs, process};
use tokio::task::{block_in_place, spawn_blocking, JoinError};
use tokio::time::{interval, timeout_at};

type Failure = Box<dyn Error + Send + Sync>;

const TASKS: u64 = 64;
const CONNECTIONS: u32 = 8;
/// How long a request waits for its connection.
const PATIENCE: Duration = Duration::from_secs(2);

/// Prints errors of connection attempts and of failed checks, for which no caller waits.
#[derive(Clone, Debug)]
struct PrintingSink;

impl ErrorSink<rusqlite::Error> for PrintingSink {
    fn sink(&self, error: rusqlite::Error) {
        eprintln!("the pool reports: {error}");
    }

    fn boxed_clone(&self) -> Box<dyn ErrorSink<rusqlite::Error>> {
        Box::new(self.clone())
    }
}

/// The results of a task.
#[derive(Default)]
struct Done {
    latencies: Vec<Duration>,
    reads: u64,
    writes: u64,
    /// The error that ended it.
    failure: Option<Failure>,
}

/// Numbers that look random, the same in each run (xorshift).
struct Random(u64);

impl Random {
    fn below(&mut self, limit: u64) -> u64 {
        self.0 ^= self.0 << 13;
        self.0 ^= self.0 >> 7;
        self.0 ^= self.0 << 17;
        self.0 % limit
    }
}

/// Makes one request: a read, or a write once in eight. Returns whether it was a write. SQLite's
/// calls block, so the connection goes to a thread that may block, with a guard of its own.
async fn request(pool: &Pool<Database>, random: &mut Random) -> Result<bool, Failure> {
    let (source, target) = (random.below(ACCOUNTS), random.below(ACCOUNTS));
    let (amount, is_write) = (1 + random.below(10) as i64, random.below(8) == 0);
    let mut conn = pool.get_owned_timeout(PATIENCE).await?;
    let work = move || match is_write {
        true => transfer(&mut conn, source, target, amount),
        false => balance(&conn, source).map(drop),
    };
    spawn_blocking(work).await??;
    Ok(is_write)
}

/// Makes requests until the time is over, or one fails.
async fn work(pool: Pool<Database>, task: u64, end: Instant) -> Done {
    let (mut done, mut random) = (Done::default(), Random(task + 1));
    while Instant::now() < end {
        let begin = Instant::now();
        match request(&pool, &mut random).await {
            Ok(true) => done.writes += 1,
            Ok(false) => done.reads += 1,
            Err(error) => {
                done.failure = Some(error);
                break;
            }
        }
        done.latencies.push(begin.elapsed());
    }
    done
}

/// Renews a line about the pool, on a terminal.
async fn show(pool: &Pool<Database>, begin: Instant, end: Instant) {
    if !stderr().is_terminal() {
        return;
    }
    let mut ticks = interval(Duration::from_millis(100));
    while timeout_at(end.into(), ticks.tick()).await.is_ok() {
        let state = pool.state();
        eprint!(
            "\r{:4.1} of {} s: {} requests, {} of {} connections in use, {} tasks wait\x1b[K",
            begin.elapsed().as_secs_f64(),
            (end - begin).as_secs(),
            state.statistics.completed_gets(),
            state.connections - state.idle_connections,
            state.connections,
            state.statistics.pending_gets(),
        );
    }
    eprint!("\r\x1b[K");
}

/// Runs all tasks for this long.
async fn run(pool: &Pool<Database>, time: Duration) -> Result<Vec<Done>, JoinError> {
    let begin = Instant::now();
    let end = begin + time;
    let start = |task| tokio::spawn(work(pool.clone(), task, end));
    let tasks: Vec<_> = (0..TASKS).map(start).collect();
    show(pool, begin, end).await;
    let mut all = Vec::new();
    for task in tasks {
        all.push(task.await?);
    }
    Ok(all)
}

/// Prints the table of a run.
fn print(all: &[Done], time: Duration, state: &State) {
    let mut latencies: Vec<_> = all.iter().flat_map(|done| &done.latencies).collect();
    latencies.sort_unstable();
    let millis = |part: usize| {
        let latency = latencies.get(latencies.len() * part / 100);
        let millis = latency.map_or(0.0, |latency| latency.as_secs_f64() * 1e3);
        format!("{millis:.2} ms")
    };
    let (requests, gets) = (latencies.len(), &state.statistics);
    let rows = [
        ("requests", requests.to_string()),
        (
            "  reads",
            all.iter().map(|done| done.reads).sum::<u64>().to_string(),
        ),
        (
            "  writes",
            all.iter().map(|done| done.writes).sum::<u64>().to_string(),
        ),
        (
            "  per second",
            format!("{:.0}", requests as f64 / time.as_secs_f64()),
        ),
        ("latency p50", millis(50)),
        ("latency p99", millis(99)),
        ("connections", state.connections.to_string()),
        ("  idle", state.idle_connections.to_string()),
        ("  opened", gets.connections_created.to_string()),
        ("gets", gets.get_started.to_string()),
        ("  served at once", gets.get_direct.to_string()),
        ("  served after a wait", gets.get_waited.to_string()),
        ("  timed out", gets.get_timed_out.to_string()),
    ];
    for (name, value) in rows {
        println!("{name:<22}{value:>10}");
    }
}

/// Whether every connection is accounted for. `opened` is the manager's own count.
fn balances(state: &State, opened: u64) -> bool {
    let counts = &state.statistics;
    let begun = counts.connections_created + counts.connections_added;
    let ended = counts.connections_closed + counts.connections_detached;
    counts.connections_created == opened && begun == ended + u64::from(state.connections)
}

/// Whether no request failed, and the sums in the database and in the pool are right.
async fn is_right(pool: &Pool<Database>, all: &[Done], opened: u64) -> Result<bool, Failure> {
    for error in all.iter().filter_map(|done| done.failure.as_ref()) {
        println!("a request failed: {error}");
    }
    let requests: u64 = all.iter().map(|done| done.reads + done.writes).sum();
    let writes = all.iter().map(|done| done.writes).sum();
    let state = pool.state();
    let conn = pool.get().await?;
    let sums = block_in_place(|| Sums::read(&conn))?;
    drop(conn);
    let is_right = sums.are_right(writes)
        && all.iter().all(|done| done.failure.is_none())
        && requests > 0
        && state.connections <= CONNECTIONS
        && state.statistics.get_direct + state.statistics.get_waited == requests
        && state.statistics.pending_gets() == 0
        && balances(&state, opened);
    let verdict = if is_right { "right" } else { "WRONG" };
    println!("{:<22}{verdict:>10}", "sums");
    Ok(is_right)
}

/// Returns the seconds of `--seconds N`.
fn seconds() -> Result<u64, Failure> {
    let words: Vec<String> = env::args().skip(1).collect();
    match words.iter().map(String::as_str).collect::<Vec<_>>()[..] {
        [] => Ok(3),
        ["--seconds", number] => Ok(number.parse()?),
        _ => Err("usage: sqlite-service [--seconds N]".into()),
    }
}

/// Runs the service. Returns whether all was right.
async fn serve() -> Result<bool, Failure> {
    let time = Duration::from_secs(seconds()?);
    let folder = env::temp_dir().join(format!("sqlite-service-{}", process::id()));
    fs::create_dir(&folder)?;
    let manager = Database::create(&folder.join("bank.db"))?;
    let opened = manager.opened.clone();
    let pool = Pool::builder()
        .max_size(CONNECTIONS)
        .min_idle(CONNECTIONS)
        .connection_timeout(Duration::from_secs(5))
        .fair_after(Duration::from_millis(1))
        .error_sink(Box::new(PrintingSink))
        .build(manager)
        .await?;
    println!(
        "{TASKS} tasks share {CONNECTIONS} connections to a database in {}",
        folder.display()
    );
    let all = run(&pool, time).await?;
    print(&all, time, &pool.state());
    let is_right = is_right(&pool, &all, opened.load(SeqCst)).await?;
    pool.close().await;
    fs::remove_dir_all(&folder)?;
    Ok(is_right)
}

#[tokio::main]
async fn main() -> ExitCode {
    match serve().await {
        Ok(true) => ExitCode::SUCCESS,
        Ok(false) => ExitCode::FAILURE,
        Err(error) => {
            eprintln!("sqlite-service: {error}");
            ExitCode::FAILURE
        }
    }
}
