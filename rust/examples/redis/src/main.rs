//! A service over Redis: tasks ask a server over the few connections of a pool, while connections
//! are ended, the server is killed and started anew, and requests are cut off half-way. Afterwards
//! the replies, the server's view, the tasks' own counts and the pool's statistics are compared.
//!
//! Arguments: the server's address, and the command that kills it and starts it anew.

use bb8::{Pool, RunError, Statistics};
use redis_service::{balances, Client, Log, Server};
use std::env;
use std::io;
use std::process::ExitCode;
use std::sync::atomic::{AtomicBool, AtomicU64, Ordering::SeqCst};
use std::sync::{Arc, Mutex};
use std::time::{Duration, Instant};
use tokio::process::Command;
use tokio::time::{sleep, timeout};

const TASKS: u64 = 32;
const CONNECTIONS: u32 = 5;
/// How long a get may take.
const PATIENCE: Duration = Duration::from_millis(500);
/// How much later a get may end.
const SLACK: Duration = Duration::from_millis(400);

/// The counts of the tasks, and those of the server.
#[derive(Default)]
struct Seen {
    started: AtomicU64,
    served: AtomicU64,
    timed_out: AtomicU64,
    /// Requests that were cut off, in the get or after it.
    cut_off: AtomicU64,
    failed: AtomicU64,
    wrong: AtomicU64,
    late: AtomicU64,
    longest: AtomicU64,
    clients: AtomicU64,
    ended: AtomicU64,
    done: AtomicBool,
}

/// Gets a connection and has a word echoed, which nobody else asks for. The get is late if a timer
/// has elapsed that is polled after it: not if the machine paused.
async fn echo(pool: &Pool<Server>, word: &str, seen: &Seen) {
    seen.started.fetch_add(1, SeqCst);
    let begin = Instant::now();
    let got = timeout(PATIENCE + SLACK, pool.get()).await;
    let took = begin.elapsed().as_millis() as u64;
    seen.longest.fetch_max(took, SeqCst);
    let mut conn = match got {
        Ok(Ok(conn)) => conn,
        Ok(Err(RunError::TimedOut)) => {
            seen.timed_out.fetch_add(1, SeqCst);
            return;
        }
        Ok(Err(error)) => panic!("get failed: {error}"),
        Err(_) => {
            seen.late.fetch_add(1, SeqCst);
            return;
        }
    };
    seen.served.fetch_add(1, SeqCst);
    match conn.ask(&["ECHO", word]).await {
        Ok(Ok(told)) if told == word => (),
        // (a server that has just started says that it is loading)
        Ok(Err(told)) if told.starts_with("LOADING") => (),
        Ok(_) => {
            seen.wrong.fetch_add(1, SeqCst);
        }
        Err(_) => {
            seen.failed.fetch_add(1, SeqCst);
        }
    }
}

/// The work of one task, until the run ends. Every 25th request is cut off after at most 0.7 ms.
async fn work(task: u64, pool: Pool<Server>, seen: Arc<Seen>) {
    let mut round = 0;
    while !seen.done.load(SeqCst) {
        round += 1;
        let word = format!("{task}-{round}");
        let request = echo(&pool, &word, &seen);
        if round % 25 != 0 {
            request.await;
        } else if timeout(Duration::from_micros(round * 37 % 700), request)
            .await
            .is_err()
        {
            seen.cut_off.fetch_add(1, SeqCst);
        }
    }
}

/// Counts the pool's connections by the server, less those that it had closed, and ends all of them
/// now and then.
async fn look(server: &str, log: &Arc<Log>, round: u64, seen: &Seen) -> io::Result<()> {
    let mut client = Client::open(server, "look".to_string(), log).await?;
    if let Ok(told) = client.ask(&["CLIENT", "LIST", "TYPE", "normal"]).await? {
        let closed = log.closed.lock().unwrap();
        let names = told
            .split(' ')
            .filter_map(|word| word.strip_prefix("name="));
        let open = names.filter(|name| name.starts_with("pool-") && !closed.contains(*name));
        seen.clients.fetch_max(open.count() as u64, SeqCst);
    }
    if round % 3 == 0 {
        let all = ["CLIENT", "KILL", "TYPE", "normal", "SKIPME", "yes"];
        let ended = client.ask(&all).await?;
        let ended = ended.map_or(0, |count| count.parse().unwrap_or(0));
        seen.ended.fetch_add(ended, SeqCst);
    }
    Ok(())
}

/// Disturbs the service for some seconds; in two of them the server is killed.
async fn disturb(server: &str, restart: &str, log: &Arc<Log>, seen: &Seen) -> io::Result<()> {
    for round in 0..40 {
        sleep(Duration::from_millis(100)).await;
        // It fails if the server is not up yet.
        let _failed = look(server, log, round, seen).await;
        if round == 12 || round == 25 {
            let status = Command::new("sh").args(["-c", restart]).status().await?;
            assert!(status.success());
        }
    }
    Ok(())
}

#[tokio::main(worker_threads = 4)]
async fn main() -> Result<ExitCode, Box<dyn std::error::Error>> {
    let arguments: Vec<String> = env::args().collect();
    let [_, server, restart] = &arguments[..] else {
        return Err("arguments: SERVER RESTART".into());
    };
    let log = Arc::new(Log::default());
    let manager = Server {
        address: Arc::new(Mutex::new(server.clone())),
        log: log.clone(),
    };
    let pool = Pool::builder()
        .max_size(CONNECTIONS)
        .min_idle(1)
        .connection_timeout(PATIENCE)
        .max_lifetime(Duration::from_secs(1))
        .idle_timeout(Duration::from_millis(300))
        .reaper_rate(Duration::from_millis(100))
        .build(manager)
        .await?;
    let seen = Arc::new(Seen::default());
    let tasks: Vec<_> = (0..TASKS)
        .map(|task| tokio::spawn(work(task, pool.clone(), seen.clone())))
        .collect();
    disturb(server, restart, &log, &seen).await?;
    seen.done.store(true, SeqCst);
    for task in tasks {
        task.await?;
    }
    let is_balanced = balances(&pool, &log).await;
    Ok(judge(&seen, &pool.state().statistics, is_balanced))
}

/// Compares the counts, and prints them.
fn judge(seen: &Seen, figures: &Statistics, is_balanced: bool) -> ExitCode {
    let read = |count: &AtomicU64| count.load(SeqCst);
    let told = [
        ("gets served", read(&seen.served)),
        ("gets timed out", read(&seen.timed_out)),
        ("requests cut off", read(&seen.cut_off)),
        ("requests that failed", read(&seen.failed)),
        ("connections ended by the server", read(&seen.ended)),
        ("most connections, by the server", read(&seen.clients)),
        ("longest get, in milliseconds", read(&seen.longest)),
        ("connections opened", figures.connections_created),
        ("closed as broken", figures.connections_closed_broken),
        ("gets pending at the end", figures.pending_gets()),
    ];
    for (name, count) in told {
        println!("{name:<36} {count}");
    }
    let served = figures.get_direct + figures.get_waited;
    let checks = [
        (
            "each answer was that to its own request",
            read(&seen.wrong) == 0,
        ),
        (
            "connections were within max_size",
            read(&seen.clients) <= u64::from(CONNECTIONS),
        ),
        ("each get was answered in time", read(&seen.late) == 0),
        (
            "gets were started as the pool says",
            read(&seen.started) == figures.get_started,
        ),
        (
            "gets were served as the pool says",
            read(&seen.served) == served,
        ),
        (
            "gets timed out as the pool says",
            read(&seen.timed_out) == figures.get_timed_out,
        ),
        ("connections are accounted for", is_balanced),
        ("no get is pending", figures.pending_gets() == 0),
        ("all of it happened", all_happened(seen, figures)),
    ];
    for (name, holds) in checks {
        println!("{} {name}", if holds { "yes:" } else { "NO: " });
    }
    ExitCode::from(u8::from(checks.iter().any(|(_, holds)| !holds)))
}

/// Whether requests were cut off and failed, and connections ended.
fn all_happened(seen: &Seen, figures: &Statistics) -> bool {
    let counts = [&seen.served, &seen.cut_off, &seen.failed, &seen.ended];
    counts.iter().all(|count| count.load(SeqCst) > 0) && figures.connections_closed_broken > 0
}
