//! A service over PostgreSQL: tasks make transactions over the few connections of a pool, while
//! connections are ended, the server is restarted, ages run out, and gets time out. Afterwards the
//! table, the server's view, the tasks' own counts and the pool's figures are compared.
//!
//! Arguments: the connection string, and the command that restarts the server. If the connections
//! are to PgBouncer, also the connection string of the server; and `shared` if PgBouncer pools
//! transactions: then the server's processes are PgBouncer's, and not compared with the pool's
//! limit. The transactions are the same, because each prepares and closes its own statement.

use bb8::{ErrorSink, Pool, PooledConnection, RunError};
use postgres_manager::{open, Connection, Database, Log};
use postgres_service::balances;
use std::collections::BTreeSet;
use std::env;
use std::process::{Command, ExitCode};
use std::sync::atomic::{AtomicBool, AtomicU64, Ordering::SeqCst};
use std::sync::{Arc, Mutex};
use std::time::{Duration, Instant};
use tokio::time::{sleep, timeout};
use tokio_postgres::{Config, Error, Row};

const TASKS: u64 = 32;
const CONNECTIONS: u32 = 8;
const TRANSACTIONS: u64 = 10_000;
/// How long a get may take.
const PATIENCE: Duration = Duration::from_millis(250);
/// How long a connection may live.
const LIFETIME: Duration = Duration::from_millis(700);
/// How much later a get may end.
const SLACK: Duration = Duration::from_millis(400);

/// The counts of the tasks, and those of the server.
#[derive(Default)]
struct Seen {
    committed: Mutex<BTreeSet<i64>>,
    in_doubt: Mutex<BTreeSet<i64>>,
    attempts: AtomicU64,
    started: AtomicU64,
    served: AtomicU64,
    timed_out: AtomicU64,
    let_go: AtomicU64,
    late: AtomicU64,
    longest: Mutex<Duration>,
    /// Most processes of the pool at one moment, without those that it had closed.
    connections: AtomicU64,
    samples: AtomicU64,
    ended: AtomicU64,
    sunk: AtomicU64,
    quiet: AtomicBool,
    done: AtomicBool,
}

#[derive(Clone)]
struct Sink(Arc<Seen>);

impl std::fmt::Debug for Sink {
    fn fmt(&self, f: &mut std::fmt::Formatter<'_>) -> std::fmt::Result {
        f.write_str("Sink")
    }
}

impl ErrorSink<Error> for Sink {
    fn sink(&self, _: Error) {
        self.0.sunk.fetch_add(1, SeqCst);
    }

    fn boxed_clone(&self) -> Box<dyn ErrorSink<Error>> {
        Box::new(self.clone())
    }
}

/// Makes one transaction. After an error at its commit it stays in doubt.
async fn transact(conn: &mut Connection, id: i64, seen: &Seen) -> Result<(), Error> {
    conn.in_transaction = true;
    conn.client.batch_execute("BEGIN").await?;
    let insert = "INSERT INTO entries (id) VALUES ($1)";
    conn.client.execute(insert, &[&id]).await?;
    seen.in_doubt.lock().unwrap().insert(id);
    conn.client.batch_execute("COMMIT").await?;
    seen.in_doubt.lock().unwrap().remove(&id);
    conn.in_transaction = false;
    seen.committed.lock().unwrap().insert(id);
    Ok(())
}

/// Gets a connection, and counts the result. Every 50th get is cancelled after a millisecond. Any
/// other is late if a timer has elapsed that is polled after it: not if the machine paused.
async fn get<'a>(
    pool: &'a Pool<Database>,
    attempt: u64,
    seen: &Seen,
) -> Option<PooledConnection<'a, Database>> {
    seen.started.fetch_add(1, SeqCst);
    let (limit, ended) = if attempt % 50 == 49 {
        (Duration::from_millis(1), &seen.let_go)
    } else {
        (PATIENCE + SLACK, &seen.late)
    };
    let begin = Instant::now();
    let answer = timeout(limit, pool.get()).await;
    let took = begin.elapsed();
    let mut longest = seen.longest.lock().unwrap();
    *longest = longest.max(took);
    drop(longest);
    let count = match &answer {
        Err(_) => ended,
        Ok(Ok(_)) => &seen.served,
        Ok(Err(RunError::TimedOut)) => &seen.timed_out,
        Ok(Err(error)) => panic!("get failed: {error}"),
    };
    count.fetch_add(1, SeqCst);
    answer.ok()?.ok()
}

/// The work of one task, until there are enough transactions.
async fn work(pool: Pool<Database>, seen: Arc<Seen>) {
    loop {
        if seen.committed.lock().unwrap().len() as u64 >= TRANSACTIONS {
            return;
        }
        if seen.quiet.load(SeqCst) {
            sleep(Duration::from_millis(10)).await;
            continue;
        }
        let attempt = seen.attempts.fetch_add(1, SeqCst);
        let Some(mut conn) = get(&pool, attempt, &seen).await else {
            continue;
        };
        // An error ends the transaction: the next get has another connection, or a later one.
        let _failed = transact(&mut conn, attempt as i64, &seen).await;
        if attempt % 300 == 299 {
            sleep(2 * PATIENCE).await;
        }
    }
}

/// Samples which processes of the pool the server has.
async fn watch(config: Config, log: Arc<Log>, seen: Arc<Seen>) {
    let query = "SELECT pid FROM pg_stat_activity WHERE application_name = 'pool'";
    while !seen.done.load(SeqCst) {
        let Ok(client) = open(&config).await else {
            sleep(Duration::from_millis(5)).await;
            continue;
        };
        while !seen.done.load(SeqCst) {
            let Ok(rows) = client.query(query, &[]).await else {
                break;
            };
            note(&rows, &log, &seen);
            seen.samples.fetch_add(1, SeqCst);
            sleep(Duration::from_millis(2)).await;
        }
    }
}

/// Notes how many processes of the pool the server has, without those that it had closed.
fn note(rows: &[Row], log: &Log, seen: &Seen) {
    let closed = log.closed.lock().unwrap();
    let alive = rows.iter().filter(|row| !closed.contains(&row.get(0)));
    seen.connections.fetch_max(alive.count() as u64, SeqCst);
}

/// Ends a connection of the pool every now and then.
async fn end_some(config: Config, seen: Arc<Seen>) {
    let query = "SELECT pg_terminate_backend(pid) FROM pg_stat_activity \
                 WHERE application_name = 'pool' ORDER BY random() LIMIT 1";
    while !seen.done.load(SeqCst) {
        sleep(Duration::from_millis(40)).await;
        if let Ok(client) = open(&config).await {
            let ended = client.query(query, &[]).await;
            seen.ended
                .fetch_add(ended.map_or(0, |rows| rows.len() as u64), SeqCst);
        }
    }
}

/// Restarts the server twice, and leaves the pool without work four times.
async fn disturb(restart: String, seen: Arc<Seen>) {
    for part in 1..8 {
        loop {
            let count = seen.committed.lock().unwrap().len() as u64;
            if count >= TRANSACTIONS * part / 8 {
                break;
            }
            sleep(Duration::from_millis(5)).await;
        }
        if part == 3 || part == 6 {
            let command = restart.clone();
            let run = move || Command::new("sh").args(["-c", &command]).status();
            let status = tokio::task::spawn_blocking(run).await;
            assert!(status.is_ok_and(|status| status.is_ok_and(|status| status.success())));
        } else {
            seen.quiet.store(true, SeqCst);
            sleep(Duration::from_millis(500)).await;
            seen.quiet.store(false, SeqCst);
        }
    }
}

/// Makes rare events happen at least once: while nobody asks, ages run out; when all
/// connections are taken, a get is cancelled, and one times out.
async fn exhaust(pool: &Pool<Database>, seen: &Seen) {
    sleep(LIFETIME + PATIENCE).await;
    let mut taken = Vec::new();
    while taken.len() < CONNECTIONS as usize {
        taken.extend(get(pool, 0, seen).await);
    }
    for attempt in [49, 0] {
        get(pool, attempt, seen).await;
    }
}

#[tokio::main(worker_threads = 4)]
async fn main() -> Result<ExitCode, Box<dyn std::error::Error>> {
    let arguments: Vec<String> = env::args().collect();
    let (server, restart, admin, is_shared) = match &arguments[..] {
        [_, server, restart] => (server, restart, server, false),
        [_, server, restart, admin] => (server, restart, admin, false),
        [_, server, restart, admin, word] if word == "shared" => (server, restart, admin, true),
        _ => return Err("arguments: CONNECTION RESTART [DIRECTLY [shared]]".into()),
    };
    let config = server.parse::<Config>()?.application_name("pool").clone();
    let admin = admin.parse::<Config>()?.application_name("admin").clone();
    let setup = open(&admin).await?;
    let table = "DROP TABLE IF EXISTS entries; CREATE TABLE entries (id bigint PRIMARY KEY)";
    setup.batch_execute(table).await?;
    drop(setup);

    let seen = Arc::new(Seen::default());
    let log = Arc::new(Log::default());
    let pool = Pool::builder()
        .max_size(CONNECTIONS)
        .min_idle(2)
        .connection_timeout(PATIENCE)
        .max_lifetime(LIFETIME)
        .idle_timeout(Duration::from_millis(200))
        .reaper_rate(Duration::from_millis(50))
        .error_sink(Box::new(Sink(seen.clone())))
        .build(Database {
            config,
            log: log.clone(),
        })
        .await?;
    let begin = Instant::now();
    let watching = tokio::spawn(watch(admin.clone(), log.clone(), seen.clone()));
    let ending = tokio::spawn(end_some(admin.clone(), seen.clone()));
    let disturbing = tokio::spawn(disturb(restart.clone(), seen.clone()));
    let tasks: Vec<_> = (0..TASKS)
        .map(|_| tokio::spawn(work(pool.clone(), seen.clone())))
        .collect();
    for task in tasks {
        task.await?;
    }
    disturbing.await?;
    let took = begin.elapsed();
    seen.done.store(true, SeqCst);
    watching.await?;
    ending.await?;
    exhaust(&pool, &seen).await;
    judge(&pool, &admin, &seen, &log, took, is_shared).await
}

/// Compares the counts, and prints them.
async fn judge(
    pool: &Pool<Database>,
    admin: &Config,
    seen: &Seen,
    log: &Log,
    took: Duration,
    is_shared: bool,
) -> Result<ExitCode, Box<dyn std::error::Error>> {
    let is_balanced = balances(pool, log).await;
    let client = open(admin).await?;
    let rows = client.query("SELECT id FROM entries", &[]).await?;
    let rows: BTreeSet<i64> = rows.iter().map(|row| row.get(0)).collect();
    let committed = seen.committed.lock().unwrap();
    let in_doubt = seen.in_doubt.lock().unwrap();
    let lost = committed.difference(&rows).count();
    let untold: BTreeSet<i64> = rows.difference(&committed).copied().collect();
    let state = pool.state();
    let figures = &state.statistics;
    let read = |count: &AtomicU64| count.load(SeqCst);
    let longest = *seen.longest.lock().unwrap();
    println!(
        "seconds                              {:.1}",
        took.as_secs_f64()
    );
    println!("transactions told as committed       {}", committed.len());
    println!("rows in the table                    {}", rows.len());
    println!("in doubt                             {in_doubt:?}");
    println!("in doubt, and in the table           {untold:?}");
    println!(
        "gets served                          {}",
        read(&seen.served)
    );
    println!(
        "gets timed out                       {}",
        read(&seen.timed_out)
    );
    println!(
        "gets let go                          {}",
        read(&seen.let_go)
    );
    println!("longest get, of {PATIENCE:?}             {longest:?}");
    println!(
        "most connections, by the server      {}",
        read(&seen.connections)
    );
    println!(
        "samples                              {}",
        read(&seen.samples)
    );
    println!(
        "attempts cut off                     {}",
        read(&log.cut_off)
    );
    println!("connections ended by the server      {}", read(&seen.ended));
    println!("errors in the sink                   {}", read(&seen.sunk));
    println!(
        "connections opened                   {}",
        figures.connections_created
    );
    println!(
        "closed as broken                     {}",
        figures.connections_closed_broken
    );
    println!(
        "closed by a check                    {}",
        figures.connections_closed_invalid
    );
    println!(
        "closed by age                        {}",
        figures.connections_closed_max_lifetime
    );
    println!(
        "closed as idle                       {}",
        figures.connections_closed_idle_timeout
    );
    println!(
        "gets pending at the end              {}",
        figures.pending_gets()
    );
    let served = figures.get_direct + figures.get_waited;
    let mut checks = vec![
        ("what was told as committed is in the table", lost == 0),
        (
            "what else is there was in doubt",
            untold.is_subset(&in_doubt),
        ),
        ("each get was answered in time", read(&seen.late) == 0),
        (
            "gets were started as the pool says",
            read(&seen.started) == figures.get_started,
        ),
        (
            "gets were served as the pool says",
            read(&seen.served) == served,
        ),
        (
            "gets timed out as the pool says",
            read(&seen.timed_out) == figures.get_timed_out,
        ),
        ("all of it happened", all_happened(seen, figures)),
    ];
    if !is_shared {
        let most = u64::from(CONNECTIONS) + read(&log.cut_off);
        let is_within = read(&seen.connections) <= most;
        checks.push(("connections were within the limit", is_within));
    }
    checks.extend(is_balanced.map(|holds| ("connections are accounted for", holds)));
    for (name, holds) in &checks {
        println!("{} {name}", if *holds { "yes:" } else { "NO: " });
    }
    Ok(ExitCode::from(u8::from(
        checks.iter().any(|(_, holds)| !holds),
    )))
}

/// Returns whether gets timed out and were cancelled, and connections ended in each way.
fn all_happened(seen: &Seen, figures: &bb8::Statistics) -> bool {
    let counts = [
        seen.timed_out.load(SeqCst),
        seen.let_go.load(SeqCst),
        seen.ended.load(SeqCst),
        figures.get_direct,
        figures.get_waited,
        figures.connections_closed_broken,
        figures.connections_closed_max_lifetime,
        figures.connections_closed_idle_timeout,
    ];
    counts.iter().all(|count| *count > 0)
}
