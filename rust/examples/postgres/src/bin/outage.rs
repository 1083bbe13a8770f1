//! Outages of PostgreSQL: server processes that freeze, as in a failover without a reset; a server
//! that is killed and restarted; a role or a password that the server refuses; a server that
//! accepts connections and never replies. In each, gets end in time, and gets after it are all
//! served.
//!
//! Arguments: the connection string, and the commands that kill the server and start it. Its
//! processes are frozen by `kill`. It has to ask the role `guarded` for a password.

use bb8::{ErrorSink, Pool, RunError, Statistics};
use postgres_manager::{open, Database, Log};
use postgres_service::balances;
use std::env;
use std::future::Future;
use std::process::{Command, ExitCode};
use std::sync::atomic::{AtomicBool, Ordering::SeqCst};
use std::sync::{Arc, Mutex};
use std::time::{Duration, Instant};
use tokio::io::copy_bidirectional;
use tokio::net::{TcpListener, TcpStream};
use tokio::time::{sleep, timeout};
use tokio_postgres::{Client, Config, Error};

type Failure = Box<dyn std::error::Error + Send + Sync>;

const CONNECTIONS: u32 = 8;
const TASKS: u32 = 32;
/// How long a get may take.
const PATIENCE: Duration = Duration::from_secs(3);
/// How much later a get may end.
const SLACK: Duration = Duration::from_millis(500);

/// Keeps the errors that no caller sees.
#[derive(Clone, Debug, Default)]
struct Sink(Arc<Mutex<Vec<String>>>);

impl ErrorSink<Error> for Sink {
    fn sink(&self, error: Error) {
        self.0.lock().unwrap().push(format!("{error:?}"));
    }

    fn boxed_clone(&self) -> Box<dyn ErrorSink<Error>> {
        Box::new(self.clone())
    }
}

/// The results of a load of gets: how many were served and failed, how many of those that began
/// later than `PATIENCE` failed, how many ended late, and the longest get.
#[derive(Debug, Default)]
struct Met {
    served: u32,
    failed: u32,
    failed_late: u32,
    late: u32,
    longest: Duration,
}

fn builder(limit: Option<Duration>) -> bb8::Builder<Database> {
    Pool::builder()
        .max_size(CONNECTIONS)
        .connection_timeout(PATIENCE)
        .test_timeout(limit)
}

fn database(config: &Config, log: &Arc<Log>) -> Database {
    Database {
        config: config.clone(),
        log: log.clone(),
    }
}

impl Sink {
    fn any(&self, part: &str) -> bool {
        let errors = self.0.lock().unwrap();
        errors.iter().any(|error| error.contains(part))
    }

    fn all(&self, part: &str) -> bool {
        let errors = self.0.lock().unwrap();
        !errors.is_empty() && errors.iter().all(|error| error.contains(part))
    }
}

impl Met {
    fn is_well(&self) -> bool {
        self.late == 0 && self.failed == 0 && self.served > 100
    }
}

/// Has tasks get connections and query the server for this long. A get is late if a timer has
/// elapsed that is polled after it: not if the machine paused.
async fn load(pool: &Pool<Database>, long: Duration) -> Result<Met, Failure> {
    let begin = Instant::now();
    let met = Arc::new(Mutex::new(Met::default()));
    let task = |_| {
        let (pool, met) = (pool.clone(), met.clone());
        tokio::spawn(async move {
            while begin.elapsed() < long {
                let start = Instant::now();
                let got = timeout(PATIENCE + SLACK, pool.get()).await;
                let took = start.elapsed();
                let is_late = got.is_err();
                let is_served = match got {
                    Ok(Ok(conn)) => conn.client.batch_execute("SELECT 1").await.is_ok(),
                    _ => false,
                };
                // A task that asks again without a pause may take the connection from a woken one.
                sleep(Duration::from_millis(1)).await;
                let mut met = met.lock().unwrap();
                met.longest = met.longest.max(took);
                met.late += u32::from(is_late);
                met.served += u32::from(is_served);
                met.failed += u32::from(!is_served);
                met.failed_late += u32::from(!is_served && start - begin > PATIENCE + SLACK);
            }
        })
    };
    for task in (0..TASKS).map(task).collect::<Vec<_>>() {
        task.await?;
    }
    let met = std::mem::take(&mut *met.lock().unwrap());
    Ok(met)
}

fn run(command: &str) -> Result<(), Failure> {
    if Command::new("sh").args(["-c", command]).status()?.success() {
        Ok(())
    } else {
        Err(format!("failed: {command}").into())
    }
}

fn signal(name: &str, processes: &[i32]) -> Result<(), Failure> {
    let numbers: Vec<String> = processes.iter().map(i32::to_string).collect();
    run(&format!("kill -{name} {}", numbers.join(" ")))
}

/// Freezes the server's processes of a full pool, and has it loaded. Returns what it met, the
/// pool's statistics, and whether they balance.
async fn freeze(
    admin: &Client,
    config: &Config,
    limit: Option<Duration>,
) -> Result<(Met, Statistics, bool), Failure> {
    let log = Arc::default();
    let pool = builder(limit)
        .min_idle(CONNECTIONS)
        .build(database(config, &log))
        .await?;
    let query = "SELECT pid FROM pg_stat_activity WHERE application_name = 'pool'";
    let rows = admin.query(query, &[]).await?;
    let processes: Vec<i32> = rows.iter().map(|row| row.get(0)).collect();
    signal("STOP", &processes)?;
    let met = load(&pool, 3 * PATIENCE).await;
    signal("CONT", &processes)?;
    let is_balanced = balances(&pool, &log).await == Some(true);
    Ok((met?, pool.state().statistics, is_balanced))
}

/// Loads a full pool while the server is down, and after it was restarted.
async fn kill(config: &Config, kill: &str, start: &str) -> Result<bool, Failure> {
    let (sink, log) = (Sink::default(), Arc::default());
    let pool = builder(None)
        .min_idle(CONNECTIONS)
        .error_sink(Box::new(sink.clone()))
        .build(database(config, &log))
        .await?;
    run(kill)?;
    let during = load(&pool, 2 * PATIENCE).await;
    let counts = pool.state().statistics;
    run(start)?;
    let (during, after) = (during?, load(&pool, PATIENCE).await?);
    println!("killed: during {during:?}, after {after:?}");
    let were_closed = counts
        .connections_closed_broken
        .max(counts.connections_closed_invalid);
    let has_cause = counts.connections_failed > 1
        && were_closed >= u64::from(CONNECTIONS)
        && sink.any("ConnectionRefused");
    let has_failed = during.served == 0 && during.failed > 0;
    let is_well = during.late == 0 && after.is_well();
    Ok(has_failed && is_well && has_cause && balances(&pool, &log).await == Some(true))
}

/// Loads an empty pool while no connection can be opened, and again after `mend`. All errors have
/// to contain the cause, if one is given.
async fn shut_out(
    builder: bb8::Builder<Database>,
    config: &Config,
    cause: Option<&str>,
    mend: impl Future<Output = Result<(), Failure>>,
) -> Result<bool, Failure> {
    let (sink, log) = (Sink::default(), Arc::default());
    let pool = builder
        .error_sink(Box::new(sink.clone()))
        .build_unchecked(database(config, &log));
    let during = load(&pool, 2 * PATIENCE).await?;
    let has_failed = during.served == 0 && during.failed > 0;
    let times_out = matches!(pool.get().await, Err(RunError::TimedOut));
    let attempts = pool.state().statistics.connections_failed;
    let has_cause = attempts > 1 && cause.map_or(true, |cause| sink.all(cause));
    mend.await?;
    let after = load(&pool, PATIENCE).await?;
    println!("shut out: {attempts} attempts failed, during {during:?}, after {after:?}");
    let is_well = during.late == 0 && after.is_well();
    let is_balanced = balances(&pool, &log).await == Some(true);
    Ok(has_failed && times_out && is_well && has_cause && is_balanced)
}

/// Gets from a server that refuses the role, until a command of the admin.
async fn refuse(
    admin: &Client,
    config: &Config,
    cause: &str,
    command: &str,
) -> Result<bool, Failure> {
    let mend = async { Ok(admin.batch_execute(command).await?) };
    shut_out(builder(None), config, Some(cause), mend).await
}

/// Gets from a server that accepts connections and never replies, until it forwards them to
/// another.
async fn silence(config: &Config) -> Result<bool, Failure> {
    let listener = TcpListener::bind("127.0.0.1:0").await?;
    let mut silent = Config::new();
    silent
        .host("127.0.0.1")
        .port(listener.local_addr()?.port())
        .user(config.get_user().unwrap_or_default())
        .dbname(config.get_dbname().unwrap_or_default());
    let server = config.get_ports().first().copied().unwrap_or(5432);
    let forwards = Arc::new(AtomicBool::new(false));
    let flag = forwards.clone();
    tokio::spawn(async move {
        let mut kept = Vec::new();
        while let Ok((mut accepted, _)) = listener.accept().await {
            if !flag.load(SeqCst) {
                kept.push(accepted);
                continue;
            }
            tokio::spawn(async move {
                let mut server = TcpStream::connect(("127.0.0.1", server)).await?;
                copy_bidirectional(&mut accepted, &mut server).await
            });
        }
    });
    let mend = async {
        forwards.store(true, SeqCst);
        Ok(())
    };
    let builder = builder(None).connect_timeout(Duration::from_millis(200));
    shut_out(builder, &silent, None, mend).await
}

#[tokio::main(worker_threads = 4)]
async fn main() -> Result<ExitCode, Failure> {
    let arguments: Vec<String> = env::args().collect();
    let [_, server, killing, starting] = &arguments[..] else {
        return Err("arguments: CONNECTION KILL START".into());
    };
    let mut config: Config = server.parse()?;
    let admin = open(config.clone().application_name("admin")).await?;
    config.application_name("pool");

    let mut checks = Vec::new();
    for (limit, fails) in [(None, true), (Some(Duration::from_millis(200)), false)] {
        let (met, counts, is_balanced) = freeze(&admin, &config, limit).await?;
        println!("frozen, test_timeout {limit:?}: {met:?}");
        let fails_alike = (met.failed > 0) == fails && met.failed_late == 0;
        checks.push(("each get ended in time", met.late == 0));
        checks.push(("gets failed until their first timeout at most", fails_alike));
        checks.push(("gets were served", met.served > 100));
        checks.push(("connections are accounted for", is_balanced));
        let timed_out = counts.checks_timed_out >= u64::from(CONNECTIONS);
        checks.push(("each frozen connection was found by a check", timed_out));
    }
    let newcomer = config.clone().user("newcomer").clone();
    let create = "CREATE ROLE newcomer LOGIN";
    let times_out = refuse(&admin, &newcomer, "newcomer", create).await?;
    checks.push(("a refused role is reported", times_out));
    let create = "CREATE ROLE guarded LOGIN PASSWORD 'right'";
    admin.batch_execute(create).await?;
    let guarded = config.clone().user("guarded").password("wrong").clone();
    let cause = "password authentication failed";
    let change = "ALTER ROLE guarded PASSWORD 'wrong'";
    let times_out = refuse(&admin, &guarded, cause, change).await?;
    checks.push(("a refused password is reported", times_out));
    checks.push(("a silent server holds no get", silence(&config).await?));
    let is_served = kill(&config, killing, starting).await?;
    checks.push(("a killed server is used again", is_served));
    for (name, holds) in &checks {
        println!("{} {name}", if *holds { "yes:" } else { "NO: " });
    }
    Ok(ExitCode::from(u8::from(
        checks.iter().any(|(_, holds)| !holds),
    )))
}
