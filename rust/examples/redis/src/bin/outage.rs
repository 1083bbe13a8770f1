//! Outages of Redis: a server that freezes, is killed and restarted, refuses the password, or
//! accepts connections and never replies. In each, gets end in time, and gets after it are all
//! served.
//!
//! Arguments: the server's address, the file with its process number, the command that starts it.

use bb8::{ErrorSink, Pool, State};
use redis_service::{balances, Client, Log, Server};
use std::env;
use std::io;
use std::process::ExitCode;
use std::sync::{Arc, Mutex};
use std::time::{Duration, Instant};
use tokio::net::TcpListener;
use tokio::process::Command;
use tokio::time::{sleep, timeout};

type Failure = Box<dyn std::error::Error + Send + Sync>;

/// The pool's password, if the server has one.
const PASSWORD: &str = "secret";
const CONNECTIONS: u32 = 5;
const TASKS: u32 = 32;
/// How long a get may take, and a request.
const PATIENCE: Duration = Duration::from_secs(3);
/// How long a connection attempt may take, and in some cases a check.
const BRIEFLY: Duration = Duration::from_millis(200);
/// How much later a get may end.
const SLACK: Duration = Duration::from_millis(500);

#[derive(Clone, Copy, Debug)]
enum Outage {
    Frozen,
    Killed,
    Refused,
    Silent,
}

/// The server, and how it is controlled.
struct Machine {
    address: String,
    process: String,
    start: String,
    /// The address to which the pool's manager connects.
    current: Arc<Mutex<String>>,
    /// Accepts connections and never replies.
    silent: String,
    log: Arc<Log>,
}

async fn run(command: &str) -> Result<(), Failure> {
    let status = Command::new("sh").args(["-c", command]).status().await?;
    if status.success() {
        Ok(())
    } else {
        Err(format!("failed: {command}").into())
    }
}

async fn ask(admin: &mut Client, words: &[&str]) -> Result<(), Failure> {
    admin.ask(words).await??;
    Ok(())
}

/// Has the server ask new connections for a password, if it is not empty.
async fn require(admin: &mut Client, password: &str) -> Result<(), Failure> {
    ask(admin, &["CONFIG", "SET", "requirepass", password]).await
}

impl Machine {
    async fn signal(&self, name: &str) -> Result<(), Failure> {
        run(&format!("kill -{name} $(cat '{}')", self.process)).await
    }

    async fn breaks(&self, outage: Outage, admin: &mut Client) -> Result<(), Failure> {
        match outage {
            Outage::Frozen => return self.signal("STOP").await,
            Outage::Killed => return self.signal("KILL").await,
            Outage::Refused => require(admin, "another").await?,
            Outage::Silent => self.current.lock().unwrap().clone_from(&self.silent),
        }
        let others = ["CLIENT", "KILL", "TYPE", "normal", "SKIPME", "yes"];
        ask(admin, &others).await
    }

    async fn mends(&self, outage: Outage, admin: &mut Client) -> Result<(), Failure> {
        match outage {
            Outage::Frozen => self.signal("CONT").await?,
            Outage::Killed => run(&self.start).await?,
            Outage::Refused => require(admin, PASSWORD).await?,
            Outage::Silent => self.current.lock().unwrap().clone_from(&self.address),
        }
        Ok(())
    }
}

/// Keeps the errors that no caller sees.
#[derive(Clone, Debug, Default)]
struct Sink(Arc<Mutex<Vec<String>>>);

impl ErrorSink<io::Error> for Sink {
    fn sink(&self, error: io::Error) {
        self.0.lock().unwrap().push(format!("{error:?}"));
    }

    fn boxed_clone(&self) -> Box<dyn ErrorSink<io::Error>> {
        Box::new(self.clone())
    }
}

impl Sink {
    fn has(&self, part: &str) -> bool {
        self.0
            .lock()
            .unwrap()
            .iter()
            .any(|text| text.contains(part))
    }
}

/// Results of a load. A get counts as served if the request after it succeeds.
#[derive(Debug, Default)]
struct Met {
    served: u32,
    failed: u32,
    late: u32,
    longest: Duration,
}

/// Runs tasks that get connections and query the server, for this long. A get is late if a timer
/// has elapsed that is polled after it: not if the machine paused.
async fn load(pool: &Pool<Server>, long: Duration) -> Result<Met, Failure> {
    let begin = Instant::now();
    let met = Arc::new(Mutex::new(Met::default()));
    let task = |_| {
        let (pool, met) = (pool.clone(), met.clone());
        tokio::spawn(async move {
            while begin.elapsed() < long {
                let start = Instant::now();
                let got = timeout(PATIENCE + SLACK, pool.get()).await;
                let took = start.elapsed();
                let is_late = got.is_err();
                let is_served = match got {
                    Ok(Ok(mut conn)) => {
                        let asked = timeout(PATIENCE, conn.ask(&["ECHO", "word"])).await;
                        matches!(asked, Ok(Ok(Ok(word))) if word == "word")
                    }
                    _ => false,
                };
                // A task that asks again without a pause may take the connection from a woken one.
                sleep(Duration::from_millis(1)).await;
                let mut met = met.lock().unwrap();
                met.longest = met.longest.max(took);
                met.late += u32::from(is_late);
                met.served += u32::from(is_served);
                met.failed += u32::from(!is_served);
            }
        })
    };
    for task in (0..TASKS).map(task).collect::<Vec<_>>() {
        task.await?;
    }
    let met = std::mem::take(&mut *met.lock().unwrap());
    Ok(met)
}

/// Returns whether the statistics and the sink show the cause. All connections were idle before.
fn has_cause(outage: Outage, state: &State, sink: &Sink) -> bool {
    let (counts, all) = (&state.statistics, u64::from(CONNECTIONS));
    let has_failed = counts.connections_failed > 1;
    let were_invalid = counts.connections_closed_invalid >= all;
    match outage {
        Outage::Frozen => has_failed && counts.checks_timed_out >= all,
        Outage::Killed => has_failed && were_invalid && sink.has("ConnectionRefused"),
        Outage::Refused => has_failed && were_invalid && sink.has("WRONGPASS"),
        Outage::Silent => has_failed && were_invalid,
    }
}

fn builder(limit: Option<Duration>) -> bb8::Builder<Server> {
    Pool::builder()
        .max_size(CONNECTIONS)
        .min_idle(CONNECTIONS)
        .connection_timeout(PATIENCE)
        .connect_timeout(BRIEFLY)
        .test_timeout(limit)
}

/// Loads a full pool during an outage and after it. Returns whether all checks hold.
async fn meet(machine: &Machine, outage: Outage, limit: Option<Duration>) -> Result<bool, Failure> {
    let (sink, log) = (Sink::default(), Arc::new(Log::default()));
    let manager = Server {
        address: machine.current.clone(),
        log: log.clone(),
    };
    let name = "admin".to_string();
    let mut admin = Client::open(&machine.address, name, &machine.log).await?;
    if matches!(outage, Outage::Refused) {
        require(&mut admin, PASSWORD).await?;
        *machine.current.lock().unwrap() = format!("{PASSWORD}@{}", machine.address);
    }
    let builder = builder(limit).error_sink(Box::new(sink.clone()));
    let pool = builder.build(manager).await?;
    machine.breaks(outage, &mut admin).await?;
    let during = load(&pool, 2 * PATIENCE).await;
    let state = pool.state();
    machine.mends(outage, &mut admin).await?;
    let (during, after) = (during?, load(&pool, PATIENCE).await?);
    println!("{outage:?}, test_timeout {limit:?}: during {during:?}, after {after:?}");
    let pending = pool.state().statistics.pending_gets();
    let checks = [
        ("each get ended in time", during.late + after.late == 0),
        ("gets failed during the outage", during.failed > 0),
        (
            "after it none failed",
            after.failed == 0 && after.served > 100,
        ),
        ("the cause is reported", has_cause(outage, &state, &sink)),
        ("connections are accounted for", balances(&pool, &log).await),
        ("no get is pending", pending == 0),
    ];
    if matches!(outage, Outage::Refused) {
        require(&mut admin, "").await?;
        machine.current.lock().unwrap().clone_from(&machine.address);
    }
    for (name, holds) in &checks {
        println!("{} {name}", if *holds { "yes:" } else { "NO: " });
    }
    Ok(checks.iter().all(|(_, holds)| *holds))
}

/// Starts a listener that accepts connections and never replies. Returns its address.
async fn be_silent() -> io::Result<String> {
    let listener = TcpListener::bind("127.0.0.1:0").await?;
    let address = listener.local_addr()?.to_string();
    tokio::spawn(async move {
        let mut kept = Vec::new();
        while let Ok(accepted) = listener.accept().await {
            kept.push(accepted);
        }
    });
    Ok(address)
}

#[tokio::main(worker_threads = 4)]
async fn main() -> Result<ExitCode, Failure> {
    let arguments: Vec<String> = env::args().collect();
    let [_, address, process, start] = &arguments[..] else {
        return Err("arguments: SERVER PROCESS-FILE START".into());
    };
    let machine = Machine {
        address: address.clone(),
        process: process.clone(),
        start: start.clone(),
        current: Arc::new(Mutex::new(address.clone())),
        silent: be_silent().await?,
        log: Arc::default(),
    };
    let cases = [
        (Outage::Frozen, None),
        (Outage::Frozen, Some(BRIEFLY)),
        (Outage::Killed, None),
        (Outage::Refused, None),
        (Outage::Silent, None),
    ];
    let mut is_right = true;
    for (outage, limit) in cases {
        is_right &= meet(&machine, outage, limit).await?;
    }
    Ok(ExitCode::from(u8::from(!is_right)))
}
