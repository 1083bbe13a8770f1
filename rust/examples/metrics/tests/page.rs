//! The page that is served has all figures of the pools, with the values that a script of events
//! has by hand.

use bb8::{ManageConnection, Pool, PooledConnection, State};
use metrics_service::{page, serve};
use std::collections::BTreeMap;
use std::future::pending;
use std::sync::atomic::{AtomicBool, AtomicU32, Ordering::SeqCst};
use std::sync::Arc;
use std::time::Duration;
use tokio::io::{AsyncReadExt, AsyncWriteExt};
use tokio::net::{TcpListener, TcpStream};
use tokio::time::{pause, resume, sleep, timeout};

const MINUTE: Duration = Duration::from_secs(60);
const MILLISECOND: Duration = Duration::from_millis(1);

#[derive(Clone, Copy, Debug, PartialEq)]
enum Health {
    Well,
    Broken,
    Invalid,
    Hanging,
}

/// This many attempts fail next; and whether attempts hang.
#[derive(Default)]
struct Faults {
    failures: AtomicU32,
    is_silent: AtomicBool,
}

struct Manager(Arc<Faults>);

impl ManageConnection for Manager {
    type Connection = Health;
    type Error = ();

    async fn connect(&self) -> Result<Health, ()> {
        if self.0.is_silent.load(SeqCst) {
            pending::<()>().await;
        }
        let less = |left: u32| left.checked_sub(1);
        match self.0.failures.fetch_update(SeqCst, SeqCst, less) {
            Ok(_) => Err(()),
            Err(_) => Ok(Health::Well),
        }
    }

    async fn is_valid(&self, conn: &mut Health) -> Result<(), ()> {
        match conn {
            Health::Invalid => Err(()),
            Health::Hanging => pending().await,
            Health::Well | Health::Broken => Ok(()),
        }
    }

    fn has_broken(&self, conn: &mut Health) -> bool {
        *conn == Health::Broken
    }
}

/// Gets a connection and returns it in some health, this many times.
async fn spoil(pool: &Pool<Manager>, times: u32, health: Health) {
    for _ in 0..times {
        *pool.get().await.unwrap() = health;
    }
}

/// Makes each kind of event happen, each a different number of times.
async fn busy_pool() -> Pool<Manager> {
    let faults = Arc::new(Faults::default());
    let pool = Pool::builder()
        .max_size(2)
        .connection_timeout(MINUTE)
        .test_timeout(Duration::from_secs(1))
        .idle_timeout(10 * MINUTE)
        .max_lifetime(120 * MINUTE)
        .build(Manager(faults.clone()))
        .await
        .unwrap();
    // Three attempts fail, so the first get waits for 0.4, 0.8 and 1.6 s.
    faults.failures.store(3, SeqCst);
    let first = pool.get_owned().await.unwrap();
    let second = pool.get_owned().await.unwrap();
    for _ in 0..4 {
        assert!(pool.get().await.is_err());
    }
    for _ in 0..5 {
        assert!(timeout(MILLISECOND, pool.get()).await.is_err());
    }
    // One get waits for a returned connection. Two connections are idle then.
    let other = pool.clone();
    let waiting = tokio::spawn(async move { other.get().await.map(drop) });
    sleep(250 * MILLISECOND).await;
    drop(first);
    waiting.await.unwrap().unwrap();
    drop(second);
    // Two of six gets take these, and four open others.
    spoil(&pool, 6, Health::Broken).await;
    // The next get opens one, and each of 15 others another in place of one that fails its check.
    spoil(&pool, 7, Health::Invalid).await;
    spoil(&pool, 8, Health::Hanging).await;
    let old = pool.get_owned().await.unwrap();
    for _ in 0..9 {
        pool.add(Health::Well).unwrap();
        sleep(11 * MINUTE).await;
    }
    sleep(30 * MINUTE).await;
    drop(old);
    pool.add(Health::Well).unwrap();
    spoil(&pool, 10, Health::Well).await;
    // Three connections are retired, one of them at its return, and two leave with their guards.
    pool.add(Health::Well).unwrap();
    let conn = pool.get_owned().await.unwrap();
    pool.retire();
    drop(conn);
    pool.add(Health::Well).unwrap();
    pool.retire();
    for _ in 0..2 {
        PooledConnection::detach(pool.get().await.unwrap());
    }
    // One connection is checked out for good, and an attempt and two gets are pending.
    std::mem::forget(pool.get_owned().await.unwrap());
    faults.is_silent.store(true, SeqCst);
    for _ in 0..2 {
        let pool = pool.clone();
        tokio::spawn(async move { pool.get().await.map(drop) });
    }
    sleep(MILLISECOND).await;
    pool
}

/// The expected counts, worked out by hand. All other values are those of an integer.
const BUSY: [(&str, u64); 20] = [
    ("bb8_connections", 1),
    ("bb8_idle_connections", 0),
    ("bb8_pending_connections", 1),
    ("bb8_pending_gets", 2),
    (
        "bb8_get_started_total",
        2 + 4 + 5 + 1 + 6 + 16 + 10 + 3 + 1 + 2,
    ),
    ("bb8_get_direct_total", 2 + 10 + 1),
    ("bb8_get_waited_total", 2 + 1 + 4 + 16 + 2 + 1),
    ("bb8_get_timed_out_total", 4),
    ("bb8_get_cancelled_total", 5),
    ("bb8_connections_created_total", 2 + 4 + 16 + 2 + 1),
    ("bb8_connections_added_total", 10 + 2),
    ("bb8_connections_failed_total", 3),
    ("bb8_connections_closed_total", 6 + 15 + 9 + 1 + 3),
    ("bb8_connections_closed_broken_total", 6),
    ("bb8_connections_closed_invalid_total", 7 + 8),
    ("bb8_connections_closed_max_lifetime_total", 1),
    ("bb8_connections_closed_idle_timeout_total", 9),
    ("bb8_connections_closed_retired_total", 3),
    ("bb8_connections_detached_total", 2),
    ("bb8_checks_timed_out_total", 8),
];

/// Three connections were opened, and one of them is checked out at once. The rest is zero.
const CALM: [(&str, u64); 5] = [
    ("bb8_connections", 3),
    ("bb8_idle_connections", 2),
    ("bb8_connections_created_total", 3),
    ("bb8_get_started_total", 1),
    ("bb8_get_direct_total", 1),
];

/// Requests a path, and returns the head and the body.
async fn request(listener: TcpListener, path: &str, page: String) -> (String, String) {
    let address = listener.local_addr().unwrap();
    let serving = tokio::spawn(serve(listener, move || page.clone()));
    let mut stream = TcpStream::connect(address).await.unwrap();
    let text = format!("GET {path} HTTP/1.1\r\nHost: {address}\r\n\r\n");
    stream.write_all(text.as_bytes()).await.unwrap();
    let mut answer = String::new();
    stream.read_to_string(&mut answer).await.unwrap();
    serving.abort();
    let (head, body) = answer.split_once("\r\n\r\n").unwrap();
    (head.to_string(), body.to_string())
}

async fn listener() -> TcpListener {
    TcpListener::bind("127.0.0.1:0").await.unwrap()
}

/// Splits a label's value, up to its quote, from what follows, and undoes the escapes.
fn unquote(text: &str) -> (String, &str) {
    let (mut value, mut chars) = (String::new(), text.chars());
    loop {
        match chars.next().unwrap() {
            '"' => return (value, chars.as_str()),
            '\\' => value.push(match chars.next().unwrap() {
                'n' => '\n',
                escaped @ ('\\' | '"') => escaped,
                other => panic!("unknown escape \\{other}"),
            }),
            other => value.push(other),
        }
    }
}

/// The samples of a page by metric and pool. Each metric has its help, its type and its samples, in
/// this order, once.
fn parse(page: &str) -> BTreeMap<(String, String), String> {
    let mut samples = BTreeMap::new();
    let mut names: Vec<String> = Vec::new();
    let mut lines = page.lines().peekable();
    while let Some(line) = lines.next() {
        let help = line.strip_prefix("# HELP ").unwrap();
        let (name, help) = help.split_once(' ').unwrap();
        assert!(help.len() > 5 && !names.iter().any(|other| other == name));
        names.push(name.to_string());
        let is_counter = name.ends_with("_total");
        let kind = if is_counter { "counter" } else { "gauge" };
        assert_eq!(lines.next(), Some(&*format!("# TYPE {name} {kind}")));
        while let Some(line) = lines.next_if(|line| !line.starts_with('#')) {
            let label = line.strip_prefix(name).unwrap();
            let (pool, rest) = unquote(label.strip_prefix("{pool=\"").unwrap());
            let value = rest.strip_prefix("} ").unwrap().to_string();
            assert_eq!(samples.insert((name.to_string(), pool), value), None);
        }
    }
    samples
}

/// The metrics of a pool's fields, by its `Debug` output.
fn expected_names(state: &State) -> Vec<String> {
    let text = format!("{state:#?}");
    let fields = text.lines().filter(|line| !line.ends_with('{'));
    let names = fields.filter_map(|line| line.trim().split_once(": "));
    let metric = |(name, _): (&str, &str)| match name {
        "connections" | "idle_connections" | "pending_connections" => format!("bb8_{name}"),
        "get_wait_time" => format!("bb8_{name}_seconds_total"),
        _ => format!("bb8_{name}_total"),
    };
    names.map(metric).collect()
}

const QUOTED: &str = "a \"calm\" pool\\\nof two lines";

#[tokio::test]
async fn the_page_has_the_numbers_of_the_pools() {
    pause();
    let busy = busy_pool().await;
    resume();
    let builder = Pool::builder().max_size(3).min_idle(3);
    let calm = builder.build(Manager(Arc::default())).await.unwrap();
    let _out = calm.get().await.unwrap();
    let pools = [("busy", busy.state()), (QUOTED, calm.state())];
    let (head, body) = request(listener().await, "/metrics", page(&pools)).await;
    assert!(head.starts_with("HTTP/1.1 200 OK\r\n"));
    assert!(head.contains("Content-Type: text/plain; version=0.0.4"));

    let samples = parse(&body);
    let sample = |name: &str, pool: &str| &samples[&(name.to_string(), pool.to_string())];
    for (name, value) in BUSY {
        assert_eq!(sample(name, "busy"), &value.to_string(), "{name}");
        let calm = CALM.iter().find(|(other, _)| *other == name);
        let value = calm.map_or(0, |(_, value)| *value);
        assert_eq!(sample(name, QUOTED), &value.to_string(), "{name}");
    }
    // 2.8 s for the first get, a minute for each that timed out, 0.25 s for the one that was served
    // by a return. Timers are late by milliseconds.
    let name = "bb8_get_wait_time_seconds_total";
    let waited: f64 = sample(name, "busy").parse().unwrap();
    assert!((243.05..243.09).contains(&waited), "{waited}");
    assert_eq!(sample(name, QUOTED), "0.000000");
    assert_eq!(samples.len(), 2 * (BUSY.len() + 1));
}

#[tokio::test]
async fn no_figure_of_the_state_is_missing() {
    let pool = Pool::builder()
        .build(Manager(Arc::default()))
        .await
        .unwrap();
    let state = pool.state();
    let names = expected_names(&state);
    assert!(names.len() >= 18);
    let samples = parse(&page(&[("pool", state)]));
    for name in &names {
        let key = (name.clone(), "pool".to_string());
        assert!(samples.contains_key(&key), "{name} is missing");
    }
    // `pending_gets` is a method.
    assert_eq!(samples.len(), names.len() + 1);
}

#[tokio::test]
async fn other_paths_are_not_found() {
    let (head, _) = request(listener().await, "/", String::new()).await;
    assert!(head.starts_with("HTTP/1.1 404 Not Found\r\n"));
}
