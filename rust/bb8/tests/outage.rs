//! Outages: connections that freeze, attempts that never answer, and slow destructors.

use bb8::{ManageConnection, Pool, PooledConnection, RunError, State};
use futures_util::future::join_all;
use std::future::pending;
use std::sync::atomic::{AtomicBool, AtomicU32, AtomicU64, Ordering::SeqCst};
use std::sync::Arc;
use std::thread;
use std::time::Duration;
use tokio::time::{sleep, Instant};

const fn millis(millis: u64) -> Duration {
    Duration::from_millis(millis)
}

/// A server. Its connections freeze in a failover; those that are opened later are well.
#[derive(Default)]
struct Server {
    opened: AtomicU32,
    frozen: AtomicU32,
    is_silent: AtomicBool,
    /// How long an attempt takes, in milliseconds.
    connect_takes: AtomicU64,
    drop_takes: Duration,
    alive: AtomicU32,
    most_alive: AtomicU32,
}

impl Server {
    /// Freezes the connections that exist.
    fn fail_over(&self) {
        self.frozen.store(self.opened.load(SeqCst), SeqCst);
    }
}

struct Connection {
    number: u32,
    server: Arc<Server>,
}

impl Drop for Connection {
    fn drop(&mut self) {
        thread::sleep(self.server.drop_takes);
        self.server.alive.fetch_sub(1, SeqCst);
    }
}

struct Manager(Arc<Server>);

impl ManageConnection for Manager {
    type Connection = Connection;
    type Error = ();

    async fn connect(&self) -> Result<Connection, ()> {
        let server = &self.0;
        if server.is_silent.load(SeqCst) {
            pending::<()>().await;
        }
        sleep(millis(server.connect_takes.load(SeqCst))).await;
        let alive = server.alive.fetch_add(1, SeqCst) + 1;
        server.most_alive.fetch_max(alive, SeqCst);
        Ok(Connection {
            number: server.opened.fetch_add(1, SeqCst),
            server: server.clone(),
        })
    }

    async fn is_valid(&self, conn: &mut Connection) -> Result<(), ()> {
        tokio::task::yield_now().await;
        if conn.number < self.0.frozen.load(SeqCst) {
            pending::<()>().await;
        }
        Ok(())
    }

    fn has_broken(&self, _: &mut Connection) -> bool {
        false
    }
}

/// Whether every connection is accounted for.
fn balances(state: &State) -> bool {
    let counts = &state.statistics;
    let ended = counts.connections_closed + counts.connections_detached;
    counts.connections_created + counts.connections_added == ended + u64::from(state.connections)
}

/// Gets at once: how many were served, and the longest time of one.
async fn gets(pool: &Pool<Manager>, count: u32) -> (usize, Duration) {
    let get = |_| async {
        let start = Instant::now();
        let is_served = match pool.get().await {
            Ok(conn) => {
                sleep(millis(1)).await;
                drop(conn);
                true
            }
            Err(error) => {
                assert_eq!(error, RunError::TimedOut);
                false
            }
        };
        (is_served, start.elapsed())
    };
    let all = join_all((0..count).map(get)).await;
    let served = all.iter().filter(|(is_served, _)| *is_served).count();
    let longest = all.iter().map(|(_, took)| *took).max();
    (served, longest.unwrap())
}

/// A pool of eight open connections, which froze.
async fn frozen(test_timeout: Option<Duration>) -> (Pool<Manager>, Arc<Server>) {
    let server: Arc<Server> = Arc::default();
    let builder = Pool::builder().max_size(8).min_idle(8);
    let builder = builder
        .connection_timeout(millis(1500))
        .test_timeout(test_timeout);
    let pool = builder.build(Manager(server.clone())).await.unwrap();
    assert_eq!(gets(&pool, 8).await.0, 8);
    server.fail_over();
    (pool, server)
}

#[tokio::test(start_paused = true)]
async fn one_timeout_after_a_failover_gets_are_served_again() {
    let (pool, server) = frozen(None).await;
    assert_eq!(gets(&pool, 8).await, (0, millis(1500)));
    let (served, longest) = gets(&pool, 32).await;
    assert!(served == 32 && longest < millis(20), "{longest:?}");
    let state = pool.state();
    let counts = &state.statistics;
    let closed = (counts.connections_closed, counts.connections_closed_broken);
    assert_eq!((counts.checks_timed_out, closed), (8, (8, 8)));
    assert!(balances(&state));
    assert_eq!(server.alive.load(SeqCst), state.connections);
}

#[tokio::test(start_paused = true)]
async fn with_a_test_timeout_every_get_is_served_after_a_failover() {
    let (pool, server) = frozen(Some(millis(200))).await;
    let (served, longest) = gets(&pool, 32).await;
    assert!(served == 32 && longest < millis(500), "{longest:?}");
    let state = pool.state();
    let counts = &state.statistics;
    let closed = (counts.connections_closed, counts.connections_closed_invalid);
    assert_eq!((counts.checks_timed_out, closed), (8, (8, 8)));
    assert!(balances(&state));
    assert_eq!(server.alive.load(SeqCst), state.connections);
}

#[tokio::test(start_paused = true)]
async fn a_check_that_is_cancelled_closes_its_connection() {
    let (pool, _server) = frozen(None).await;
    let got = tokio::time::timeout(millis(100), pool.get()).await;
    assert!(got.is_err());
    let counts = pool.state().statistics;
    assert_eq!((counts.get_cancelled, counts.get_timed_out), (1, 0));
    assert_eq!(
        (counts.connections_closed_broken, counts.checks_timed_out),
        (1, 0)
    );
}

#[tokio::test(start_paused = true)]
async fn attempts_that_never_answer_free_their_slots() {
    let server: Arc<Server> = Arc::default();
    server.is_silent.store(true, SeqCst);
    let builder = Pool::builder().max_size(2).connect_timeout(millis(300));
    let pool = builder.build(Manager(server.clone())).await.unwrap();
    let waiting = tokio::spawn({
        let pool = pool.clone();
        async move { gets(&pool, 2).await }
    });
    sleep(millis(200)).await;
    assert_eq!(
        (pool.state().pending_connections, pool.state().connections),
        (2, 0)
    );
    sleep(millis(200)).await;
    assert_eq!(pool.state().statistics.connections_failed, 2);
    server.is_silent.store(false, SeqCst);
    // The back-off after the first failure is 400 ms.
    let (served, longest) = waiting.await.unwrap();
    assert_eq!((served, longest.as_millis() / 100), (2, 7));
    assert_eq!(pool.state().pending_connections, 0);
}

/// The first attempt may take the `connection_timeout`, a second. Each that is cut off doubles the
/// limit; after it come pauses of 400, 500 and 500 ms. One that takes less than a second resets it.
#[tokio::test(start_paused = true)]
async fn connections_that_open_slowly_are_opened_in_the_end() {
    let server: Arc<Server> = Arc::default();
    let builder = Pool::builder().connection_timeout(millis(1000));
    let pool = builder.build(Manager(server.clone())).await.unwrap();
    // How long connecting takes, until when the get is served, how many attempts have failed.
    let slow = 1000 + 400 + 2000 + 500 + 3000;
    for (takes, served, failed) in [
        (3000, slow, 2),
        (3000, 3000, 2),
        (100, 100, 2),
        (3000, slow, 4),
    ] {
        server.connect_takes.store(takes, SeqCst);
        let start = Instant::now();
        let conn = pool.get_timeout(millis(20_000)).await.unwrap();
        assert_eq!(start.elapsed(), millis(served));
        assert_eq!(pool.state().statistics.connections_failed, failed);
        PooledConnection::detach(conn);
    }
}

/// The attempts take 1, 2, 4, 8, 16, 30 and 30 seconds, and the pauses 400 ms and then 500: the
/// seventh fails after 93.9 seconds.
#[tokio::test(start_paused = true)]
async fn no_attempt_is_given_more_than_30_seconds() {
    let server: Arc<Server> = Arc::default();
    server.is_silent.store(true, SeqCst);
    let builder = Pool::builder().connection_timeout(millis(1000));
    let pool = builder.build(Manager(server)).await.unwrap();
    assert!(pool.get_timeout(millis(93_950)).await.is_err());
    assert_eq!(pool.state().statistics.connections_failed, 7);
}

#[tokio::test(start_paused = true)]
async fn the_first_connections_may_take_any_time() {
    let server = Arc::new(Server {
        connect_takes: AtomicU64::new(5000),
        ..Server::default()
    });
    let builder = Pool::builder()
        .min_idle(1)
        .connection_timeout(Duration::from_secs(1));
    let pool = builder.build(Manager(server)).await.unwrap();
    assert_eq!(pool.state().connections, 1);
}

#[tokio::test(flavor = "multi_thread", worker_threads = 4)]
async fn no_more_than_max_size_are_alive_however_long_a_drop_takes() {
    let server = Arc::new(Server {
        drop_takes: millis(30),
        ..Server::default()
    });
    let builder = Pool::builder().max_size(4).min_idle(2);
    let pool = builder
        .max_lifetime(millis(10))
        .idle_timeout(millis(5))
        .reaper_rate(millis(3))
        .build(Manager(server.clone()))
        .await
        .unwrap();
    let rounds = |_| {
        let pool = pool.clone();
        tokio::spawn(async move {
            for _ in 0..40 {
                let conn = pool.get().await.unwrap();
                sleep(millis(2)).await;
                drop(conn);
            }
        })
    };
    for task in (0..8).map(rounds).collect::<Vec<_>>() {
        task.await.unwrap();
    }
    let state = pool.state();
    let closed = state.statistics.connections_closed_max_lifetime;
    assert!(balances(&state) && closed > 20, "{state:?}");
    assert_eq!(server.most_alive.load(SeqCst), 4);
}
