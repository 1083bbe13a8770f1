//! `try_get` and `get_timeout`. Clocks are paused, so each run is the same.

use bb8::{ManageConnection, Pool, RunError};
use futures_util::task::noop_waker;
use std::future::{pending, Future};
use std::pin::{pin, Pin};
use std::sync::atomic::{AtomicU32, Ordering::SeqCst};
use std::sync::Arc;
use std::task::Context;
use std::thread::spawn;
use std::time::Duration;
use tokio::time::{sleep, timeout, Instant};

const SECOND: Duration = Duration::from_secs(1);
const CHECKS: [bool; 2] = [false, true];

/// The connections of a test, numbered from 0 on. Checks fail below a number, and hang below
/// another.
#[derive(Debug, Default)]
struct World {
    opened: AtomicU32,
    dropped: AtomicU32,
    invalid: AtomicU32,
    hanging: AtomicU32,
}

struct Connection(u32, Arc<World>);

impl Drop for Connection {
    fn drop(&mut self) {
        self.1.dropped.fetch_add(1, SeqCst);
    }
}

struct Manager(Arc<World>);

impl ManageConnection for Manager {
    type Connection = Connection;
    type Error = ();

    async fn connect(&self) -> Result<Connection, ()> {
        let number = self.0.opened.fetch_add(1, SeqCst);
        Ok(Connection(number, self.0.clone()))
    }

    async fn is_valid(&self, conn: &mut Connection) -> Result<(), ()> {
        if conn.0 < self.0.hanging.load(SeqCst) {
            pending::<()>().await;
        }
        if conn.0 < self.0.invalid.load(SeqCst) {
            return Err(());
        }
        Ok(())
    }

    fn has_broken(&self, _: &mut Connection) -> bool {
        false
    }
}

/// A pool with this many idle connections.
async fn pool(idle: u32, check: bool) -> (Pool<Manager>, Arc<World>) {
    let world: Arc<World> = Arc::default();
    let builder = Pool::builder().max_size(3).test_on_check_out(check);
    let builder = builder.connection_timeout(SECOND);
    let pool = builder.build(Manager(world.clone())).await.unwrap();
    for _ in 0..idle {
        assert!(pool
            .add(Manager(world.clone()).connect().await.unwrap())
            .is_ok());
    }
    (pool, world)
}

/// Started, direct, waited, timed out, cancelled.
fn counts(pool: &Pool<Manager>) -> [u64; 5] {
    let seen = pool.state().statistics;
    assert_eq!(seen.pending_gets(), 0);
    [
        seen.get_started,
        seen.get_direct,
        seen.get_waited,
        seen.get_timed_out,
        seen.get_cancelled,
    ]
}

/// Polls a future once: it is pending.
fn begins<T>(future: Pin<&mut impl Future<Output = T>>) {
    let waker = noop_waker();
    assert!(future.poll(&mut Context::from_waker(&waker)).is_pending());
}

#[tokio::test(start_paused = true)]
async fn try_get_of_an_empty_pool_counts_nowhere_and_opens_nothing() {
    for check in CHECKS {
        let (pool, world) = pool(0, check).await;
        assert!(pool.try_get().await.unwrap().is_none());
        assert!(pool.try_get_owned().await.unwrap().is_none());
        sleep(SECOND).await;
        let opened = (world.opened.load(SeqCst), pool.state().pending_connections);
        assert_eq!((opened, counts(&pool)), ((0, 0), [0; 5]), "{check}");
    }
}

#[tokio::test(start_paused = true)]
async fn try_get_takes_idle_connections_alone() {
    for check in CHECKS {
        let (pool, world) = pool(1, check).await;
        let conn = pool.try_get().await.unwrap();
        assert_eq!(conn.as_ref().map(|conn| conn.0), Some(0));
        assert!(pool.try_get().await.unwrap().is_none());
        drop(conn);
        let owned = pool.try_get_owned().await.unwrap();
        assert_eq!(counts(&pool), [2, 2, 0, 0, 0], "{check}");
        drop(pool);
        assert_eq!(
            (owned.map(|conn| conn.0), world.dropped.load(SeqCst)),
            (Some(0), 1)
        );
    }
}

#[tokio::test(start_paused = true)]
async fn try_get_does_not_wait() {
    for check in CHECKS {
        let (pool, _) = pool(3, check).await;
        let mut held = Vec::new();
        for _ in 0..3 {
            held.push(pool.get().await.unwrap());
        }
        assert!(pool.try_get().await.unwrap().is_none());
        let mut waiting = Box::pin(pool.get());
        begins(waiting.as_mut());
        assert!(pool.try_get().await.unwrap().is_none());
        let began = Instant::now();
        held.pop();
        assert_eq!(waiting.await.map(|conn| conn.0), Ok(2), "{check}");
        assert_eq!(began.elapsed(), Duration::ZERO);
        assert_eq!(counts(&pool), [4, 3, 1, 0, 0], "{check}");
    }
}

#[tokio::test(start_paused = true)]
async fn try_get_goes_on_after_a_failed_check() {
    let (pool, world) = pool(3, true).await;
    world.invalid.store(2, SeqCst);
    let conn = pool.try_get().await.unwrap();
    assert_eq!(conn.map(|conn| conn.0), Some(2));
    assert_eq!(world.dropped.load(SeqCst), 2);
    assert_eq!(pool.state().statistics.connections_closed_invalid, 2);
    assert_eq!(counts(&pool), [1, 1, 0, 0, 0]);
}

#[tokio::test(start_paused = true)]
async fn try_get_counts_as_cancelled_if_all_checks_fail() {
    let (pool, world) = pool(3, true).await;
    world.invalid.store(3, SeqCst);
    assert!(pool.try_get().await.unwrap().is_none());
    assert_eq!(
        (pool.state().connections, world.dropped.load(SeqCst)),
        (0, 3)
    );
    assert_eq!(counts(&pool), [1, 0, 0, 0, 1]);
    // It requests no connection, but a get does.
    sleep(SECOND).await;
    assert_eq!(world.opened.load(SeqCst), 3);
    assert!(pool.get().await.is_ok());
}

#[tokio::test(start_paused = true)]
async fn a_check_of_try_get_is_limited_by_connection_timeout() {
    let (pool, world) = pool(1, true).await;
    world.hanging.store(1, SeqCst);
    let began = Instant::now();
    assert!(pool.try_get().await.unwrap().is_none());
    assert_eq!((began.elapsed(), world.dropped.load(SeqCst)), (SECOND, 1));
    assert_eq!(counts(&pool), [1, 0, 0, 1, 0]);
}

#[tokio::test(start_paused = true)]
async fn try_get_dropped_in_its_check_frees_the_slot() {
    let (pool, world) = pool(3, true).await;
    world.hanging.store(3, SeqCst);
    {
        let tried = pin!(pool.try_get());
        begins(tried);
    }
    assert_eq!(
        (pool.state().connections, world.dropped.load(SeqCst)),
        (2, 1)
    );
    assert_eq!(counts(&pool), [1, 0, 0, 0, 1]);
}

#[tokio::test(start_paused = true)]
async fn try_get_refills_min_idle_after_a_step_outside_a_runtime() {
    for check in CHECKS {
        let world: Arc<World> = Arc::default();
        let builder = Pool::builder().test_on_check_out(check).min_idle(2);
        let builder = builder.max_lifetime(None).idle_timeout(None);
        let pool = builder.build(Manager(world.clone())).await.unwrap();
        let outside = pool.clone();
        spawn(move || outside.retire()).join().unwrap();
        assert_eq!(pool.state().connections, 0);
        assert!(pool.try_get().await.unwrap().is_none());
        sleep(SECOND).await;
        assert_eq!(pool.state().connections, 2);
        assert_eq!(pool.try_get().await.unwrap().unwrap().0, 2);
    }
}

fn is_sent<T: Send + Sync>(_: T) {}

#[tokio::test]
async fn futures_are_send() {
    let (pool, _) = pool(0, true).await;
    is_sent(pool.try_get());
    is_sent(pool.try_get_owned());
    is_sent(pool.get_timeout(SECOND));
    is_sent(pool.get_owned_timeout(SECOND));
}

/// How long a get of a time takes that nobody serves, and its result.
async fn late(pool: &Pool<Manager>, time: Duration) -> (Duration, Option<RunError<()>>) {
    let began = Instant::now();
    let got = pool.get_timeout(time).await;
    (began.elapsed(), got.err())
}

#[tokio::test(start_paused = true)]
async fn get_timeout_ends_at_its_own_time() {
    for check in CHECKS {
        let (pool, _) = pool(3, check).await;
        let mut held = Vec::new();
        for _ in 0..3 {
            held.push(pool.get().await.unwrap());
        }
        for time in [Duration::ZERO, SECOND / 4, 5 * SECOND] {
            let (took, error) = late(&pool, time).await;
            assert_eq!(error, Some(RunError::TimedOut));
            // A timer of tokio fires at the end of a millisecond.
            assert!(took >= time && took <= time + SECOND / 500, "{took:?}");
        }
        let owned = pool.get_owned_timeout(SECOND / 4).await;
        assert_eq!(owned.err(), Some(RunError::TimedOut));
        assert_eq!(counts(&pool), [7, 3, 0, 4, 0], "{check}");
    }
}

#[tokio::test(start_paused = true)]
async fn get_timeout_is_served_within_its_own_time() {
    for time in [3 * SECOND, Duration::MAX] {
        let (pool, _) = pool(3, true).await;
        let mut held = Vec::new();
        for _ in 0..3 {
            held.push(pool.get_owned_timeout(time).await.unwrap());
        }
        let returns = async {
            sleep(2 * SECOND).await;
            held.pop();
        };
        // It takes longer than `connection_timeout`.
        let (got, ()) = futures_util::join!(pool.get_timeout(time), returns);
        assert_eq!(got.map(|conn| conn.0), Ok(2));
        assert_eq!(counts(&pool), [4, 3, 1, 0, 0]);
    }
}

#[tokio::test(start_paused = true)]
async fn get_timeout_cuts_off_a_check() {
    let (pool, world) = pool(1, true).await;
    world.hanging.store(1, SeqCst);
    let (took, error) = late(&pool, SECOND / 4).await;
    assert_eq!((took, error), (SECOND / 4, Some(RunError::TimedOut)));
    let seen = pool.state().statistics;
    let closed = (
        seen.connections_closed_broken,
        seen.connections_closed_invalid,
    );
    assert_eq!((seen.checks_timed_out, closed), (1, (1, 0)));
    assert_eq!(counts(&pool), [1, 0, 0, 1, 0]);
}

#[tokio::test(start_paused = true)]
async fn a_timeout_around_get_counts_as_cancelled() {
    let (pool, _) = pool(3, false).await;
    let _held = [
        pool.get().await.unwrap(),
        pool.get().await.unwrap(),
        pool.get().await.unwrap(),
    ];
    assert!(timeout(SECOND / 4, pool.get()).await.is_err());
    assert_eq!(counts(&pool), [4, 3, 0, 0, 1]);
}
