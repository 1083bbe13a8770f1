//! `test_on_check_out_after`: fresh connections are checked out unchecked. Clocks are paused.

use bb8::{Builder, ManageConnection, Pool};
use futures_util::FutureExt;
use std::convert::Infallible;
use std::future::pending;
use std::sync::atomic::{AtomicBool, AtomicU32, Ordering::SeqCst};
use std::sync::Arc;
use std::time::Duration;
use tokio::time::{sleep, timeout};

const SECOND: Duration = Duration::from_secs(1);
const MILLI: Duration = Duration::from_millis(1);

/// How many checks began, and whether they hang.
#[derive(Default)]
struct Checks {
    begun: AtomicU32,
    hang: AtomicBool,
}

struct Manager(Arc<Checks>);

impl ManageConnection for Manager {
    type Connection = ();
    type Error = Infallible;

    async fn connect(&self) -> Result<(), Infallible> {
        Ok(())
    }

    async fn is_valid(&self, _: &mut ()) -> Result<(), Infallible> {
        self.0.begun.fetch_add(1, SeqCst);
        if self.0.hang.load(SeqCst) {
            pending::<()>().await;
        }
        Ok(())
    }

    fn has_broken(&self, _: &mut ()) -> bool {
        false
    }
}

/// A pool of one connection, without limits on ages, so that nothing else needs the clock. A
/// connection is fresh for a second.
fn builder() -> Builder<Manager> {
    Pool::builder()
        .max_size(1)
        .max_lifetime(None)
        .idle_timeout(None)
        .test_on_check_out_after(SECOND)
}

/// The pool, and how many checks began.
async fn pool(builder: Builder<Manager>) -> (Pool<Manager>, Arc<Checks>) {
    let checks: Arc<Checks> = Arc::default();
    let pool = builder.build(Manager(checks.clone())).await.unwrap();
    assert!(pool.add(()).is_ok());
    (pool, checks)
}

#[tokio::test(start_paused = true)]
async fn a_fresh_connection_is_not_checked_and_a_stale_one_is() {
    let limits: fn() -> Builder<Manager> = || builder().idle_timeout(600 * SECOND);
    let fair: fn() -> Builder<Manager> = || builder().fair_after(Duration::ZERO);
    for builder in [builder, limits, fair] {
        let (pool, checks) = pool(builder()).await;
        let began = || checks.begun.load(SeqCst);
        // It was added just now, then returned just now, then almost a second ago.
        drop(pool.get().await.unwrap());
        drop(pool.try_get().await.unwrap().unwrap());
        sleep(SECOND - MILLI).await;
        drop(pool.get().await.unwrap());
        sleep(SECOND - MILLI).await;
        drop(pool.try_get().await.unwrap().unwrap());
        assert_eq!(began(), 0);
        sleep(SECOND).await;
        drop(pool.get().await.unwrap());
        assert_eq!(began(), 1);
        // That one was returned just now.
        drop(pool.get_owned().await.unwrap());
        assert_eq!(began(), 1);
        sleep(SECOND).await;
        drop(pool.try_get().await.unwrap().unwrap());
        assert_eq!(began(), 2);
        // How long it was checked out does not matter.
        let conn = pool.get().await.unwrap();
        sleep(100 * SECOND).await;
        drop(conn);
        drop(pool.get().await.unwrap());
        assert_eq!(began(), 2);
        assert_eq!(pool.state().statistics.get_direct, 9);
    }
}

#[tokio::test(start_paused = true)]
async fn a_get_that_waits_is_served_unchecked_with_what_is_fresh() {
    for fair_after in [None, Some(Duration::ZERO)] {
        let (pool, checks) = pool(builder().fair_after(fair_after)).await;
        let conn = pool.get_owned().await.unwrap();
        let waiting = tokio::spawn({
            let pool = pool.clone();
            async move { pool.get().await.map(drop) }
        });
        sleep(5 * SECOND).await;
        drop(conn);
        waiting.await.unwrap().unwrap();
        assert_eq!(checks.begun.load(SeqCst), 0, "{fair_after:?}");
        let counts = pool.state().statistics;
        assert_eq!((counts.get_waited, counts.get_wait_time), (1, 5 * SECOND));
    }
}

#[tokio::test(start_paused = true)]
async fn a_woken_get_that_is_polled_late_checks_what_became_stale() {
    let (pool, checks) = pool(builder()).await;
    let conn = pool.get().await.unwrap();
    let mut get = Box::pin(pool.get());
    assert!(get.as_mut().now_or_never().is_none());
    drop(conn);
    sleep(SECOND).await;
    drop(get.await.unwrap());
    assert_eq!(checks.begun.load(SeqCst), 1);
}

#[tokio::test(start_paused = true)]
async fn a_connection_just_opened_is_not_checked() {
    let checks: Arc<Checks> = Arc::default();
    let pool = builder().build(Manager(checks.clone())).await.unwrap();
    drop(pool.get().await.unwrap());
    assert_eq!(checks.begun.load(SeqCst), 0);
}

#[tokio::test(start_paused = true)]
async fn a_check_that_is_cut_off_closes_its_connection() {
    let (pool, checks) = pool(builder()).await;
    sleep(SECOND).await;
    checks.hang.store(true, SeqCst);
    assert!(timeout(MILLI, pool.get()).await.is_err());
    let counts = pool.state().statistics;
    assert_eq!(
        (counts.connections_closed_broken, counts.get_cancelled),
        (1, 1)
    );
}

#[tokio::test(start_paused = true)]
async fn without_the_setting_or_with_ends_of_their_own_all_are_checked() {
    let each: fn() -> Builder<Manager> = || builder().test_on_check_out_after(Duration::ZERO);
    let ends: fn() -> Builder<Manager> = || {
        let limited = builder().max_lifetime(1000 * SECOND);
        limited.max_lifetime_jitter(0.1)
    };
    for builder in [each, ends] {
        let (pool, checks) = pool(builder()).await;
        for _ in 0..3 {
            drop(pool.get().await.unwrap());
            drop(pool.try_get().await.unwrap().unwrap());
        }
        assert_eq!(checks.begun.load(SeqCst), 6);
    }
}

#[tokio::test(start_paused = true)]
async fn without_the_check_none_is_checked() {
    let (pool, checks) = pool(builder().test_on_check_out(false)).await;
    for _ in 0..3 {
        sleep(10 * SECOND).await;
        drop(pool.get().await.unwrap());
    }
    assert_eq!(checks.begun.load(SeqCst), 0);
    assert_eq!(pool.config().test_on_check_out_after, SECOND);
}
