//! The order in which waiting gets are served with `fair_after`. Clocks are paused, so each run is
//! the same.

use bb8::{ManageConnection, Pool, PooledConnection, RunError};
use futures_util::task::noop_waker;
use std::convert::Infallible;
use std::future::Future;
use std::pin::Pin;
use std::sync::atomic::{AtomicU32, Ordering::SeqCst};
use std::task::{Context, Poll};
use std::time::Duration;
use tokio::time::{sleep, Instant};

const MILLISECOND: Duration = Duration::from_millis(1);
const SECOND: Duration = Duration::from_secs(1);

struct Numbers(AtomicU32);

impl ManageConnection for Numbers {
    type Connection = u32;
    type Error = Infallible;

    async fn connect(&self) -> Result<u32, Infallible> {
        Ok(self.0.fetch_add(1, SeqCst))
    }

    async fn is_valid(&self, _: &mut u32) -> Result<(), Infallible> {
        Ok(())
    }

    fn has_broken(&self, _: &mut u32) -> bool {
        false
    }
}

type Got = Result<PooledConnection<'static, Numbers>, RunError<Infallible>>;

async fn pool(size: u32, check: bool, fair_after: impl Into<Option<Duration>>) -> Pool<Numbers> {
    let builder = Pool::builder().max_size(size).min_idle(size);
    let builder = builder.test_on_check_out(check).connection_timeout(SECOND);
    let built = builder.fair_after(fair_after).build(Numbers(0.into()));
    built.await.unwrap()
}

/// Of 32 tasks that share four connections for three seconds: the rounds of each, and how many
/// gets timed out.
async fn rounds(check: bool, fair_after: Option<Duration>) -> (Vec<u32>, u64) {
    let pool = pool(4, check, fair_after).await;
    let end = Instant::now() + 3 * SECOND;
    let task = |pool: Pool<Numbers>| async move {
        let mut rounds = 0;
        while Instant::now() < end {
            if let Ok(conn) = pool.get().await {
                sleep(MILLISECOND).await;
                drop(conn);
                rounds += 1;
            }
        }
        rounds
    };
    let tasks: Vec<_> = (0..32).map(|_| tokio::spawn(task(pool.clone()))).collect();
    let mut all = Vec::new();
    for task in tasks {
        all.push(task.await.unwrap());
    }
    all.sort_unstable();
    (all, pool.state().statistics.get_timed_out)
}

#[tokio::test(start_paused = true)]
async fn fair_after_prevents_starvation() {
    for check in [false, true] {
        for wait in [Duration::ZERO, MILLISECOND] {
            let (rounds, timed_out) = rounds(check, Some(wait)).await;
            let (least, most) = (rounds[0], rounds[31]);
            assert!(least > 100 && most - least < least / 10, "{rounds:?}");
            assert_eq!(timed_out, 0);
        }
    }
}

#[tokio::test(start_paused = true)]
async fn without_fair_after_tasks_may_starve() {
    let (rounds, timed_out) = rounds(false, None).await;
    assert!(rounds[0] == 0 && rounds[31] > 1000, "{rounds:?}");
    assert!(timed_out > 50, "{timed_out}");
}

/// A get that is polled by hand.
struct Hand(Pin<Box<dyn Future<Output = Got>>>);

impl Hand {
    fn new(pool: &Pool<Numbers>) -> Self {
        let pool = pool.clone();
        Hand(Box::pin(async move { pool.get_owned().await }))
    }

    /// One that was polled, and waits.
    fn waiting(pool: &Pool<Numbers>) -> Self {
        let mut hand = Hand::new(pool);
        assert!(hand.poll().is_none());
        hand
    }

    fn poll(&mut self) -> Option<Got> {
        match self
            .0
            .as_mut()
            .poll(&mut Context::from_waker(&noop_waker()))
        {
            Poll::Ready(got) => Some(got),
            Poll::Pending => None,
        }
    }
}

#[tokio::test(start_paused = true)]
async fn a_handed_off_connection_stays_with_its_get() {
    for fair_after in [None, Some(Duration::ZERO)] {
        let pool = pool(1, false, fair_after).await;
        let conn = pool.get().await.unwrap();
        let mut kept = Hand::waiting(&pool);
        drop(conn);
        // A fair pool has handed it to the get that is kept and not polled.
        assert_eq!(pool.get().await.is_ok(), fair_after.is_none());
        assert!(matches!(kept.poll(), Some(Ok(_))));
        assert_eq!(pool.config().fair_after, fair_after);
    }
}
