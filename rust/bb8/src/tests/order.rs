//! The order in which waiting gets are served: by default the first to ask, and with `fair_after`
//! the one that waits longest.

use crate::core::Reason;
use crate::getting::Getting;
use crate::{ManageConnection, Pool, PooledConnection, RunError};
use futures_util::task::noop_waker;
use std::future::Future;
use std::pin::Pin;
use std::sync::atomic::{AtomicU32, Ordering};
use std::sync::Arc;
use std::task::{Context, Poll, Wake, Waker};
use std::time::Duration;

#[derive(Debug)]
struct Invalid;

/// Its connections are numbered. The next checks may fail, and the next returns be of broken ones.
#[derive(Default)]
struct Numbered {
    opened: AtomicU32,
    fails: Arc<AtomicU32>,
    breaks: Arc<AtomicU32>,
}

/// Counts down. Returns whether something was left.
fn counts_down(left: &AtomicU32) -> bool {
    let less = |left: u32| left.checked_sub(1);
    left.fetch_update(Ordering::SeqCst, Ordering::SeqCst, less)
        .is_ok()
}

impl ManageConnection for Numbered {
    type Connection = u32;
    type Error = Invalid;

    async fn connect(&self) -> Result<u32, Invalid> {
        Ok(self.opened.fetch_add(1, Ordering::SeqCst))
    }

    async fn is_valid(&self, _: &mut u32) -> Result<(), Invalid> {
        if counts_down(&self.fails) {
            return Err(Invalid);
        }
        Ok(())
    }

    fn has_broken(&self, _: &mut u32) -> bool {
        counts_down(&self.breaks)
    }
}

/// Counts how often it is woken.
#[derive(Default)]
struct Woken(AtomicU32);

impl Wake for Woken {
    fn wake(self: Arc<Self>) {
        self.0.fetch_add(1, Ordering::SeqCst);
    }
}

type Got = Result<PooledConnection<'static, Numbered>, RunError<Invalid>>;

/// A get that is polled by hand.
struct Hand {
    get: Pin<Box<dyn Future<Output = Got>>>,
    woken: Arc<Woken>,
}

impl Hand {
    fn of(pool: &Pool<Numbered>) -> Self {
        let pool = pool.clone();
        Hand {
            get: Box::pin(async move { pool.get_owned().await }),
            woken: Arc::default(),
        }
    }

    /// Returns a get that has been polled and waits.
    fn waiting(pool: &Pool<Numbered>) -> Self {
        let mut hand = Hand::of(pool);
        assert!(hand.poll().is_none());
        hand
    }

    fn poll(&mut self) -> Option<Got> {
        let waker = Waker::from(self.woken.clone());
        match self.get.as_mut().poll(&mut Context::from_waker(&waker)) {
            Poll::Ready(got) => Some(got),
            Poll::Pending => None,
        }
    }

    fn woken(&self) -> u32 {
        self.woken.0.load(Ordering::SeqCst)
    }
}

/// A pool of one connection, which is open.
async fn pool(check: bool, fair_after: Option<Duration>) -> Pool<Numbered> {
    pool_of(Numbered::default(), check, fair_after).await
}

async fn pool_of(manager: Numbered, check: bool, fair_after: Option<Duration>) -> Pool<Numbered> {
    Pool::builder()
        .max_size(1)
        .min_idle(1)
        .test_on_check_out(check)
        .fair_after(fair_after)
        .connection_timeout(Duration::from_secs(1))
        // So nothing but `fair_after` asks for the moment.
        .max_lifetime(None)
        .idle_timeout(None)
        .build(manager)
        .await
        .unwrap()
}

/// Every step is that of the replay, and no get is left in the core.
fn assert_calm(pool: &Pool<Numbered>) {
    let state = pool.state();
    assert_eq!(state.statistics.pending_gets(), 0);
    assert_eq!((state.connections, state.idle_connections), (1, 1));
    pool.shared().lock().core.judge();
}

#[tokio::test(start_paused = true)]
async fn a_new_get_overtakes_a_woken_one() {
    let pool = pool(false, None).await;
    let conn = pool.get().await.unwrap();
    let mut first = Hand::waiting(&pool);
    drop(conn);
    let newer = pool.get().await;
    assert!(newer.is_ok() && first.woken() == 1 && first.poll().is_none());
    drop(newer);
    assert!(first.poll().is_some());
    assert_calm(&pool);
}

#[tokio::test(start_paused = true)]
async fn gets_are_served_in_their_order() {
    for check in [false, true] {
        let pool = pool(check, Some(Duration::ZERO)).await;
        let mut conn = Some(pool.get_owned().await);
        let mut waiting: Vec<Hand> = (0..5).map(|_| Hand::waiting(&pool)).collect();
        for turn in 0..5 {
            drop(conn.take());
            // The connection was handed off to the oldest, and no other gets it, old or new.
            for (place, hand) in waiting.iter_mut().enumerate().rev() {
                assert_eq!(hand.woken(), u32::from(place == 0), "turn {turn}");
                conn = hand.poll();
                assert_eq!(conn.is_some(), place == 0, "turn {turn}");
            }
            waiting.remove(0);
            waiting.push(Hand::waiting(&pool));
        }
        drop((waiting, conn));
        let state = pool.state().statistics;
        assert_eq!((state.get_waited, state.get_cancelled), (5, 5));
        assert_calm(&pool);
    }
}

#[tokio::test(start_paused = true)]
async fn a_dropped_get_passes_its_connection_on() {
    for check in [false, true] {
        let pool = pool(check, Some(Duration::ZERO)).await;
        let conn = pool.get().await.unwrap();
        let first = Hand::waiting(&pool);
        let mut second = Hand::waiting(&pool);
        drop(conn);
        assert_eq!((first.woken(), second.woken()), (1, 0));
        drop(first);
        assert_eq!(second.woken(), 1);
        let got = second.poll();
        assert!(matches!(got, Some(Ok(_))));
        drop(got);
        // With the check on it was cancelled before it was served.
        let state = pool.state().statistics;
        let counts = (state.get_waited, state.get_cancelled);
        assert_eq!(counts, if check { (1, 1) } else { (2, 0) });
        assert_calm(&pool);
    }
}

#[tokio::test(start_paused = true)]
async fn a_connection_handed_off_in_time_is_served_after_the_deadline() {
    for check in [false, true] {
        let pool = pool(check, Some(Duration::ZERO)).await;
        let conn = pool.get().await.unwrap();
        let mut first = Hand::waiting(&pool);
        tokio::time::advance(Duration::from_millis(900)).await;
        drop(conn);
        tokio::time::advance(Duration::from_millis(900)).await;
        let waited = pool.state().statistics.get_wait_time;
        assert!(matches!(first.poll(), Some(Ok(_))));
        let after = pool.state().statistics.get_wait_time;
        // The wait ends with the hand-over, or with the check that it leads to.
        let due = [waited, after].map(|span| span.as_millis());
        assert_eq!(due, if check { [0, 1800] } else { [900, 900] });
        assert_calm(&pool);
    }
}

#[tokio::test(start_paused = true)]
async fn a_connection_handed_off_at_the_deadline_is_served_or_returned() {
    for check in [false, true] {
        let pool = pool(check, Some(Duration::ZERO)).await;
        let conn = pool.get().await.unwrap();
        let mut getting = Getting::new(pool.shared());
        let at = pool.shared().now();
        let tried = getting.begin::<true>(at, &mut Some(noop_waker()));
        assert!(tried.is_none());
        // Between its last try and its timeout the get is handed the connection.
        drop(conn);
        let got = getting.end(Reason::TimedOut);
        assert_eq!(got.is_some(), !check);
        if let Some(checkout) = got {
            pool.shared().release(checkout);
        }
        let state = pool.state().statistics;
        let counts = (state.get_waited, state.get_timed_out);
        assert_eq!(counts, if check { (0, 1) } else { (1, 0) });
        drop(getting);
        assert_calm(&pool);
    }
}

#[tokio::test(start_paused = true)]
async fn wait_time_counts_from_the_first_wait() {
    for check in [false, true] {
        let pool = pool(check, None).await;
        let conn = pool.get().await.unwrap();
        tokio::time::advance(Duration::from_secs(5)).await;
        let mut first = Hand::waiting(&pool);
        tokio::time::advance(Duration::from_millis(100)).await;
        drop(conn);
        assert!(matches!(first.poll(), Some(Ok(_))));
        let waited = pool.state().statistics.get_wait_time;
        assert_eq!(waited, Duration::from_millis(100));
        assert_calm(&pool);
    }
}

#[tokio::test(start_paused = true)]
async fn only_a_get_that_waited_for_fair_after_is_handed_a_connection() {
    let pool = pool(false, Some(Duration::from_millis(1))).await;
    tokio::time::advance(Duration::from_secs(5)).await;
    let mut newer = pool.get().await.unwrap();
    let mut first = Hand::waiting(&pool);
    for _ in 0..2 {
        drop(newer);
        newer = pool.get().await.unwrap();
        assert!(first.poll().is_none());
    }
    tokio::time::advance(Duration::from_millis(1)).await;
    drop(newer);
    assert!(Hand::of(&pool).poll().is_none());
    assert!(matches!(first.poll(), Some(Ok(_))));
    assert_calm(&pool);
}

#[tokio::test(start_paused = true)]
async fn a_failed_check_goes_on_by_itself() {
    let manager = Numbered::default();
    let fails = manager.fails.clone();
    let pool = pool_of(manager, true, Some(Duration::ZERO)).await;
    let conn = pool.get().await.unwrap();
    let gets: Vec<_> = (0..4)
        .map(|_| {
            tokio::spawn({
                let pool = pool.clone();
                async move { pool.get().await.map(|conn| *conn) }
            })
        })
        .collect();
    tokio::task::yield_now().await;
    fails.store(3, Ordering::SeqCst);
    drop(conn);
    for get in gets {
        assert!(get.await.unwrap().is_ok());
    }
    let state = pool.state().statistics;
    assert_eq!((state.get_waited, state.connections_closed_invalid), (4, 3));
    assert_calm(&pool);
}

#[tokio::test(start_paused = true)]
async fn a_connection_is_opened_for_a_waiting_get() {
    for check in [false, true] {
        let manager = Numbered::default();
        let breaks = manager.breaks.clone();
        // Nothing is wanted but what a get asks for.
        let builder = Pool::builder().max_size(1).test_on_check_out(check);
        let pool = builder.fair_after(Duration::ZERO).build(manager).await;
        let pool = pool.unwrap();
        let conn = pool.get().await.unwrap();
        let waiting = tokio::spawn({
            let pool = pool.clone();
            async move { pool.get().await.map(|conn| *conn) }
        });
        tokio::task::yield_now().await;
        breaks.store(1, Ordering::SeqCst);
        drop(conn);
        assert!(matches!(waiting.await.unwrap(), Ok(1)));
        assert_calm(&pool);
    }
}
