//! Refused memory is reported as an error.

use crate::{AddError, ManageConnection, Pool, RunError};
use bb8_core::kit::refusals::granting;
use futures_util::FutureExt;
use std::convert::Infallible;
use std::sync::atomic::{AtomicU32, Ordering};
use std::sync::Arc;
use std::time::Duration;

struct Counted(Arc<AtomicU32>);

impl Drop for Counted {
    fn drop(&mut self) {
        self.0.fetch_sub(1, Ordering::SeqCst);
    }
}

struct Counting(Arc<AtomicU32>);

impl Counting {
    fn open(&self) -> Counted {
        self.0.fetch_add(1, Ordering::SeqCst);
        Counted(self.0.clone())
    }
}

impl ManageConnection for Counting {
    type Connection = Counted;
    type Error = Infallible;

    async fn connect(&self) -> Result<Counted, Infallible> {
        Ok(self.open())
    }

    async fn is_valid(&self, _: &mut Counted) -> Result<(), Infallible> {
        Ok(())
    }

    fn has_broken(&self, _: &mut Counted) -> bool {
        false
    }
}

#[tokio::test]
async fn get_and_add_report_refused_memory() {
    let open = Arc::new(AtomicU32::new(0));
    let pool = Pool::builder()
        .max_size(2)
        .build_unchecked(Counting(open.clone()));
    let refused = granting(0, || pool.get().now_or_never());
    assert!(matches!(refused, Some(Err(RunError::Memory))));
    let refused = granting(0, || pool.add(Counting(open.clone()).open()));
    assert!(matches!(refused, Err(AddError::Withheld(_))));
    drop(refused);
    let state = pool.state();
    assert_eq!((state.connections, state.statistics.get_started), (0, 0));
    assert!(pool.add(Counting(open.clone()).open()).is_ok());
    assert!(pool.get().await.is_ok());
    assert_eq!(open.load(Ordering::SeqCst), 1);
}

#[tokio::test]
async fn try_get_reports_refused_memory() {
    for check in [false, true] {
        let open = Arc::new(AtomicU32::new(0));
        let builder = Pool::builder().min_idle(1).test_on_check_out(check);
        let pool = builder.build(Counting(open.clone())).await.unwrap();
        // It is the first get, for which there is no entry yet.
        let refused = granting(0, || pool.try_get().now_or_never());
        assert!(matches!(refused, Some(Err(RunError::Memory))));
        drop(refused);
        assert_eq!(pool.state().statistics.get_started, 0);
        assert!(matches!(pool.try_get().await, Ok(Some(_))));
        assert!(pool.shared().lock().core.judge() > 3);
    }
}

#[tokio::test(start_paused = true)]
async fn the_next_reap_makes_up_for_one_without_memory() {
    let open = Arc::new(AtomicU32::new(0));
    let pool = Pool::builder()
        .max_size(3)
        .min_idle(1)
        .idle_timeout(Duration::from_secs(1))
        .build(Counting(open.clone()))
        .await
        .unwrap();
    assert!(pool.add(Counting(open.clone()).open()).is_ok());
    assert!(pool.add(Counting(open.clone()).open()).is_ok());
    tokio::time::advance(Duration::from_secs(1)).await;
    granting(0, || pool.shared().reap());
    assert_eq!(open.load(Ordering::SeqCst), 3);
    pool.shared().reap();
    assert_eq!(open.load(Ordering::SeqCst), 1);
    granting(0, || drop(pool));
    assert_eq!(open.load(Ordering::SeqCst), 0);
}

#[tokio::test(start_paused = true)]
async fn retire_and_close_without_memory_change_nothing() {
    let open = Arc::new(AtomicU32::new(0));
    let builder = Pool::builder().max_size(3).min_idle(3);
    let pool = builder.build(Counting(open.clone())).await.unwrap();
    granting(0, || pool.retire());
    granting(0, || pool.close_now());
    assert!(!pool.is_closed());
    assert_eq!(open.load(Ordering::SeqCst), 3);
    let mut closing = Box::pin(pool.close());
    assert!(granting(0, || closing.as_mut().now_or_never()).is_none());
    assert!(!pool.is_closed());
    // It tries again after a millisecond.
    closing.await;
    assert!(pool.is_closed());
    let counts = pool.state().statistics;
    let closed = (counts.connections_closed, counts.connections_closed_retired);
    assert_eq!((open.load(Ordering::SeqCst), closed), (0, (3, 0)));
    assert!(pool.shared().lock().core.judge() > 3);
}

/// Three gets and an add over a pool. Each may be refused.
async fn use_of(pool: &Pool<Counting>, open: &Arc<AtomicU32>) {
    let _refused = pool.add(Counting(open.clone()).open());
    let gets = futures_util::future::join_all((0..3).map(|_| pool.get()));
    for got in gets.await {
        assert!(matches!(
            got,
            Ok(_) | Err(RunError::Memory | RunError::TimedOut)
        ));
    }
}

#[test]
fn nothing_is_lost_whichever_request_is_refused() {
    for (requests, fair_after) in (0..80).map(|n| (n / 2, (n % 2 > 0).then_some(Duration::ZERO))) {
        let mut builder = tokio::runtime::Builder::new_current_thread();
        let runtime = builder.enable_time().start_paused(true).build().unwrap();
        let open = Arc::new(AtomicU32::new(0));
        runtime.block_on(async {
            let pool = Pool::builder()
                .max_size(4)
                .min_idle(1)
                .fair_after(fair_after)
                .connection_timeout(Duration::from_secs(1))
                .build_unchecked(Counting(open.clone()));
            tokio::task::yield_now().await;
            // Memory is refused in the polls of this one task and of the connection attempts.
            let _used = granting(requests, || use_of(&pool, &open).now_or_never());
            use_of(&pool, &open).await;
            tokio::time::sleep(Duration::from_secs(5)).await;
            let state = pool.state();
            assert_eq!(state.statistics.pending_gets(), 0);
            assert_eq!(state.connections, open.load(Ordering::SeqCst));
            assert_eq!(state.connections, state.idle_connections);
        });
        assert_eq!(open.load(Ordering::SeqCst), 0);
    }
}

#[tokio::test(start_paused = true)]
async fn the_replay_follows_a_pool_with_two_checked_out() {
    let open = Arc::new(AtomicU32::new(0));
    let pool = Pool::builder()
        .max_size(2)
        .build(Counting(open.clone()))
        .await
        .unwrap();
    let first = pool.get().await.unwrap();
    let second = pool.get().await.unwrap();
    drop((first, second));
    assert!(pool.shared().lock().core.judge() > 8);
}

#[tokio::test(start_paused = true)]
#[should_panic(expected = "Event { at: ")]
async fn the_replay_refuses_a_wrong_result() {
    let open = Arc::new(AtomicU32::new(0));
    let pool = Pool::builder().build(Counting(open)).await.unwrap();
    drop(pool.get().await.unwrap());
    let mut locked = pool.shared().lock();
    locked.core.falsify();
    locked.core.judge();
}
