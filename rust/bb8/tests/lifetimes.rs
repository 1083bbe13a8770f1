//! `max_lifetime_jitter`: connections that were opened together do not end together. Clocks are
//! paused. Ends are random: an assertion fails by chance less than once in a hundred million runs.

use bb8::{Builder, ManageConnection, Pool};
use std::convert::Infallible;
use std::sync::atomic::{AtomicU32, Ordering::SeqCst};
use std::sync::{Arc, Mutex};
use std::thread::spawn;
use std::time::Duration;
use tokio::runtime;
use tokio::time::{sleep, Instant};

const SECOND: Duration = Duration::from_secs(1);
const MILLISECOND: Duration = Duration::from_millis(1);
const CHECKS: [bool; 2] = [false, true];

/// How many connections were opened, and when each was closed, in the order of their ends.
struct World {
    started: Instant,
    opened: AtomicU32,
    closed: Mutex<Vec<Duration>>,
}

impl World {
    fn new() -> Arc<Self> {
        Arc::new(World {
            started: Instant::now(),
            opened: AtomicU32::new(0),
            closed: Mutex::default(),
        })
    }

    fn open(self: &Arc<Self>) -> Connection {
        self.opened.fetch_add(1, SeqCst);
        Connection(self.clone())
    }

    /// When the first eight connections were closed.
    fn first_eight(&self) -> [Duration; 8] {
        self.closed.lock().unwrap()[..8].try_into().unwrap()
    }
}

struct Connection(Arc<World>);

impl Drop for Connection {
    fn drop(&mut self) {
        let lived = self.0.started.elapsed();
        self.0.closed.lock().unwrap().push(lived);
    }
}

struct Manager(Arc<World>);

impl ManageConnection for Manager {
    type Connection = Connection;
    type Error = Infallible;

    async fn connect(&self) -> Result<Connection, Infallible> {
        Ok(self.0.open())
    }

    async fn is_valid(&self, _: &mut Connection) -> Result<(), Infallible> {
        Ok(())
    }

    fn has_broken(&self, _: &mut Connection) -> bool {
        false
    }
}

/// The settings of a pool of eight connections that live for at most 100 seconds.
fn eight(check: bool) -> Builder<Manager> {
    Pool::builder()
        .max_size(8)
        .test_on_check_out(check)
        .max_lifetime(100 * SECOND)
        .idle_timeout(None)
}

/// Takes out all eight connections and returns them, each second.
async fn use_each_second(pool: &Pool<Manager>, seconds: u32) {
    for _ in 0..seconds {
        let mut all = Vec::new();
        for _ in 0..8 {
            all.push(pool.get().await.unwrap());
        }
        drop(all);
        sleep(SECOND).await;
    }
}

#[tokio::test(start_paused = true)]
async fn eight_connections_do_not_end_in_one_second() {
    for (check, is_added) in [(false, false), (true, false), (true, true)] {
        let world = World::new();
        let builder = eight(check)
            .max_lifetime_jitter(0.5)
            .min_idle(if is_added { 0 } else { 8 });
        let pool = builder.build(Manager(world.clone())).await.unwrap();
        for _ in 0..if is_added { 8 } else { 0 } {
            assert!(pool.add(world.open()).is_ok());
        }
        use_each_second(&pool, 102).await;
        let ends = world.first_eight();
        assert!(
            ends[0] >= 50 * SECOND && ends[7] <= 100 * SECOND,
            "{ends:?}"
        );
        assert!(ends[7] - ends[0] > SECOND, "{ends:?}");
        let seen = pool.state().statistics;
        let by_get = seen.connections_closed_broken + seen.connections_closed_invalid;
        // One that a get closes at the age of 100 seconds counts as both.
        assert!(by_get + seen.connections_closed_max_lifetime >= seen.connections_closed);
    }
}

#[tokio::test(start_paused = true)]
async fn without_jitter_they_end_together() {
    let as_it_is: fn(_) -> _ = |builder: Builder<Manager>| builder;
    let of_none: fn(_) -> _ = |builder: Builder<Manager>| builder.max_lifetime_jitter(0.0);
    for (check, jitter) in [(false, as_it_is), (true, as_it_is), (true, of_none)] {
        let world = World::new();
        let builder = jitter(eight(check).min_idle(8));
        let pool = builder.build(Manager(world.clone())).await.unwrap();
        use_each_second(&pool, 102).await;
        let ends = world.first_eight();
        assert_eq!(ends[7] - ends[0], Duration::ZERO);
        assert_eq!(pool.state().statistics.connections_closed_max_lifetime, 8);
    }
}

#[tokio::test(start_paused = true)]
async fn an_idle_connection_past_its_end_is_closed_when_it_is_taken_out() {
    for check in CHECKS {
        let world = World::new();
        let manager = Manager(world.clone());
        // Its reaper ends with the runtime in which it is built.
        let build = move || {
            let builder = eight(check).max_lifetime_jitter(1.0).min_idle(8);
            let runtime = runtime::Builder::new_current_thread().enable_time().build();
            runtime.unwrap().block_on(builder.build(manager)).unwrap()
        };
        let pool = spawn(build).join().unwrap();
        sleep(101 * SECOND).await;
        assert_eq!(pool.state().idle_connections, 8);
        let conn = pool.get().await.unwrap();
        let seen = pool.state().statistics;
        let closed = world.closed.lock().unwrap().len() as u64;
        assert!(closed > 0 && seen.connections_closed_invalid == closed);
        assert_eq!((seen.get_started, seen.completed_gets()), (1, 1));
        assert_eq!(
            (seen.checks_timed_out, seen.connections_closed_broken),
            (0, 0)
        );
        drop(conn);
    }
}

#[tokio::test(start_paused = true)]
async fn eight_idle_connections_are_closed_one_by_one_and_replaced() {
    let world = World::new();
    let builder = eight(true).max_lifetime_jitter(0.5).min_idle(8);
    let pool = builder.build(Manager(world.clone())).await.unwrap();
    sleep(100 * SECOND + 2 * MILLISECOND).await;
    let ends = world.first_eight();
    let [first, last] = [ends[0], ends[7]];
    assert!(first >= 50 * SECOND && last <= 100 * SECOND, "{ends:?}");
    assert!(last - first > SECOND, "{ends:?}");
    let state = pool.state();
    let (closed, seen) = (world.closed.lock().unwrap().len() as u64, state.statistics);
    assert_eq!((state.connections, state.idle_connections), (8, 8));
    assert_eq!(seen.connections_closed_max_lifetime, closed);
    assert_eq!(
        (seen.connections_closed, seen.connections_detached),
        (closed, 0)
    );
    assert_eq!(seen.connections_created, 8 + closed);
}

#[tokio::test(start_paused = true)]
async fn connections_that_end_before_the_first_reap_are_closed_at_their_own_ends() {
    for is_added in [false, true] {
        let world = World::new();
        let builder = eight(true)
            .max_lifetime(10 * SECOND)
            .max_lifetime_jitter(0.5)
            .reaper_rate(30 * SECOND)
            .min_idle(if is_added { 0 } else { 8 });
        let pool = builder.build(Manager(world.clone())).await.unwrap();
        for _ in 0..if is_added { 8 } else { 0 } {
            assert!(pool.add(world.open()).is_ok());
        }
        sleep(20 * SECOND + 5 * MILLISECOND).await;
        let ends = world.first_eight();
        let [first, last] = [ends[0], ends[7]];
        assert!(
            first >= 5 * SECOND && last <= 10 * SECOND + 2 * MILLISECOND,
            "{ends:?}"
        );
        assert!(last - first > SECOND / 10, "{ends:?}");
        // So are those that replaced them.
        let closed = world.closed.lock().unwrap().len();
        assert!(closed >= if is_added { 8 } else { 16 }, "{closed}");
    }
}

#[tokio::test(start_paused = true)]
async fn an_end_past_which_a_connection_is_checked_out_does_not_delay_the_others() {
    let world = World::new();
    let builder = eight(true).max_lifetime_jitter(0.5).min_idle(8);
    let pool = builder.build(Manager(world.clone())).await.unwrap();
    let held = pool.get().await.unwrap();
    sleep(100 * SECOND + 2 * MILLISECOND).await;
    assert!(world.closed.lock().unwrap().len() >= 7);
    drop(held);
    sleep(MILLISECOND).await;
    let state = pool.state();
    assert_eq!(state.statistics.connections_closed_broken, 1);
    assert_eq!(state.idle_connections, 8);
}

#[tokio::test(start_paused = true)]
async fn a_connection_returned_past_its_end_counts_as_broken() {
    for check in CHECKS {
        let world = World::new();
        let builder = eight(check).max_lifetime_jitter(1.0).min_idle(8);
        let pool = builder.build(Manager(world.clone())).await.unwrap();
        let mut all = Vec::new();
        for _ in 0..8 {
            all.push(pool.get().await.unwrap());
        }
        sleep(99 * SECOND).await;
        drop(all);
        let seen = pool.state().statistics;
        let closed = world.closed.lock().unwrap().len() as u64;
        assert!(closed > 0 && seen.connections_closed_broken == closed);
        assert_eq!(seen.connections_closed_max_lifetime, 0);
    }
}

#[tokio::test(start_paused = true)]
async fn without_a_lifetime_jitter_does_nothing() {
    for check in CHECKS {
        let world = World::new();
        let builder = eight(check)
            .max_lifetime_jitter(1.0)
            .max_lifetime(None)
            .min_idle(8);
        let pool = builder.build(Manager(world.clone())).await.unwrap();
        use_each_second(&pool, 300).await;
        assert!(world.closed.lock().unwrap().is_empty());
    }
}
