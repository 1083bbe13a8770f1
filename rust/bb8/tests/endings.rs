//! How connections and pools end: `detach`, `retire` and `close`. Clocks are paused.

use bb8::{AddError, Builder, CustomizeConnection, ManageConnection, Pool};
use bb8::{PooledConnection, RunError};
use futures_util::task::noop_waker;
use std::future::{pending, Future};
use std::panic::{catch_unwind, AssertUnwindSafe};
use std::pin::Pin;
use std::sync::atomic::{AtomicBool, AtomicU32, Ordering::SeqCst};
use std::sync::Arc;
use std::task::Context;
use std::thread;
use std::time::Duration;
use tokio::sync::Notify;
use tokio::task::{yield_now, JoinHandle};
use tokio::time::{sleep, timeout, Instant};

const SECOND: Duration = Duration::from_secs(1);
/// How long a connection takes to open.
const CONNECT: Duration = Duration::from_millis(10);
const KINDS: [(bool, Option<Duration>); 4] = [
    (false, None),
    (true, None),
    (false, Some(Duration::ZERO)),
    (true, Some(Duration::ZERO)),
];

/// The connections of a test, numbered from 0 on.
#[derive(Debug, Default)]
struct World {
    begun: AtomicU32,
    opened: AtomicU32,
    dropped: AtomicU32,
    released: AtomicU32,
    connects_hang: AtomicBool,
    connects_wait: AtomicBool,
    may_connect: Notify,
    checks_fail: AtomicBool,
    drops_panic: AtomicBool,
    drops_block: AtomicBool,
    are_broken: AtomicBool,
}

impl World {
    fn open(self: &Arc<Self>) -> Connection {
        Connection(self.opened.fetch_add(1, SeqCst), self.clone())
    }

    fn alive(&self) -> u32 {
        self.opened.load(SeqCst) - self.dropped.load(SeqCst)
    }
}

#[derive(Debug)]
struct Connection(u32, Arc<World>);

impl Drop for Connection {
    fn drop(&mut self) {
        if self.1.drops_block.load(SeqCst) {
            thread::sleep(Duration::from_millis(50));
        }
        self.1.dropped.fetch_add(1, SeqCst);
        let panics = self.1.drops_panic.load(SeqCst) && !thread::panicking();
        assert!(!panics, "a drop panics");
    }
}

struct Manager(Arc<World>);

impl ManageConnection for Manager {
    type Connection = Connection;
    type Error = ();

    async fn connect(&self) -> Result<Connection, ()> {
        self.0.begun.fetch_add(1, SeqCst);
        if self.0.connects_hang.load(SeqCst) {
            pending::<()>().await;
        }
        if self.0.connects_wait.load(SeqCst) {
            self.0.may_connect.notified().await;
        }
        sleep(CONNECT).await;
        Ok(self.0.open())
    }

    async fn is_valid(&self, _: &mut Connection) -> Result<(), ()> {
        yield_now().await;
        match self.0.checks_fail.load(SeqCst) {
            true => Err(()),
            false => Ok(()),
        }
    }

    fn has_broken(&self, _: &mut Connection) -> bool {
        self.0.are_broken.load(SeqCst)
    }
}

/// Counts the released connections.
#[derive(Debug)]
struct Releases(Arc<World>);

impl CustomizeConnection<Connection, ()> for Releases {
    fn on_release(&self, _: &mut Connection) -> bool {
        self.0.released.fetch_add(1, SeqCst);
        true
    }
}

type Guard = PooledConnection<'static, Manager>;
type Got = Result<Guard, RunError<()>>;

fn builder((check, fair_after): (bool, Option<Duration>), size: u32) -> Builder<Manager> {
    Pool::builder()
        .max_size(size)
        .test_on_check_out(check)
        .fair_after(fair_after)
        .connection_timeout(60 * SECOND)
}

/// A pool of this many connections, all idle.
async fn full(kind: (bool, Option<Duration>), size: u32) -> (Pool<Manager>, Arc<World>) {
    let world: Arc<World> = Arc::default();
    let pool = builder(kind, size).build(Manager(world.clone()));
    let pool = pool.await.unwrap();
    for _ in 0..size {
        assert!(pool.add(world.open()).is_ok());
    }
    (pool, world)
}

/// A get in a task of its own, which has been polled.
async fn getting(pool: &Pool<Manager>) -> JoinHandle<Got> {
    let pool = pool.clone();
    let get = tokio::spawn(async move { pool.get_owned().await });
    yield_now().await;
    get
}

/// The result of a task that has one at once.
async fn at_once<T>(task: JoinHandle<T>) -> T {
    let resolved = timeout(Duration::from_millis(1), task).await;
    resolved.expect("it resolves at once").unwrap()
}

/// Whether every connection is accounted for, and no get is pending.
fn balances(pool: &Pool<Manager>) -> bool {
    let state = pool.state();
    let counts = &state.statistics;
    let ended = counts.connections_closed + counts.connections_detached;
    counts.connections_created + counts.connections_added == ended + u64::from(state.connections)
        && counts.pending_gets() == 0
}

/// Polls a future once: it is pending.
fn begins<T>(future: Pin<&mut impl Future<Output = T>>) {
    let waker = noop_waker();
    assert!(future.poll(&mut Context::from_waker(&waker)).is_pending());
}

fn panics(calls: impl FnOnce()) -> bool {
    catch_unwind(AssertUnwindSafe(calls)).is_err()
}

#[tokio::test(start_paused = true)]
async fn detach_returns_the_connection_and_frees_its_slot() {
    for kind in KINDS {
        let (pool, world) = full(kind, 1).await;
        let conn = PooledConnection::detach(pool.get().await.unwrap());
        assert_eq!((conn.0, pool.state().connections), (0, 0));
        let owned = pool.get_owned().await.unwrap();
        let other = PooledConnection::detach(owned);
        assert_eq!((other.0, world.dropped.load(SeqCst)), (1, 0));
        let counts = pool.state().statistics;
        let ended = (counts.connections_detached, counts.connections_closed);
        assert_eq!(ended, (2, 0));
        assert!(balances(&pool));
        drop(pool);
        assert_eq!(world.dropped.load(SeqCst), 0);
    }
}

#[tokio::test(start_paused = true)]
async fn detach_wakes_a_waiting_get() {
    for kind in KINDS {
        let (pool, _) = full(kind, 1).await;
        let conn = pool.get_owned().await.unwrap();
        let waiting = getting(&pool).await;
        let conn = PooledConnection::detach(conn);
        // It has the slot free, and asks for a new connection.
        let got = timeout(SECOND, waiting).await.unwrap().unwrap().unwrap();
        assert_eq!((conn.0, got.0), (0, 1), "{kind:?}");
        drop(got);
        assert!(balances(&pool));
    }
}

#[tokio::test(start_paused = true)]
async fn detach_skips_on_release_and_refills_min_idle() {
    let world: Arc<World> = Arc::default();
    let builder = builder(KINDS[0], 2).min_idle(2);
    let builder = builder.connection_customizer(Box::new(Releases(world.clone())));
    let pool = builder.build(Manager(world.clone())).await.unwrap();
    let conn = PooledConnection::detach(pool.get().await.unwrap());
    sleep(SECOND).await;
    assert_eq!((pool.state().idle_connections, conn.0), (2, 0));
    assert_eq!(world.released.load(SeqCst), 0);
}

#[tokio::test(start_paused = true)]
async fn a_detached_guard_that_is_the_last_handle_closes_the_pool() {
    let (pool, world) = full(KINDS[0], 2).await;
    let conn = pool.get_owned().await.unwrap();
    drop(pool);
    assert_eq!(world.dropped.load(SeqCst), 0);
    let conn = PooledConnection::detach(conn);
    assert_eq!((conn.0, world.dropped.load(SeqCst)), (0, 1));
}

#[tokio::test(start_paused = true)]
async fn retired_connections_are_not_checked_out_again() {
    for kind in KINDS {
        let (pool, world) = full(kind, 3).await;
        let conn = pool.get_owned().await.unwrap();
        pool.retire();
        // The two that are idle are dropped at once, the other one at its return.
        assert_eq!((world.dropped.load(SeqCst), conn.0), (2, 0), "{kind:?}");
        assert_eq!(pool.state().connections, 1);
        let waiting = getting(&pool).await;
        drop(conn);
        assert_eq!((world.dropped.load(SeqCst), world.alive()), (3, 0));
        assert!(waiting.await.unwrap().unwrap().0 > 2);
        let counts = pool.state().statistics;
        assert_eq!(
            (counts.connections_closed_retired, counts.connections_closed),
            (3, 3)
        );
        assert_eq!(counts.connections_closed_max_lifetime, 0);
        // Those that are opened later are kept.
        sleep(SECOND).await;
        assert_eq!(pool.state().connections, world.alive());
        assert!(world.alive() > 0 && balances(&pool));
    }
}

/// Retires the pool while this many connection attempts are held back, and then releases them.
/// Attempts that begin later are not held back.
async fn retired_while_connecting(pool: &Pool<Manager>, world: &World, attempts: u32) {
    yield_now().await;
    assert_eq!(world.begun.load(SeqCst), attempts);
    pool.retire();
    assert_eq!(pool.state().pending_connections, attempts);
    world.connects_wait.store(false, SeqCst);
    world.may_connect.notify_waiters();
}

#[tokio::test(start_paused = true)]
async fn an_attempt_in_progress_at_a_retire_is_replaced_at_once() {
    for kind in KINDS {
        let (pool, world) = full(kind, 1).await;
        drop(PooledConnection::detach(pool.get().await.unwrap()));
        world.connects_wait.store(true, SeqCst);
        let get = getting(&pool).await;
        retired_while_connecting(&pool, &world, 1).await;
        let began = Instant::now();
        // Number 0 was detached, and 1 was retired before it was opened.
        let conn = get.await.unwrap().unwrap();
        assert_eq!((conn.0, world.dropped.load(SeqCst)), (2, 2), "{kind:?}");
        assert_eq!(began.elapsed(), 2 * CONNECT);
        drop(conn);
        assert_eq!((world.alive(), pool.state().idle_connections), (1, 1));
        let counts = pool.state().statistics;
        assert_eq!(
            (counts.connections_created, counts.connections_closed),
            (1, 0)
        );
        let lost = (counts.connections_failed, counts.connections_closed_retired);
        assert_eq!(lost, (0, 0));
        assert!(balances(&pool));
    }
}

#[tokio::test(start_paused = true)]
async fn gets_waiting_at_a_retire_are_served_with_new_connections() {
    for kind in KINDS {
        let world: Arc<World> = Arc::default();
        let pool = builder(kind, 3).build(Manager(world.clone()));
        let pool = pool.await.unwrap();
        world.connects_wait.store(true, SeqCst);
        let gets = [
            getting(&pool).await,
            getting(&pool).await,
            getting(&pool).await,
        ];
        retired_while_connecting(&pool, &world, 3).await;
        let mut conns = Vec::new();
        for get in gets {
            let conn = timeout(SECOND, get).await.unwrap().unwrap().unwrap();
            assert!(conn.0 >= 3, "{kind:?}");
            conns.push(conn);
        }
        assert_eq!((world.opened.load(SeqCst), world.alive()), (6, 3));
        drop(conns);
        assert!(balances(&pool));
    }
}

#[tokio::test(start_paused = true)]
async fn attempts_in_progress_at_a_retire_begin_anew_for_min_idle() {
    let world: Arc<World> = Arc::default();
    world.connects_wait.store(true, SeqCst);
    let pool = builder(KINDS[0], 3).min_idle(2);
    let pool = pool.build_unchecked(Manager(world.clone()));
    retired_while_connecting(&pool, &world, 2).await;
    sleep(SECOND).await;
    assert_eq!(
        (world.opened.load(SeqCst), world.dropped.load(SeqCst)),
        (4, 2)
    );
    assert_eq!((pool.state().idle_connections, world.alive()), (2, 2));
    assert_eq!(pool.state().statistics.connections_created, 2);
    assert!(balances(&pool));
}

#[tokio::test(start_paused = true)]
async fn a_panicking_destructor_after_a_retire_does_not_delay_waiting_gets() {
    let world: Arc<World> = Arc::default();
    let pool = builder(KINDS[0], 1).build(Manager(world.clone()));
    let pool = pool.await.unwrap();
    world.connects_wait.store(true, SeqCst);
    let get = getting(&pool).await;
    world.drops_panic.store(true, SeqCst);
    retired_while_connecting(&pool, &world, 1).await;
    let conn = timeout(SECOND, get).await.unwrap().unwrap().unwrap();
    world.drops_panic.store(false, SeqCst);
    assert_eq!((conn.0, world.dropped.load(SeqCst)), (1, 1));
    drop(conn);
    assert!(balances(&pool));
}

#[tokio::test(start_paused = true)]
async fn retire_refills_min_idle() {
    let world: Arc<World> = Arc::default();
    let builder = builder(KINDS[0], 3).min_idle(2);
    let pool = builder.build(Manager(world.clone())).await.unwrap();
    pool.retire();
    assert_eq!((pool.state().connections, world.alive()), (0, 0));
    sleep(SECOND).await;
    assert_eq!((pool.state().idle_connections, world.alive()), (2, 2));
    assert_eq!(world.opened.load(SeqCst), 4);
    drop(pool.get().await.unwrap());
    assert_eq!(world.dropped.load(SeqCst), 2);
}

#[tokio::test(start_paused = true)]
async fn retire_closes_all_despite_panicking_destructors() {
    let (pool, world) = full(KINDS[0], 4).await;
    world.drops_panic.store(true, SeqCst);
    assert!(panics(|| pool.retire()));
    world.drops_panic.store(false, SeqCst);
    assert_eq!(
        (world.dropped.load(SeqCst), pool.state().connections),
        (4, 0)
    );
    let mut all = Vec::new();
    for _ in 0..4 {
        all.push(pool.get().await.unwrap());
    }
    assert!(balances(&pool));
}

#[tokio::test(start_paused = true)]
async fn close_ends_waiting_and_later_gets() {
    for kind in KINDS {
        let (pool, world) = full(kind, 1).await;
        let conn = pool.get_owned().await.unwrap();
        let waiting = [getting(&pool).await, getting(&pool).await];
        let mut closing = Box::pin(pool.close());
        assert!(!pool.is_closed());
        begins(closing.as_mut());
        assert!(pool.is_closed() && pool.clone().is_closed());
        for get in waiting {
            assert!(matches!(at_once(get).await, Err(RunError::Closed)));
        }
        assert!(matches!(pool.get().await, Err(RunError::Closed)));
        assert!(matches!(pool.get_owned().await, Err(RunError::Closed)));
        assert!(matches!(pool.try_get().await, Err(RunError::Closed)));
        assert!(matches!(
            pool.get_timeout(SECOND).await,
            Err(RunError::Closed)
        ));
        // It waits for the connection that is out, which is not disturbed.
        assert!(timeout(SECOND, closing.as_mut()).await.is_err());
        assert_eq!((world.dropped.load(SeqCst), conn.0), (0, 0));
        drop(conn);
        assert!(timeout(SECOND, closing).await.is_ok(), "{kind:?}");
        assert_eq!((world.alive(), pool.state().connections), (0, 0));
        let counts = pool.state().statistics;
        let gets = (counts.get_started, counts.get_direct, counts.get_cancelled);
        assert_eq!(gets, (3, 1, 2));
        assert!(balances(&pool));
    }
}

#[tokio::test(start_paused = true)]
async fn close_drops_idle_connections_and_waits_for_nothing_else() {
    for kind in KINDS {
        let (pool, world) = full(kind, 3).await;
        let began = Instant::now();
        pool.close().await;
        assert_eq!((world.alive(), began.elapsed()), (0, Duration::ZERO));
        // Closed twice, and by another handle, it resolves at once, too.
        pool.clone().close().await;
        pool.close_now();
        assert_eq!(began.elapsed(), Duration::ZERO);
        assert_eq!(pool.state().statistics.connections_closed, 3);
        drop(pool);
    }
}

#[tokio::test(start_paused = true)]
async fn close_ends_connection_attempts() {
    let world: Arc<World> = Arc::default();
    let builder = builder(KINDS[0], 3).min_idle(3).max_lifetime(SECOND);
    let builder = builder.reaper_rate(SECOND / 2);
    let pool = builder.build_unchecked(Manager(world.clone()));
    sleep(SECOND / 10).await;
    world.connects_hang.store(true, SeqCst);
    pool.retire();
    yield_now().await;
    assert_eq!((pool.state().pending_connections, world.alive()), (3, 0));
    let began = Instant::now();
    pool.close().await;
    assert_eq!(began.elapsed(), Duration::ZERO);
    assert_eq!(pool.state().pending_connections, 0);
    world.connects_hang.store(false, SeqCst);
    pool.retire();
    sleep(100 * SECOND).await;
    assert_eq!((world.begun.load(SeqCst), world.alive()), (6, 0));
    assert_eq!(pool.state().statistics.connections_failed, 0);
}

#[tokio::test(start_paused = true)]
async fn several_tasks_may_wait_for_one_close() {
    let (pool, world) = full(KINDS[0], 2).await;
    let conns = (pool.get_owned().await, pool.get_owned().await);
    let close = || {
        let pool = pool.clone();
        tokio::spawn(async move { pool.close().await })
    };
    let closings = [close(), close()];
    yield_now().await;
    drop(conns.0);
    sleep(SECOND).await;
    assert!(closings.iter().all(|closing| !closing.is_finished()));
    // The other one leaves the pool, which need not drop it then.
    let conn = PooledConnection::detach(conns.1.unwrap());
    for closing in closings {
        at_once(closing).await;
    }
    assert_eq!((world.alive(), conn.0), (1, 1));
    assert!(balances(&pool));
}

#[tokio::test(start_paused = true)]
async fn close_resolves_when_a_broken_connection_is_returned() {
    let (pool, world) = full(KINDS[0], 1).await;
    let conn = pool.get_owned().await.unwrap();
    let closing = tokio::spawn({
        let pool = pool.clone();
        async move { pool.close().await }
    });
    yield_now().await;
    world.are_broken.store(true, SeqCst);
    drop(conn);
    at_once(closing).await;
    assert_eq!((world.alive(), pool.state().connections), (0, 0));
}

#[tokio::test]
async fn close_waits_for_connections_that_another_close_drops() {
    let (pool, world) = full(KINDS[0], 1).await;
    world.drops_block.store(true, SeqCst);
    let other = thread::spawn({
        let pool = pool.clone();
        move || pool.close_now()
    });
    while !pool.is_closed() {
        yield_now().await;
    }
    // The connection is being dropped, or its list is not empty yet.
    assert!(timeout(5 * SECOND, pool.close()).await.is_ok());
    assert_eq!(world.alive(), 0);
    other.join().unwrap();
}

#[tokio::test(start_paused = true)]
async fn a_closed_pool_refuses_connections() {
    let (pool, world) = full(KINDS[0], 1).await;
    pool.close().await;
    let refused = pool.add(world.open());
    assert!(matches!(
        refused,
        Err(AddError::NoCapacity(Connection(1, _)))
    ));
    assert_eq!(world.alive(), 1);
    drop(refused);
    world.are_broken.store(true, SeqCst);
    let refused = pool.add(world.open());
    assert!(matches!(refused, Err(AddError::Broken(_))));
    assert_eq!(pool.state().statistics.connections_added, 1);
}

#[tokio::test(start_paused = true)]
async fn a_get_that_checks_at_a_close_is_served_or_ends() {
    for fails in [false, true] {
        let (pool, world) = full(KINDS[1], 1).await;
        world.checks_fail.store(fails, SeqCst);
        let mut get = Box::pin(pool.get());
        begins(get.as_mut());
        pool.close_now();
        match get.await {
            Ok(conn) => assert_eq!((conn.0, fails), (0, false)),
            Err(error) => assert_eq!((error, fails), (RunError::Closed, true)),
        }
        assert_eq!((world.alive(), pool.state().connections), (0, 0));
        assert!(balances(&pool));
    }
}

#[tokio::test(start_paused = true)]
async fn a_get_handed_a_connection_before_the_close_is_served() {
    for kind in [KINDS[2], KINDS[3]] {
        for is_polled in [true, false] {
            let (pool, world) = full(kind, 1).await;
            let conn = pool.get().await.unwrap();
            let mut get = Box::pin(pool.get());
            begins(get.as_mut());
            drop(conn);
            pool.close_now();
            if is_polled {
                assert_eq!(get.await.unwrap().0, 0);
            } else {
                drop(get);
            }
            assert_eq!(world.alive(), 0, "{kind:?}");
            assert!(balances(&pool));
        }
    }
}

#[tokio::test(start_paused = true)]
async fn close_drops_all_despite_panicking_destructors() {
    let (pool, world) = full(KINDS[0], 4).await;
    let conn = pool.get_owned().await.unwrap();
    let others: [Guard; 3] = [(); 3].map(|()| {
        let get = Box::pin(pool.get_owned());
        futures_util::FutureExt::now_or_never(get).unwrap().unwrap()
    });
    let waiting = getting(&pool).await;
    let [first, second, third] = others;
    drop((first, second));
    world.drops_panic.store(true, SeqCst);
    assert!(panics(|| pool.close_now()));
    assert!(matches!(
        waiting.await.unwrap(),
        Err(RunError::Closed) | Ok(_)
    ));
    assert!(panics(|| drop(third)));
    world.drops_panic.store(false, SeqCst);
    drop(conn);
    assert!(timeout(SECOND, pool.close()).await.is_ok());
    assert_eq!((world.alive(), world.dropped.load(SeqCst)), (0, 4));
    assert!(balances(&pool));
}

#[tokio::test(start_paused = true)]
async fn a_destructor_may_close_its_own_pool() {
    let (pool, _) = full(KINDS[0], 1).await;
    let conn = pool.get_owned().await.unwrap();
    let closes = pool.clone();
    drop(pool);
    closes.close_now();
    // The guard is a handle that outlives the others.
    drop(closes);
    assert_eq!(conn.0, 0);
    drop(conn);
}

fn runtime() -> tokio::runtime::Runtime {
    let mut builder = tokio::runtime::Builder::new_current_thread();
    builder.enable_time().build().unwrap()
}

#[test]
fn a_pool_may_be_closed_outside_of_a_runtime_and_in_one_that_ends() {
    for is_closed_first in [false, true] {
        let world: Arc<World> = Arc::default();
        let (lives, ends) = (runtime(), runtime());
        let pool = builder(KINDS[0], 2).build(Manager(world.clone()));
        let pool = lives.block_on(pool).unwrap();
        world.connects_hang.store(true, SeqCst);
        // An attempt, a get and a close are in progress in the runtime that ends.
        ends.block_on(async {
            let get = getting(&pool).await;
            yield_now().await;
            let pool = pool.clone();
            if is_closed_first {
                tokio::spawn(async move { pool.close().await });
            }
            drop(get);
        });
        assert_eq!(pool.state().pending_connections, 1);
        if is_closed_first {
            pool.close_now();
        }
        drop(ends);
        world.connects_hang.store(false, SeqCst);
        let closed = lives.block_on(async { timeout(SECOND, pool.close()).await });
        assert!(closed.is_ok());
        lives.block_on(async { sleep(Duration::from_millis(50)).await });
        assert_eq!((world.begun.load(SeqCst), world.alive()), (1, 0));
        assert_eq!(pool.state().pending_connections, 0);
        assert!(balances(&pool));
    }
}

#[test]
fn a_runtime_that_shuts_down_cancels_a_waiting_close() {
    let world: Arc<World> = Arc::default();
    let runtime = runtime();
    let (pool, conn) = runtime.block_on(async {
        let pool = builder(KINDS[0], 1).build(Manager(world.clone()));
        let pool = pool.await.unwrap();
        let conn = pool.get_owned().await.unwrap();
        let closes = pool.clone();
        tokio::spawn(async move { closes.close().await });
        yield_now().await;
        (pool, conn)
    });
    assert!(pool.is_closed());
    drop(runtime);
    drop(conn);
    assert_eq!((world.alive(), pool.state().connections), (0, 0));
}
