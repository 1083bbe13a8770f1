//! Faults around a pool: panics of the manager, of the error sink and of a connection's drop,
//! wakers that own what they wake, runtimes that end, futures and guards that are forgotten.
//! No slot leaks except with a forgotten guard or future, and no waiting get is lost.

use bb8::{CustomizeConnection, ErrorSink, ManageConnection, Pool, PooledConnection, RunError};
use futures_util::future::join_all;
use std::future::{pending, Future};
use std::panic::{catch_unwind, AssertUnwindSafe};
use std::pin::Pin;
use std::sync::atomic::{AtomicU32, Ordering::SeqCst};
use std::sync::mpsc::channel;
use std::sync::{Arc, Mutex, OnceLock};
use std::task::{Context, Wake, Waker};
use std::thread;
use std::time::Duration;
use tokio::runtime::{Builder, Handle, Runtime};
use tokio::sync::Semaphore;
use tokio::task::{block_in_place, spawn_local, yield_now, LocalSet};
use tokio::time::{sleep, timeout};

/// A fault of the server or of the user's code, until it is mended.
#[derive(Clone, Copy, Debug)]
enum Fault {
    ConnectHangs,
    ConnectFails,
    ConnectPanics,
    CheckBlocks,
    CheckFails,
    CheckHangs,
    CheckIsGreedy,
    CheckPanics,
    IsBroken,
    AskingPanics,
    DropPanics,
    SinkPanics,
    ReleasePanics,
    IsNotKept,
}

/// The faults of now, and how often one was to be opened, was, was released and was dropped so far.
#[derive(Debug, Default)]
struct World {
    faults: AtomicU32,
    asked: AtomicU32,
    opened: AtomicU32,
    released: AtomicU32,
    dropped: AtomicU32,
}

impl World {
    fn set(&self, faults: &[Fault]) {
        let bits = faults
            .iter()
            .fold(0, |bits, fault| bits | 1 << *fault as u32);
        self.faults.store(bits, SeqCst);
    }

    fn mend(&self) {
        self.set(&[]);
    }

    fn has(&self, fault: Fault) -> bool {
        self.faults.load(SeqCst) >> fault as u32 & 1 == 1
    }

    /// Panics where that is the fault.
    fn may_panic(&self, fault: Fault) {
        assert!(!self.has(fault), "{fault:?}");
    }
}

struct Connection(Arc<World>);

impl Connection {
    fn open(world: &Arc<World>) -> Self {
        world.opened.fetch_add(1, SeqCst);
        Connection(world.clone())
    }
}

impl Drop for Connection {
    fn drop(&mut self) {
        self.0.dropped.fetch_add(1, SeqCst);
        if !thread::panicking() {
            self.0.may_panic(Fault::DropPanics);
        }
    }
}

#[derive(Debug)]
struct Failed;

struct Manager(Arc<World>);

impl ManageConnection for Manager {
    type Connection = Connection;
    type Error = Failed;

    async fn connect(&self) -> Result<Connection, Failed> {
        yield_now().await;
        self.0.asked.fetch_add(1, SeqCst);
        self.0.may_panic(Fault::ConnectPanics);
        if self.0.has(Fault::ConnectHangs) {
            pending::<()>().await;
        }
        if self.0.has(Fault::ConnectFails) {
            return Err(Failed);
        }
        Ok(Connection::open(&self.0))
    }

    async fn is_valid(&self, _: &mut Connection) -> Result<(), Failed> {
        self.0.may_panic(Fault::CheckPanics);
        if self.0.has(Fault::CheckHangs) {
            pending::<()>().await;
        }
        let ready = Semaphore::new(1);
        while self.0.has(Fault::CheckIsGreedy) {
            drop(ready.acquire().await);
        }
        if self.0.has(Fault::CheckBlocks) {
            thread::sleep(Duration::from_millis(10));
        }
        if self.0.has(Fault::CheckFails) {
            return Err(Failed);
        }
        Ok(())
    }

    fn has_broken(&self, _: &mut Connection) -> bool {
        self.0.may_panic(Fault::AskingPanics);
        self.0.has(Fault::IsBroken)
    }
}

#[derive(Debug)]
struct Sink(Arc<World>);

impl ErrorSink<Failed> for Sink {
    fn sink(&self, _: Failed) {
        self.0.may_panic(Fault::SinkPanics);
    }

    fn boxed_clone(&self) -> Box<dyn ErrorSink<Failed>> {
        Box::new(Sink(self.0.clone()))
    }
}

/// Counts the released connections, and asks the pool for its state meanwhile.
#[derive(Debug)]
struct Customizer(Arc<World>, Arc<OnceLock<Pool<Manager>>>);

impl CustomizeConnection<Connection, Failed> for Customizer {
    fn on_release(&self, _: &mut Connection) -> bool {
        self.0.released.fetch_add(1, SeqCst);
        if let Some(pool) = self.1.get() {
            assert_eq!(pool.state().connections, 1);
        }
        self.0.may_panic(Fault::ReleasePanics);
        !self.0.has(Fault::IsNotKept)
    }
}

type Guard = PooledConnection<'static, Manager>;
type Got = Result<Guard, RunError<Failed>>;

fn builder(world: &Arc<World>, size: u32) -> bb8::Builder<Manager> {
    Pool::builder()
        .max_size(size)
        .test_on_check_out(false)
        .connection_timeout(Duration::from_secs(5))
        .error_sink(Box::new(Sink(world.clone())))
}

async fn pool(world: &Arc<World>, size: u32) -> Pool<Manager> {
    let built = builder(world, size).build(Manager(world.clone()));
    built.await.unwrap()
}

/// A pool of one connection that is checked, and is open.
async fn checking(world: &Arc<World>) -> Pool<Manager> {
    let builder = builder(world, 1).min_idle(1).test_on_check_out(true);
    builder.build(Manager(world.clone())).await.unwrap()
}

/// A pool of one connection, which is open, and with a customizer that knows the pool.
async fn customized(world: &Arc<World>, fair_after: Option<Duration>) -> Pool<Manager> {
    let known: Arc<OnceLock<_>> = Arc::default();
    let customizer = Customizer(world.clone(), known.clone());
    let builder = builder(world, 1).min_idle(1).fair_after(fair_after);
    let builder = builder.connection_customizer(Box::new(customizer));
    let pool = builder.build(Manager(world.clone())).await.unwrap();
    known.set(pool.clone()).unwrap();
    pool
}

/// Connections that the pool counts, and those that are there.
fn counts(pool: &Pool<Manager>, world: &World) -> (u32, u32) {
    let there = world.opened.load(SeqCst) - world.dropped.load(SeqCst);
    (pool.state().connections, there)
}

/// A get and its drop in a task of its own: whether it was served.
async fn serves(pool: &Pool<Manager>) -> bool {
    let pool = pool.clone();
    let got = tokio::spawn(async move { pool.get().await.is_ok() });
    got.await.unwrap_or(false)
}

/// Whether a drop panics.
fn panics<T>(dropped: T) -> bool {
    catch_unwind(AssertUnwindSafe(|| drop(dropped))).is_err()
}

/// Polls a get once; it waits.
fn poll_by(waker: &Waker, get: Pin<&mut impl Future>) {
    assert!(get.poll(&mut Context::from_waker(waker)).is_pending());
}

fn runtime() -> Runtime {
    Builder::new_current_thread().enable_time().build().unwrap()
}

fn timerless() -> Runtime {
    Builder::new_current_thread().build().unwrap()
}

/// Lets the other tasks of a runtime run for a while.
async fn sleepless() {
    for _ in 0..99 {
        yield_now().await;
    }
}

/// Runs on a thread of its own, which has ten seconds for it.
fn in_time(run: impl FnOnce() + Send + 'static) {
    let (done, ended) = channel();
    let running = thread::spawn(move || {
        run();
        done.send(()).unwrap();
    });
    let ended = ended.recv_timeout(Duration::from_secs(10));
    assert!(ended.is_ok() || running.is_finished(), "it hangs");
    running.join().unwrap();
}

/// A task whose future only its waker owns.
struct Task(#[allow(dead_code)] Mutex<Option<Guard>>);

impl Wake for Task {
    fn wake(self: Arc<Self>) {}
}

#[test]
fn an_old_waker_that_owns_a_guard_may_be_dropped() {
    in_time(|| {
        runtime().block_on(async {
            let world: Arc<World> = Arc::default();
            // A timer would keep a waker of its own.
            let builder = builder(&world, 2).connection_timeout(Duration::MAX);
            let pool = builder.build(Manager(world.clone())).await.unwrap();
            let owned = pool.get_owned().await.unwrap();
            let _other = pool.get().await.unwrap();
            let mut get = Box::pin(pool.get());
            let task = Waker::from(Arc::new(Task(Mutex::new(Some(owned)))));
            poll_by(&task, get.as_mut());
            drop(task);
            // The poll by another task replaces the waker, and with it the first task ends.
            poll_by(&Waker::from(Arc::new(Task(Mutex::default()))), get.as_mut());
            assert_eq!(pool.state().idle_connections, 1);
            assert!(get.await.is_ok());
        });
    });
}

#[tokio::test(start_paused = true)]
async fn no_waker_of_a_get_that_ended_is_kept() {
    let world = Arc::default();
    let pool = pool(&world, 1).await;
    let task = Arc::new(Task(Mutex::default()));
    let waker = Waker::from(task.clone());
    let conn = pool.get().await.unwrap();
    let mut served = Box::pin(pool.get());
    let mut dropped = Box::pin(pool.get());
    poll_by(&waker, served.as_mut());
    poll_by(&waker, dropped.as_mut());
    drop((conn, dropped));
    drop(served.await);
    assert_eq!(Arc::strong_count(&task), 2);
}

#[tokio::test(start_paused = true)]
async fn a_panicking_destructor_frees_its_slot() {
    for fault in [Fault::IsBroken, Fault::AskingPanics] {
        let world = Arc::default();
        let pool = pool(&world, 1).await;
        let conn = pool.get_owned().await.unwrap();
        world.set(&[fault, Fault::DropPanics]);
        assert!(panics(conn));
        world.mend();
        assert_eq!(counts(&pool, &world), (0, 0), "{fault:?}");
        assert!(serves(&pool).await, "{fault:?}");
    }
}

#[tokio::test(start_paused = true)]
async fn a_panicking_destructor_after_a_failed_check_frees_its_slot() {
    let world = Arc::default();
    let pool = checking(&world).await;
    world.set(&[Fault::CheckFails, Fault::DropPanics]);
    assert!(!serves(&pool).await);
    world.mend();
    assert!(serves(&pool).await);
    assert_eq!(counts(&pool, &world), (1, 1));
    assert_eq!(pool.state().statistics.pending_gets(), 0);
}

#[tokio::test(start_paused = true)]
async fn a_panicking_destructor_does_not_delay_waiting_gets() {
    let world = Arc::default();
    let builder = builder(&world, 1).max_lifetime(Duration::from_millis(20));
    let pool = builder.build(Manager(world.clone())).await.unwrap();
    let conn = pool.get_owned().await.unwrap();
    let waiting = tokio::spawn({
        let pool = pool.clone();
        async move { pool.get().await.is_ok() }
    });
    sleep(Duration::from_millis(50)).await;
    world.set(&[Fault::DropPanics]);
    assert!(panics(conn));
    world.mend();
    let served = timeout(Duration::from_millis(1), waiting).await;
    assert!(served.unwrap().unwrap());
}

#[tokio::test(start_paused = true)]
async fn panicking_destructors_do_not_end_the_reaper() {
    let world = Arc::default();
    let builder = builder(&world, 4).idle_timeout(Duration::from_millis(30));
    let builder = builder.reaper_rate(Duration::from_millis(40));
    let pool = builder.build(Manager(world.clone())).await.unwrap();
    for _ in 0..4 {
        assert!(pool.add(Connection::open(&world)).is_ok());
    }
    world.set(&[Fault::DropPanics]);
    sleep(Duration::from_millis(100)).await;
    world.mend();
    assert_eq!(counts(&pool, &world), (0, 0));
    assert!(pool.add(Connection::open(&world)).is_ok());
    sleep(Duration::from_millis(100)).await;
    assert_eq!(counts(&pool, &world), (0, 0));
}

#[tokio::test]
async fn the_last_handle_closes_all_despite_a_panicking_destructor() {
    let world = Arc::default();
    let pool = pool(&world, 4).await;
    for _ in 0..4 {
        assert!(pool.add(Connection::open(&world)).is_ok());
    }
    world.set(&[Fault::DropPanics]);
    assert!(panics(pool));
    assert_eq!(world.dropped.load(SeqCst), 4);
}

#[tokio::test(start_paused = true)]
async fn a_panicking_manager_frees_its_slot() {
    let attempt = [Fault::ConnectPanics];
    let sinking = [Fault::ConnectFails, Fault::SinkPanics];
    for faults in [&attempt[..], &sinking[..]] {
        let world = Arc::default();
        let builder = builder(&world, 1).connection_timeout(Duration::from_secs(1));
        let pool = builder.build(Manager(world.clone())).await.unwrap();
        world.set(faults);
        assert!(!serves(&pool).await, "{faults:?}");
        // It is not asked again for the same connection. For the get, which waits for a second, it
        // is asked for others after the pauses of 0.4 and 0.5 s.
        assert_eq!(world.asked.load(SeqCst), 3, "{faults:?}");
        let failed = pool.state().statistics.connections_failed;
        assert_eq!(failed, 3, "{faults:?}");
        world.mend();
        assert_eq!(counts(&pool, &world), (0, 0), "{faults:?}");
        assert!(serves(&pool).await, "{faults:?}");
    }
}

#[tokio::test(start_paused = true)]
async fn a_panicking_check_frees_its_slot() {
    let checking_it = [Fault::CheckPanics];
    let sinking = [Fault::CheckFails, Fault::SinkPanics];
    for faults in [&checking_it[..], &sinking[..]] {
        let world = Arc::default();
        let pool = checking(&world).await;
        world.set(faults);
        assert!(!serves(&pool).await, "{faults:?}");
        assert_eq!(counts(&pool, &world), (0, 0), "{faults:?}");
        world.mend();
        assert!(serves(&pool).await, "{faults:?}");
        assert_eq!(pool.state().statistics.pending_gets(), 0, "{faults:?}");
    }
}

#[tokio::test(start_paused = true)]
async fn a_connection_that_the_customizer_does_not_keep_is_closed() {
    let world = Arc::default();
    let pool = customized(&world, None).await;
    drop(pool.get().await.unwrap());
    assert_eq!(
        (counts(&pool, &world), world.dropped.load(SeqCst)),
        ((1, 1), 0)
    );
    for fault in [Fault::IsNotKept, Fault::ReleasePanics] {
        let before = pool.state().statistics;
        let (released, dropped) = (world.released.load(SeqCst), world.dropped.load(SeqCst));
        let conn = pool.get_owned().await.unwrap();
        let waiting = tokio::spawn({
            let pool = pool.clone();
            async move { pool.get().await.is_ok() }
        });
        yield_now().await;
        world.set(&[fault]);
        assert_eq!(panics(conn), matches!(fault, Fault::ReleasePanics));
        world.mend();
        let waited = timeout(Duration::from_millis(1), waiting).await;
        assert!(waited.unwrap().unwrap(), "{fault:?}");
        // Those of the waiting get, too.
        assert_eq!(world.released.load(SeqCst), released + 2);
        assert_eq!(world.dropped.load(SeqCst), dropped + 1);
        assert_eq!(counts(&pool, &world), (1, 1), "{fault:?}");
        let after = pool.state().statistics;
        let broken = after.connections_closed_broken - before.connections_closed_broken;
        let closed = after.connections_closed - before.connections_closed;
        assert_eq!(
            (broken, closed, after.pending_gets()),
            (1, 1, 0),
            "{fault:?}"
        );
    }
}

#[tokio::test(start_paused = true)]
async fn on_release_skips_connections_that_are_broken_or_had_no_guard() {
    let world = Arc::default();
    let pool = customized(&world, Some(Duration::ZERO)).await;
    let conn = pool.get().await.unwrap();
    world.set(&[Fault::IsBroken]);
    drop(conn);
    world.mend();
    assert_eq!(
        (world.released.load(SeqCst), world.dropped.load(SeqCst)),
        (0, 1)
    );
    let conn = pool.get().await.unwrap();
    let mut handed = Box::pin(pool.get());
    poll_by(
        &Waker::from(Arc::new(Task(Mutex::default()))),
        handed.as_mut(),
    );
    drop(conn);
    assert_eq!(
        (world.released.load(SeqCst), pool.state().idle_connections),
        (1, 0)
    );
    drop(handed);
    assert_eq!(
        (world.released.load(SeqCst), pool.state().idle_connections),
        (1, 1)
    );
}

#[tokio::test(start_paused = true)]
async fn a_check_that_hangs_is_cut_off_and_its_connection_closed() {
    let world = Arc::default();
    let pool = checking(&world).await;
    world.set(&[Fault::CheckHangs]);
    assert!(matches!(pool.get().await, Err(RunError::TimedOut)));
    world.mend();
    assert!(serves(&pool).await);
    assert_eq!(
        (counts(&pool, &world), world.dropped.load(SeqCst)),
        ((1, 1), 1)
    );
    let figures = pool.state().statistics;
    assert_eq!((figures.get_timed_out, figures.get_cancelled), (1, 0));
    let closed = (
        figures.connections_closed_broken,
        figures.connections_closed_invalid,
    );
    assert_eq!((figures.checks_timed_out, closed), (1, (1, 0)));
}

#[tokio::test]
async fn a_check_that_uses_up_the_budget_of_its_task_is_cut_off() {
    let world = Arc::default();
    let builder = builder(&world, 1).min_idle(1).test_on_check_out(true);
    let limited = builder.connection_timeout(Duration::from_millis(20));
    let pool = limited.build(Manager(world.clone())).await.unwrap();
    world.set(&[Fault::CheckIsGreedy]);
    let got = timeout(Duration::from_secs(5), pool.get()).await;
    assert!(matches!(got, Ok(Err(RunError::TimedOut))));
}

#[tokio::test(start_paused = true)]
async fn a_dropped_pool_opens_nothing() {
    let world: Arc<World> = Arc::default();
    world.set(&[Fault::ConnectFails]);
    let pool = builder(&world, 1).min_idle(1);
    let pool = pool.build_unchecked(Manager(world.clone()));
    sleep(Duration::from_millis(100)).await;
    drop(pool);
    sleep(Duration::from_secs(5)).await;
    assert_eq!(world.asked.load(SeqCst), 1);
}

#[tokio::test]
async fn a_get_whose_checks_fail_ends_in_time() {
    let world = Arc::default();
    let builder = builder(&world, 9).min_idle(9).test_on_check_out(true);
    let limited = builder.connection_timeout(Duration::from_millis(20));
    let pool = limited.build(Manager(world.clone())).await.unwrap();
    world.set(&[Fault::CheckBlocks, Fault::CheckFails]);
    let got = timeout(Duration::from_secs(5), pool.get()).await;
    assert!(matches!(got, Ok(Err(RunError::TimedOut))));
    // Its time runs from the end of the first one.
    assert!(world.dropped.load(SeqCst) < 5);
}

/// Gets of a runtime request connection attempts, which hang, and end with it.
fn openings_that_end(pool: &Pool<Manager>, world: &World, count: usize) -> Runtime {
    world.set(&[Fault::ConnectHangs]);
    let ends = runtime();
    ends.block_on(async {
        for _ in 0..count {
            let pool = pool.clone();
            tokio::spawn(async move { pool.get().await.map(drop) });
        }
        for _ in 0..3 {
            yield_now().await;
        }
    });
    world.mend();
    ends
}

#[test]
fn another_runtime_takes_over_attempts_of_one_that_shut_down() {
    for count in [1, 3] {
        let world: Arc<World> = Arc::default();
        let lives = runtime();
        let pool = lives.block_on(async {
            let builder = builder(&world, 3).connection_timeout(Duration::from_secs(60));
            builder.build(Manager(world.clone())).await.unwrap()
        });
        let ends = openings_that_end(&pool, &world, count);
        let got = lives.block_on(async {
            let get = || {
                let pool = pool.clone();
                tokio::spawn(async move { pool.get_owned().await })
            };
            let gets: Vec<_> = (0..count).map(|_| get()).collect();
            yield_now().await;
            thread::spawn(|| drop(ends)).join().unwrap();
            let mut got: Vec<Got> = Vec::new();
            for get in gets {
                let served = timeout(Duration::from_secs(5), get).await;
                got.push(served.expect("it is served soon").unwrap());
            }
            got
        });
        assert!(got.iter().all(Result::is_ok));
        assert_eq!(world.opened.load(SeqCst), count as u32);
        drop(got);
        assert_eq!(counts(&pool, &world), (count as u32, count as u32));
    }
}

#[test]
fn the_next_get_takes_over_attempts_of_a_runtime_that_shut_down() {
    let world: Arc<World> = Arc::default();
    let lives = runtime();
    let pool = lives.block_on(pool(&world, 1));
    drop(openings_that_end(&pool, &world, 1));
    assert_eq!(world.opened.load(SeqCst), 0);
    assert!(lives.block_on(serves(&pool)));
    assert_eq!(world.opened.load(SeqCst), 1);
}

/// As in a test that fails while a pool lives on.
#[test]
fn a_runtime_that_ends_in_a_panic_leaves_its_attempts_to_another() {
    let world: Arc<World> = Arc::default();
    world.set(&[Fault::ConnectHangs]);
    let (ends, lives) = (runtime(), runtime());
    let builder = builder(&world, 1).min_idle(1);
    let pool = ends.block_on(async {
        let pool = builder.build_unchecked(Manager(world.clone()));
        sleep(Duration::from_millis(1)).await;
        pool
    });
    let unwinds = move || {
        let _ends = ends;
        panic!("elsewhere");
    };
    assert!(catch_unwind(AssertUnwindSafe(unwinds)).is_err());
    world.mend();
    assert_eq!(pool.state().statistics.connections_failed, 0);
    assert!(lives.block_on(serves(&pool)));
    assert_eq!(world.opened.load(SeqCst), 1);
}

#[test]
fn an_attempt_in_a_runtime_without_timers_is_left_to_another() {
    let world: Arc<World> = Arc::default();
    let (lives, rests) = (runtime(), timerless());
    let builder = builder(&world, 1).min_idle(1);
    let pool = lives.block_on(builder.build(Manager(world.clone())));
    let pool = pool.unwrap();
    let conn = lives.block_on(pool.get_owned()).unwrap();
    let waits = pool.clone();
    let waiting = lives.spawn(async move { waits.get().await.is_ok() });
    lives.block_on(sleepless());
    world.set(&[Fault::IsBroken]);
    rests.block_on(async {
        drop(conn);
        sleepless().await;
    });
    world.mend();
    assert!(lives.block_on(waiting).unwrap());
    let counts = pool.state().statistics;
    assert_eq!((counts.connections_failed, counts.get_waited), (0, 1));
}

#[test]
fn a_pool_without_limits_on_ages_is_built_without_timers() {
    let world: Arc<World> = Arc::default();
    let builder = builder(&world, 1).min_idle(1);
    let ageless = builder.max_lifetime(None).idle_timeout(None);
    let built = timerless().block_on(ageless.build(Manager(world.clone())));
    assert_eq!(counts(&built.unwrap(), &world), (1, 1));
}

#[tokio::test(start_paused = true)]
async fn try_get_refills_a_pool_without_a_reaper() {
    let world: Arc<World> = Arc::default();
    let builder = builder(&world, 1).min_idle(1).test_on_check_out(true);
    let ageless = builder.max_lifetime(None).idle_timeout(None);
    let pool = ageless.build(Manager(world.clone())).await.unwrap();
    world.set(&[Fault::CheckFails, Fault::ConnectFails]);
    assert!(pool.try_get().await.unwrap().is_none());
    // The attempts to replace it are given up.
    sleep(Duration::from_secs(60)).await;
    world.mend();
    assert!(pool.try_get().await.unwrap().is_none());
    sleep(Duration::from_secs(1)).await;
    assert!(pool.try_get().await.unwrap().is_some());
}

#[test]
fn a_guard_may_be_dropped_outside_a_runtime() {
    let world: Arc<World> = Arc::default();
    let runtime = runtime();
    let (pool, conn) = runtime.block_on(async {
        let builder = builder(&world, 1).min_idle(1);
        let pool = builder.build(Manager(world.clone())).await.unwrap();
        let conn = pool.get_owned().await.unwrap();
        (pool, conn)
    });
    world.set(&[Fault::IsBroken]);
    assert!(!panics(conn));
    world.mend();
    assert!(runtime.block_on(serves(&pool)));
    assert_eq!(counts(&pool, &world), (1, 1));
}

#[test]
fn a_guard_that_closes_where_nothing_is_opened_leaves_nobody_waiting() {
    let elsewhere: [fn(Guard, &Runtime); 2] = [
        |conn, _| thread::spawn(|| drop(conn)).join().unwrap(),
        |conn, rests| rests.block_on(async { drop(conn) }),
    ];
    for (fair_after, let_go) in [None, Some(Duration::ZERO)]
        .into_iter()
        .flat_map(|wait| elsewhere.map(|let_go| (wait, let_go)))
    {
        let world: Arc<World> = Arc::default();
        let (lives, rests) = (runtime(), runtime());
        let (conn, get) = lives.block_on(async {
            let builder = builder(&world, 1).fair_after(fair_after);
            let pool = builder.build(Manager(world.clone())).await.unwrap();
            let conn = pool.get_owned().await.unwrap();
            let get = tokio::spawn(async move { pool.get().await.is_ok() });
            yield_now().await;
            (conn, get)
        });
        world.set(&[Fault::IsBroken]);
        let_go(conn, &rests);
        world.mend();
        assert!(lives.block_on(get).unwrap(), "{fair_after:?}");
    }
}

#[test]
fn all_is_dropped_with_the_last_runtime() {
    let world: Arc<World> = Arc::default();
    let runtime = runtime();
    runtime.block_on(async {
        let pool = pool(&world, 3).await;
        for _ in 0..10 {
            let pool = pool.clone();
            tokio::spawn(async move {
                let _conns = (pool.get_owned().await, pool.get_owned().await);
                pending::<()>().await;
            });
        }
        while world.opened.load(SeqCst) < 3 {
            sleep(Duration::from_millis(1)).await;
        }
    });
    drop(runtime);
    assert_eq!(world.opened.load(SeqCst), 3);
    assert_eq!(world.dropped.load(SeqCst), 3);
}

#[test]
fn each_kind_of_runtime_serves() {
    let gets = || async {
        let pool = pool(&Arc::default(), 2).await;
        let served = join_all((0..20).map(|_| serves(&pool))).await;
        assert_eq!(served, [true; 20]);
        pool
    };
    let one = runtime();
    one.block_on(gets());
    let local = LocalSet::new();
    local.block_on(&one, async { spawn_local(gets()).await.unwrap() });
    let many = Builder::new_multi_thread().enable_time().build().unwrap();
    let pool = many.block_on(gets());
    let blocks = async move { block_in_place(|| Handle::current().block_on(serves(&pool))) };
    assert!(many.block_on(async { tokio::spawn(blocks).await.unwrap() }));
}

#[tokio::test(start_paused = true)]
async fn a_forgotten_guard_or_future_leaks_only_itself() {
    let world = Arc::default();
    let pool: &Pool<Manager> = Box::leak(Box::new(pool(&world, 2).await));
    std::mem::forget(pool.get().await.unwrap());
    assert!(serves(pool).await);
    let conn = pool.get().await.unwrap();
    let mut forgotten = Box::pin(pool.get());
    poll_by(
        &Waker::from(Arc::new(Task(Mutex::default()))),
        forgotten.as_mut(),
    );
    std::mem::forget(forgotten);
    // The forgotten get is notified, and never takes the connection.
    drop(conn);
    assert!(serves(pool).await);
    assert_eq!(counts(pool, &world), (2, 2));
}
