//! What happens while something else is under way: a destructor that takes long, a runtime that
//! ends, user code that panics.

use bb8::{ManageConnection, Pool};
use futures_util::FutureExt;
use std::future::{pending, Future};
use std::panic::{catch_unwind, AssertUnwindSafe};
use std::pin::Pin;
use std::sync::atomic::{AtomicBool, AtomicU32, Ordering::SeqCst};
use std::sync::{mpsc, Arc, Barrier, Mutex};
use std::task::{Context, Wake, Waker};
use std::thread;
use std::time::{Duration, Instant};
use tokio::runtime::{Builder, Runtime};
use tokio::sync::Semaphore;
use tokio::time::{sleep, timeout};

const SECOND: Duration = Duration::from_secs(1);

type Act = Box<dyn FnOnce() + Send>;

/// A server. A test sets what its connections and attempts do.
#[derive(Default)]
struct Server {
    /// What the next destructors of connections do, the last one first.
    drops: Mutex<Vec<Act>>,
    /// After how long the next attempts fail, the last one first.
    failures: Mutex<Vec<Duration>>,
    /// Whether attempts hang, and whether they fail at once.
    hangs: AtomicBool,
    refuses: AtomicBool,
    /// Whether attempts use up the budget of their tasks, and never end.
    is_greedy: AtomicBool,
    /// Whether the drop of an attempt panics.
    cut_panics: AtomicBool,
    is_broken: AtomicBool,
    /// Connections and attempts that are alive, and the most of them at a time.
    alive: AtomicU32,
    most: AtomicU32,
}

impl Server {
    /// Sets what the next destructor does.
    fn at_drop(&self, act: impl FnOnce() + Send + 'static) {
        self.drops.lock().unwrap().push(Box::new(act));
    }
}

/// A connection, or an attempt to open one.
struct Alive(Arc<Server>);

impl Alive {
    fn new(server: &Arc<Server>) -> Self {
        let alive = server.alive.fetch_add(1, SeqCst) + 1;
        server.most.fetch_max(alive, SeqCst);
        Alive(server.clone())
    }
}

impl Drop for Alive {
    fn drop(&mut self) {
        self.0.alive.fetch_sub(1, SeqCst);
    }
}

struct Connection(Alive);

impl Connection {
    fn new(server: &Arc<Server>) -> Self {
        Connection(Alive::new(server))
    }
}

impl Drop for Connection {
    fn drop(&mut self) {
        let act = self.0 .0.drops.lock().unwrap().pop();
        if let Some(act) = act {
            act();
        }
    }
}

struct PanicsIf(bool);

impl Drop for PanicsIf {
    fn drop(&mut self) {
        assert!(!self.0 || thread::panicking(), "cut off");
    }
}

struct Manager(Arc<Server>);

impl ManageConnection for Manager {
    type Connection = Connection;
    type Error = ();

    async fn connect(&self) -> Result<Connection, ()> {
        let alive = Alive::new(&self.0);
        let _panics = PanicsIf(self.0.cut_panics.load(SeqCst));
        if self.0.hangs.load(SeqCst) {
            pending::<()>().await;
        }
        if self.0.refuses.load(SeqCst) {
            return Err(());
        }
        let ready = Semaphore::new(1);
        while self.0.is_greedy.load(SeqCst) {
            drop(ready.acquire().await);
        }
        let failure = self.0.failures.lock().unwrap().pop();
        if let Some(time) = failure {
            sleep(time).await;
            return Err(());
        }
        Ok(Connection(alive))
    }

    async fn is_valid(&self, _: &mut Connection) -> Result<(), ()> {
        Ok(())
    }

    fn has_broken(&self, _: &mut Connection) -> bool {
        self.0.is_broken.load(SeqCst)
    }
}

/// Counts how often it is woken.
#[derive(Default)]
struct Wakes(AtomicU32);

impl Wake for Wakes {
    fn wake(self: Arc<Self>) {
        self.0.fetch_add(1, SeqCst);
    }
}

type Get = Pin<Box<dyn Future<Output = bool> + Send>>;

/// Returns a get that was polled once and waits, and counts its wakes.
fn waiting(pool: &Pool<Manager>) -> (Get, Arc<Wakes>) {
    let (pool, wakes) = (pool.clone(), Arc::<Wakes>::default());
    let mut get: Get = Box::pin(async move { pool.get().await.is_ok() });
    let waker = Waker::from(wakes.clone());
    let polled = get.as_mut().poll(&mut Context::from_waker(&waker));
    assert!(polled.is_pending());
    (get, wakes)
}

fn runtime() -> Runtime {
    let mut builder = Builder::new_multi_thread();
    builder.worker_threads(2).enable_all().build().unwrap()
}

#[tokio::test(start_paused = true)]
async fn a_notified_get_is_woken_before_a_slow_destructor_ends() {
    let server: Arc<Server> = Arc::default();
    let builder = Pool::builder().max_size(2).max_lifetime(10 * SECOND);
    let pool = builder.build(Manager(server.clone())).await.unwrap();
    let old = pool.get_owned().await.unwrap();
    sleep(6 * SECOND).await;
    let young = pool.get_owned().await.unwrap();
    sleep(6 * SECOND).await;
    let (_get, wakes) = waiting(&pool);
    let (seen, sees) = mpsc::channel();
    let state = pool.clone();
    // While this destructor takes its time, another task returns its connection.
    server.at_drop(move || {
        drop(young);
        let seen_now = (state.state().idle_connections, wakes.0.load(SeqCst));
        seen.send(seen_now).unwrap();
    });
    drop(old);
    assert_eq!(sees.recv().unwrap(), (1, 1));
}

#[test]
fn a_destructor_that_ends_outside_of_a_runtime_leaves_no_get_waiting() {
    let server: Arc<Server> = Arc::default();
    let lives = runtime();
    let builder = Pool::builder().max_size(1).min_idle(1);
    let pool = lives.block_on(builder.build(Manager(server.clone())));
    let pool = pool.unwrap();
    let (gets, handle) = (pool.clone(), lives.handle().clone());
    let (got, gotten) = mpsc::channel();
    // A get comes while the destructor runs, so its attempt has to wait for the slot.
    server.at_drop(move || {
        let waits = gets.clone();
        let get = handle.spawn(async move { waits.get().await.is_ok() });
        got.send(get).unwrap();
        while gets.state().statistics.get_started == 0 {
            thread::yield_now();
        }
        thread::sleep(Duration::from_millis(50));
    });
    let retires = pool.clone();
    thread::spawn(move || retires.retire()).join().unwrap();
    let got = lives.block_on(async { timeout(5 * SECOND, gotten.recv().unwrap()).await });
    assert!(matches!(got, Ok(Ok(true))), "{got:?} {:?}", pool.state());
}

#[tokio::test(start_paused = true)]
async fn an_attempt_that_gives_up_opens_what_was_left_to_be_opened() {
    let server: Arc<Server> = Arc::default();
    *server.failures.lock().unwrap() = vec![3 * SECOND, SECOND];
    let builder = Pool::builder()
        .max_size(2)
        .min_idle(2)
        .retry_connection(false)
        .max_lifetime(None)
        .idle_timeout(None);
    let pool = builder.build_unchecked(Manager(server.clone()));
    let gets = pool.clone();
    let get = tokio::spawn(async move { gets.get().await.is_ok() });
    sleep(2 * SECOND).await; // the first of two attempts has failed
    let retires = pool.clone();
    thread::spawn(move || retires.retire()).join().unwrap();
    sleep(2 * SECOND).await; // the second one has failed; from now on attempts succeed
    assert_eq!(pool.state().statistics.connections_failed, 2);
    let got = timeout(20 * SECOND, get).await;
    assert!(matches!(got, Ok(Ok(true))), "{got:?} {:?}", pool.state());
}

/// A retire drops two connections. A get comes during the first destructor, and its attempt is
/// under way during the second.
#[tokio::test(start_paused = true)]
async fn a_slot_is_free_once_its_own_destructor_has_ended() {
    let server: Arc<Server> = Arc::default();
    let builder = Pool::builder().max_size(2).min_idle(1);
    let pool = builder.build(Manager(server.clone())).await.unwrap();
    pool.add(Connection::new(&server)).ok().unwrap();
    let (get, gets) = (pool.clone(), Arc::new(Mutex::new(None)));
    let (keeps, state) = (gets.clone(), pool.clone());
    let (seen, sees) = mpsc::channel();
    server.at_drop(move || seen.send(state.state().pending_connections).unwrap());
    server.at_drop(move || *keeps.lock().unwrap() = Some(waiting(&get)));
    pool.retire();
    assert_eq!(sees.recv().unwrap(), 1);
    drop(gets);
}

/// Of two slots one is free while the connection in the other is being dropped.
#[test]
fn attempts_that_were_cut_off_do_not_wait_for_a_destructor() {
    let server: Arc<Server> = Arc::default();
    let (ends, lives) = (runtime(), runtime());
    let builder = Pool::builder().max_size(2);
    let pool = lives.block_on(builder.build(Manager(server.clone())));
    let pool = pool.unwrap();
    let conn = lives.block_on(pool.get_owned()).unwrap();
    server.hangs.store(true, SeqCst);
    let gets = pool.clone();
    ends.spawn(async move { gets.get().await.is_ok() });
    while pool.state().pending_connections == 0 {
        thread::yield_now();
    }
    drop(ends);
    pool.retire();
    let (gets, handle) = (pool.clone(), lives.handle().clone());
    let (seen, sees) = mpsc::channel();
    server.at_drop(move || {
        let _inside = handle.enter();
        let _get = waiting(&gets);
        seen.send(gets.state().pending_connections).unwrap();
    });
    drop(conn);
    assert_eq!(sees.recv().unwrap(), 1);
}

/// 199 attempts that were cut off are taken over by one thread, while another one returns a
/// connection whose destructor takes 40 ms.
#[test]
fn max_size_holds_while_attempts_are_taken_over() {
    const SIZE: u32 = 200;
    for round in 0..20 {
        let server: Arc<Server> = Arc::default();
        let (ends, lives) = (runtime(), runtime());
        let builder = Pool::builder()
            .max_size(SIZE)
            .max_lifetime(None)
            .idle_timeout(None);
        let pool = lives.block_on(builder.build(Manager(server.clone())));
        let pool = pool.unwrap();
        let conn = lives.block_on(pool.get_owned()).unwrap();
        pool.retire();
        server.hangs.store(true, SeqCst);
        let mut gets: Vec<Get> = {
            let _inside = ends.enter();
            (1..SIZE).map(|_| waiting(&pool).0).collect()
        };
        while server.alive.load(SeqCst) < SIZE {
            thread::yield_now();
        }
        drop(ends);
        server.most.store(0, SeqCst);
        let drops = Arc::<AtomicBool>::default();
        let dropped = drops.clone();
        server.at_drop(move || {
            dropped.store(true, SeqCst);
            thread::sleep(Duration::from_millis(40));
        });
        let start = Arc::new(Barrier::new(3));
        let (begins, takes, handle) = (start.clone(), pool.clone(), lives.handle().clone());
        let taking = thread::spawn(move || {
            let _inside = handle.enter();
            begins.wait();
            gets.push(waiting(&takes).0);
            gets
        });
        let begins = start.clone();
        let dropping = thread::spawn(move || {
            begins.wait();
            let now = Instant::now();
            while now.elapsed() < Duration::from_micros(21 * round % 150) {}
            drop(conn);
        });
        let _inside = lives.enter();
        start.wait();
        while !drops.load(SeqCst) {
            thread::yield_now();
        }
        let _gets = [waiting(&pool), waiting(&pool)];
        thread::sleep(Duration::from_millis(15));
        let most = server.most.load(SeqCst);
        assert!(most <= SIZE, "round {round}: {most}");
        let ended = (taking.join(), dropping.join());
        assert!(ended.0.is_ok() && ended.1.is_ok());
        pool.close_now();
    }
}

/// The attempts are older than the gets. If each get that the runtime drops started all of them
/// again, this would take a minute.
#[test]
fn a_runtime_with_many_attempts_and_waiting_gets_ends_soon() {
    let server: Arc<Server> = Arc::default();
    server.hangs.store(true, SeqCst);
    let ends = Builder::new_current_thread().enable_all().build().unwrap();
    let builder = Pool::builder().max_size(400).min_idle(400);
    let pool = ends.block_on(async {
        let pool = builder.build_unchecked(Manager(server.clone()));
        while server.alive.load(SeqCst) < 400 {
            sleep(Duration::from_millis(1)).await;
        }
        for _ in 0..4000 {
            let pool = pool.clone();
            tokio::spawn(async move { pool.get().await.is_ok() });
        }
        while pool.state().statistics.get_started < 4000 {
            sleep(Duration::from_millis(1)).await;
        }
        pool
    });
    let start = Instant::now();
    drop(ends);
    let took = start.elapsed();
    assert!(took < 5 * SECOND, "{took:?}");
    assert_eq!(pool.state().pending_connections, 0);
}

#[test]
fn a_get_that_moves_to_a_runtime_without_timers_is_served() {
    let server: Arc<Server> = Arc::default();
    let (lives, rests) = (runtime(), Builder::new_current_thread().build().unwrap());
    let builder = Pool::builder().max_size(1);
    let pool = lives.block_on(builder.build(Manager(server.clone())));
    let pool = pool.unwrap();
    let conn = lives.block_on(pool.get_owned()).unwrap();
    let (get, _) = {
        let _inside = lives.enter();
        waiting(&pool)
    };
    server.is_broken.store(true, SeqCst);
    drop(conn);
    assert!(rests.block_on(get));
}

/// The pauses of the attempt are 400, 800 and 1000 ms.
#[test]
fn a_get_that_moves_to_a_runtime_without_timers_does_not_hammer_the_server() {
    let server: Arc<Server> = Arc::default();
    let (lives, rests) = (runtime(), Builder::new_current_thread().build().unwrap());
    let builder = Pool::builder().max_size(1).connection_timeout(2 * SECOND);
    let pool = lives.block_on(builder.build(Manager(server.clone())));
    let pool = pool.unwrap();
    let conn = lives.block_on(pool.get_owned()).unwrap();
    let (get, _) = {
        let _inside = lives.enter();
        waiting(&pool)
    };
    server.refuses.store(true, SeqCst);
    server.is_broken.store(true, SeqCst);
    drop(conn);
    assert!(!rests.block_on(get));
    let failed = pool.state().statistics.connections_failed;
    assert!((1..=4).contains(&failed), "{failed}");
}

/// A `try_get` opens 24 connections for `min_idle` in a runtime that lives, while another one, with
/// 8 attempts, ends. Those 8 may be left to a later step.
#[test]
fn a_runtime_that_ends_keeps_no_other_one_from_opening_connections() {
    let server: Arc<Server> = Arc::default();
    let lives = runtime();
    for round in 0..50 {
        let builder = Pool::builder().max_size(64).min_idle(32);
        let pool = lives.block_on(builder.build(Manager(server.clone())));
        let pool = pool.unwrap();
        let ends = Builder::new_current_thread().enable_all().build().unwrap();
        {
            // It is not driven, so attempts in it stay in progress.
            let _inside = ends.enter();
            let gets = (0..8).map(|_| pool.get_owned().now_or_never().unwrap());
            drop(gets.collect::<Vec<_>>());
        }
        let retires = pool.clone();
        thread::spawn(move || retires.retire()).join().unwrap();
        let state = pool.state();
        assert_eq!((state.idle_connections, state.pending_connections), (0, 8));
        let start = Arc::new(Barrier::new(2));
        let begins = start.clone();
        let ending = thread::spawn(move || {
            begins.wait();
            drop(ends);
        });
        {
            let _inside = lives.enter();
            start.wait();
            let now = Instant::now();
            while now.elapsed() < Duration::from_micros(round % 40) {}
            let tried = pool.try_get_owned().now_or_never().unwrap();
            assert!(tried.is_ok());
        }
        ending.join().unwrap();
        while pool.state().pending_connections > 0 {
            thread::yield_now();
        }
        let idle = pool.state().idle_connections;
        assert!(idle >= 24, "round {round}: {idle}");
    }
}

/// Three attempts are cut off within 4.5 seconds: after one second, 2.4 and 4.2.
#[tokio::test(start_paused = true)]
async fn an_attempt_whose_future_panics_when_it_is_cut_off_counts_as_failed() {
    let server: Arc<Server> = Arc::default();
    server.hangs.store(true, SeqCst);
    server.cut_panics.store(true, SeqCst);
    let builder = Pool::builder().max_size(1).connect_timeout(SECOND);
    let pool = builder.build(Manager(server.clone())).await.unwrap();
    assert!(pool.get_timeout(SECOND * 9 / 2).await.is_err());
    assert_eq!(pool.state().statistics.connections_failed, 3);
}

#[tokio::test]
async fn an_attempt_that_uses_up_the_budget_of_its_task_is_cut_off() {
    let server: Arc<Server> = Arc::default();
    server.is_greedy.store(true, SeqCst);
    let builder = Pool::builder().connect_timeout(Duration::from_millis(20));
    let pool = builder.build(Manager(server.clone())).await.unwrap();
    let (_get, _) = waiting(&pool);
    let failed = || pool.state().statistics.connections_failed > 0;
    let cut_off = async {
        while !failed() {
            sleep(Duration::from_millis(1)).await;
        }
    };
    assert!(timeout(5 * SECOND, cut_off).await.is_ok());
}

#[tokio::test(start_paused = true)]
async fn a_waker_that_panics_at_a_close_leaves_no_other_get_waiting() {
    struct Broken;

    impl Wake for Broken {
        fn wake(self: Arc<Self>) {
            panic!("waker");
        }
    }

    let server: Arc<Server> = Arc::default();
    let builder = Pool::builder().max_size(1).min_idle(1);
    let pool = builder.build(Manager(server)).await.unwrap();
    let _conn = pool.get_owned().await.unwrap();
    let mut get = Box::pin(pool.get());
    let waker = Waker::from(Arc::new(Broken));
    let polled = get.as_mut().poll(&mut Context::from_waker(&waker));
    assert!(polled.is_pending());
    let (_other, wakes) = waiting(&pool);
    let closed = catch_unwind(AssertUnwindSafe(|| pool.close_now()));
    assert!(closed.is_err());
    assert_eq!(wakes.0.load(SeqCst), 1);
}
