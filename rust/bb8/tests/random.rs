//! Random events, some of them during a destructor or another call to user code. After each event
//! all tasks run and all woken gets are polled. Then no get may wait without need, and the
//! statistics must add up.
//!
//! `BB8_SEEDS=1000 cargo test -p bb8 --test random` plays the first 1000 seeds instead of 150.

use bb8::AddError::{Broken, NoCapacity, Withheld};
use bb8::{ManageConnection, Pool, PooledConnection, QueueStrategy, RunError};
use std::cell::{Cell, RefCell};
use std::env;
use std::future::Future;
use std::panic::{catch_unwind, resume_unwind, AssertUnwindSafe};
use std::pin::Pin;
use std::rc::{Rc, Weak};
use std::sync::atomic::{AtomicBool, AtomicU32, Ordering::SeqCst};
use std::sync::{mpsc, Arc, Mutex};
use std::task::{Context, Poll, Wake, Waker};
use std::thread;
use std::time::Duration;
use tokio::runtime::{Builder, Handle, Runtime};
use tokio::sync::oneshot;
use tokio::task::yield_now;
use tokio::time::{advance, timeout};

const MILLISECOND: Duration = Duration::from_millis(1);

/// The payload of a panic of user code.
struct Planned;

/// Returns the result, or `None` after a planned panic, or one of a timer whose runtime has ended.
fn unless_planned<T>(act: impl FnOnce() -> T) -> Option<T> {
    let result = catch_unwind(AssertUnwindSafe(act));
    let planned = result.map_err(|panic| {
        let message = panic.downcast_ref::<String>();
        if !panic.is::<Planned>() && !message.is_some_and(|it| it.contains("being shutdown")) {
            resume_unwind(panic);
        }
    });
    planned.ok()
}

/// The ends of attempts or checks in progress: 0 is a failure, 1 a panic, all else a success.
type Ends = Mutex<Vec<oneshot::Sender<usize>>>;

/// A server. The test decides how its attempts and checks end.
#[derive(Default)]
struct Server {
    attempts: Ends,
    checks: Ends,
    /// Whether attempts and checks succeed at once.
    is_well: AtomicBool,
    is_broken: AtomicBool,
    /// Whether the next destructor of a connection panics.
    drop_panics: AtomicBool,
    /// Connections and attempts that are alive, and the most of them when an attempt began.
    alive: AtomicU32,
    most: AtomicU32,
}

impl Server {
    /// Waits until the test decides how an attempt or a check ends.
    async fn end(&self, ends: &Ends) -> Result<(), ()> {
        meanwhile();
        if self.is_well.load(SeqCst) {
            return Ok(());
        }
        let (sender, end) = oneshot::channel();
        ends.lock().unwrap().push(sender);
        match end.await {
            Ok(0) | Err(_) => Err(()),
            Ok(1) => resume_unwind(Box::new(Planned)),
            _ => Ok(()),
        }
    }
}

/// A connection of the pool, or an attempt to open one.
struct Alive(Arc<Server>);

impl Alive {
    fn new(server: &Arc<Server>) -> Self {
        server.alive.fetch_add(1, SeqCst);
        Alive(server.clone())
    }
}

impl Drop for Alive {
    fn drop(&mut self) {
        self.0.alive.fetch_sub(1, SeqCst);
    }
}

/// A connection. It is empty once it has left the pool.
struct Connection(Option<Alive>);

impl Drop for Connection {
    fn drop(&mut self) {
        let Some(alive) = &self.0 else { return };
        meanwhile();
        SLOW.with_borrow(|slow| {
            if let Some((begins, ends)) = slow {
                // An error means that the test has failed.
                let _ = begins.send(()).map(|()| ends.recv());
            }
        });
        if alive.0.drop_panics.swap(false, SeqCst) && !thread::panicking() {
            resume_unwind(Box::new(Planned));
        }
    }
}

struct Manager(Arc<Server>);

impl ManageConnection for Manager {
    type Connection = Connection;
    type Error = ();

    async fn connect(&self) -> Result<Connection, ()> {
        let alive = Alive::new(&self.0);
        self.0.most.fetch_max(self.0.alive.load(SeqCst), SeqCst);
        self.0.end(&self.0.attempts).await?;
        Ok(Connection(Some(alive)))
    }

    async fn is_valid(&self, _: &mut Connection) -> Result<(), ()> {
        self.0.end(&self.0.checks).await
    }

    fn has_broken(&self, _: &mut Connection) -> bool {
        meanwhile();
        self.0.is_broken.swap(false, SeqCst)
    }
}

/// Whether a get was woken since it was last polled.
struct Woken(AtomicBool);

impl Wake for Woken {
    fn wake(self: Arc<Self>) {
        self.0.store(true, SeqCst);
    }
}

type Guard = PooledConnection<'static, Manager>;
type Got = Result<Option<Guard>, RunError<()>>;

/// A get that the test polls. At first it counts as woken.
struct Get {
    future: Pin<Box<dyn Future<Output = Got>>>,
    woken: Arc<Woken>,
}

/// The pool of one seed, and all that its events change.
struct World {
    seed: u64,
    dice: Cell<u64>,
    server: Arc<Server>,
    pool: Pool<Manager>,
    gets: RefCell<Vec<Get>>,
    guards: RefCell<Vec<Guard>>,
    /// A second runtime, which nobody drives.
    second: RefCell<Option<Runtime>>,
    /// How many events are under way that happen during calls to user code.
    depth: Cell<u32>,
    /// Threads on which a destructor waits.
    slow: RefCell<Vec<Slow>>,
}

/// A thread on which a destructor of a connection waits until the test lets it end.
struct Slow {
    begun: mpsc::Receiver<()>,
    goes_on: mpsc::Sender<()>,
}

thread_local! {
    /// The world whose events happen on this thread.
    static WORLD: RefCell<Weak<World>> = const { RefCell::new(Weak::new()) };

    /// The other ends of the channels of `Slow`.
    static SLOW: RefCell<Option<(mpsc::Sender<()>, mpsc::Receiver<()>)>> =
        const { RefCell::new(None) };
}

/// Lets a random event happen during a call to user code, unless that is on another thread.
fn meanwhile() {
    let Some(world) = WORLD.with_borrow(Weak::upgrade) else {
        return;
    };
    if world.depth.get() < 2 && world.roll(2) == 0 && !thread::panicking() {
        world.depth.set(world.depth.get() + 1);
        world.event();
        world.depth.set(world.depth.get() - 1);
    }
}

impl World {
    fn new(seed: u64) -> Self {
        let dice = Cell::new(seed.wrapping_mul(0x9E37_79B9_7F4A_7C15));
        let roll = |sides| roll(&dice, sides);
        let server: Arc<Server> = Arc::default();
        let max_size = 1 + roll(4) as u32;
        let builder = Pool::builder()
            .max_size(max_size)
            .min_idle(roll(max_size as usize + 1) as u32)
            .test_on_check_out(roll(2) == 0)
            .test_on_check_out_after([0, 0, 20][roll(3)] * MILLISECOND)
            .fair_after([None, Some(Duration::ZERO)][roll(2)])
            .queue_strategy([QueueStrategy::Fifo, QueueStrategy::Lifo][roll(2)])
            .retry_connection(roll(2) == 0)
            .connection_timeout(20_000 * MILLISECOND)
            .max_lifetime(None)
            .idle_timeout(None);
        World {
            seed,
            pool: builder.build_unchecked(Manager(server.clone())),
            dice,
            server,
            gets: RefCell::default(),
            guards: RefCell::default(),
            second: RefCell::default(),
            depth: Cell::default(),
            slow: RefCell::default(),
        }
    }

    fn roll(&self, sides: usize) -> usize {
        roll(&self.dice, sides)
    }

    /// Takes a random one of these.
    fn take<T>(&self, from: &RefCell<Vec<T>>) -> Option<T> {
        let mut from = from.borrow_mut();
        let index = self.roll(from.len().max(1));
        (index < from.len()).then(|| from.swap_remove(index))
    }

    /// Lets a random event happen.
    fn event(&self) {
        unless_planned(|| match self.roll(24) {
            0..=4 => self.begin(),
            5 | 6 => drop(self.take(&self.gets)),
            7..=10 => self.put_back(self.take(&self.guards), self.roll(2) == 0),
            11 => self.put_back(None, self.roll(2) == 0),
            12 => self.detach(),
            13 | 14 => self.go_on(),
            15 => self.add(),
            16..=18 => self.decide(&self.server.attempts),
            19 | 20 => self.decide(&self.server.checks),
            21 => self.poll_anew(),
            22 => self.change_second(),
            _ => self.event_in_second(),
        });
    }

    /// Lets a random event happen inside the second runtime.
    fn event_in_second(&self) {
        let handle = self.second.borrow().as_ref().map(|it| it.handle().clone());
        if let Some(handle) = handle {
            let _inside = handle.enter();
            self.event();
        }
    }

    /// Polls a get with a new waker, though it was not woken.
    fn poll_anew(&self) {
        if let Some(mut get) = self.take(&self.gets) {
            get.woken = Arc::new(Woken(AtomicBool::new(false)));
            self.poll(get);
        }
    }

    fn begin(&self) {
        if self.gets.borrow().len() == 8 {
            return;
        }
        let (pool, span) = (self.pool.clone(), self.roll(300) as u32 * MILLISECOND);
        self.gets.borrow_mut().push(Get {
            future: match self.roll(8) {
                0 => Box::pin(async move { pool.try_get_owned().await }),
                1 => Box::pin(async move { Ok(pool.get_owned_timeout(span).await.ok()) }),
                _ => Box::pin(async move { pool.get_owned().await.map(Some) }),
            },
            woken: Arc::new(Woken(AtomicBool::new(true))),
        });
    }

    /// Returns a guard, or retires if there is none. On another thread, destructors are slow.
    fn put_back(&self, guard: Option<Guard>, is_here: bool) {
        let pool = self.pool.clone();
        let act = move || guard.map_or_else(|| pool.retire(), drop);
        self.server.is_broken.store(self.roll(2) == 0, SeqCst);
        self.server.drop_panics.store(self.roll(6) == 0, SeqCst);
        if is_here {
            return act();
        }
        let ((begins, begun), (goes_on, ends)) = (mpsc::channel(), mpsc::channel());
        let handle = (self.roll(2) == 0).then(Handle::current);
        thread::spawn(move || {
            let _inside = handle.as_ref().map(Handle::enter);
            SLOW.set(Some((begins, ends)));
            act();
        });
        self.watch(Slow { begun, goes_on });
    }

    /// Waits until a slow destructor begins, or the thread has ended.
    fn watch(&self, slow: Slow) {
        let begun = slow.begun.recv();
        self.slow.borrow_mut().extend(begun.ok().map(|()| slow));
    }

    /// Lets a slow destructor end.
    fn go_on(&self) {
        if let Some(slow) = self.take(&self.slow) {
            slow.goes_on.send(()).unwrap();
            self.watch(slow);
        }
    }

    fn detach(&self) {
        if let Some(guard) = self.take(&self.guards) {
            PooledConnection::detach(guard).0 = None;
        }
    }

    /// Adds a connection. While another one is being dropped, that may exceed `max_size`.
    fn add(&self) {
        if self.depth.get() == 0 && self.slow.borrow().is_empty() {
            let added = self.pool.add(Connection(Some(Alive::new(&self.server))));
            if let Err(Broken(mut conn) | NoCapacity(mut conn) | Withheld(mut conn)) = added {
                conn.0 = None;
            }
        }
    }

    /// Decides how a random one of these attempts or checks ends.
    fn decide(&self, ends: &Ends) {
        let count = in_progress(ends) as usize;
        if count > 0 {
            let sender = ends.lock().unwrap().swap_remove(self.roll(count));
            let _ = sender.send(self.roll(5));
        }
    }

    /// Begins a second runtime, or ends it.
    fn change_second(&self) {
        let ended = self.second.take();
        if let Some(runtime) = ended {
            // A runtime may not be dropped inside another one.
            return thread::spawn(move || drop(runtime)).join().unwrap();
        }
        self.second.replace(Some(paused_runtime()));
    }

    fn poll(&self, mut get: Get) {
        let waker = Waker::from(get.woken.clone());
        let mut context = Context::from_waker(&waker);
        match unless_planned(|| get.future.as_mut().poll(&mut context)) {
            Some(Poll::Pending) => self.gets.borrow_mut().push(get),
            Some(Poll::Ready(Ok(Some(guard)))) => self.guards.borrow_mut().push(guard),
            Some(Poll::Ready(Err(error))) => {
                assert!(self.pool.is_closed(), "seed {}: {error:?}", self.seed);
            }
            // A check panicked, or a get with a short time was not served.
            _ => drop(unless_planned(|| drop(get))),
        }
    }

    /// Whether a get, a guard or a slow destructor is left.
    fn is_busy(&self) -> bool {
        let has_slow = !self.slow.borrow().is_empty();
        has_slow || !self.gets.borrow().is_empty() || !self.guards.borrow().is_empty()
    }

    /// Takes a get that was woken.
    fn take_woken(&self) -> Option<Get> {
        let mut gets = self.gets.borrow_mut();
        let index = gets.iter().position(|get| get.woken.0.swap(false, SeqCst));
        index.map(|index| gets.swap_remove(index))
    }

    /// Lets all tasks run and polls woken gets, until none was woken during 40 turns.
    async fn settle(&self) {
        let mut turns = 0;
        while turns < 40 {
            yield_now().await;
            turns += 1;
            while let Some(get) = self.take_woken() {
                self.poll(get);
                turns = 0;
            }
        }
    }

    /// Checks what has to hold when all tasks have run. The pool may or may not count connections
    /// whose destructors are slow.
    fn check(&self, step: u32) {
        let state = self.pool.state();
        let (seen, max_size) = (&state.statistics, self.pool.config().max_size);
        let (connections, pending) = (state.connections, state.pending_connections);
        let name = format!("seed {}, step {step}: {:?}", self.seed, self.pool);
        assert!(self.server.most.load(SeqCst) <= max_size, "{name}");
        assert!(connections + pending <= max_size, "{name}");
        let alive = self.server.alive.load(SeqCst) - in_progress(&self.server.attempts);
        let checking = in_progress(&self.server.checks);
        let held = self.guards.borrow().len() as u32 + checking;
        if self.slow.borrow().is_empty() {
            assert_eq!(connections, alive, "{name}");
            assert_eq!(connections, state.idle_connections + held, "{name}");
        }
        let gets = self.gets.borrow().len() as u32;
        let waiting = gets.saturating_sub(checking);
        assert!(waiting == 0 || state.idle_connections == 0, "{name}");
        assert!(waiting <= pending || alive + pending >= max_size, "{name}");
        let came = seen.connections_created + seen.connections_added;
        let left = seen.connections_closed + seen.connections_detached;
        assert_eq!(came, left + u64::from(connections), "{name}");
        assert_eq!(seen.pending_gets(), u64::from(gets), "{name}");
    }
}

/// Returns how many of these attempts or checks are in progress.
fn in_progress(ends: &Ends) -> u32 {
    let mut ends = ends.lock().unwrap();
    ends.retain(|sender| !sender.is_closed());
    ends.len() as u32
}

/// Returns a random number below `sides`.
fn roll(dice: &Cell<u64>, sides: usize) -> usize {
    let mut number = dice.get();
    number ^= number << 13;
    number ^= number >> 7;
    number ^= number << 17;
    dice.set(number);
    (number >> 11) as usize % sides
}

/// Ends all that is under way. Then all gets are served, or the pool is closed.
async fn end(world: &World) {
    world.server.is_well.store(true, SeqCst);
    world.server.drop_panics.store(false, SeqCst);
    if world.second.borrow().is_some() {
        world.change_second();
    }
    if world.roll(2) == 0 {
        unless_planned(|| world.pool.close_now());
    }
    for ends in [&world.server.attempts, &world.server.checks] {
        ends.lock().unwrap().clear();
    }
    let mut rounds = 0;
    while rounds < 100 && world.is_busy() {
        world.go_on();
        world.settle().await;
        let guards = world.guards.take();
        unless_planned(|| drop(guards));
        advance(100 * MILLISECOND).await;
        rounds += 1;
    }
    let name = format!("seed {}: {:?}", world.seed, world.pool);
    assert!(!world.is_busy(), "{name}");
    let closed = timeout(1000 * MILLISECOND, world.pool.close()).await;
    assert!(closed.is_ok(), "{name}");
    assert_eq!(world.server.alive.load(SeqCst), 0, "{name}");
}

/// Plays one seed.
async fn play(seed: u64) {
    let world = Rc::new(World::new(seed));
    WORLD.set(Rc::downgrade(&world));
    for step in 0..120 {
        match world.roll(16) {
            0 => advance([1, 10, 60, 300, 700][world.roll(5)] * MILLISECOND).await,
            _ => world.event(),
        }
        world.settle().await;
        world.check(step);
    }
    WORLD.take();
    end(&world).await;
}

fn paused_runtime() -> Runtime {
    let mut builder = Builder::new_current_thread();
    builder.enable_all().start_paused(true).build().unwrap()
}

#[test]
fn no_random_events_lose_a_slot_or_leave_a_get_waiting() {
    let seeds = env::var("BB8_SEEDS").map_or(150, |seeds| seeds.parse().unwrap());
    for seed in 1..=seeds {
        paused_runtime().block_on(play(seed));
    }
}
