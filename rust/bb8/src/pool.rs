//! The state that the handles of a pool share: a lock around the core and the waiters, and the
//! calls that acquire it, apart from gets and connection attempts.

use crate::attempt::{Attempt, Claimed};
use crate::boxed::Boxed;
use crate::builder::{Builder, Checks};
use crate::core::{
    self, Checkout, ClosedList, Core, EvictAnswer, GetKey, Held, Key, Moment, ReapAnswer,
};
use crate::ends::Ends;
use crate::events::{CLOSED, IDLE_TIMEOUT, MAX_LIFETIME, RETIRED};
use crate::figures::State;
use crate::lock::{Mutex, MutexGuard};
use crate::managers::ManageConnection;
use crate::returning::{resume, wake_all};
use crate::waiters::Waiters;
use bb8_core::kit::Global;
use futures_util::future::{select, Either};
use futures_util::stream::{FuturesUnordered, TryStreamExt};
use std::panic::{catch_unwind, AssertUnwindSafe};
use std::pin::pin;
use std::sync::{Arc, Weak};
use std::time::Duration;
use std::{iter, mem, thread};
use tokio::sync::Notify;
use tokio::time::{interval_at, timeout, Instant, Interval, MissedTickBehavior};

/// The state that the lock protects.
pub(crate) struct Locked<C> {
    pub(crate) core: Core<C>,
    /// The connections that a step closed all at once, until they are dropped.
    pub(crate) closed: ClosedList<Held<C>>,
    pub(crate) waiters: Waiters<C>,
    pub(crate) max_size: u32,
    /// Whether connections are left to be opened, because memory, a runtime or a slot was missing.
    pub(crate) unopened: bool,
    /// The connection attempts that ended with their runtime.
    pub(crate) cut_off: Vec<Claimed<C>>,
    /// Without a `connect_timeout`, an attempt may take this long or `connection_timeout`,
    /// whichever is longer. It is zero unless attempts took too long.
    pub(crate) learned_limit: Duration,
    pub(crate) counts: Counts,
    pub(crate) ends: Ends,
}

/// The numbers that the core does not count.
#[derive(Default)]
pub(crate) struct Counts {
    /// Connection attempts in progress.
    pub(crate) pending: u32,
    /// Closed connections that are not dropped yet. Their slots are free in the core already.
    pub(crate) dropping: u32,
    pub(crate) added: u64,
    pub(crate) failed: u64,
    pub(crate) checks_timed_out: u64,
    /// Idle connections that were closed at their own ends. The core counts them as detached.
    pub(crate) expired: u64,
    /// The retired connections that the core had counted after the latest step that closed some.
    retired: u64,
}

/// A step that closes idle connections.
type Sweep<C> = fn(&mut Core<C>, Moment, &mut ClosedList<Held<C>>) -> ReapAnswer;

impl<C> Locked<C> {
    /// Makes a step that closes idle connections, and lists them. Returns `None` if memory for the
    /// list is refused.
    fn sweep<R>(
        &mut self,
        step: impl FnOnce(&mut Core<C>, &mut ClosedList<Held<C>>) -> R,
    ) -> Option<R> {
        let before = self.closed.len();
        let idle = self.core.idle() as usize;
        self.closed.grow(before + idle).ok()?;
        let answer = step(&mut self.core, &mut self.closed);
        self.counts.dropping += (self.closed.len() - before) as u32;
        Some(answer)
    }

    /// Whether the pool is closed, or has no handle any more, which is the same to the core.
    pub(crate) fn is_closed(&self) -> bool {
        !self.core.fits_close()
    }

    /// Whether no connection is left, none is being dropped, and no attempt is in progress.
    pub(crate) fn is_empty(&mut self) -> bool {
        // The moment of the last step is as good as any.
        let connections = self.core.state(Moment(0)).connections;
        (connections, self.counts.pending, self.counts.dropping) == (0, 0, 0)
    }

    /// Returns why the latest step closed an unbroken connection: it was retired, or too old.
    pub(crate) fn reason(&mut self) -> &'static str {
        let statistics = self.core.state(Moment(0)).statistics;
        let retired = statistics.connections_closed_retired;
        if mem::replace(&mut self.counts.retired, retired) < retired {
            RETIRED
        } else {
            MAX_LIFETIME
        }
    }
}

/// The state that the handles, gets and connection attempts of a pool share.
pub(crate) struct Shared<M: ManageConnection> {
    pub(crate) settings: Builder<M>,
    pub(crate) manager: M,
    /// The moment from which the core's moments count.
    pub(crate) started: Instant,
    /// Whether the core needs the moment of a return: for ages, for how long a connection has been
    /// idle, or for how long a get has waited.
    pub(crate) dates_returns: bool,
    pub(crate) checks: Checks,
    /// Whether each connection has an end of its own.
    pub(crate) has_ends: bool,
    /// Whether returned connections are passed to the customizer or compared with their ends.
    pub(crate) inspects: bool,
    /// How long a get waits before it is handed a connection directly, in nanoseconds.
    pub(crate) fair_after: Option<u64>,
    /// Notifies all that wait until the pool is closed, or until nothing of a closed pool is left.
    pub(crate) closing: Notify,
    /// Notifies the reaper of a new connection with an end of its own.
    new_end: Arc<Notify>,
    locked: Mutex<Locked<M::Connection>>,
}

impl<M: ManageConnection> Shared<M> {
    /// Returns the shared state of a pool with these settings, which the builder has tested.
    fn new(settings: Builder<M>, manager: M) -> Self {
        let config = &settings.config;
        let hands_off = config.fair_after.is_some();
        let checks = config.checks();
        Shared {
            started: Instant::now(),
            dates_returns: config.has_limits() || hands_off || checks == Checks::Stale,
            checks,
            has_ends: config.has_ends(),
            inspects: config.has_ends() || settings.connection_customizer.is_some(),
            fair_after: config.fair_after.map(nanoseconds),
            closing: Notify::new(),
            new_end: Arc::default(),
            locked: Mutex::new(Locked {
                core: core::core(config),
                closed: ClosedList::new(Global),
                waiters: Waiters::new(hands_off),
                max_size: config.max_size,
                unopened: false,
                cut_off: Vec::new(),
                learned_limit: Duration::ZERO,
                counts: Counts::default(),
                ends: Ends::default(),
            }),
            settings,
            manager,
        }
    }

    // Inlining saves 5 instructions of a pair.
    #[inline]
    pub(crate) fn lock(&self) -> MutexGuard<'_, Locked<M::Connection>> {
        self.locked.lock()
    }

    /// Returns the core's moment of an instant: the nanoseconds since the pool started.
    pub(crate) fn moment(&self, instant: Instant) -> u64 {
        nanoseconds(instant.saturating_duration_since(self.started))
    }

    pub(crate) fn now(&self) -> u64 {
        self.moment(Instant::now())
    }

    /// Returns the current moment if it matters, else 0 without reading the clock.
    pub(crate) fn now_if(&self, matters: bool) -> u64 {
        if matters {
            self.now()
        } else {
            0
        }
    }

    /// Gives a new connection an end of its own, if connections have one.
    pub(crate) fn set_end(&self, conn: &mut Boxed<M::Connection>, at: u64) -> Option<u64> {
        let end = at.saturating_add(nanoseconds(self.settings.config.life()?));
        conn.set_end(end);
        Some(end)
    }

    pub(crate) fn is_past_end(&self, conn: &Boxed<M::Connection>) -> bool {
        self.has_ends && self.now() >= conn.end()
    }

    pub(crate) fn state(&self) -> State {
        let at = self.now();
        let mut locked = self.lock();
        let state = locked.core.state(Moment(at));
        State::new(state, &locked.counts)
    }

    /// Reports an error to the error sink, if there is one.
    pub(crate) fn forward(&self, error: Option<M::Error>) {
        if let Some(error) = error {
            self.settings.error_sink.sink(error);
        }
    }

    pub(crate) async fn connect(&self) -> Result<M::Connection, M::Error> {
        let mut conn = self.manager.connect().await?;
        if let Some(customizer) = &self.settings.connection_customizer {
            customizer.on_acquire(&mut conn).await?;
        }
        Ok(conn)
    }

    /// Serves a get at once if connections are not checked, and one is idle.
    // Inlining saves 32 instructions of an unchecked pair.
    #[inline]
    pub(crate) fn get_at_once(self: &Arc<Self>) -> Option<Checkout<M::Connection>> {
        let mut locked = self.lock();
        if locked.core.idle() == 0 {
            return None;
        }
        // The moment of a get that does not wait does not matter.
        let served = locked.core.serve_at_once(Moment(0))?;
        self.leave(locked, served.grant.count);
        Some(Checkout::new(served.key, served.conn))
    }

    /// Releases the lock, and opens connections if the step granted some, or if some are left.
    // Inlining saves 17 instructions of an unchecked pair.
    #[inline(always)]
    pub(crate) fn leave(
        self: &Arc<Self>,
        locked: MutexGuard<'_, Locked<M::Connection>>,
        granted: u32,
    ) {
        let due = granted > 0 || locked.unopened;
        drop(locked);
        if due {
            self.open();
        }
    }

    /// Opens the first connections. Each attempt may take any time, as `build` has no error for one
    /// that takes too long.
    pub(crate) async fn start(self: &Arc<Self>) -> Result<(), M::Error> {
        let at = self.now();
        self.lock().core.fill(Moment(at), false);
        let attempts = iter::from_fn(|| Attempt::claim(self)).map(|it| it.run(false));
        let attempts: FuturesUnordered<_> = attempts.collect();
        let opened = attempts.try_collect::<()>().await;
        opened.or_else(|error| error.map_or(Ok(()), Err))
    }

    /// Opens connections in the background that are missing to `min_idle`.
    pub(crate) fn fill(self: &Arc<Self>) {
        let at = self.now();
        self.lock().core.fill(Moment(at), false);
        self.open();
    }

    /// Notes the end of a connection that was opened or added, if it has one, and does the work
    /// after the step.
    pub(crate) fn entered(
        self: &Arc<Self>,
        mut locked: MutexGuard<'_, Locked<M::Connection>>,
        at: u64,
        key: Key,
        end: Option<u64>,
        notified: Option<GetKey>,
    ) {
        if let Some(end) = end {
            locked.ends.note(key, end);
        }
        self.settle(locked, at, notified);
        if end.is_some() {
            self.new_end.notify_one();
        }
    }

    /// Reaps. If memory to list the connections is refused, the next reap closes them.
    pub(crate) fn reap(self: &Arc<Self>) {
        // The panic hook has reported a panic of a destructor. It does not end the reaper.
        let _panicked = self.sweep(Core::reap_into, IDLE_TIMEOUT);
    }

    /// Closes the idle connections that are past their own ends, one by one. Returns the time until
    /// the next end of another connection.
    fn expire(self: &Arc<Self>) -> Duration {
        let (at, mut index) = (self.now(), 0);
        loop {
            let mut locked = self.lock();
            let Some(key) = locked.ends.take_past(index, at) else {
                return Duration::from_nanos(locked.ends.next().saturating_sub(at));
            };
            index = key.place + 1;
            // One that is checked out is closed when it is returned.
            if let Ok(EvictAnswer::Evicted(conn, grant, notified)) =
                locked.core.evict(Moment(at), key)
            {
                locked.counts.expired += 1;
                let after = (conn.map(|it| (it, MAX_LIFETIME)), grant.count, notified);
                let settle = || self.follow(locked, at, after);
                // As in a reap, a panic of the destructor does not end the reaper.
                let _panicked = catch_unwind(AssertUnwindSafe(settle));
            }
        }
    }

    pub(crate) fn retire(self: &Arc<Self>) {
        resume(self.sweep(Core::retire_into, RETIRED));
    }

    /// Reaps or retires, drops the closed connections, and opens others. Returns the first panic of
    /// a destructor.
    fn sweep(self: &Arc<Self>, sweep: Sweep<M::Connection>, reason: &str) -> thread::Result<()> {
        let at = self.now();
        let mut locked = self.lock();
        let swept = locked.sweep(|core, list| sweep(core, Moment(at), list));
        // The next step has another reason than this one.
        locked.reason();
        let granted = match swept {
            Some(ReapAnswer::Reaped { grant, .. }) => grant.count,
            _ => 0,
        };
        self.leave(locked, granted);
        self.drop_closed(reason)
    }

    pub(crate) fn is_closed(&self) -> bool {
        self.lock().is_closed()
    }

    /// Closes the pool: its idle connections are dropped, and its attempts and waiting gets end.
    /// Returns false if memory to list the connections is refused: then nothing changes.
    pub(crate) fn close(self: &Arc<Self>) -> bool {
        let at = self.now();
        let mut locked = self.lock();
        if !locked.is_closed() {
            locked.sweep(|core, list| core.close_into(Moment(at), list));
        }
        let is_closed = locked.is_closed();
        if is_closed {
            let wakers = locked.waiters.close();
            drop(locked);
            let woken = wake_all(wakers);
            self.closing.notify_waiters();
            resume(woken.and(self.drop_closed(CLOSED)));
        }
        is_closed
    }

    /// Resolves once the condition holds. Each step that can make it hold notifies `closing` then.
    pub(crate) async fn reached(&self, condition: fn(&mut Locked<M::Connection>) -> bool) {
        loop {
            let notified = self.closing.notified();
            if condition(&mut self.lock()) {
                return;
            }
            notified.await;
        }
    }
}

/// Returns a span in nanoseconds, at most `u64::MAX`.
fn nanoseconds(span: Duration) -> u64 {
    let seconds = span.as_secs().saturating_mul(1_000_000_000);
    seconds.saturating_add(u64::from(span.subsec_nanos()))
}

/// The owner that all handles share: its drop closes the pool. If memory to list the idle
/// connections is refused, they are dropped once the last connection attempt has ended.
pub(crate) struct Owner<M: ManageConnection> {
    pub(crate) shared: Arc<Shared<M>>,
}

impl<M: ManageConnection> Owner<M> {
    /// Returns a pool with settings that the builder has tested, and starts its reaper if an age is
    /// limited.
    pub(crate) fn new(settings: Builder<M>, manager: M) -> Arc<Self> {
        let shared = Arc::new(Shared::new(settings, manager));
        let owner = Arc::new(Owner { shared });
        let config = &owner.shared.settings.config;
        if config.has_limits() {
            let rate = config.reaper_rate;
            let mut ticks = interval_at(owner.shared.started + rate, rate);
            ticks.set_missed_tick_behavior(MissedTickBehavior::Skip);
            let new_end = owner.shared.new_end.clone();
            tokio::spawn(reap(ticks, new_end, Arc::downgrade(&owner)));
        }
        owner
    }
}

impl<M: ManageConnection> Drop for Owner<M> {
    fn drop(&mut self) {
        self.shared.close();
    }
}

/// Reaps at each tick, and closes each idle connection at its own end, until the pool is closed.
async fn reap<M: ManageConnection>(
    mut ticks: Interval,
    new_end: Arc<Notify>,
    owner: Weak<Owner<M>>,
) {
    let mut pause = ticks.period();
    loop {
        let tick = pin!(ticks.tick());
        let new_end = pin!(new_end.notified());
        let woken = timeout(pause, select(tick, new_end)).await;
        let owner = owner.upgrade().filter(|it| !it.shared.is_closed());
        let Some(owner) = owner else { return };
        if let Ok(Either::Left(_)) = woken {
            owner.shared.reap();
        }
        pause = owner.shared.expire();
    }
}
