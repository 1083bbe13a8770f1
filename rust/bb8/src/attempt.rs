//! One connection attempt, for a claimed approval.

use crate::boxed::Reserved;
use crate::core::{fit, ClaimAnswer, Key, Moment, OpenedAnswer};
use crate::events::{report, RETIRED};
use crate::managers::ManageConnection;
use crate::pool::{Locked, Shared};
use crate::returning::{resume, wake_all};
use futures_util::future::{select, Either};
use std::future::{poll_fn, Future};
use std::panic::catch_unwind;
use std::pin::pin;
use std::sync::Arc;
use std::thread;
use std::time::Duration;
use tokio::runtime::Handle;
use tokio::task::{spawn_blocking, unconstrained};
use tokio::time::{sleep, Instant, Sleep};

/// A claimed approval, and the memory for its connection.
pub(crate) struct Claimed<C> {
    approval: Key,
    reserved: Reserved<C>,
}

/// A connection attempt in progress. It does not keep the pool open. If its runtime shuts down,
/// another one takes over its approval.
pub(crate) struct Attempt<M: ManageConnection> {
    shared: Arc<Shared<M>>,
    claimed: Option<Claimed<M::Connection>>,
    /// The pause before the next try.
    wait: Duration,
    calls: Calls,
}

/// The user's code that an attempt is calling. If the attempt is dropped meanwhile, that code
/// panicked.
#[derive(Clone, Copy, PartialEq)]
enum Calls {
    Nothing,
    /// The manager, the customizer, or a `tracing` subscriber that receives the connection's event.
    Connect,
    /// The error sink, or a `tracing` subscriber that receives the event of a failed try.
    Report,
}

/// Half of the first back-off.
const SHORTEST: Duration = Duration::from_millis(200);

/// The upper bound to which tries that take too long raise `learned_limit`.
const LONGEST_TRY: Duration = Duration::from_secs(30);

/// Returns a timer, or `None` in a runtime without timers, where tokio panics.
fn timer(span: Duration) -> Option<Sleep> {
    catch_unwind(|| sleep(span)).ok()
}

impl<M: ManageConnection> Attempt<M> {
    fn new(shared: &Arc<Shared<M>>, claimed: Claimed<M::Connection>) -> Self {
        Attempt {
            shared: shared.clone(),
            claimed: Some(claimed),
            wait: Duration::ZERO,
            calls: Calls::Nothing,
        }
    }

    /// Returns an attempt for the next approval, if there is one: see [`Locked::claim`].
    pub(crate) fn claim(shared: &Arc<Shared<M>>) -> Option<Self> {
        let (at, reserved) = (shared.now(), Reserved::new());
        let claimed = shared.lock().claim(at, reserved)?;
        Some(Attempt::new(shared, claimed))
    }

    /// Opens the connection. After an error it tries again as long as there is time, and then as
    /// long as a get waits. Fails with the last error, or with `None` if the last try took too
    /// long.
    pub(crate) async fn run(mut self, is_limited: bool) -> Result<(), Option<M::Error>> {
        let config = &self.shared.clone().settings.config;
        let start = Instant::now();
        loop {
            let wait = self.wait;
            if wait > Duration::ZERO {
                match timer(wait) {
                    Some(pause) => pause.await,
                    None => drop(spawn_blocking(move || thread::sleep(wait)).await),
                }
            }
            let connected = self.connect(is_limited).await;
            let Err(error) = connected.map(|conn| self.enter(conn)) else {
                return Ok(());
            };
            self.shared.lock().counts.failed += 1;
            self.calls = Calls::Report;
            self.shared.failed("connection attempt", error.as_ref());
            let has_time = start.elapsed() <= config.connection_timeout;
            let retries = config.retry_connection && has_time && !self.shared.is_closed();
            if !retries && !self.goes_on() {
                return Err(error);
            }
            self.shared.forward(error);
            self.calls = Calls::Nothing;
            self.back_off();
        }
    }

    /// Makes one try. The error is `None` if it took too long. Without a limit it needs no timer,
    /// and without timers it has no limit.
    async fn connect(&mut self, is_limited: bool) -> Result<M::Connection, Option<M::Error>> {
        let shared = self.shared.clone();
        let config = &shared.settings.config;
        let learned = || config.connection_timeout.max(shared.lock().learned_limit);
        let limit = config.connect_timeout.unwrap_or_else(learned);
        let timer = is_limited.then(|| timer(limit)).flatten();
        // It fires, too, if connecting uses up the budget of the task.
        let mut timer = pin!(timer.map(unconstrained));
        let start = Instant::now();
        let connected = {
            let mut connecting = pin!(shared.connect());
            let connected = poll_fn(|cx| {
                self.calls = Calls::Connect;
                let connected = connecting.as_mut().poll(cx).map_err(Some);
                self.calls = Calls::Nothing;
                match timer.as_mut().as_pin_mut() {
                    Some(timer) if connected.is_pending() => timer.poll(cx).map(|()| Err(None)),
                    _ => connected,
                }
            })
            .await;
            // The drop of the future that connects may panic, too.
            self.calls = Calls::Connect;
            connected
        };
        self.calls = Calls::Nothing;
        let is_quick = start.elapsed() <= config.connection_timeout;
        let learned = &mut shared.lock().learned_limit;
        match &connected {
            Err(None) => *learned = LONGEST_TRY.min(limit * 2).max(*learned),
            Ok(_) if is_quick => *learned = Duration::ZERO,
            _ => {}
        }
        connected
    }

    /// As `run`, in a task of its own: it ends when the pool is closed, and reports the last error.
    async fn run_alone(self) {
        let shared = self.shared.clone();
        let closed = pin!(shared.reached(|locked| locked.is_closed()));
        let run = pin!(self.run(true));
        if let Either::Right((Err(error), _)) = select(closed, run).await {
            shared.forward(error);
        }
    }

    /// Makes the pause before the next try longer. It is never zero, so that other tasks run.
    fn back_off(&mut self) {
        let longest = self.shared.settings.config.connection_timeout / 2;
        let longer = self.wait.max(SHORTEST).saturating_mul(2);
        self.wait = longer.min(longest).max(Duration::from_millis(1));
    }

    /// Frees the approval, and asks for another one if a get waits. Returns whether this task goes
    /// on for that one, so that the pauses do not start again at the shortest.
    fn goes_on(&mut self) -> bool {
        let Some(Claimed { approval, reserved }) = self.claimed.take() else {
            return false;
        };
        let at = self.shared.now();
        let mut locked = self.shared.lock();
        locked.give_back(at, approval);
        let granted = locked.core.ask(Moment(at)).count;
        if granted > 0 {
            self.claimed = locked.claim(at, Some(reserved));
        }
        // `ask` grants nothing for approvals that are still unclaimed, so those are opened, too.
        self.shared.leave(locked, granted.saturating_sub(1));
        self.shared.closing.notify_waiters();
        self.claimed.is_some()
    }

    /// Enters the connection into the pool. If it was retired before it was opened, or no handle is
    /// left, the pool closes it and opens others for waiting gets and for `min_idle`.
    fn enter(&mut self, conn: M::Connection) {
        self.calls = Calls::Connect;
        report!(debug, self.shared, "connection opened");
        self.calls = Calls::Nothing;
        let Some(Claimed { approval, reserved }) = self.claimed.take() else {
            return;
        };
        let mut conn = reserved.fill(conn);
        let at = self.shared.now();
        let end = self.shared.set_end(&mut conn, at);
        let mut locked = self.shared.lock();
        locked.counts.pending -= 1;
        match fit(locked.core.opened(Moment(at), approval, Some(conn))) {
            OpenedAnswer::Entered(notified) => {
                self.shared.entered(locked, at, approval, end, notified);
            }
            OpenedAnswer::Late(closed) => {
                let filled = locked.core.fill(Moment(at), false).count;
                let granted = filled + locked.core.ask(Moment(at)).count;
                let after = (closed.map(|it| (it, RETIRED)), granted, None);
                self.shared.follow(locked, at, after);
            }
        }
    }
}

impl<M: ManageConnection> Drop for Attempt<M> {
    fn drop(&mut self) {
        if self.calls == Calls::Nothing {
            return self.claimed.take().map_or((), |it| self.shared.hand_on(it));
        }
        if self.calls == Calls::Connect {
            self.shared.lock().counts.failed += 1;
        }
        // Code that panics is not called again for the same approval.
        self.goes_on();
        if let Some(claimed) = self.claimed.take() {
            self.back_off();
            let mut next = Attempt::new(&self.shared, claimed);
            next.wait = self.wait;
            // Outside of a runtime it is dropped, and left to the next one.
            if let Ok(runtime) = Handle::try_current() {
                runtime.spawn(next.run_alone());
            }
        }
    }
}

impl<C> Locked<C> {
    /// Claims an approval, with memory for its connection, or takes over an attempt that was cut
    /// off. Returns `None` if there is none, or if memory or a slot is missing: then it is left to
    /// be opened later. Closed connections count until they are dropped, so that no attempt brings
    /// more than `max_size`.
    fn claim(&mut self, at: u64, reserved: Option<Reserved<C>>) -> Option<Claimed<C>> {
        if self.counts.dropping > 0 {
            let connections = self.core.state(Moment(at)).connections;
            let alive = [connections, self.counts.pending, self.counts.dropping];
            if alive.map(u64::from).iter().sum::<u64>() >= self.max_size.into() {
                self.unopened = true;
                return None;
            }
        }
        let claimed = match (self.cut_off.pop(), reserved) {
            (Some(claimed), _) => claimed,
            (None, Some(reserved)) => match self.core.claim(Moment(at)) {
                ClaimAnswer::Claimed(Some(approval)) => Claimed { approval, reserved },
                _ => return None,
            },
            (None, None) => {
                self.unopened = true;
                return None;
            }
        };
        self.counts.pending += 1;
        Some(claimed)
    }

    /// Frees an approval whose attempt ended without a connection.
    fn give_back(&mut self, at: u64, approval: Key) {
        self.counts.pending -= 1;
        fit(self.core.failed(Moment(at), approval));
    }
}

impl<M: ManageConnection> Shared<M> {
    /// Opens connections for all approvals that are unclaimed, or whose attempts were cut off, each
    /// in a task of its own.
    pub(crate) fn open(self: &Arc<Self>) {
        let runtime = Handle::try_current();
        self.lock().unopened = runtime.is_err();
        let Ok(runtime) = runtime else { return };
        while let Some(attempt) = Attempt::claim(self) {
            let number = attempt.claimed.as_ref().map(|it| it.approval.number);
            runtime.spawn(attempt.run_alone());
            let cut_off = self.lock().cut_off.last().map(|it| it.approval.number);
            if cut_off == number {
                // This runtime shuts down: it dropped the attempt, and would drop the others, too.
                return;
            }
        }
    }

    /// Leaves an approval to the next task that makes a step inside a runtime. To ensure that there
    /// is one, all waiting gets are woken: some may be in other runtimes. If the pool is closed or
    /// memory is refused, the approval is freed instead.
    fn hand_on(&self, claimed: Claimed<M::Connection>) {
        let at = self.now();
        let mut locked = self.lock();
        if locked.is_closed() || locked.cut_off.try_reserve(1).is_err() {
            locked.give_back(at, claimed.approval);
            drop(locked);
            self.closing.notify_waiters();
            return;
        }
        locked.cut_off.push(claimed);
        locked.counts.pending -= 1;
        locked.unopened = true;
        let wakers = locked.waiters.wakers();
        drop(locked);
        resume(wake_all(wakers));
    }
}
