//! One `get`: it tries, waits, checks the connection that it was handed, and ends.

use crate::api::{Pool, PooledConnection};
use crate::builder::{Checks, Config};
use crate::core::{fit, Checkout, GetKey, Held, Moment, Reason, Started, TryAnswer};
use crate::errors::RunError;
use crate::events::MAX_LIFETIME;
use crate::lock::MutexGuard;
use crate::managers::ManageConnection;
use crate::pool::{Locked, Shared};
use crate::returning::Step;
use crate::waiters::Handed;
use std::future::{poll_fn, Future};
use std::mem::{self, ManuallyDrop};
use std::pin::{pin, Pin};
use std::sync::Arc;
use std::task::{Context, Poll, Waker};
use std::time::Duration;
use tokio::task::{unconstrained, yield_now};
use tokio::time::{sleep_until, Instant, Sleep};

/// How far a get has come. The core has an entry for it from `Begun` until `Ended`.
#[derive(Clone, Copy, PartialEq, Eq)]
enum Stage {
    New,
    /// It has not waited.
    Begun,
    Waited,
    Ended,
}

/// The outcome of a try.
pub(crate) enum Tried {
    /// The get is served with the connection that it holds.
    Served,
    /// The get holds a connection that is to be checked.
    Taken,
    TimedOut,
    NoneIdle,
    /// The pool is closed, or memory was refused.
    Refused,
    /// No number was left.
    Exhausted,
}

/// A get in progress. If it is dropped before it has ended, it is cancelled.
pub(crate) struct Getting<'a, M: ManageConnection> {
    shared: &'a Arc<Shared<M>>,
    stage: Stage,
    key: GetKey,
    /// When it began. A get that is served at once never reads the clock.
    began: Option<Instant>,
    /// `began` as a moment of the core.
    since: Option<u64>,
    /// The connection that is being checked.
    held: Option<Checkout<M::Connection>>,
}

impl<M: ManageConnection> Pool<M> {
    /// Checks a connection out, and returns `result` of its guard. The guard is `None` if the time
    /// is over, or if no connection is idle and the get does not wait.
    pub(crate) async fn checkout<'a, const WAITS: bool, T>(
        &'a self,
        limit: impl Limit,
        result: impl FnOnce(Option<PooledConnection<'a, M>>) -> Result<T, RunError<M::Error>>,
    ) -> Result<T, RunError<M::Error>> {
        let shared = self.shared();
        let checks = shared.checks != Checks::Off;
        if let Some(checkout) = (!checks).then(|| shared.get_at_once()).flatten() {
            return result(Some(PooledConnection::new(&self.owner, checkout)));
        }
        let mut timer = pin!(None);
        let mut getting = Getting::new(shared);
        let tries = WAITS && shared.checks == Checks::All;
        // The moment does not matter: such a get neither waits nor leaves out a check.
        let mut first = tries
            .then(|| getting.begin::<false>(0, &mut None))
            .flatten();
        let (checkout, began) = loop {
            let tried = match first.take() {
                Some(tried) => tried,
                None if WAITS => poll_fn(|cx| getting.try_in_time(cx, timer.as_mut(), limit)).await,
                None => {
                    let at = shared.now_if(shared.checks == Checks::Stale);
                    let tried = getting.try_once::<false>(at, &mut None);
                    tried.unwrap_or(Tried::NoneIdle)
                }
            };
            match tried {
                Tried::Served => break getting.served(),
                Tried::Taken => {}
                Tried::TimedOut => match getting.end(Reason::TimedOut) {
                    Some(checkout) => break (checkout, getting.began),
                    None => return result(None),
                },
                Tried::NoneIdle | Tried::Refused if shared.is_closed() => {
                    return Err(RunError::Closed)
                }
                Tried::NoneIdle => {
                    // A step outside a runtime may have left connections to be opened, and a pool
                    // without a reaper may have fewer than `min_idle`.
                    shared.fill();
                    return result(None);
                }
                Tried::Refused => return Err(RunError::Memory),
                Tried::Exhausted => return Err(RunError::Exhausted),
            }
            let passed = match shared.has_ends.then(|| getting.check_age()).flatten() {
                Some(passed) => passed,
                None => {
                    let checked = {
                        let conn = &mut *getting.held.as_mut().expect(HOLDS).conn;
                        let check = pin!(shared.manager.is_valid(conn));
                        in_time(check, timer.as_mut(), &mut getting.began, limit, shared).await
                    };
                    let passed = matches!(checked, Some(Ok(())));
                    if !passed {
                        getting.check_failed(checked.and_then(Result::err), limit);
                    }
                    passed
                }
            };
            if passed {
                break getting.pass();
            }
            if getting.is_over(limit) {
                first = Some(Tried::TimedOut);
                continue;
            }
            if shared.settings.config.test_timeout.is_some() {
                timer.set(None);
            }
            yield_now().await;
        };
        let guard = PooledConnection::new(&self.owner, checkout);
        // If a subscriber of events panics, the guard returns the connection.
        shared.served(began);
        result(Some(guard))
    }
}

const CHECK: &str = "check of a connection";
const HOLDS: &str = "a get that checks holds a connection";

/// How long a get may take, by the settings of its pool.
pub(crate) trait Limit: Fn(&Config) -> Duration + Copy {}

impl<F: Fn(&Config) -> Duration + Copy> Limit for F {}

/// Returns when a get has to end, or, if that is earlier, a check that begins now and has a limit.
fn deadline(
    began: &mut Option<Instant>,
    limit: impl Limit,
    config: &Config,
    test_timeout: Option<Duration>,
) -> Instant {
    let get_ends = *began.get_or_insert_with(Instant::now) + limit(config);
    test_timeout.map_or(get_ends, |it| get_ends.min(Instant::now() + it))
}

/// Returns the timer of a get. It is created here, when the get first has to wait.
fn started(
    mut timer: Pin<&mut Option<Sleep>>,
    deadline: impl FnOnce() -> Instant,
) -> Pin<&mut Sleep> {
    if timer.is_none() {
        timer.set(Some(sleep_until(deadline())));
    }
    timer.as_pin_mut().expect("the timer was set")
}

/// Resolves once the check does, or to `None` once its time is over. The check may use up the
/// budget of its task: the timer fires all the same.
fn in_time<'c, M: ManageConnection, T>(
    mut check: Pin<&'c mut impl Future<Output = T>>,
    mut timer: Pin<&'c mut Option<Sleep>>,
    began: &'c mut Option<Instant>,
    limit: impl Limit + 'c,
    shared: &'c Shared<M>,
) -> impl Future<Output = Option<T>> + 'c {
    let mut is_first = true;
    poll_fn(move |cx| {
        if let Poll::Ready(checked) = check.as_mut().poll(cx) {
            return Poll::Ready(Some(checked));
        }
        let config = &shared.settings.config;
        let end = || deadline(began, limit, config, config.test_timeout);
        if mem::take(&mut is_first) && config.test_timeout.is_some() {
            timer.set(None);
        }
        let timer = started(timer.as_mut(), end);
        pin!(unconstrained(timer)).poll(cx).map(|()| None)
    })
}

impl<'a, M: ManageConnection> Getting<'a, M> {
    pub(crate) fn new(shared: &'a Arc<Shared<M>>) -> Self {
        Getting {
            shared,
            stage: Stage::New,
            key: GetKey {
                number: 0,
                place: 0,
            },
            began: None,
            since: None,
            held: None,
        }
    }

    /// Resolves once the get has a connection, its time is over, or it could not begin.
    fn try_in_time(
        &mut self,
        cx: &mut Context<'_>,
        timer: Pin<&mut Option<Sleep>>,
        limit: impl Limit,
    ) -> Poll<Tried> {
        // Wakers are cloned and dropped, and the clock is read, outside of the lock.
        let mut waker = Some(cx.waker().clone());
        let at = match self.stage {
            Stage::New => self.since(),
            // If a check follows, the moment at its end decides how long the get waited.
            _ => self.shared.now_if(self.shared.checks != Checks::All),
        };
        if let Some(tried) = self.try_once::<true>(at, &mut waker) {
            return Poll::Ready(tried);
        }
        let config = &self.shared.settings.config;
        let timer = started(timer, || deadline(&mut self.began, limit, config, None));
        timer.poll(cx).map(|()| Tried::TimedOut)
    }

    /// Returns the moment at which the get began.
    fn since(&mut self) -> u64 {
        let began = *self.began.get_or_insert_with(Instant::now);
        *self.since.get_or_insert_with(|| self.shared.moment(began))
    }

    /// Begins if it has not, and tries once. Returns `None` if it waits, or if no connection is
    /// idle and it must not wait.
    fn try_once<const WAITS: bool>(&mut self, at: u64, waker: &mut Option<Waker>) -> Option<Tried> {
        if self.stage == Stage::New {
            return self.begin::<WAITS>(at, waker);
        }
        let _removed;
        let mut locked = self.shared.lock();
        if !WAITS && locked.core.idle() == 0 {
            return None;
        }
        if let Some(handed) = locked.waiters.take_handed(self.key) {
            drop(locked);
            return Some(self.take(handed));
        }
        _removed = locked.waiters.remove(self.key);
        let answer = fit(locked.core.try_get(Moment(at), self.key));
        self.tried(locked, Ok(answer), waker)
    }

    /// As `try_once` for a get that has not begun.
    // Inlining saves 33 instructions of a pair.
    #[inline(always)]
    pub(crate) fn begin<const WAITS: bool>(
        &mut self,
        at: u64,
        waker: &mut Option<Waker>,
    ) -> Option<Tried> {
        let mut locked = self.shared.lock();
        if !WAITS && locked.core.idle() == 0 {
            return None;
        }
        let tried = match locked.core.start(Moment(at)) {
            Ok(Started::Tried(key, answer)) => {
                self.key = key;
                self.stage = Stage::Begun;
                Ok(answer)
            }
            Ok(Started::Memory) | Err(_) => Err(Tried::Refused),
            Ok(Started::Exhausted) => Err(Tried::Exhausted),
        };
        self.tried(locked, tried, waker)
    }

    /// Goes on after a try. Returns `None` if the get waits.
    // Inlining saves 43 instructions of a pair.
    #[inline(always)]
    fn tried(
        &mut self,
        mut locked: MutexGuard<'_, Locked<M::Connection>>,
        tried: Result<TryAnswer<Held<M::Connection>>, Tried>,
        waker: &mut Option<Waker>,
    ) -> Option<Tried> {
        let (tried, granted) = match tried {
            Ok(TryAnswer::Served(key, conn, grant)) => {
                self.stage = Stage::Ended;
                self.held = Some(Checkout::new(key, conn));
                (Some(Tried::Served), grant.count)
            }
            Ok(TryAnswer::Taken(key, conn, grant)) => {
                self.held = Some(Checkout::new(key, conn));
                (Some(Tried::Taken), grant.count)
            }
            Ok(TryAnswer::Waiting(grant)) => {
                self.stage = Stage::Waited;
                let waits = locked.waiters.wait(self.key, self.since(), waker);
                ((!waits).then_some(Tried::Refused), grant.count)
            }
            Err(refused) => (Some(refused), 0),
        };
        self.shared.leave(locked, granted);
        tried
    }

    /// Takes the connection that it was handed while it waited.
    fn take(&mut self, Handed { checkout, served }: Handed<M::Connection>) -> Tried {
        self.held = Some(checkout);
        if served {
            self.stage = Stage::Ended;
            Tried::Served
        } else {
            Tried::Taken
        }
    }

    /// Returns whether the connection that it holds is within its own end, and closes it if not.
    /// Returns `None` if the manager has to check it as well.
    fn check_age(&mut self) -> Option<bool> {
        if self.shared.is_past_end(&self.held.as_ref()?.conn) {
            self.close_as(MAX_LIFETIME);
            return Some(false);
        }
        (!self.shared.settings.config.test_on_check_out).then_some(true)
    }

    /// Closes the connection, whose check failed with this error or, without one, was cut off.
    /// Exception: if the get's own time is over, its end closes it.
    fn check_failed(&mut self, error: Option<M::Error>, limit: impl Limit) {
        if error.is_none() {
            if self.is_over(limit) {
                return;
            }
            self.shared.lock().counts.checks_timed_out += 1;
        }
        self.shared.failed(CHECK, error.as_ref());
        self.close_as("its check failed");
        self.shared.forward(error);
    }

    /// Ends a get that the core has served. Returns its connection, and when it began.
    fn served(self) -> (Checkout<M::Connection>, Option<Instant>) {
        let mut ended = ManuallyDrop::new(self);
        (ended.held.take().expect(HOLDS), ended.began)
    }

    /// As `served`, and reports to the core that the check passed.
    // Inlining saves 36 instructions of a pair.
    #[inline(always)]
    fn pass(self) -> (Checkout<M::Connection>, Option<Instant>) {
        let mut ended = ManuallyDrop::new(self);
        let shared = ended.shared;
        // The moment only matters for how long the get waited.
        let at = shared.now_if(ended.stage == Stage::Waited);
        let mut checkout = ended.held.take().expect(HOLDS);
        let mut locked = shared.lock();
        let (at, get) = (Moment(at), ended.key);
        let passed = locked.core.checked_ok(at, get, checkout.key.place);
        drop(locked);
        checkout.key = fit(passed);
        (checkout, ended.began)
    }

    fn is_over(&mut self, limit: impl Limit) -> bool {
        let began = *self.began.get_or_insert_with(Instant::now);
        began.elapsed() >= limit(&self.shared.settings.config)
    }

    /// Closes the connection as one whose check failed.
    fn close_as(&mut self, reason: &'static str) {
        if let Some(checkout) = self.held.take() {
            let step = Step::CheckFailed(self.key, reason);
            self.shared.take_back(checkout, step);
        }
    }

    /// Ends without a connection, unless it was served since its last try. If that cuts off a
    /// check, the connection is closed.
    // Inlining saves 18 instructions of a cancelled get.
    #[inline(always)]
    pub(crate) fn end(&mut self, reason: Reason) -> Option<Checkout<M::Connection>> {
        let mut is_cut_off = true;
        if self.held.is_none() {
            let shared = self.shared;
            // Of a cancelled get the moment only matters for how long others have waited.
            let matters = reason == Reason::TimedOut || shared.fair_after.is_some();
            let at = shared.now_if(matters);
            let _removed;
            let mut locked = shared.lock();
            let Some(handed) = locked.waiters.take_handed(self.key) else {
                _removed = locked.waiters.remove(self.key);
                self.stage = Stage::Ended;
                let given_up = locked.core.give_up(Moment(at), self.key, reason, false);
                shared.settle(locked, at, fit(given_up).notified());
                return None;
            };
            drop(locked);
            if let Tried::Served = self.take(handed) {
                return self.held.take();
            }
            // No check has begun, so the connection is kept. Exceptions: if fresh connections are
            // not checked, this one would be checked out as a fresh one next; and nothing else
            // closes an idle connection whose own end has passed.
            let held = self.held.as_ref();
            let is_past_end = held.is_some_and(|it| shared.is_past_end(&it.conn));
            is_cut_off = shared.checks == Checks::Stale || is_past_end;
        } else if reason == Reason::TimedOut {
            self.shared.lock().counts.checks_timed_out += 1;
            self.shared.failed(CHECK, None);
        }
        self.stage = Stage::Ended;
        let step = Step::GiveBack(self.key, reason, is_cut_off);
        self.shared.take_back(self.held.take()?, step);
        None
    }
}

impl<M: ManageConnection> Drop for Getting<'_, M> {
    fn drop(&mut self) {
        if matches!(self.stage, Stage::New | Stage::Ended) {
            return;
        }
        // If it was served meanwhile, its connection is returned.
        if let Some(checkout) = self.end(Reason::Cancelled) {
            let step = Step::PutBack { inspects: false };
            self.shared.take_back(checkout, step);
        }
    }
}
