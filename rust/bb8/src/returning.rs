//! The return of connections, and the work after a step: a get is woken or handed a connection,
//! connections are opened or dropped. User code runs outside the lock, and may panic.

use crate::boxed::Boxed;
use crate::core::{
    fit, unfit, CheckedErrAnswer, Checkout, DetachAnswer, GetKey, GiveUpAnswer, Held, Key, Moment,
    PutBackAnswer, Reason, TryAnswer,
};
use crate::events::{report, CLOSED, MAX_LIFETIME};
use crate::lock::MutexGuard;
use crate::managers::ManageConnection;
use crate::pool::{Locked, Shared};
use crate::waiters::Handed;
use std::iter;
use std::mem::forget;
use std::panic::{catch_unwind, resume_unwind, AssertUnwindSafe};
use std::sync::Arc;
use std::task::Waker;
use std::thread;
use tokio::runtime::Handle;

/// The connection that a step closed, with the reason, how many approvals the step granted, and the
/// get that it notified.
pub(crate) type After<C> = (Option<(Boxed<C>, &'static str)>, u32, Option<GetKey>);

/// The step that returns a checked-out connection to the core.
#[derive(Clone, Copy)]
pub(crate) enum Step {
    /// A guard is dropped. The connection is kept unless it is broken or, if it is inspected, the
    /// customizer does not keep it or its own end has passed.
    PutBack { inspects: bool },
    /// The check of this get failed. The connection is closed for this reason.
    CheckFailed(GetKey, &'static str),
    /// This get ends without a connection. If its check was cut off (the last field is true),
    /// nobody knows what the server sends next, so the connection is closed as broken.
    GiveBack(GetKey, Reason, bool),
}

/// A step that still has to return a connection to the core. If this is dropped, the step is made
/// without the connection, which was dropped: otherwise its slot would leak.
struct Owed<'a, M: ManageConnection> {
    shared: &'a Arc<Shared<M>>,
    key: Key,
    broken: bool,
    step: Step,
}

impl<M: ManageConnection> Drop for Owed<'_, M> {
    fn drop(&mut self) {
        let shared = self.shared;
        shared.make(self.step, self.key, None, self.broken);
        shared.closing.notify_waiters();
    }
}

impl<M: ManageConnection> Shared<M> {
    /// Returns a guard's connection to the pool.
    // Inlining saves 62 instructions of a pair.
    #[inline]
    pub(crate) fn release(self: &Arc<Self>, checkout: Checkout<M::Connection>) {
        if self.inspects {
            self.take_back(checkout, Step::PutBack { inspects: true });
        } else {
            self.take_back_inline(checkout, Step::PutBack { inspects: false });
        }
    }

    /// Returns a checked-out connection by a step. If it is not kept, or if the manager or the
    /// customizer panics, it is dropped before the core frees its slot, and counts as broken.
    // Not inlining saves 52 instructions of a pair.
    #[inline(never)]
    pub(crate) fn take_back(self: &Arc<Self>, checkout: Checkout<M::Connection>, step: Step) {
        self.take_back_inline(checkout, step);
    }

    // Inlining saves 51 instructions of a pair. A third caller would prevent it.
    #[inline]
    fn take_back_inline(self: &Arc<Self>, checkout: Checkout<M::Connection>, step: Step) {
        let key = checkout.key;
        let mut owed = Owed {
            shared: self,
            key,
            broken: true,
            step,
        };
        // Declared after `owed`, so that it is dropped first.
        let mut conn = checkout.conn;
        let is_cut_off = matches!(step, Step::GiveBack(_, _, true));
        let is_broken = is_cut_off || self.manager.has_broken(&mut conn);
        let reason = match step {
            _ if is_broken => None,
            Step::CheckFailed(_, reason) => {
                owed.broken = false;
                Some(reason)
            }
            Step::PutBack { inspects: true } => self.inspected(&mut conn),
            _ => None,
        };
        match reason {
            _ if is_broken => report!(warn, self, age = ?conn.age(), "broken connection closed"),
            Some(reason) => self.closed(&conn, reason),
            None => {
                forget(owed);
                self.make(step, key, Some(conn), false);
            }
        }
    }

    /// Makes the step that returns a connection. It is `None` if it was dropped.
    // Inlining saves 26 instructions of a pair.
    #[inline(always)]
    fn make(self: &Arc<Self>, step: Step, key: Key, conn: Held<M::Connection>, broken: bool) {
        let at = match step {
            Step::PutBack { .. } => self.now_if(self.dates_returns),
            _ => self.now(),
        };
        let moment = Moment(at);
        let mut locked = self.lock();
        let core = &mut locked.core;
        let (closed, grant, notified) = match step {
            Step::PutBack { .. } => match fit(core.put_back(moment, key, conn, broken)) {
                PutBackAnswer::Kept(get) => return self.settle(locked, at, get),
                PutBackAnswer::Closed(conn, grant, get) => (conn, grant, get),
            },
            Step::CheckFailed(get, _) => {
                let answer = fit(core.checked_err(moment, get, conn, broken, key.place));
                let CheckedErrAnswer::Closed(_, conn, grant, notified) = answer;
                (conn, grant, notified)
            }
            Step::GiveBack(get, reason, _) => {
                match fit(core.give_back(moment, get, reason, conn, broken, key.place)) {
                    GiveUpAnswer::Closed(_, conn, grant, get) => (conn, grant, get),
                    kept => return self.settle(locked, at, kept.notified()),
                }
            }
        };
        let reason = locked.reason();
        let closed = closed.map(|it| (it, reason));
        self.follow(locked, at, (closed, grant.count, notified));
    }

    /// Returns the reason to close an unbroken connection that a guard returns, if there is one.
    fn inspected(&self, conn: &mut Boxed<M::Connection>) -> Option<&'static str> {
        let customizer = &self.settings.connection_customizer;
        if customizer.as_ref().is_some_and(|it| !it.on_release(conn)) {
            return Some("on_release returned false");
        }
        self.is_past_end(conn).then_some(MAX_LIFETIME)
    }

    /// Takes a guard's connection out of the pool.
    pub(crate) fn detach(self: &Arc<Self>, checkout: Checkout<M::Connection>) -> M::Connection {
        let at = self.now_if(self.dates_returns);
        let mut locked = self.lock();
        let detached = fit(locked.core.detach(Moment(at), checkout.key));
        let DetachAnswer::Detached(grant, notified) = detached;
        self.follow(locked, at, (None, grant.count, notified));
        self.closing.notify_waiters();
        report!(debug, self, age = ?checkout.conn.age(), "connection detached");
        checkout.conn.into_inner()
    }

    /// As `follow`, after a step that closed and granted nothing.
    pub(crate) fn settle(
        self: &Arc<Self>,
        locked: MutexGuard<'_, Locked<M::Connection>>,
        at: u64,
        notified: Option<GetKey>,
    ) {
        if notified.is_some() || locked.unopened {
            self.follow(locked, at, (None, 0, notified));
        }
    }

    /// Does the work after a step at this moment: releases the lock, starts the granted connection
    /// attempts, wakes the notified get or hands it a connection, and drops the closed connection.
    /// The drop is last, as the destructor may take long.
    pub(crate) fn follow(
        self: &Arc<Self>,
        mut locked: MutexGuard<'_, Locked<M::Connection>>,
        at: u64,
        (closed, granted, notified): After<M::Connection>,
    ) {
        let (waker, more) = match notified {
            Some(get) => self.notify(&mut locked, at, get),
            None => (None, 0),
        };
        locked.counts.dropping += u32::from(closed.is_some());
        let is_closed = locked.is_closed();
        self.leave(locked, granted + more);
        let Some((conn, reason)) = closed else {
            return waker.map_or((), Waker::wake);
        };
        let woken = wake_all(waker);
        let reason = if is_closed { CLOSED } else { reason };
        resume(woken.and(self.drop_one(conn, reason)));
    }

    /// Returns the waker of a notified get, and how many approvals were granted. In a fair pool the
    /// get is handed an idle connection. If none is idle it tries by itself, so that the connection
    /// that it requests is opened in the runtime of its task. A get without an entry was refused
    /// memory to wait: it gives up, which passes its notification to the next one.
    fn notify(
        &self,
        locked: &mut Locked<M::Connection>,
        at: u64,
        get: GetKey,
    ) -> (Option<Waker>, u32) {
        let mut waited = |wait| {
            let since = locked.waiters.since(get);
            since.is_some_and(|since| at.saturating_sub(since) >= wait)
        };
        if !self.fair_after.is_some_and(&mut waited) || locked.core.idle() == 0 {
            return (locked.waiters.notify(get), 0);
        }
        let (key, conn, grant, served) = match fit(locked.core.try_get(Moment(at), get)) {
            TryAnswer::Served(key, conn, grant) => (key, conn, grant, true),
            TryAnswer::Taken(key, conn, grant) => (key, conn, grant, false),
            TryAnswer::Waiting(_) => unfit(),
        };
        let checkout = Checkout::new(key, conn);
        let waker = locked.waiters.hand_off(get, Handed { checkout, served });
        (waker, grant.count)
    }

    /// Drops the connections that a step closed all at once, one by one. If some of the destructors
    /// panic, the others run all the same, and the first panic is returned.
    pub(crate) fn drop_closed(self: &Arc<Self>, reason: &str) -> thread::Result<()> {
        let closed = iter::from_fn(|| self.lock().closed.pop()?.conn);
        let dropped = closed.map(|conn| self.drop_one(conn, reason));
        dropped.fold(Ok(()), Result::and)
    }

    /// Drops a connection that a step closed, and opens connections that waited for its slot.
    /// Outside of a runtime the waiting gets are woken, to do that in theirs. Returns the panic of
    /// the destructor.
    fn drop_one(self: &Arc<Self>, conn: Boxed<M::Connection>, reason: &str) -> thread::Result<()> {
        let dropped = catch_unwind(AssertUnwindSafe(|| {
            self.closed(&conn, reason);
            drop(conn);
        }));
        let mut locked = self.lock();
        locked.counts.dropping -= 1;
        let is_outside = Handle::try_current().is_err();
        let wakers = (locked.unopened && is_outside).then(|| locked.waiters.wakers());
        self.leave(locked, 0);
        self.closing.notify_waiters();
        dropped.and(wake_all(wakers.into_iter().flatten()))
    }
}

/// Wakes all tasks. If some wakers panic, the others are woken all the same, and the first panic is
/// returned.
pub(crate) fn wake_all(wakers: impl IntoIterator<Item = Waker>) -> thread::Result<()> {
    let wake = |waker: Waker| catch_unwind(AssertUnwindSafe(|| waker.wake()));
    wakers.into_iter().map(wake).fold(Ok(()), Result::and)
}

/// Resumes the panic of a connection's destructor or of a waker. Exception: if this thread is
/// panicking already, a second panic would abort the process.
pub(crate) fn resume(dropped: thread::Result<()>) {
    match dropped {
        Err(panicked) if !thread::panicking() => resume_unwind(panicked),
        _ => {}
    }
}
