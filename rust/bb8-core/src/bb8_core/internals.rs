//! The state that a pool keeps behind its lock.

mod approvals;
mod decided;
mod handles;
mod questions;
mod reaps;

pub use crate::bb8_core::answers::{
    AddAnswer, AtOnce, BeginAnswer, CheckedErrAnswer, ClaimAnswer, DetachAnswer, EvictAnswer,
    FailedAnswer, GiveUpAnswer, JoinAnswer, LeaveAnswer, Looked, OpenedAnswer, PutBackAnswer,
    ReapAnswer, Started, TryAnswer, Unfit,
};
pub use crate::bb8_tables::closed::{Closed, ClosedList};
use crate::bb8_tables::counters::Counters;
use crate::bb8_tables::gets::{Gets, first_wait, is_notified, is_trying, is_unnotified};
pub use crate::bb8_tables::keys::{GetKey, Key};
use crate::bb8_tables::records::Records;
use crate::bb8_tables::{AccessCounter, LatestAccesses, UncountedAccess};
use crate::bb8_types::api::{Config, Moment};
pub use crate::bb8_types::grants::Grant;
pub use crate::bb8_types::reasons::Reason;
use crate::bb8_types::standing::{GetPlace, Holder};
use decided::{
    checks_first, close_and_grant, due_waiting, either, holder, is_doubtful, is_expired, max_age,
    notify_next_if, want, want_with_handle,
};
use crate::kit::Global;

/// The state that a pool keeps behind its lock, for connections of any type. Its methods are the
/// steps of a pool, one for each kind of event. They call no manager and wait for nothing. bb8 has
/// a struct of this name for the same purpose.
///
/// Each value represents some legal ledger, so it keeps the limits: see `limits`.
///
/// A step has the clauses `step`, its event and result, and `bounds`: how many connections go out,
/// how many are returned, the most table entries that it reads, and the most searches. `start` and
/// `serve_at_once` make two steps in one, and say so in clauses of their own.
///
/// Steps are in an impl for every `A`, so they cannot use `asking` to read a table uncounted. The
/// queries can: they are in an impl for `UncountedAccess`.
pub struct PoolInternals<C, A = UncountedAccess> {
    config: Config,
    // The greatest age, in nanoseconds, that does not reach `max_lifetime`. Each return compares an
    // age with it.
    max_age: u64,
    // Numbers below this one are retired.
    retired: u64,
    // Connections with numbers below this one are closed when they are opened or returned: the
    // retired ones, and all once no handle is alive.
    closed_below: u64,
    latest: u64,
    handles: u64,
    records: Records<C>,
    gets: Gets,
    counters: Counters,
    accesses: LatestAccesses,
    asking: A,
}

impl<C> PoolInternals<C> {
    /// Returns the empty state with one handle. Numbers begin at 0. It allocates nothing.
    pub fn new(alloc: Global, config: Config) -> Self {
        Self::starting_at(alloc, config, 0, 0)
    }

    /// Returns the empty state with one handle. Connections and approvals are numbered from
    /// `first_number` on, gets from `first_get` on. It allocates nothing.
    pub fn starting_at(alloc: Global, config: Config, first_number: u64, first_get: u64) -> Self {
        let (records, asking) = Records::new(alloc, first_number);
        PoolInternals {
            max_age: max_age(config.max_lifetime),
            config,
            retired: 0,
            closed_below: 0,
            latest: 0,
            handles: 1,
            records,
            gets: Gets::new(alloc, first_get),
            counters: Counters::NONE,
            accesses: asking.latest(),
            asking,
        }
    }
}

impl<C, A> PoolInternals<C, A> {
    /// Begins a get. Memory is requested only if as many gets are alive as ever were. If no handle
    /// is alive, nothing changes.
    pub fn begin(&mut self, at: Moment) -> Result<BeginAnswer, Unfit> {
        if !self.fits_begin() {
            self.accesses.end_unfit(AccessCounter::NONE);
            return Err(Unfit);
        }
        self.latest = self.latest.max(at.0);
        self.accesses.end(AccessCounter::NONE);
        if !self.gets.has_number() {
            return Ok(BeginAnswer::Exhausted);
        }
        match self.gets.begin() {
            None => Ok(BeginAnswer::Memory),
            Some(get) => {
                self.counters.started += 1;
                Ok(BeginAnswer::Begun(get))
            }
        }
    }

    /// Begins a get and serves it, as `begin` and `try_get` would. This requires that the first
    /// idle connection goes out unchecked, and that the get can begin without an allocation.
    /// Otherwise it returns None and changes nothing: that connection must be checked, none is
    /// idle, no number is left, or as many gets are alive as ever were. While no handle is alive,
    /// none is idle.
    // Inlining saves 49 instructions of an unchecked pair.
    #[inline(always)]
    pub fn serve_at_once(&mut self, at: Moment) -> Option<AtOnce<C>> {
        let mut accesses = AccessCounter::NONE;
        let now = self.latest.max(at.0);
        if checks_first(&self.config, &self.records, now, &mut accesses) {
            self.accesses.end(accesses);
            return None;
        }
        if !self.gets.has_capacity() {
            self.accesses.end(accesses);
            return None;
        }
        let strategy = self.config.queue_strategy;
        let Some((key, conn)) = self.records.take(strategy, Holder::Guard, &mut accesses) else {
            self.accesses.end(accesses);
            return None;
        };
        self.accesses.end(accesses);
        self.latest = self.latest.max(at.0);
        let get = self.gets.begin_and_end();
        self.counters.started += 1;
        // While no handle is alive, nothing is idle.
        let wanted = want_with_handle(&self.config, &self.records);
        let grant = self.records.grant(wanted, false);
        self.counters.serve(None, now);
        Some(AtOnce {
            get,
            key,
            conn,
            grant,
        })
    }

    /// Begins a get and lets it try, as `begin` and `try_get` would, in one step. A get that is
    /// served leaves no entry. Any other is added in its final state, without a lookup. If no
    /// handle is alive, nothing changes.
    // Inlining saves 33 instructions of a pair.
    #[inline(always)]
    pub fn start(&mut self, at: Moment) -> Result<Started<C>, Unfit> {
        if self.handles == 0 {
            self.accesses.end_unfit(AccessCounter::NONE);
            return Err(Unfit);
        }
        let mut accesses = AccessCounter::NONE;
        let now = self.latest.max(at.0);
        self.latest = now;
        let Some(number) = self.gets.reserve_one() else {
            self.accesses.end(accesses);
            if self.gets.has_number() {
                return Ok(Started::Memory);
            }
            return Ok(Started::Exhausted);
        };
        self.counters.started += 1;
        let next = GetKey { number, place: 0 };
        let strategy = self.config.queue_strategy;
        let checked = checks_first(&self.config, &self.records, now, &mut accesses);
        match self
            .records
            .take(strategy, holder(checked, next), &mut accesses)
        {
            None => {
                let get = self.gets.bear_waiting(now);
                self.accesses.end(accesses);
                let alive = self.gets.alive();
                let due = due_waiting(&self.config, self.handles, &self.records, alive);
                let grant = self.records.grant(due, false);
                Ok(Started::Tried(get, TryAnswer::Waiting(grant)))
            }
            Some((key, conn)) => {
                let wanted = want_with_handle(&self.config, &self.records);
                let grant = self.records.grant(wanted, false);
                if checked {
                    let get = self.gets.bear_holding(key.number);
                    self.accesses.end(accesses);
                    return Ok(Started::Tried(get, TryAnswer::Taken(key, conn, grant)));
                }
                self.accesses.end(accesses);
                let _ = self.gets.begin_and_end();
                self.counters.serve(None, now);
                Ok(Started::Tried(next, TryAnswer::Served(key, conn, grant)))
            }
        }
    }

    /// Takes the first idle connection, by the queue strategy, and grants what is wanted then. If
    /// it must be checked (the check is on, and it was idle for `test_after`), the get holds it
    /// until the check is reported. Otherwise the get is served, and a guard holds the connection.
    /// If none is idle, the get waits from now on, and one approval is granted if there are more
    /// gets than open approvals. For a waiter that was not notified only the latest moment changes.
    /// Memory is requested only for approvals. If the get may not try, nothing changes.
    // Inlining saves 40 instructions of a waiting get.
    #[inline(always)]
    pub fn try_get(&mut self, at: Moment, get: GetKey) -> Result<TryAnswer<C>, Unfit> {
        let mut accesses = AccessCounter::NONE;
        let getting = self.gets.getting(get, &mut accesses);
        if !is_trying(getting) {
            self.accesses.end_unfit(accesses);
            return Err(Unfit);
        }
        let now = self.latest.max(at.0);
        self.latest = now;
        if is_unnotified(getting) {
            self.accesses.end(accesses);
            let nothing = Grant::of_nothing(self.records.next_number());
            return Ok(TryAnswer::Waiting(nothing));
        }
        let checked = checks_first(&self.config, &self.records, now, &mut accesses);
        let strategy = self.config.queue_strategy;
        match self
            .records
            .take(strategy, holder(checked, get), &mut accesses)
        {
            None => {
                let alive = self.gets.alive();
                let due = due_waiting(&self.config, self.handles, &self.records, alive);
                let grant = self.records.grant(due, false);
                self.gets.wait(get, now, &mut accesses);
                self.accesses.end(accesses);
                Ok(TryAnswer::Waiting(grant))
            }
            Some((key, conn)) => {
                let wanted = want(&self.config, self.handles, &self.records);
                let grant = self.records.grant(wanted, false);
                if checked {
                    self.gets
                        .turn(get, GetPlace::Holding(key.number), &mut accesses);
                    self.accesses.end(accesses);
                    return Ok(TryAnswer::Taken(key, conn, grant));
                }
                self.gets.finish(get, &mut accesses);
                self.accesses.end(accesses);
                self.counters.serve(first_wait(getting), now);
                Ok(TryAnswer::Served(key, conn, grant))
            }
        }
    }

    /// Serves a get with the connection that it holds, because its check passed. Returns the key of
    /// the connection, which a guard holds from now on. `hint` is the index in its key; it may be
    /// stale, and changes no result. If the get holds none, nothing changes. The get is looked up
    /// once.
    // Inlining saves 28 instructions of a pair.
    #[inline(always)]
    pub fn checked_ok(&mut self, at: Moment, get: GetKey, hint: usize) -> Result<Key, Unfit> {
        let mut accesses = AccessCounter::NONE;
        match self.gets.finish_holding(get, &mut accesses) {
            None => {
                self.accesses.end_unfit(accesses);
                Err(Unfit)
            }
            Some((held, first_wait)) => {
                let now = self.latest.max(at.0);
                self.latest = now;
                let out = Key {
                    number: held,
                    place: hint,
                };
                let key = self.records.hand_over(out, &mut accesses);
                self.accesses.end(accesses);
                self.counters.serve(first_wait, now);
                Ok(key)
            }
        }
    }

    /// Closes the connection that a get holds, because its check failed; the get may try again. The
    /// connection counts as invalid, and in addition as broken, else as retired, else as too old,
    /// if it is one of these. `hint` is as in `checked_ok`. If the get holds none, nothing changes,
    /// and `Err` has the connection.
    pub fn checked_err(
        &mut self,
        at: Moment,
        get: GetKey,
        conn: C,
        broken: bool,
        hint: usize,
    ) -> Result<CheckedErrAnswer<C>, C> {
        let mut accesses = AccessCounter::NONE;
        let Some(held) = self.gets.let_go(get, &mut accesses) else {
            self.accesses.end_unfit(accesses);
            return Err(conn);
        };
        let now = self.latest.max(at.0);
        self.latest = now;
        let key = Key {
            number: held,
            place: hint,
        };
        let birth = self.records.birth(key, &mut accesses);
        let retired = held < self.retired;
        let expired = either(is_expired(&self.config, now, birth), retired);
        let grant = close_and_grant(
            &self.config,
            self.handles,
            &mut self.records,
            key,
            &mut accesses,
        );
        self.counters.invalid += 1;
        self.counters.close(broken, retired, expired);
        let notified = self.gets.notify(&mut accesses);
        self.accesses.end(accesses);
        Ok(CheckedErrAnswer::Closed(key, conn, grant, notified))
    }

    /// Ends a get that holds nothing and timed out or was cancelled. If it was notified, the
    /// longest waiter that was not is notified instead. If there is no such get, nothing changes.
    /// It is looked up once.
    #[inline(always)]
    pub fn give_up(
        &mut self,
        at: Moment,
        get: GetKey,
        reason: Reason,
        broken: bool,
    ) -> Result<GiveUpAnswer<C>, Unfit> {
        let mut accesses = AccessCounter::NONE;
        let Some(getting) = self.gets.end(get, &mut accesses) else {
            self.accesses.end_unfit(accesses);
            return Err(Unfit);
        };
        let now = self.latest.max(at.0);
        self.latest = now;
        self.counters.give_up(reason, getting.first_wait, now);
        let heir = notify_next_if(&mut self.gets, is_notified(Some(getting)), &mut accesses);
        self.accesses.end(accesses);
        Ok(GiveUpAnswer::GaveUp(heir))
    }

    /// Ends a get that timed out or was cancelled and holds a connection. The connection is handed
    /// in and returned as in `put_back`; if `test_after` is above 0 it counts as broken. `hint` is
    /// as in `checked_ok`. If the get holds none, nothing changes, and `Err` has the connection.
    #[inline(always)]
    pub fn give_back(
        &mut self,
        at: Moment,
        get: GetKey,
        reason: Reason,
        conn: C,
        broken: bool,
        hint: usize,
    ) -> Result<GiveUpAnswer<C>, C> {
        let mut accesses = AccessCounter::NONE;
        let Some((held, first_wait)) = self.gets.finish_holding(get, &mut accesses) else {
            self.accesses.end_unfit(accesses);
            return Err(conn);
        };
        let now = self.latest.max(at.0);
        self.latest = now;
        self.counters.give_up(reason, first_wait, now);
        let doubtful = is_doubtful(&self.config, broken);
        let ended = held < self.closed_below;
        let key = Key {
            number: held,
            place: hint,
        };
        let holder = Holder::Get(get.number);
        match self.records.put_back(
            key,
            conn,
            holder,
            doubtful,
            ended,
            self.max_age,
            now,
            &mut accesses,
        ) {
            // Unreachable: the connection of a get is checked out by it.
            Err(conn) => {
                self.accesses.end_unfit(accesses);
                Err(conn)
            }
            Ok(Ok(())) => {
                let notified = self.gets.notify(&mut accesses);
                self.accesses.end(accesses);
                Ok(GiveUpAnswer::Kept(key, notified))
            }
            Ok(Err((conn, expired))) => {
                let grant = close_and_grant(
                    &self.config,
                    self.handles,
                    &mut self.records,
                    key,
                    &mut accesses,
                );
                let retired = held < self.retired;
                self.counters
                    .close(doubtful, retired, either(expired, retired));
                let notified = self.gets.notify(&mut accesses);
                self.accesses.end(accesses);
                Ok(GiveUpAnswer::Closed(key, conn, grant, notified))
            }
        }
    }

    /// Takes back a connection that a guard held. It is closed if it is broken, too old or retired,
    /// or no handle is alive; otherwise it is idle again and keeps its birth. If no guard holds it,
    /// nothing changes, and `Err` has it. It is looked up once.
    #[inline(always)]
    pub fn put_back(
        &mut self,
        at: Moment,
        k: Key,
        conn: C,
        broken: bool,
    ) -> Result<PutBackAnswer<C>, C> {
        let now = self.latest.max(at.0);
        let mut accesses = AccessCounter::NONE;
        let ended = k.number < self.closed_below;
        let holder = Holder::Guard;
        match self.records.put_back(
            k,
            conn,
            holder,
            broken,
            ended,
            self.max_age,
            now,
            &mut accesses,
        ) {
            Err(conn) => {
                self.accesses.end_unfit(accesses);
                Err(conn)
            }
            Ok(Ok(())) => {
                self.latest = now;
                let notified = self.gets.notify(&mut accesses);
                self.accesses.end(accesses);
                Ok(PutBackAnswer::Kept(notified))
            }
            Ok(Err((conn, expired))) => {
                self.latest = now;
                let grant = close_and_grant(
                    &self.config,
                    self.handles,
                    &mut self.records,
                    k,
                    &mut accesses,
                );
                let retired = k.number < self.retired;
                self.counters
                    .close(broken, retired, either(expired, retired));
                let notified = self.gets.notify(&mut accesses);
                self.accesses.end(accesses);
                Ok(PutBackAnswer::Closed(conn, grant, notified))
            }
        }
    }

    /// Detaches a connection that a guard holds and keeps. Its record ends, what is wanted is
    /// granted, and the longest waiter is notified, as when a connection is closed. If no guard
    /// holds it, nothing changes. It is looked up twice.
    pub fn detach(&mut self, at: Moment, k: Key) -> Result<DetachAnswer, Unfit> {
        let mut accesses = AccessCounter::NONE;
        if !self.records.is_guarded(k, &mut accesses) {
            self.accesses.end_unfit(accesses);
            return Err(Unfit);
        }
        self.latest = self.latest.max(at.0);
        let grant = close_and_grant(
            &self.config,
            self.handles,
            &mut self.records,
            k,
            &mut accesses,
        );
        self.counters.detach();
        let notified = self.gets.notify(&mut accesses);
        self.accesses.end(accesses);
        Ok(DetachAnswer::Detached(grant, notified))
    }

    /// Makes the connection of a claimed approval idle, born now. If the approval is retired, or no
    /// handle is alive, the approval ends instead, and the connection is handed to the caller to
    /// drop. If the number is not that of a claimed approval, nothing changes, and `Err` has the
    /// connection. It is looked up once.
    pub fn opened(&mut self, at: Moment, a: Key, conn: C) -> Result<OpenedAnswer<C>, C> {
        let now = self.latest.max(at.0);
        let mut accesses = AccessCounter::NONE;
        if a.number < self.closed_below {
            if !self.records.end_claimed(a, &mut accesses) {
                self.accesses.end_unfit(accesses);
                return Err(conn);
            }
            self.latest = now;
            self.accesses.end(accesses);
            return Ok(OpenedAnswer::Late(conn));
        }
        match self.records.enter(a, conn, now, &mut accesses) {
            Err(conn) => {
                self.accesses.end_unfit(accesses);
                Err(conn)
            }
            Ok(()) => {
                self.latest = now;
                self.counters.created += 1;
                let notified = self.gets.notify(&mut accesses);
                self.accesses.end(accesses);
                Ok(OpenedAnswer::Entered(notified))
            }
        }
    }

    /// Ends a claimed approval whose connection attempt failed. No get is notified. If the number
    /// is not that of a claimed approval, nothing changes. It is looked up once.
    pub fn failed(&mut self, at: Moment, approval: Key) -> Result<FailedAnswer, Unfit> {
        let mut accesses = AccessCounter::NONE;
        if !self.records.end_claimed(approval, &mut accesses) {
            self.accesses.end_unfit(accesses);
            return Err(Unfit);
        }
        self.latest = self.latest.max(at.0);
        self.accesses.end(accesses);
        Ok(FailedAnswer::GivenBack)
    }

    /// Adds a connection without an approval, born now. It is refused, in this order: if it is
    /// broken; if connections and open approvals together are `max_size`; if no number is left, or
    /// there are as many of them as ever were and memory for one more was refused. If no handle is
    /// alive, nothing changes, and `Err` has it.
    pub fn add(&mut self, at: Moment, conn: C, broken: bool) -> Result<AddAnswer<C>, C> {
        if !self.fits_add() {
            self.accesses.end_unfit(AccessCounter::NONE);
            return Err(conn);
        }
        let now = self.latest.max(at.0);
        self.latest = now;
        let mut accesses = AccessCounter::NONE;
        if broken {
            self.accesses.end(accesses);
            return Ok(AddAnswer::Broken(conn));
        }
        if self.records.used() == self.config.max_size as u64 {
            self.accesses.end(accesses);
            return Ok(AddAnswer::NoCapacity(conn));
        }
        if !self.records.has_number() {
            self.accesses.end(accesses);
            return Ok(AddAnswer::Withheld(conn));
        }
        match self.records.add(conn, now) {
            Ok(key) => {
                let notified = self.gets.notify(&mut accesses);
                self.accesses.end(accesses);
                Ok(AddAnswer::Added(key, notified))
            }
            Err(conn) => {
                self.accesses.end(accesses);
                Ok(AddAnswer::Withheld(conn))
            }
        }
    }
}
