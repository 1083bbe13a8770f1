//! The table of connections and approvals.

mod reaps;

use crate::bb8_tables::closed::{Closed, ClosedList};
use crate::bb8_tables::keys::Key;
use crate::bb8_tables::ring::Ring;
use crate::bb8_tables::table::{AccessCounter, Slot, Table, UncountedAccess};
use crate::bb8_types::api::QueueStrategy;
use crate::bb8_types::bounds::END_OF_NUMBERS;
use crate::bb8_types::grants::Grant;
use crate::bb8_types::standing::{Holder, Place, Standing};
pub use reaps::Reaped;
use crate::kit::{AllocError, Global};

/// The table of connections and approvals, the queue of unclaimed approvals, and counters. The
/// table's queue has the idle connections in the order in which they became idle; its births have
/// all connections, idle or checked out, in the order of birth.
pub struct Records<C> {
    next: u64,
    slots: Table<Standing<C>>,
    unclaimed: Ring<Key>,
    conns: u64,
    approved: u64,
    peak: u64,
}

fn is_claimed<C>(place: &Place<C>) -> bool {
    matches!(place, Place::Claimed)
}

fn is_idle<C>(place: &Place<C>) -> bool {
    matches!(place, Place::Idle(_))
}

fn is_guarded<C>(place: &Place<C>) -> bool {
    matches!(place, Place::Guarded)
}

/// Returns whether a connection is checked out by this holder.
fn is_with<C>(place: &Place<C>, holder: Holder) -> bool {
    match holder {
        Holder::Guard => is_guarded(place),
        Holder::Get(get) => match place {
            Place::Held(number) => get == *number,
            _ => false,
        },
    }
}

/// Returns the connection of an idle record, None for other states.
fn connection_of<C>(place: Place<C>) -> Option<C> {
    match place {
        Place::Idle(conn) => Some(conn),
        _ => None,
    }
}

/// Frees the entry of an idle connection, offers the connection to a list, and returns its number.
fn close_idle_at<C>(
    slots: &mut Table<Standing<C>>,
    place: usize,
    closed: &mut ClosedList<C>,
) -> u64 {
    let Slot { number, standing } = slots.take_out(place);
    if let Place::Idle(conn) = standing.place {
        closed.offer(Closed { number, conn });
    }
    number
}

/// Returns whether a returned connection must be closed.
fn is_closing(broken: bool, expired: bool, ended: bool) -> bool {
    broken || expired || ended
}

/// Returns a new approval, claimed or not.
fn approval<C>(claimed: bool) -> Standing<C> {
    let place = if claimed {
        Place::Claimed
    } else {
        Place::Unclaimed
    };
    Standing {
        place,
        birth: 0,
        entered: 0,
    }
}

/// Adds a new approval to the queue, unless it is claimed already.
fn push_unclaimed(unclaimed: &mut Ring<Key>, claimed: bool, key: Key) {
    if !claimed {
        unclaimed.push(key);
    }
}

/// Returns 1 if the test passes, else 0.
pub fn one(test: bool) -> u64 {
    if test { 1 } else { 0 }
}

impl<C> Records<C> {
    /// Returns an empty table, which allocates nothing, and the permission to read tables without
    /// counting the access.
    pub fn new(alloc: Global, first: u64) -> (Self, UncountedAccess) {
        let (slots, asking) = Table::new(alloc);
        let records = Records {
            next: first,
            slots,
            unclaimed: Ring::new(alloc),
            conns: 0,
            approved: 0,
            peak: 0,
        };
        (records, asking)
    }

    /// Returns a list without capacity. It allocates nothing.
    pub fn no_list(&self) -> ClosedList<C> {
        self.unclaimed.another()
    }

    /// Claims the unclaimed approval with the lowest number.
    pub fn claim(&mut self, accesses: &mut AccessCounter) -> Option<Key> {
        let Some(key) = self.unclaimed.pop() else {
            return None;
        };
        let _ = self.slots.put(key.place, Place::Claimed, accesses);
        Some(key)
    }

    /// Returns when the first idle connection became idle. Reads one entry.
    #[inline]
    pub fn first_entered(
        &self,
        strategy: QueueStrategy,
        accesses: &mut AccessCounter,
    ) -> Option<u64> {
        match self.slots.first_by(strategy) {
            None => None,
            Some(place) => Some(self.slots.at(place, accesses).standing.entered),
        }
    }

    /// Checks out the first idle connection to this holder.
    // Inlining saves 42 instructions of a pair.
    #[inline(always)]
    pub fn take(
        &mut self,
        strategy: QueueStrategy,
        holder: Holder,
        accesses: &mut AccessCounter,
    ) -> Option<(Key, C)> {
        let Some(place) = self.slots.first_by(strategy) else {
            return None;
        };
        self.slots.leave(place);
        let out = match holder {
            Holder::Guard => Place::Guarded,
            Holder::Get(get) => Place::Held(get),
        };
        let (number, was) = self.slots.put(place, out, accesses);
        match was {
            Place::Idle(conn) => Some((Key { number, place }, conn)),
            _ => None,
        }
    }

    /// Changes the holder of a checked-out connection to a guard, and returns its key with a fresh
    /// hint.
    pub fn hand_over(&mut self, k: Key, accesses: &mut AccessCounter) -> Key {
        let Some(place) = self.slots.locate(k.number, k.place, accesses) else {
            return k;
        };
        let _ = self.slots.put(place, Place::Guarded, accesses);
        Key {
            number: k.number,
            place,
        }
    }

    /// Adds the connection of a claimed approval as idle, born now. Returns the connection and
    /// changes nothing if the number is not that of a claimed approval. No birth and no entry may
    /// be later than `now`. Looks the approval up once.
    pub fn enter(
        &mut self,
        k: Key,
        conn: C,
        now: u64,
        accesses: &mut AccessCounter,
    ) -> Result<(), C> {
        let Some(place) = self.slots.locate(k.number, k.place, accesses) else {
            return Err(conn);
        };
        if !is_claimed(&self.slots.at(place, accesses).standing.place) {
            return Err(conn);
        }
        let idle = Standing {
            place: Place::Idle(conn),
            birth: now,
            entered: now,
        };
        let _ = self.slots.replace(place, idle, accesses);
        self.slots.line_up(place);
        self.slots.add_birth(place);
        self.conns += 1;
        self.approved -= 1;
        Ok(())
    }

    /// Makes a checked-out connection idle again; it keeps its birth. Returns it instead, with
    /// whether it is older than `max_age`, and changes nothing, if it is broken or older than
    /// that, or the pool has ended. Returns `Err` with the connection and changes nothing if it is
    /// not checked out by this holder. No birth and no entry may be later than `now`. Looks the
    /// connection up once.
    // Inlining saves 43 instructions of a pair.
    #[inline(always)]
    pub fn put_back(
        &mut self,
        k: Key,
        conn: C,
        holder: Holder,
        broken: bool,
        ended: bool,
        max_age: u64,
        now: u64,
        accesses: &mut AccessCounter,
    ) -> Result<Result<(), (C, bool)>, C> {
        let Some(place) = self.slots.locate(k.number, k.place, accesses) else {
            return Err(conn);
        };
        let standing = &self.slots.at(place, accesses).standing;
        if !is_with(&standing.place, holder) {
            return Err(conn);
        }
        let birth = standing.birth;
        let older = max_age < now - birth;
        if is_closing(broken, older, ended) {
            return Ok(Err((conn, older)));
        }
        let idle = Standing {
            place: Place::Idle(conn),
            birth,
            entered: now,
        };
        let _ = self.slots.replace(place, idle, accesses);
        self.slots.line_up(place);
        Ok(Ok(()))
    }

    /// Ends a claimed approval. Returns false and changes nothing if the number is not that of one.
    /// Looks it up once.
    pub fn end_claimed(&mut self, k: Key, accesses: &mut AccessCounter) -> bool {
        let Some(at) = self.slots.locate(k.number, k.place, accesses) else {
            return false;
        };
        if !is_claimed(&self.slots.at(at, accesses).standing.place) {
            return false;
        }
        let _ = self.slots.take_out(at);
        self.approved -= 1;
        true
    }

    /// Ends a checked-out connection.
    pub fn close(&mut self, k: Key, accesses: &mut AccessCounter) {
        let Some(place) = self.slots.locate(k.number, k.place, accesses) else {
            return;
        };
        let _ = self.slots.take_out(place);
        self.conns -= 1;
    }

    /// Ends an idle connection, wherever it is in the queue, and returns it. Returns None and
    /// changes nothing if the number is not that of one. Looks it up once.
    pub fn evict(&mut self, k: Key, accesses: &mut AccessCounter) -> Option<C> {
        let Some(place) = self.slots.locate(k.number, k.place, accesses) else {
            return None;
        };
        if !is_idle(&self.slots.at(place, accesses).standing.place) {
            return None;
        }
        let Slot {
            number: _,
            standing,
        } = self.slots.take_out(place);
        self.conns -= 1;
        connection_of(standing.place)
    }

    /// Ends the connection that has been idle longest, and offers it to a list.
    fn end_idle(&mut self, closed: &mut ClosedList<C>) -> Option<Key> {
        let Some(place) = self.slots.first() else {
            return None;
        };
        let number = close_idle_at(&mut self.slots, place, closed);
        self.conns -= 1;
        Some(Key { number, place })
    }

    /// Ends the unclaimed approval with the lowest number.
    fn end_unclaimed(&mut self) -> Option<Key> {
        let Some(key) = self.unclaimed.pop() else {
            return None;
        };
        let _ = self.slots.take_out(key.place);
        self.approved -= 1;
        Some(key)
    }

    /// Ends all idle connections, offers them to a list, and returns their count.
    fn end_idles(&mut self, closed: &mut ClosedList<C>) -> u32 {
        let many = self.idle_connections();
        for _ in 0..many {
            let _ = self.end_idle(closed);
        }
        many
    }

    /// Ends all unclaimed approvals.
    fn end_unclaimeds(&mut self) {
        for _ in 0..self.unclaimed.len() {
            let _ = self.end_unclaimed();
        }
    }

    /// Ends all idle connections and unclaimed approvals. Offers the connections to a list and
    /// returns their count.
    pub fn leave(&mut self, closed: &mut ClosedList<C>) -> u32 {
        let many = self.end_idles(closed);
        self.end_unclaimeds();
        many
    }

    /// Allocates for a higher peak.
    fn reserve_for(&mut self, peak: u64) -> Result<(), AllocError> {
        let free = peak - (self.conns + self.approved);
        self.slots.reserve(free as usize)?;
        self.unclaimed.grow(peak as usize)?;
        self.peak = peak;
        Ok(())
    }

    /// Reserves memory for one more record. Returns false if it is refused.
    fn reserve_one(&mut self) -> bool {
        let used = self.used();
        used < self.peak || self.reserve_for(used + 1).is_ok()
    }

    /// Adds an idle connection with the next number. Memory must be reserved.
    fn bear(&mut self, conn: C, now: u64) -> Key {
        let number = self.next;
        let place = self.slots.insert(Slot {
            number,
            standing: Standing {
                place: Place::Idle(conn),
                birth: now,
                entered: now,
            },
        });
        self.slots.line_up(place);
        self.slots.add_birth(place);
        self.next += 1;
        self.conns += 1;
        Key { number, place }
    }

    /// Adds an idle connection that was born now. Returns it if memory is refused. Memory is
    /// requested only if there are as many records as ever were. No birth and no entry may be later
    /// than `now`.
    pub fn add(&mut self, conn: C, now: u64) -> Result<Key, C> {
        if !self.reserve_one() {
            return Err(conn);
        }
        Ok(self.bear(conn, now))
    }

    /// Returns whether a number is left.
    pub fn has_number(&self) -> bool {
        self.next < END_OF_NUMBERS
    }

    /// Returns the next number.
    pub fn next_number(&self) -> u64 {
        self.next
    }

    /// Adds one approval. Memory must be reserved.
    fn approve(&mut self, claimed: bool) {
        let number = self.next;
        let place = self.slots.insert(Slot {
            number,
            standing: approval(claimed),
        });
        push_unclaimed(&mut self.unclaimed, claimed, Key { number, place });
        self.next += 1;
        self.approved += 1;
    }

    /// Grants the approvals that are due, if memory and numbers allow it. All memory is requested
    /// before the first one is added.
    #[cold]
    fn grant_some(&mut self, due: u64, claimed: bool) -> Grant {
        let taken = self.conns + self.approved;
        let possible = due.min(END_OF_NUMBERS - self.next);
        let below = possible.min(self.peak - taken);
        let first = self.next;
        let count = if below < possible && self.reserve_for(taken + possible).is_ok() {
            possible
        } else {
            below
        };
        for _ in 0..count {
            self.approve(claimed);
        }
        Grant {
            first,
            count: count as u32,
            withheld: (due - count) as u32,
        }
    }

    /// As `grant_some`. Usually nothing is due, and then no call is made.
    #[inline]
    pub fn grant(&mut self, due: u64, claimed: bool) -> Grant {
        if due > 0 {
            return self.grant_some(due, claimed);
        }
        Grant {
            first: self.next,
            count: 0,
            withheld: 0,
        }
    }

    /// Returns the count of open approvals.
    pub fn approved(&self) -> u64 {
        self.approved
    }

    /// Returns the count of connections and open approvals.
    pub fn used(&self) -> u64 {
        self.conns + self.approved
    }

    /// Returns the count of idle connections and open approvals.
    pub fn ready(&self) -> u64 {
        self.slots.len() as u64 + self.approved
    }

    /// Returns the count of connections.
    pub fn connections(&self) -> u32 {
        self.conns as u32
    }

    /// Returns the count of idle connections.
    pub fn idle_connections(&self) -> u32 {
        self.slots.len() as u32
    }

    /// Returns the state of a record, None if it has ended. Reads one entry.
    #[inline]
    fn standing(&self, k: Key, accesses: &mut AccessCounter) -> Option<&Standing<C>> {
        match self.slots.slot(k.number, k.place, accesses) {
            None => None,
            Some(slot) => Some(&slot.standing),
        }
    }

    /// Returns the birth of a record.
    pub fn birth(&self, k: Key, accesses: &mut AccessCounter) -> u64 {
        match self.standing(k, accesses) {
            None => 0,
            Some(standing) => standing.birth,
        }
    }

    /// Returns the key of a record, None if it has ended.
    pub fn find(&self, number: u64, accesses: &mut AccessCounter) -> Option<Key> {
        match self.slots.locate(number, 0, accesses) {
            None => None,
            Some(place) => Some(Key { number, place }),
        }
    }

    /// Returns whether a record is a claimed approval.
    pub fn is_claimed(&self, k: Key, accesses: &mut AccessCounter) -> bool {
        match self.standing(k, accesses) {
            None => false,
            Some(standing) => is_claimed(&standing.place),
        }
    }

    /// Returns whether a record is an idle connection.
    pub fn is_idle(&self, k: Key, accesses: &mut AccessCounter) -> bool {
        match self.standing(k, accesses) {
            None => false,
            Some(standing) => is_idle(&standing.place),
        }
    }

    /// Returns whether a guard holds a record.
    pub fn is_guarded(&self, k: Key, accesses: &mut AccessCounter) -> bool {
        match self.standing(k, accesses) {
            None => false,
            Some(standing) => is_guarded(&standing.place),
        }
    }
}
