//! Queries on the state: whether an event fits, and the keys of numbers. Those that read an entry
//! count in a counter of their own, which is discarded.

use super::{GetKey, Key, PoolInternals};
use crate::bb8_tables::AccessCounter;
use crate::bb8_tables::gets::{held, is_trying};
use crate::bb8_types::standing::Getting;

impl<C, A> PoolInternals<C, A> {
    /// States what holds of every state: its configuration is lawful, connections and open
    /// approvals are within the size, and the legal ledger that it represents keeps all limits. It
    /// does nothing.
    pub fn limits(&self) {
        let _ = &self.config;
    }

    /// Returns how often the latest step read or changed a table entry.
    pub fn examined(&self) -> u64 {
        self.accesses.reads()
    }

    /// Returns how often the latest step searched a table, because a key had a stale hint.
    pub fn searched(&self) -> u64 {
        self.accesses.searched()
    }

    /// Returns the number of the next connection or approval.
    pub(crate) fn next_number(&self) -> u64 {
        self.records.next_number()
    }

    /// Returns how many events that end a get, a handle or a check-out may still come: one for each
    /// get alive, each handle alive and each checked-out connection. It stops at the greatest u64.
    pub fn endings(&self) -> u64 {
        let out = self.records.connections() - self.records.idle_connections();
        (self.gets.alive())
            .saturating_add(self.handles)
            .saturating_add(out as u64)
    }

    /// Returns whether a get may begin: while a handle is alive.
    pub fn fits_begin(&self) -> bool {
        self.handles != 0
    }

    /// Returns whether any connection may be added: while a handle is alive.
    pub fn fits_add(&self) -> bool {
        self.handles >= 1
    }

    /// Returns whether a handle may be added: while one is alive.
    pub fn fits_join(&self) -> bool {
        self.fits_begin()
    }

    /// Returns whether the pool may be closed: while a handle is alive.
    pub fn fits_close(&self) -> bool {
        self.fits_join()
    }

    /// Returns whether a handle may be dropped: while one is alive.
    pub fn fits_leave(&self) -> bool {
        self.fits_join()
    }
}

impl<C> PoolInternals<C> {
    /// Returns the state of a get, None if it is not alive.
    fn getting(&self, get: GetKey) -> Option<Getting> {
        let mut accesses = AccessCounter::NONE;
        let getting = self.gets.getting(get, &mut accesses);
        self.asking.forget(accesses);
        getting
    }

    /// Returns whether a get may try.
    pub fn fits_try(&self, get: GetKey) -> bool {
        is_trying(self.getting(get))
    }

    /// Returns whether a passed check of a get may be reported: if it holds a connection.
    pub fn fits_checked_ok(&self, get: GetKey) -> bool {
        self.held(get).is_some()
    }

    /// Returns the number of the connection that a get holds, None if it holds none.
    pub(crate) fn held(&self, get: GetKey) -> Option<u64> {
        held(self.getting(get))
    }

    /// Returns whether a get is alive.
    pub(crate) fn is_alive(&self, get: GetKey) -> bool {
        self.getting(get).is_some()
    }

    /// Returns whether a guard holds the connection.
    pub(crate) fn is_guarded(&self, k: Key) -> bool {
        let mut accesses = AccessCounter::NONE;
        let is_guarded = self.records.is_guarded(k, &mut accesses);
        self.asking.forget(accesses);
        is_guarded
    }

    /// Returns whether the number is that of an idle connection, and so whether it may be evicted.
    pub fn is_idle(&self, k: Key) -> bool {
        let mut accesses = AccessCounter::NONE;
        let is_idle = self.records.is_idle(k, &mut accesses);
        self.asking.forget(accesses);
        is_idle
    }

    /// Returns whether the number is that of a claimed approval.
    pub(crate) fn is_claimed(&self, k: Key) -> bool {
        let mut accesses = AccessCounter::NONE;
        let is_claimed = self.records.is_claimed(k, &mut accesses);
        self.asking.forget(accesses);
        is_claimed
    }

    /// Returns the key of a connection or approval, None if it has ended.
    pub fn find(&self, number: u64) -> Option<Key> {
        let mut accesses = AccessCounter::NONE;
        let found = self.records.find(number, &mut accesses);
        self.asking.forget(accesses);
        found
    }

    /// Returns the key of a get, None if it has ended.
    pub fn find_get(&self, number: u64) -> Option<GetKey> {
        let mut accesses = AccessCounter::NONE;
        let found = self.gets.find(number, &mut accesses);
        self.asking.forget(accesses);
        found
    }

    /// Returns the count of idle connections.
    pub fn idle(&self) -> u32 {
        self.records.idle_connections()
    }

    /// Returns how many connections the next `leave` closes: all idle ones if one handle is alive,
    /// else none.
    pub fn closed_by_leave(&self) -> u32 {
        if self.handles == 1 { self.idle() } else { 0 }
    }
}
