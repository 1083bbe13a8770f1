//! The waiting gets: the waker of each, or the connection that it was handed.

use crate::core::{Checkout, GetKey};
use std::collections::HashMap;
use std::mem;
use std::task::Waker;

/// A connection that was handed to a waiting get, until the get is polled.
pub(crate) struct Handed<C> {
    pub(crate) checkout: Checkout<C>,
    /// Whether the get was served with it. Otherwise the connection is to be checked first.
    pub(crate) served: bool,
}

pub(crate) struct Waiting {
    number: u64,
    since: u64,
    waker: Option<Waker>,
}

/// The waiting gets of one pool.
pub(crate) struct Waiters<C> {
    /// By their index in the core's table of gets.
    pub(crate) waiting: Vec<Option<Waiting>>,
    count: usize,
    /// By their number, as the core may reuse their index.
    handed: HashMap<u64, Handed<C>>,
    hands_off: bool,
    /// Whether gets may still wait.
    is_open: bool,
}

impl<C> Waiters<C> {
    /// The number of gets for which memory is kept when none waits.
    const KEPT: usize = 64;

    /// Memory for hand-offs is reserved only if the pool makes any.
    pub(crate) fn new(hands_off: bool) -> Self {
        Waiters {
            waiting: Vec::new(),
            count: 0,
            handed: HashMap::new(),
            hands_off,
            is_open: true,
        }
    }

    /// Makes a get wait, and takes its waker. Returns false if memory is refused, or if no get may
    /// wait any more.
    // Inlining saves 21 instructions of a cancelled get.
    #[inline]
    pub(crate) fn wait(&mut self, get: GetKey, since: u64, waker: &mut Option<Waker>) -> bool {
        if (self.hands_off || get.place >= self.waiting.len()) && !self.reserve_for(get.place) {
            return false;
        }
        debug_assert!(self.waiting[get.place].is_none());
        self.waiting[get.place] = Some(Waiting {
            number: get.number,
            since,
            waker: waker.take(),
        });
        self.count += 1;
        true
    }

    /// Reserves memory for a get at this index, and for the hand-off to it.
    // Marking it cold saves 1 instruction of a pair, and costs 13 of a waiting get.
    #[cold]
    fn reserve_for(&mut self, index: usize) -> bool {
        let missing = (index + 1).saturating_sub(self.waiting.len());
        let has_capacity = self.is_open
            && (!self.hands_off || self.handed.try_reserve(self.count + 1).is_ok())
            && self.waiting.try_reserve(missing).is_ok();
        if has_capacity {
            self.waiting.extend((0..missing).map(|_| None));
        }
        has_capacity
    }

    /// The entry of a get, if it waits.
    fn entry(&mut self, get: GetKey) -> Option<&mut Option<Waiting>> {
        let entry = self.waiting.get_mut(get.place)?;
        let waits = entry.as_ref().is_some_and(|it| it.number == get.number);
        waits.then_some(entry)
    }

    /// Removes a get, if it waits. Its waker, which is user code, is to be dropped outside of the
    /// lock.
    // Inlining saves 25 instructions of a cancelled get.
    #[inline]
    pub(crate) fn remove(&mut self, get: GetKey) -> Option<Waker> {
        let removed = self.entry(get)?.take();
        self.count -= 1;
        if self.count == 0 && self.waiting.capacity() > Self::KEPT {
            self.waiting = Vec::new();
        }
        removed?.waker
    }

    pub(crate) fn take_handed(&mut self, get: GetKey) -> Option<Handed<C>> {
        if self.handed.is_empty() {
            return None;
        }
        self.handed.remove(&get.number)
    }

    /// Takes the waker of a notified get, which has to try again.
    pub(crate) fn notify(&mut self, get: GetKey) -> Option<Waker> {
        self.entry(get)?.as_mut()?.waker.take()
    }

    pub(crate) fn since(&mut self, get: GetKey) -> Option<u64> {
        Some(self.entry(get)?.as_ref()?.since)
    }

    /// Hands a connection to a waiting get, and takes its waker. The memory is reserved already.
    pub(crate) fn hand_off(&mut self, get: GetKey, handed: Handed<C>) -> Option<Waker> {
        self.handed.insert(get.number, handed);
        self.remove(get)
    }

    /// Removes all waiting gets, and returns their wakers. From now on none may wait.
    pub(crate) fn close(&mut self) -> impl Iterator<Item = Waker> {
        self.is_open = false;
        self.count = 0;
        let waiting = mem::take(&mut self.waiting);
        waiting.into_iter().flatten().filter_map(|it| it.waker)
    }

    /// Takes the wakers of all waiting gets, or none if memory for them is refused.
    pub(crate) fn wakers(&mut self) -> Vec<Waker> {
        let mut wakers = Vec::new();
        if wakers.try_reserve(self.count).is_ok() {
            let waiting = self.waiting.iter_mut().flatten();
            wakers.extend(waiting.filter_map(|it| it.waker.take()));
        }
        wakers
    }
}
