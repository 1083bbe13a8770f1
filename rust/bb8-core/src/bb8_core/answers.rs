//! The results of the steps of a pool.

use crate::bb8_tables::keys::{GetKey, Key};
use crate::bb8_types::api::Moment;
use crate::bb8_types::grants::Grant;

/// The step does not fit: the state knows no such get or approval, or no handle is alive. Nothing
/// has changed.
#[derive(Clone, Copy, Debug)]
pub struct Unfit;

/// The result of `begin`.
#[derive(Clone, Copy, Debug)]
pub enum BeginAnswer {
    /// The get has begun.
    Begun(GetKey),
    /// As many gets are alive as ever were, and memory for one more was refused.
    Memory,
    /// No number is left: 18,446,744,073,709,551,615 is never given.
    Exhausted,
}

/// The result of `try_get`.
pub enum TryAnswer<C> {
    /// The get ended with this connection, which a guard holds from now on; the grant.
    Served(Key, C, Grant),
    /// The get holds this connection, which must be checked; the grant.
    Taken(Key, C, Grant),
    /// The get waits until it is notified; the grant.
    Waiting(Grant),
}

/// The result of `start`: of a get that begins and tries.
pub enum Started<C> {
    /// The get has begun, and this is the result of its first try. If it was served, the index in
    /// its key is 0.
    Tried(GetKey, TryAnswer<C>),
    /// As many gets are alive as ever were, and memory for one more was refused.
    Memory,
    /// No number is left.
    Exhausted,
}

/// The result of `checked_err`.
pub enum CheckedErrAnswer<C> {
    /// The connection of this key is closed, for the caller to drop; the grant; the notified get.
    Closed(Key, C, Grant, Option<GetKey>),
}

impl<C> CheckedErrAnswer<C> {
    /// Returns the notified get, if there is one.
    #[inline]
    pub fn notified(&self) -> Option<GetKey> {
        match self {
            CheckedErrAnswer::Closed(_, _, _, get) => *get,
        }
    }
}

/// A get that began and was served at once.
pub struct AtOnce<C> {
    /// The number of the get.
    pub get: u64,
    /// The key of the connection.
    pub key: Key,
    /// The connection, which a guard holds from now on.
    pub conn: C,
    /// The grant of that step.
    pub grant: Grant,
}

/// The result of `give_up` and `give_back`.
pub enum GiveUpAnswer<C> {
    /// The get ended; it held nothing. The get that was notified instead.
    GaveUp(Option<GetKey>),
    /// The get ended, and its connection, with this key, is idle; the notified get.
    Kept(Key, Option<GetKey>),
    /// The get ended, and its connection, with this key, is closed, for the caller to drop; the
    /// grant; the notified get.
    Closed(Key, C, Grant, Option<GetKey>),
}

impl<C> GiveUpAnswer<C> {
    /// Returns the notified get, if there is one.
    #[inline]
    pub fn notified(&self) -> Option<GetKey> {
        match self {
            GiveUpAnswer::GaveUp(get)
            | GiveUpAnswer::Kept(_, get)
            | GiveUpAnswer::Closed(_, _, _, get) => *get,
        }
    }
}

/// The result of `join`.
#[derive(Clone, Copy, Debug)]
pub enum JoinAnswer {
    /// There is one more handle.
    Joined,
    /// The maximum of 4,294,967,295 handles is alive.
    Exhausted,
}

/// The result of `leave` and `close`.
#[derive(Clone, Copy, Debug)]
pub enum LeaveAnswer {
    /// A handle was dropped, or all were; this many idle connections ended with the last one.
    Left(u32),
}

/// The result of `look`.
#[derive(Clone, Copy, Debug)]
pub struct Looked {
    /// The effective moment: the greatest moment so far.
    pub moment: Moment,
    /// Whether a handle is alive.
    pub alive: bool,
}

/// The result of `detach`.
#[derive(Clone, Copy, Debug)]
pub enum DetachAnswer {
    /// The connection no longer belongs to the pool; the grant; the notified get.
    Detached(Grant, Option<GetKey>),
}

impl DetachAnswer {
    /// Returns the notified get, if there is one.
    #[inline]
    pub fn notified(&self) -> Option<GetKey> {
        match self {
            DetachAnswer::Detached(_, get) => *get,
        }
    }
}

/// The result of `evict`.
pub enum EvictAnswer<C> {
    /// The connection, which no longer belongs to the pool; the grant; the notified get.
    Evicted(C, Grant, Option<GetKey>),
}

impl<C> EvictAnswer<C> {
    /// Returns the notified get, if there is one.
    #[inline]
    pub fn notified(&self) -> Option<GetKey> {
        match self {
            EvictAnswer::Evicted(_, _, get) => *get,
        }
    }
}

/// The result of `put_back`.
pub enum PutBackAnswer<C> {
    /// The connection is idle; the notified get.
    Kept(Option<GetKey>),
    /// The connection is closed, for the caller to drop; the grant; the notified get.
    Closed(C, Grant, Option<GetKey>),
}

impl<C> PutBackAnswer<C> {
    /// Returns the notified get, if there is one.
    #[inline]
    pub fn notified(&self) -> Option<GetKey> {
        match self {
            PutBackAnswer::Kept(get) | PutBackAnswer::Closed(_, _, get) => *get,
        }
    }
}

/// The result of `claim`.
#[derive(Clone, Copy, Debug)]
pub enum ClaimAnswer {
    /// The approval that was claimed, if one was unclaimed.
    Claimed(Option<Key>),
    /// No handle is alive.
    Ended,
}

/// The result of `opened`.
pub enum OpenedAnswer<C> {
    /// The connection is idle; the notified get.
    Entered(Option<GetKey>),
    /// The approval was retired, or no handle is alive. It ended; the connection, for the caller to
    /// drop.
    Late(C),
}

impl<C> OpenedAnswer<C> {
    /// Returns the notified get, if there is one.
    #[inline]
    pub fn notified(&self) -> Option<GetKey> {
        match self {
            OpenedAnswer::Entered(get) => *get,
            OpenedAnswer::Late(_) => None,
        }
    }
}

/// The result of `failed`.
#[derive(Clone, Copy, Debug)]
pub enum FailedAnswer {
    /// The approval ended, and its slot is free.
    GivenBack,
}

/// The result of `reap` and `retire`.
#[derive(Clone, Copy, Debug)]
pub enum ReapAnswer {
    /// Connections were closed.
    Reaped {
        /// Their count.
        closed: u32,
        /// The count of those that exceeded `idle_timeout` but not `max_lifetime`.
        by_idle: u32,
        /// The count of those that exceeded `max_lifetime`.
        by_life: u32,
        /// The grant of that step.
        grant: Grant,
    },
    /// No handle is alive.
    Ended,
}

/// The result of `add`. Each refusal contains the connection.
pub enum AddAnswer<C> {
    /// The connection is idle, with this key; the notified get.
    Added(Key, Option<GetKey>),
    /// The connection is broken.
    Broken(C),
    /// Connections and open approvals together are `max_size` already.
    NoCapacity(C),
    /// No number is left; or there are as many connections and open approvals as ever were, and
    /// memory for one more was refused.
    Withheld(C),
}

impl<C> AddAnswer<C> {
    /// Returns the notified get, if there is one.
    #[inline]
    pub fn notified(&self) -> Option<GetKey> {
        match self {
            AddAnswer::Added(_, get) => *get,
            AddAnswer::Broken(_) | AddAnswer::NoCapacity(_) | AddAnswer::Withheld(_) => None,
        }
    }
}
