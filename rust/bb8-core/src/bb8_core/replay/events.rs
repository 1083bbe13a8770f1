//! The events of a replay and their results, with plain numbers.

use crate::bb8_types::api::{Moment, State};
use crate::bb8_types::grants::Grant;
use crate::bb8_types::reasons::Reason;

/// The kinds of events. Gets, connections and approvals are named by their numbers.
#[derive(Clone, Copy, Debug, PartialEq, Eq)]
pub enum Act {
    /// A get begins.
    Begin,
    /// The get takes an idle connection, or else waits.
    Try(u64),
    /// The check of the connection that the get holds passed.
    CheckedOk(u64),
    /// The check of the connection that the get holds failed; whether the connection is broken.
    CheckedErr(u64, bool),
    /// The get ends without being served; whether the connection that it holds, if any, is broken.
    GiveUp(u64, Reason, bool),
    /// The guard of the connection returns it; whether it is broken.
    PutBack(u64, bool),
    /// The guard of the connection detaches it.
    Detach(u64),
    /// The idle connection is evicted.
    Evict(u64),
    /// Approvals are requested up to `min_idle`; whether they are claimed at once.
    Fill(bool),
    /// The approvals that waiters lack are granted.
    Ask,
    /// The unclaimed approval with the lowest number is claimed.
    Claim,
    /// The attempt of the claimed approval succeeded.
    Opened(u64),
    /// The attempt of the claimed approval failed.
    Failed(u64),
    /// A connection without an approval is added; whether it is broken.
    Add(bool),
    /// Idle connections that have been idle or live too long are closed.
    Reap,
    /// All connections and approvals that have numbers now are retired.
    Retire,
    /// The size and the statistics are read.
    State,
    /// A handle is added.
    Join,
    /// A handle is dropped.
    Leave,
    /// The pool is closed.
    Close,
    /// The effective moment is read, and whether a handle is alive.
    Look,
}

/// An event at a moment.
#[derive(Clone, Copy, Debug, PartialEq, Eq)]
pub struct Event {
    /// Its moment. One before that of an earlier event counts as the later one.
    pub at: Moment,
    /// Its kind.
    pub act: Act,
}

/// The results of events. The get that a step notified is named if there is one.
#[derive(Clone, Copy, Debug, PartialEq, Eq)]
pub enum Answer {
    /// The number of the get.
    Begun(u64),
    /// Memory for the get was refused.
    Memory,
    /// No number is left for the get; or the maximum of handles is alive.
    Exhausted,
    /// The connection with which the get was served; the grant.
    Served(u64, Grant),
    /// The connection that the get holds to check it; the grant.
    Taken(u64, Grant),
    /// The get waits; the grant.
    Waiting(Grant),
    /// The connection is idle again; the notified get.
    Kept(u64, Option<u64>),
    /// The connection is closed; the grant; the notified get.
    Closed(u64, Grant, Option<u64>),
    /// The get ended; the notified get.
    GaveUp(Option<u64>),
    /// The grant.
    Granted(Grant),
    /// The approval that was claimed, if one was unclaimed.
    Claimed(Option<u64>),
    /// No handle is alive.
    Ended,
    /// The approval became an idle connection; the notified get.
    Entered(u64, Option<u64>),
    /// The approval ended, because it was retired, or no handle is alive.
    Late(u64),
    /// The approval ended, because its attempt failed.
    GivenBack,
    /// The number of the connection that was added; the notified get.
    Added(u64, Option<u64>),
    /// A broken connection was refused.
    Broken,
    /// No slot is free for one more connection.
    NoCapacity,
    /// No memory or no number for one more connection.
    Withheld,
    /// Connections were closed.
    Reaped {
        /// Their count.
        closed: u32,
        /// The count of those that exceeded `idle_timeout` but not `max_lifetime`.
        by_idle: u32,
        /// The count of those that exceeded `max_lifetime`.
        by_life: u32,
        /// The grant of that step.
        grant: Grant,
    },
    /// The size and the statistics of the pool.
    Shown(State),
    /// There is one more handle.
    Joined,
    /// A handle was dropped, or all were; this many idle connections ended with the last one.
    Left(u32),
    /// The effective moment, and whether a handle is alive.
    Looked(Moment, bool),
    /// The event does not fit, and has changed nothing.
    Unfit,
}
