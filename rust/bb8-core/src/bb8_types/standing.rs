//! The states of records and gets that have not ended.

/// The state of a record that has not ended.
pub enum Place<C> {
    /// An approval that is not claimed.
    Unclaimed,
    /// An approval that is claimed.
    Claimed,
    /// An idle connection.
    Idle(C),
    /// A checked-out connection, held by the get of this number.
    Held(u64),
    /// A checked-out connection, held by a guard.
    Guarded,
}

/// The holder of a checked-out connection.
#[derive(Clone, Copy)]
pub enum Holder {
    /// A guard.
    Guard,
    /// The get of this number.
    Get(u64),
}

/// A record that has not ended: a connection, or an approved connection attempt.
pub struct Standing<C> {
    /// Its state.
    pub place: Place<C>,
    /// When its connection was born, in nanoseconds.
    pub birth: u64,
    /// When it last became idle, in nanoseconds.
    pub entered: u64,
}

/// The state of a get that has not ended.
#[derive(Clone, Copy)]
pub enum GetPlace {
    /// It has begun, or its check has failed.
    Active,
    /// It waits; true if it was notified.
    Waiting(bool),
    /// It checks the connection of this number.
    Holding(u64),
}

/// A get that has not ended.
#[derive(Clone, Copy)]
pub struct Getting {
    /// Its state.
    pub place: GetPlace,
    /// When it first waited, in nanoseconds; None if it never did.
    pub first_wait: Option<u64>,
}
