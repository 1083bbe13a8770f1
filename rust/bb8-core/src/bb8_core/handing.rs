//! Steps with hand-off: if a step notifies a get, that get tries in the same call. No other try
//! comes between, so if all events of a pool have hand-off, gets are served in the order in which
//! they began to wait. Exception: a get that a close notifies, or whose check fails, loses its
//! position.
//!
//! Each function is the step of its name, followed by that try. None can read a pool's tables
//! without counting the access.

use crate::bb8_core::api::Moment;
use crate::bb8_core::internals::{
    AddAnswer, CheckedErrAnswer, DetachAnswer, EvictAnswer, GetKey, GiveUpAnswer, Key,
    OpenedAnswer, PoolInternals, PutBackAnswer, Reason, TryAnswer, Unfit,
};

/// The result of a step with hand-off.
pub struct HandedOver<R, C> {
    /// The result of the step.
    pub outcome: R,
    /// The result of the notified get's try, if a get was notified.
    pub tried: Option<TryAnswer<C>>,
}

/// Makes the try of the notified get, if there is one.
fn try_of<C, A>(
    pool: &mut PoolInternals<C, A>,
    at: Moment,
    notified: Option<GetKey>,
) -> Option<TryAnswer<C>> {
    match notified {
        None => None,
        Some(get) => match pool.try_get(at, get) {
            Ok(tried) => Some(tried),
            // Unreachable: a notified get may try.
            Err(Unfit) => None,
        },
    }
}

// Makes a step, and then the try of the get that it notified.
macro_rules! hand_over {
    ($pool:ident, $at:ident, $step:expr) => {
        match $step {
            Err(back) => HandedOver {
                outcome: Err(back),
                tried: None,
            },
            Ok(outcome) => {
                let tried = try_of($pool, $at, outcome.notified());
                HandedOver {
                    outcome: Ok(outcome),
                    tried,
                }
            }
        }
    };
}

/// Reports that the check of a get failed, with hand-off.
pub fn checked_err<C, A>(
    pool: &mut PoolInternals<C, A>,
    at: Moment,
    get: GetKey,
    conn: C,
    broken: bool,
    hint: usize,
) -> HandedOver<Result<CheckedErrAnswer<C>, C>, C> {
    hand_over!(pool, at, pool.checked_err(at, get, conn, broken, hint))
}

/// Ends a get that holds nothing and is not served, with hand-off.
pub fn give_up<C, A>(
    pool: &mut PoolInternals<C, A>,
    at: Moment,
    get: GetKey,
    reason: Reason,
    broken: bool,
) -> HandedOver<Result<GiveUpAnswer<C>, Unfit>, C> {
    hand_over!(pool, at, pool.give_up(at, get, reason, broken))
}

/// Ends a get that holds this connection and is not served, with hand-off.
pub fn give_back<C, A>(
    pool: &mut PoolInternals<C, A>,
    at: Moment,
    get: GetKey,
    reason: Reason,
    conn: C,
    broken: bool,
    hint: usize,
) -> HandedOver<Result<GiveUpAnswer<C>, C>, C> {
    hand_over!(
        pool,
        at,
        pool.give_back(at, get, reason, conn, broken, hint)
    )
}

/// Takes back a connection that a guard holds, with hand-off.
pub fn put_back<C, A>(
    pool: &mut PoolInternals<C, A>,
    at: Moment,
    key: Key,
    conn: C,
    broken: bool,
) -> HandedOver<Result<PutBackAnswer<C>, C>, C> {
    hand_over!(pool, at, pool.put_back(at, key, conn, broken))
}

/// Detaches a connection that a guard holds, with hand-off.
pub fn detach<C, A>(
    pool: &mut PoolInternals<C, A>,
    at: Moment,
    key: Key,
) -> HandedOver<Result<DetachAnswer, Unfit>, C> {
    hand_over!(pool, at, pool.detach(at, key))
}

/// Evicts an idle connection, with hand-off. A get is notified only if another one was before.
pub fn evict<C, A>(
    pool: &mut PoolInternals<C, A>,
    at: Moment,
    key: Key,
) -> HandedOver<Result<EvictAnswer<C>, Unfit>, C> {
    hand_over!(pool, at, pool.evict(at, key))
}

/// Reports that the attempt of a claimed approval succeeded, with hand-off.
pub fn opened<C, A>(
    pool: &mut PoolInternals<C, A>,
    at: Moment,
    key: Key,
    conn: C,
) -> HandedOver<Result<OpenedAnswer<C>, C>, C> {
    hand_over!(pool, at, pool.opened(at, key, conn))
}

/// Adds a connection, with hand-off.
pub fn add<C, A>(
    pool: &mut PoolInternals<C, A>,
    at: Moment,
    conn: C,
    broken: bool,
) -> HandedOver<Result<AddAnswer<C>, C>, C> {
    hand_over!(pool, at, pool.add(at, conn, broken))
}
