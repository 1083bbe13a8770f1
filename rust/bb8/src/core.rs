//! The proved state machine over the connections of a pool.

pub(crate) use bb8_core::api::Moment;
pub(crate) use bb8_core::internals::{
    AddAnswer, CheckedErrAnswer, ClaimAnswer, ClosedList, DetachAnswer, EvictAnswer, GetKey,
    GiveUpAnswer, Key, OpenedAnswer, PutBackAnswer, ReapAnswer, Reason, Started, TryAnswer,
};

use crate::boxed::Boxed;
use crate::builder::{Checks, Config};
use bb8_core::api;
#[cfg(not(test))]
use bb8_core::internals::PoolInternals;
use bb8_core::kit::Global;
use std::time::Duration;

/// A connection as the core holds it. `None` is one that was dropped before its return is
/// reported to the core; the core closes it, so it is never idle.
pub(crate) type Held<C> = Option<Boxed<C>>;

/// The state machine of one pool.
#[cfg(not(test))]
pub(crate) type Core<C> = PoolInternals<Held<C>>;
/// The state machine of one pool, with a journal of its steps.
#[cfg(test)]
pub(crate) type Core<C> = crate::tests::journal::Noted<C>;

/// Returns a core with one handle. The builder has tested the settings.
pub(crate) fn core<C>(settings: &Config) -> Core<C> {
    let config = api::Config {
        max_size: settings.max_size,
        min_idle: settings.min_idle,
        test_on_check_out: settings.checks() != Checks::Off,
        test_after: match settings.checks() {
            Checks::Stale => settings.test_on_check_out_after,
            Checks::Off | Checks::All => Duration::ZERO,
        },
        max_lifetime: settings.max_lifetime,
        idle_timeout: settings.idle_timeout,
        connection_timeout: settings.connection_timeout,
        retry_connection: settings.retry_connection,
        reaper_rate: settings.reaper_rate,
        queue_strategy: settings.queue_strategy,
    };
    // The core is proved for lawful settings alone.
    assert!(config.is_lawful(), "unlawful settings: {config:?}");
    Core::new(Global, config)
}

/// Returns the result of a step that fits. Panics if it does not, which is a bug of this crate: the
/// step names a get or a connection that the core does not have in that state.
pub(crate) fn fit<A, E>(result: Result<A, E>) -> A {
    result.unwrap_or_else(|_| unfit())
}

pub(crate) fn unfit() -> ! {
    panic!("a step named a get or connection that the core does not have in that state");
}

/// A checked-out connection, and its key in the core.
pub(crate) struct Checkout<C> {
    pub(crate) conn: Boxed<C>,
    pub(crate) key: Key,
}

impl<C> Checkout<C> {
    /// A connection that was idle until the core handed it out.
    pub(crate) fn new(key: Key, conn: Held<C>) -> Self {
        match conn {
            Some(conn) => Checkout { conn, key },
            None => unreachable!("the core holds the connections that are idle"),
        }
    }
}
