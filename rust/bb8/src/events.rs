//! The events that the pool reports by `tracing`, if the cargo feature of that name is on.
#![cfg_attr(
    not(feature = "tracing"),
    allow(unused_variables, clippy::single_match)
)]

use crate::boxed::Boxed;
use crate::managers::ManageConnection;
use crate::pool::Shared;
use tokio::time::Instant;

/// The reasons for which connections are closed, in events.
pub(crate) const IDLE_TIMEOUT: &str = "idle_timeout";
pub(crate) const MAX_LIFETIME: &str = "max_lifetime";
pub(crate) const RETIRED: &str = "retired";
pub(crate) const CLOSED: &str = "the pool is closed";

/// Reports an event of a pool at a level, with fields and a message.
macro_rules! report {
    ($level:ident, $shared:expr, $($event:tt)*) => {
        {
            #[cfg(feature = "tracing")]
            tracing::$level!(pool = $shared.name(), $($event)*);
        }
    };
}
pub(crate) use report;

impl<M: ManageConnection> Shared<M> {
    #[cfg(feature = "tracing")]
    pub(crate) fn name(&self) -> &str {
        self.settings.name.as_deref().unwrap_or("bb8")
    }

    /// Reports a failed connection attempt or check. Without an error it took too long.
    pub(crate) fn failed(&self, what: &str, error: Option<&M::Error>) {
        match error {
            Some(error) => report!(warn, self, ?error, "{what} failed"),
            None => report!(warn, self, "{what} timed out"),
        }
    }

    /// Reports a connection that is closed and not broken. If it is past `max_lifetime` or its
    /// own end, that is the reason instead of `idle_timeout`.
    pub(crate) fn closed(&self, conn: &Boxed<M::Connection>, reason: &str) {
        #[cfg(feature = "tracing")]
        {
            let age = conn.age();
            let limit = self.settings.config.max_lifetime;
            let is_old = self.is_past_end(conn) || limit.is_some_and(|it| age >= it);
            let reason = match reason {
                IDLE_TIMEOUT if is_old => MAX_LIFETIME,
                reason => reason,
            };
            report!(debug, self, reason, ?age, "connection closed");
        }
    }

    /// Reports a served get that began at this instant, if it took longer than
    /// `slow_get_threshold`.
    pub(crate) fn served(&self, began: Option<Instant>) {
        #[cfg(feature = "tracing")]
        if let (Some(began), Some(threshold)) = (began, self.settings.slow_get_threshold) {
            let took = began.elapsed();
            if took > threshold {
                let state = self.state();
                report!(warn, self, ?took, ?state, "get was slow");
            }
        }
    }
}
