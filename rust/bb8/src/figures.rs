//! The state and the statistics of a pool.

use crate::pool::Counts;
use bb8_core::api;
use std::time::Duration;

/// The state of a pool at one moment.
#[derive(Clone, Debug, PartialEq, Eq)]
#[non_exhaustive]
pub struct State {
    /// Idle plus checked-out connections. Connection attempts in progress are not included.
    pub connections: u32,
    /// Idle connections.
    pub idle_connections: u32,
    /// Connection attempts in progress. One that waits for its next try is in progress, too.
    pub pending_connections: u32,
    /// Counts of events since the pool was built.
    pub statistics: Statistics,
}

/// Counts of a pool's events since it was built.
///
/// At every moment, `connections_created` plus `connections_added` equals `connections_closed` plus
/// `connections_detached` plus [`State::connections`]. The counts by reason do not add up to
/// `connections_closed`: a connection may count in two of them (a failed check, and broken, past
/// `max_lifetime` or retired), and one that [`Pool::close`](crate::Pool::close) or the last handle
/// closed counts in none.
///
/// # Examples
///
/// ```
/// use bb8::{Pool, PooledConnection};
/// # include!(concat!(env!("CARGO_MANIFEST_DIR"), "/tests/common/numbers.rs"));
/// # #[tokio::main] async fn main() {
/// let pool = Pool::builder().build(Numbers::default()).await.unwrap();
/// let conn = pool.get().await.unwrap(); // opens a connection
/// assert_eq!(PooledConnection::detach(conn), 0);
/// pool.add(7).unwrap();
/// let conn = pool.get().await.unwrap(); // checks out the added one
/// pool.retire();
/// drop(conn); // closes it
///
/// let state = pool.state();
/// let figures = state.statistics;
/// assert_eq!((figures.connections_created, figures.connections_added), (1, 1));
/// assert_eq!((figures.connections_closed, figures.connections_detached), (1, 1));
/// assert_eq!(figures.connections_closed_retired, 1);
/// assert_eq!((state.connections, state.pending_connections), (0, 0));
/// # }
/// ```
#[derive(Clone, Debug, Default, PartialEq, Eq)]
#[non_exhaustive]
pub struct Statistics {
    /// `get` calls that began.
    pub get_started: u64,
    /// `get` calls that were served without having waited.
    pub get_direct: u64,
    /// `get` calls that were served after they had waited. With `fair_after` and without checks a
    /// get is served when it is handed a connection.
    pub get_waited: u64,
    /// `get` calls that timed out.
    pub get_timed_out: u64,
    /// `get` calls whose future was dropped before it resolved, those that returned `Closed` or
    /// `Memory` after they had begun, and each [`Pool::try_get`](crate::Pool::try_get) for which
    /// every check failed.
    #[doc(alias = "cancellation")]
    pub get_cancelled: u64,
    /// Total wait of served and timed-out gets, each from its first wait to its end, in whole
    /// microseconds.
    pub get_wait_time: Duration,
    /// Connections that the pool opened, except those retired during their attempt.
    pub connections_created: u64,
    /// Connections that [`Pool::add`](crate::Pool::add) added.
    pub connections_added: u64,
    /// Connection attempts that failed, timed out or panicked, each try counted.
    pub connections_failed: u64,
    /// Connections that were closed, for any reason. Detached ones do not count.
    pub connections_closed: u64,
    /// Connections that were closed because they were broken, because their check was cut off by
    /// the end or the cancellation of its get, because `on_release` did not keep them, or because
    /// they were returned past the end that `max_lifetime_jitter` gave them.
    pub connections_closed_broken: u64,
    /// Connections that were closed because their check failed or took longer than `test_timeout`,
    /// or because a get took them out past the end that `max_lifetime_jitter` gave them.
    pub connections_closed_invalid: u64,
    /// Connections that were closed because of `max_lifetime`, and were not retired: at that age,
    /// or while idle at the end that `max_lifetime_jitter` gave them.
    pub connections_closed_max_lifetime: u64,
    /// Connections that were closed because of `idle_timeout`.
    pub connections_closed_idle_timeout: u64,
    /// Connections that were closed because of [`Pool::retire`](crate::Pool::retire), past
    /// `max_lifetime` or not.
    pub connections_closed_retired: u64,
    /// Connections that left the pool by
    /// [`PooledConnection::detach`](crate::PooledConnection::detach).
    pub connections_detached: u64,
    /// Checks that were cut off by `test_timeout`, or by the end of their get's time.
    pub checks_timed_out: u64,
}

impl Statistics {
    /// `get` calls in progress.
    pub fn pending_gets(&self) -> u64 {
        let ended = self.completed_gets().saturating_add(self.get_cancelled);
        self.get_started.saturating_sub(ended)
    }

    /// `get` calls that were served or timed out.
    pub fn completed_gets(&self) -> u64 {
        self.get_direct
            .saturating_add(self.get_waited)
            .saturating_add(self.get_timed_out)
    }
}

impl State {
    /// The state of the core, and what the core does not count.
    pub(crate) fn new(state: api::State, counts: &Counts) -> Self {
        let figures = state.statistics;
        let opened = figures.connections_created.saturating_add(counts.added);
        let detached = figures.connections_detached.saturating_sub(counts.expired);
        let by_life = figures.connections_closed_max_lifetime;
        let left = detached.saturating_add(state.connections.into());
        State {
            connections: state.connections,
            idle_connections: state.idle_connections,
            pending_connections: counts.pending,
            statistics: Statistics {
                get_started: figures.get_started,
                get_direct: figures.get_direct,
                get_waited: figures.get_waited,
                get_timed_out: figures.get_timed_out,
                get_cancelled: figures.get_cancelled,
                get_wait_time: figures.get_wait_time,
                connections_created: figures.connections_created,
                connections_added: counts.added,
                connections_failed: counts.failed,
                connections_closed: opened.saturating_sub(left),
                connections_closed_broken: figures.connections_closed_broken,
                connections_closed_invalid: figures.connections_closed_invalid,
                connections_closed_max_lifetime: by_life.saturating_add(counts.expired),
                connections_closed_idle_timeout: figures.connections_closed_idle_timeout,
                connections_closed_retired: figures.connections_closed_retired,
                connections_detached: detached,
                checks_timed_out: counts.checks_timed_out,
            },
        }
    }
}
