//! The configuration of a pool.

use std::time::Duration;

/// The order in which idle connections are checked out. As in bb8.
#[derive(Clone, Copy, Debug, PartialEq, Eq)]
pub enum QueueStrategy {
    /// The one that has been idle longest.
    Fifo,
    /// The one that became idle last.
    Lifo,
}

impl Default for QueueStrategy {
    fn default() -> Self {
        QueueStrategy::Fifo
    }
}

/// The configuration of a pool. Fields and defaults are bb8's, except for `test_after`. Durations
/// are whole nanoseconds of the pool's clock; one of more than 18,446,744,073,709,551,615
/// nanoseconds is never reached.
#[derive(Clone, Copy, Debug)]
pub struct Config {
    /// The maximum of connections and open approvals together. 10 by default.
    pub max_size: u32,
    /// The number of idle connections that the pool tries to keep. `idle_timeout` closes none of
    /// these. None, which counts as 0, by default.
    pub min_idle: Option<u32>,
    /// Whether a connection is checked before it is checked out. On by default.
    pub test_on_check_out: bool,
    /// How long a connection must have been idle to be checked, if `test_on_check_out` is on.
    /// Before that it is checked out without a check. 0 by default: each is checked. Not in bb8.
    pub test_after: Duration,
    /// The age at which a connection is closed, when it is returned or by the reaper. 30 minutes by
    /// default.
    pub max_lifetime: Option<Duration>,
    /// The idle time after which the reaper closes a connection, if more than `min_idle` are idle.
    /// 10 minutes by default.
    pub idle_timeout: Option<Duration>,
    /// How long a get waits, and for how long a failed connect is retried. 30 seconds by default.
    pub connection_timeout: Duration,
    /// Whether a failed connect is retried. On by default.
    pub retry_connection: bool,
    /// The time between two runs of the reaper. 30 seconds by default.
    pub reaper_rate: Duration,
    /// The order in which idle connections are checked out. `Fifo` by default.
    pub queue_strategy: QueueStrategy,
}

impl Default for Config {
    fn default() -> Self {
        Config {
            max_size: 10,
            min_idle: None,
            test_on_check_out: true,
            test_after: Duration::from_nanos(0),
            max_lifetime: Some(Duration::from_secs(1800)),
            idle_timeout: Some(Duration::from_secs(600)),
            connection_timeout: Duration::from_secs(30),
            retry_connection: true,
            reaper_rate: Duration::from_secs(30),
            queue_strategy: QueueStrategy::Fifo,
        }
    }
}

fn is_above_zero(limit: Option<Duration>) -> bool {
    match limit {
        Some(limit) => limit.as_nanos() > 0,
        None => true,
    }
}

fn is_at_most(least: Option<u32>, most: u32) -> bool {
    match least {
        Some(least) => least <= most,
        None => true,
    }
}

impl Config {
    /// Returns whether a pool accepts this configuration: `max_size` and `connection_timeout` are
    /// not zero, `min_idle` is at most `max_size`, neither `max_lifetime` nor `idle_timeout` is set
    /// to zero, and `reaper_rate` is not zero if one of these two is set. Not in bb8, which panics
    /// in its setters or in `build`.
    pub fn is_lawful(&self) -> bool {
        let reaps = self.max_lifetime.is_some() || self.idle_timeout.is_some();
        self.max_size > 0
            && is_at_most(self.min_idle, self.max_size)
            && is_above_zero(self.max_lifetime)
            && is_above_zero(self.idle_timeout)
            && self.connection_timeout.as_nanos() > 0
            && (!reaps || self.reaper_rate.as_nanos() > 0)
    }
}
