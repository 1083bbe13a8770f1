//! The counters behind a pool's statistics.

use crate::bb8_types::api::Statistics;
use crate::bb8_types::reasons::Reason;
use std::time::Duration;

/// Counts of what happened. The wait time is in whole microseconds.
#[derive(Clone, Copy)]
pub struct Counters {
    /// Gets that began.
    pub started: u64,
    /// Gets that were served without a wait.
    pub direct: u64,
    /// Gets that were served after a wait.
    pub waited: u64,
    /// Gets that timed out.
    pub timed_out: u64,
    /// Gets that were cancelled.
    pub cancelled: u64,
    /// The waits of served and timed out gets, in microseconds.
    pub wait_micros: u64,
    /// Connections opened for an approval.
    pub created: u64,
    /// Connections closed because they were broken.
    pub broken: u64,
    /// Connections closed because their check failed.
    pub invalid: u64,
    /// Connections closed because of `max_lifetime`.
    pub max_lifetime: u64,
    /// Connections closed because of `idle_timeout`.
    pub idle_timeout: u64,
    /// Connections that were closed as they had been retired.
    pub retired: u64,
    /// Connections that were detached or evicted.
    pub detached: u64,
}

/// Returns the whole microseconds since the first wait, 0 if there was none.
fn micros_since(now: u64, first_wait: Option<u64>) -> u64 {
    match first_wait {
        None => 0,
        Some(first) => now.saturating_sub(first) / 1000,
    }
}

impl Counters {
    /// All counts at 0.
    pub const NONE: Self = Counters {
        started: 0,
        direct: 0,
        waited: 0,
        timed_out: 0,
        cancelled: 0,
        wait_micros: 0,
        created: 0,
        broken: 0,
        invalid: 0,
        max_lifetime: 0,
        idle_timeout: 0,
        retired: 0,
        detached: 0,
    };

    /// Counts a served get, with the moment of its first wait if it waited.
    pub fn serve(&mut self, first_wait: Option<u64>, now: u64) {
        match first_wait {
            None => self.direct += 1,
            Some(_) => {
                self.waited += 1;
                self.wait_micros = self
                    .wait_micros
                    .saturating_add(micros_since(now, first_wait));
            }
        }
    }

    /// Counts a get that timed out or was cancelled, with the moment of its first wait if it
    /// waited. The wait counts only if it timed out.
    pub fn give_up(&mut self, reason: Reason, first_wait: Option<u64>, now: u64) {
        match reason {
            Reason::TimedOut => {
                self.timed_out += 1;
                self.wait_micros = self
                    .wait_micros
                    .saturating_add(micros_since(now, first_wait));
            }
            Reason::Cancelled => self.cancelled += 1,
        }
    }

    /// Counts a connection that was closed when it was returned: as broken, else as retired, else
    /// as too old. If it is none of these, nothing is counted.
    pub fn close(&mut self, broken: bool, retired: bool, expired: bool) {
        if broken {
            self.broken += 1;
        } else if retired {
            self.retired += 1;
        } else if expired {
            self.max_lifetime += 1;
        }
    }

    /// Counts idle connections that were closed because all were retired.
    pub fn retire(&mut self, closed: u32) {
        self.retired += closed as u64;
    }

    /// Counts a detached or evicted connection.
    pub fn detach(&mut self) {
        self.detached += 1;
    }

    /// Counts connections closed by the reaper: `by_idle` were idle too long, `by_life` others
    /// lived too long.
    pub fn reap(&mut self, by_idle: u32, by_life: u32) {
        self.max_lifetime += by_life as u64;
        self.idle_timeout += by_idle as u64;
    }

    /// Returns the statistics that users see.
    pub fn statistics(&self) -> Statistics {
        Statistics {
            get_started: self.started,
            get_direct: self.direct,
            get_waited: self.waited,
            get_timed_out: self.timed_out,
            get_cancelled: self.cancelled,
            get_wait_time: Duration::from_micros(self.wait_micros),
            connections_created: self.created,
            connections_closed_broken: self.broken,
            connections_closed_invalid: self.invalid,
            connections_closed_max_lifetime: self.max_lifetime,
            connections_closed_idle_timeout: self.idle_timeout,
            connections_closed_retired: self.retired,
            connections_detached: self.detached,
        }
    }
}
