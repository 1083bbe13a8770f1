//! The reap of idle connections: one walk along the order of births, one along the queue of idle
//! connections.

use super::{Records, close_idle_at, is_idle};
use crate::bb8_tables::closed::ClosedList;
use crate::bb8_tables::table::{AccessCounter, Table};
use crate::bb8_types::api::Config;
use crate::bb8_types::standing::Standing;
use std::time::Duration;

/// The result of a reap.
#[derive(Clone, Copy, Debug, PartialEq, Eq)]
pub struct Reaped {
    /// The count of closed connections.
    pub closed: u32,
    /// The count of those that were idle too long.
    pub by_idle: u32,
    /// The count of those that lived too long.
    pub by_life: u32,
}

/// A connection met in the order of births, and the index after it.
enum Age {
    /// It does not live too long, so none after it does.
    Young,
    /// It lives too long and is checked out.
    Out(Option<usize>),
    /// It lives too long and is idle.
    Aged(Option<usize>),
}

/// Returns whether a limit is reached; never if none is set.
#[inline]
fn is_past(limit: Option<Duration>, span: u64) -> bool {
    match limit {
        None => false,
        // If the limit is more than a second away, its whole seconds decide, in 64 bits.
        Some(limit) => {
            limit.as_secs().saturating_mul(1_000_000_000) <= span
                && limit.as_nanos() <= span as u128
        }
    }
}

/// Returns whether a record is idle, and for too long.
fn idles_out<C>(config: &Config, now: u64, standing: &Standing<C>) -> bool {
    is_idle(&standing.place) && is_past(config.idle_timeout, now.saturating_sub(standing.entered))
}

/// Returns whether a record is idle and lives too long.
fn lives_out<C>(config: &Config, now: u64, standing: &Standing<C>) -> bool {
    is_idle(&standing.place) && is_past(config.max_lifetime, now.saturating_sub(standing.birth))
}

/// Classifies the connection at an index in the order of births. Reads one entry.
fn pass_birth<C>(
    slots: &Table<Standing<C>>,
    place: usize,
    config: &Config,
    now: u64,
    accesses: &mut AccessCounter,
) -> Age {
    let (slot, next) = slots.pass(place, accesses);
    let standing = &slot.standing;
    if !is_past(config.max_lifetime, now.saturating_sub(standing.birth)) {
        return Age::Young;
    }
    if lives_out(config, now, standing) {
        Age::Aged(next)
    } else {
        Age::Out(next)
    }
}

impl<C> Records<C> {
    /// Ends the connection that has been idle longest if that is too long. Returns whether it did.
    /// Reads one entry if one is idle.
    fn reap_first(
        &mut self,
        config: &Config,
        now: u64,
        closed: &mut ClosedList<C>,
        accesses: &mut AccessCounter,
    ) -> bool {
        let Some(place) = self.slots.first() else {
            return false;
        };
        let due = idles_out(config, now, &self.slots.at(place, accesses).standing);
        if !due {
            return false;
        }
        let _ = close_idle_at(&mut self.slots, place, closed);
        self.conns -= 1;
        true
    }

    /// Ends the connections that are idle too long, the longest idle first, until one is not or
    /// `min_idle` idle ones are left. Returns their count. Reads an entry for each of them, and at
    /// most one more; none if no limit is set.
    fn reap_idle(
        &mut self,
        config: &Config,
        now: u64,
        closed: &mut ClosedList<C>,
        accesses: &mut AccessCounter,
    ) -> u32 {
        if config.idle_timeout.is_none() {
            return 0;
        }
        let _next = &self.next;
        let many = self
            .idle_connections()
            .saturating_sub(config.min_idle.unwrap_or(0));
        for ended in 0..many {
            let more = self.reap_first(config, now, closed, accesses);
            if !more {
                return ended;
            }
        }
        many
    }

    /// Ends the idle connections that live too long, the oldest first, until one does not; skips
    /// those that are checked out. Returns their count. Reads an entry for each ended and each
    /// skipped one, and at most one more; none if no limit is set.
    fn reap_aged(
        &mut self,
        config: &Config,
        now: u64,
        closed: &mut ClosedList<C>,
        accesses: &mut AccessCounter,
    ) -> u32 {
        let mut many = 0;
        if config.max_lifetime.is_none() {
            return many;
        }
        let mut at = self.slots.first_birth();
        for _ in 0..self.slots.births() {
            let Some(place) = at else { break };
            match pass_birth(&self.slots, place, config, now, accesses) {
                Age::Young => break,
                Age::Out(next) => at = next,
                Age::Aged(next) => {
                    let _ = close_idle_at(&mut self.slots, place, closed);
                    self.conns -= 1;
                    many += 1;
                    at = next;
                }
            }
        }
        many
    }

    /// Ends each idle connection that lives too long, then those that are idle too long, the
    /// longest idle first, sparing `min_idle`. Offers them to a list. Reads an entry for each
    /// connection that ends or is checked out, and at most two more.
    pub fn reap(
        &mut self,
        config: &Config,
        now: u64,
        closed: &mut ClosedList<C>,
        accesses: &mut AccessCounter,
    ) -> Reaped {
        let _next = &self.next;
        let by_life = self.reap_aged(config, now, closed, accesses);
        let by_idle = self.reap_idle(config, now, closed, accesses);
        Reaped {
            closed: by_life + by_idle,
            by_idle,
            by_life,
        }
    }
}
