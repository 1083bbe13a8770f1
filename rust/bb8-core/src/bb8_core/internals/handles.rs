//! The statistics of a pool, and its handles.

use super::{ClosedList, JoinAnswer, LeaveAnswer, Looked, PoolInternals, Unfit};
use crate::bb8_tables::AccessCounter;
use crate::bb8_types::api::{Moment, State};

impl<C, A> PoolInternals<C, A> {
    /// Returns the size and the statistics of the pool.
    pub fn state(&mut self, at: Moment) -> State {
        self.latest = self.latest.max(at.0);
        self.accesses.end(AccessCounter::NONE);
        State {
            connections: self.records.connections(),
            idle_connections: self.records.idle_connections(),
            statistics: self.counters.statistics(),
        }
    }

    /// Adds a handle, if fewer than 4,294,967,295 are alive. If none is, nothing changes.
    pub fn join(&mut self, at: Moment) -> Result<JoinAnswer, Unfit> {
        if !self.fits_join() {
            self.accesses.end_unfit(AccessCounter::NONE);
            return Err(Unfit);
        }
        self.latest = self.latest.max(at.0);
        self.accesses.end(AccessCounter::NONE);
        if self.handles >= u32::MAX as u64 {
            return Ok(JoinAnswer::Exhausted);
        }
        self.handles += 1;
        Ok(JoinAnswer::Joined)
    }

    /// Drops a handle. With the last one all idle connections and all unclaimed approvals end; the
    /// connections are dropped here. If no handle is alive, nothing changes.
    pub fn leave(&mut self, at: Moment) -> Result<LeaveAnswer, Unfit> {
        if !self.fits_leave() {
            self.accesses.end_unfit(AccessCounter::NONE);
            return Err(Unfit);
        }
        let mut dropped = self.records.no_list();
        Ok(self.leave_into(at, &mut dropped))
    }

    /// As `leave`, but moves the connections that it closes into a list, the longest idle first.
    /// Those for which the list has no capacity are dropped.
    pub fn leave_into(&mut self, at: Moment, closed: &mut ClosedList<C>) -> LeaveAnswer {
        self.latest = self.latest.max(at.0);
        self.accesses.end(AccessCounter::NONE);
        if self.handles == 1 {
            self.handles = 0;
            self.closed_below = u64::MAX;
            return LeaveAnswer::Left(self.records.leave(closed));
        }
        self.handles -= 1;
        LeaveAnswer::Left(0)
    }

    /// Closes the pool: drops all handles at once. All idle connections and all unclaimed approvals
    /// end, as with the last handle; the connections are dropped here. If no handle is alive,
    /// nothing changes.
    pub fn close(&mut self, at: Moment) -> Result<LeaveAnswer, Unfit> {
        if !self.fits_close() {
            self.accesses.end_unfit(AccessCounter::NONE);
            return Err(Unfit);
        }
        let mut dropped = self.records.no_list();
        Ok(self.close_into(at, &mut dropped))
    }

    /// As `close`, but moves the connections that it closes into a list, the longest idle first.
    /// Those for which the list has no capacity are dropped.
    pub fn close_into(&mut self, at: Moment, closed: &mut ClosedList<C>) -> LeaveAnswer {
        self.latest = self.latest.max(at.0);
        self.accesses.end(AccessCounter::NONE);
        self.handles = 0;
        self.closed_below = u64::MAX;
        LeaveAnswer::Left(self.records.leave(closed))
    }

    /// Returns the effective moment, and whether a handle is alive.
    pub fn look(&mut self, at: Moment) -> Looked {
        self.latest = self.latest.max(at.0);
        self.accesses.end(AccessCounter::NONE);
        Looked {
            moment: Moment(self.latest),
            alive: self.handles > 0,
        }
    }
}
