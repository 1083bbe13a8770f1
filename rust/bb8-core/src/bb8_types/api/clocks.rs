//! The clock of a pool.

use super::{Memory, Moment};
use crate::kit::Global;
use crate::kit::Arc;
use std::sync::atomic::{AtomicU64, Ordering};

/// The clock that a pool reads. Deadlines, lifetimes and idle times are measured by it.
///
/// bb8 reads the machine's clock. A clock may go back: a pool treats a moment earlier than one it
/// has seen as the later one.
pub trait Clock: Send + Sync + 'static {
    /// Returns the current moment, in nanoseconds from a zero that the clock chooses.
    fn now(&self) -> Moment;
}

/// A clock that moves only when it is set, for tests and for programs with a time of their own.
/// Copies made by `try_clone` share the moment, also between threads: each returns what was set
/// last on any of them.
pub struct SetClock {
    nanoseconds: Arc<AtomicU64, Global>,
}

impl SetClock {
    /// Returns a clock that shows this moment until it is set. Fails if memory is refused.
    pub fn new(alloc: Global, moment: Moment) -> Result<SetClock, Memory> {
        let nanoseconds = Arc::new(alloc, AtomicU64::new(moment.0))?;
        Ok(SetClock { nanoseconds })
    }

    /// Returns another handle to the same clock, for another thread or pool. It takes no memory.
    /// Fails if there are more copies than can be counted.
    pub fn try_clone(&self) -> Result<SetClock, Memory> {
        let nanoseconds = Arc::try_clone(&self.nanoseconds)?;
        Ok(SetClock { nanoseconds })
    }

    /// Sets the clock and all its copies to this moment, which may be an earlier one.
    pub fn set(&self, moment: Moment) {
        self.nanoseconds.store(moment.0, Ordering::SeqCst);
    }
}

impl Clock for SetClock {
    fn now(&self) -> Moment {
        Moment(self.nanoseconds.load(Ordering::SeqCst))
    }
}
