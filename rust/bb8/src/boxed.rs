//! Connections on the heap, in boxes for which memory can be refused. The core moves a connection
//! at each step: in a box the cost does not depend on its size.

use std::marker::PhantomData;
use std::ops::{Deref, DerefMut};

/// A connection, the end of its life, and, for events, when it was opened.
struct Stored<C> {
    conn: C,
    end: u64,
    #[cfg(feature = "tracing")]
    opened: tokio::time::Instant,
}

/// Memory for one connection, reserved before the connection is opened.
pub(crate) struct Reserved<C>(Vec<Stored<C>>);

impl<C> Reserved<C> {
    /// Returns `None` if memory is refused.
    pub(crate) fn new() -> Option<Self> {
        #[cfg(test)]
        if bb8_core::kit::refusals::is_refused() {
            return None;
        }
        let mut memory = Vec::new();
        memory.try_reserve_exact(1).ok()?;
        Some(Reserved(memory))
    }

    /// Moves the connection into the reserved memory.
    pub(crate) fn fill(mut self, conn: C) -> Boxed<C> {
        self.0.push(Stored {
            conn,
            end: u64::MAX,
            #[cfg(feature = "tracing")]
            opened: tokio::time::Instant::now(),
        });
        match self.0.try_into() {
            Ok(boxed) => Boxed(boxed, PhantomData),
            Err(_) => unreachable!("one connection was pushed"),
        }
    }
}

/// A connection on the heap. It is `Unpin` only if the connection is, as bb8's guards are.
pub(crate) struct Boxed<C>(Box<[Stored<C>; 1]>, PhantomData<C>);

impl<C> Boxed<C> {
    pub(crate) fn into_inner(self) -> C {
        let [stored] = *self.0;
        stored.conn
    }

    pub(crate) fn end(&self) -> u64 {
        self.0[0].end
    }

    pub(crate) fn set_end(&mut self, end: u64) {
        self.0[0].end = end;
    }

    /// Returns how long ago it was opened.
    #[cfg(feature = "tracing")]
    pub(crate) fn age(&self) -> std::time::Duration {
        self.0[0].opened.elapsed()
    }
}

impl<C> Deref for Boxed<C> {
    type Target = C;

    fn deref(&self) -> &C {
        &self.0[0].conn
    }
}

impl<C> DerefMut for Boxed<C> {
    fn deref_mut(&mut self) -> &mut C {
        &mut self.0[0].conn
    }
}
