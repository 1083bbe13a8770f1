//! The lock around the core: the standard library's, or that of `parking_lot`.

#[cfg(feature = "parking_lot")]
use parking_lot as implementation;
#[cfg(not(feature = "parking_lot"))]
use std::sync::{self as implementation, PoisonError, TryLockError};

pub(crate) use implementation::MutexGuard;
use std::hint::spin_loop;

/// A lock without poisoning. No user code runs while it is held: no manager, no destructor of a
/// connection, no waker. The core is proved not to panic. So a panic under the lock is a bug of
/// this crate that an assertion found: a connection may leak, but none is checked out twice.
///
/// The alignment keeps the lock out of the cache lines of fields that are read without it.
#[repr(align(128))]
pub(crate) struct Mutex<T>(implementation::Mutex<T>);

impl<T> Mutex<T> {
    pub(crate) fn new(held: T) -> Self {
        Mutex(implementation::Mutex::new(held))
    }

    // Inlining saves 34 instructions of a pair.
    #[inline]
    pub(crate) fn lock(&self) -> MutexGuard<'_, T> {
        self.try_lock().unwrap_or_else(|| self.lock_taken())
    }

    /// Tries again after longer and longer pauses, of some dozens of microseconds in total, before
    /// it parks the thread: a step is far shorter than a system call.
    fn lock_taken(&self) -> MutexGuard<'_, T> {
        for turns in [4, 16, 64, 256, 1024, 1024] {
            (0..turns).for_each(|_| spin_loop());
            if let Some(guard) = self.try_lock() {
                return guard;
            }
        }
        let guard = self.0.lock();
        #[cfg(not(feature = "parking_lot"))]
        let guard = guard.unwrap_or_else(PoisonError::into_inner);
        guard
    }

    fn try_lock(&self) -> Option<MutexGuard<'_, T>> {
        let tried = self.0.try_lock();
        #[cfg(not(feature = "parking_lot"))]
        let tried = match tried {
            Err(TryLockError::WouldBlock) => None,
            Err(TryLockError::Poisoned(error)) => Some(error.into_inner()),
            Ok(guard) => Some(guard),
        };
        tried
    }
}
