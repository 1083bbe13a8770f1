//! The parts of Rattle's standard library that the proved sources use, written over Rust's.
//!
//! A refused allocation is an error here and never aborts the process. Exception: [`Arc::new`].
//!
//! The sources rely on four properties of [`Vec`] and [`HeapCircularBuffer`]: there is capacity
//! after `Ok`, nothing changes after `Err`, a call that needs no memory returns `Ok`, and a
//! vector's capacity never shrinks. The tests of this file check them.

use ::alloc::collections::VecDeque;
use ::alloc::{sync, vec};
use core::ops::{Deref, DerefMut};

/// Whether a test wants the next request for memory to be refused.
#[cfg(not(feature = "refusals"))]
const fn is_refused() -> bool {
    false
}
#[cfg(feature = "refusals")]
use refusals::is_refused;

/// Refuses memory on request, for tests of this package and of those that use it.
#[cfg(feature = "refusals")]
pub mod refusals {
    use std::cell::Cell;

    std::thread_local! {
        /// How many requests are granted next, and how many after these are refused.
        static NEXT: Cell<(u32, u32)> = const { Cell::new((0, 0)) };
    }

    /// Counts one request for memory by this thread, and returns whether it has to be refused.
    pub fn is_refused() -> bool {
        NEXT.with(|next| match next.get() {
            (0, 0) => false,
            (0, refused) => {
                next.set((0, refused - 1));
                true
            }
            (granted, refused) => {
                next.set((granted - 1, refused));
                false
            }
        })
    }

    /// Calls `run`, during which this thread's first `requests` requests for memory are granted and
    /// all later ones are refused.
    pub fn granting<T>(requests: u32, run: impl FnOnce() -> T) -> T {
        refusing(requests, u32::MAX, run)
    }

    /// Calls `run`, during which this thread's first `granted` requests for memory are granted, the
    /// `refused` next ones are refused, and all later ones are granted.
    pub fn refusing<T>(granted: u32, refused: u32, run: impl FnOnce() -> T) -> T {
        /// Ends the refusals, also if `run` panics.
        struct Restore((u32, u32));

        impl Drop for Restore {
            fn drop(&mut self) {
                NEXT.with(|next| next.set(self.0));
            }
        }

        let _restore = Restore(NEXT.with(|next| next.replace((granted, refused))));
        run()
    }
}

/// The error of a refused allocation.
#[derive(Clone, Copy, Debug, PartialEq, Eq)]
pub struct AllocError;

/// The error of a refused allocation for a value, which it returns.
#[derive(Clone, Copy, Debug, PartialEq, Eq)]
pub struct AllocFailed<T>(pub T);

/// The permission to allocate from Rust's global allocator.
#[derive(Clone, Copy, Debug)]
pub struct Global;

/// A vector whose growth can fail.
#[derive(Debug)]
pub struct Vec<T>(vec::Vec<T>);

impl<T> Vec<T> {
    /// Returns an empty vector. Does not allocate.
    #[inline]
    pub fn new(_alloc: Global) -> Self {
        Vec(vec::Vec::new())
    }

    /// Reserves memory for `additional` more elements. On an error the vector is unchanged.
    #[inline]
    pub fn reserve(&mut self, additional: usize) -> Result<(), AllocError> {
        if additional > self.0.capacity() - self.0.len() && is_refused() {
            return Err(AllocError);
        }
        self.0.try_reserve(additional).map_err(|_| AllocError)
    }

    /// Appends an element, and allocates if there is no capacity. An error returns the element.
    #[inline]
    pub fn push(&mut self, value: T) -> Result<(), AllocFailed<T>> {
        match self.reserve(1) {
            Ok(()) => {
                self.0.push(value);
                Ok(())
            }
            Err(AllocError) => Err(AllocFailed(value)),
        }
    }

    /// Appends an element for which there is capacity.
    #[inline]
    pub fn push_reserved(&mut self, value: T) {
        debug_assert!(self.0.len() < self.0.capacity());
        self.0.push(value);
    }

    /// Removes and returns the last element.
    #[inline]
    pub fn pop(&mut self) -> Option<T> {
        self.0.pop()
    }

    /// Returns the elements.
    #[inline]
    pub fn as_slice(&self) -> &[T] {
        &self.0
    }

    /// Returns the elements for changes.
    #[inline]
    pub fn as_mut_slice(&mut self) -> &mut [T] {
        &mut self.0
    }

    /// Returns the elements in a vector of Rust's standard library.
    pub fn into_std(self) -> vec::Vec<T> {
        self.0
    }
}

impl<T> Deref for Vec<T> {
    type Target = [T];

    #[inline]
    fn deref(&self) -> &[T] {
        &self.0
    }
}

impl<T> DerefMut for Vec<T> {
    #[inline]
    fn deref_mut(&mut self) -> &mut [T] {
        &mut self.0
    }
}

/// A queue of at most as many items as its capacity, which changes only by
/// [`resize`](Self::resize).
#[derive(Debug)]
pub struct HeapCircularBuffer<T> {
    items: VecDeque<T>,
    capacity: usize,
}

impl<T> HeapCircularBuffer<T> {
    /// Returns an empty queue with this capacity.
    pub fn with_capacity(_alloc: Global, capacity: usize) -> Result<Self, AllocError> {
        let mut queue = HeapCircularBuffer {
            items: VecDeque::new(),
            capacity: 0,
        };
        queue.resize(capacity)?;
        Ok(queue)
    }

    /// Changes the capacity, to no less than the number of items. On an error the queue is
    /// unchanged.
    pub fn resize(&mut self, capacity: usize) -> Result<(), AllocError> {
        debug_assert!(capacity >= self.items.len());
        if capacity > self.items.capacity() && is_refused() {
            return Err(AllocError);
        }
        let missing = capacity.saturating_sub(self.items.len());
        self.items
            .try_reserve_exact(missing)
            .map_err(|_| AllocError)?;
        self.capacity = capacity;
        Ok(())
    }

    /// Appends an item, or returns it if the queue is full. Does not allocate.
    pub fn try_push_back(&mut self, item: T) -> Result<(), T> {
        if self.items.len() >= self.capacity {
            return Err(item);
        }
        self.items.push_back(item);
        Ok(())
    }

    /// Removes and returns the first item.
    pub fn pop_front(&mut self) -> Option<T> {
        self.items.pop_front()
    }

    /// Returns the number of items.
    pub fn len(&self) -> usize {
        self.items.len()
    }

    /// Returns whether there are no items.
    pub fn is_empty(&self) -> bool {
        self.items.is_empty()
    }
}

/// A shared value.
#[derive(Debug)]
pub struct Arc<T, A = Global>(sync::Arc<T>, A);

impl<T> Arc<T, Global> {
    /// Returns a value that is not shared yet.
    ///
    /// Aborts the process if memory is refused, because Rust's `Arc` cannot report it. The core
    /// allocates an `Arc` only for a [`SetClock`](crate::api::SetClock).
    pub fn new(alloc: Global, value: T) -> Result<Self, AllocFailed<T>> {
        Ok(Arc(sync::Arc::new(value), alloc))
    }

    /// Returns another handle to the same value. Does not allocate.
    pub fn try_clone(shared: &Self) -> Result<Self, AllocError> {
        Ok(Arc(sync::Arc::clone(&shared.0), shared.1))
    }
}

impl<T, A> Deref for Arc<T, A> {
    type Target = T;

    fn deref(&self) -> &T {
        &self.0
    }
}

#[cfg(test)]
mod tests {
    use super::*;

    /// More elements than an address space holds.
    const TOO_MANY: usize = usize::MAX / 8;

    /// Returns a vector of the numbers below `many`.
    fn numbers(many: usize) -> Vec<u64> {
        let mut vector = Vec::new(Global);
        for number in 0..many as u64 {
            assert_eq!(vector.push(number), Ok(()));
        }
        vector
    }

    #[test]
    fn vector_has_capacity_after_ok() {
        for many in [1, 2, 3, 100, 1000] {
            let mut vector = numbers(5);
            assert_eq!(vector.reserve(many), Ok(()));
            let (place, capacity) = (vector.as_slice().as_ptr(), vector.0.capacity());
            assert!(capacity >= 5 + many);
            for number in 0..many {
                vector.push_reserved(number as u64);
            }
            assert_eq!(
                (vector.as_slice().as_ptr(), vector.0.capacity()),
                (place, capacity)
            );
        }
    }

    #[test]
    fn vector_is_unchanged_after_err() {
        let mut vector = numbers(5);
        let (place, capacity) = (vector.as_slice().as_ptr(), vector.0.capacity());
        assert_eq!(vector.reserve(TOO_MANY), Err(AllocError));
        assert_eq!(vector.reserve(usize::MAX), Err(AllocError));
        assert_eq!(vector.as_slice(), [0, 1, 2, 3, 4]);
        assert_eq!(
            (vector.as_slice().as_ptr(), vector.0.capacity()),
            (place, capacity)
        );
    }

    #[test]
    fn vector_with_capacity_returns_ok() {
        let mut vector = numbers(5);
        assert_eq!(vector.reserve(10), Ok(()));
        let place = vector.as_slice().as_ptr();
        for _ in 0..10 {
            assert_eq!(vector.reserve(1), Ok(()));
            assert_eq!(vector.push(7), Ok(()));
        }
        assert_eq!(vector.as_slice().as_ptr(), place);
        assert_eq!(vector.reserve(0), Ok(()));
    }

    #[test]
    fn vector_capacity_never_shrinks() {
        let mut vector = numbers(100);
        let capacity = vector.0.capacity();
        while vector.pop().is_some() {
            assert_eq!(vector.0.capacity(), capacity);
        }
        assert_eq!(vector.reserve(1), Ok(()));
        assert_eq!(vector.reserve(TOO_MANY), Err(AllocError));
        assert_eq!(vector.0.capacity(), capacity);
    }

    #[test]
    fn queue_has_its_capacity_after_ok() {
        let mut queue = HeapCircularBuffer::with_capacity(Global, 2).unwrap();
        assert_eq!(queue.try_push_back(1), Ok(()));
        assert_eq!(queue.try_push_back(2), Ok(()));
        assert_eq!(queue.try_push_back(3), Err(3));
        for capacity in [3, 4, 50] {
            assert_eq!(queue.resize(capacity), Ok(()));
            let allocated = queue.items.capacity();
            while queue.len() < capacity {
                assert_eq!(queue.try_push_back(9), Ok(()));
            }
            assert_eq!(queue.try_push_back(3), Err(3));
            assert_eq!(queue.items.capacity(), allocated);
        }
        assert_eq!(
            (queue.pop_front(), queue.pop_front(), queue.pop_front()),
            (Some(1), Some(2), Some(9))
        );
        assert!(!queue.is_empty());
    }

    #[test]
    fn queue_is_unchanged_after_err() {
        let mut queue = HeapCircularBuffer::with_capacity(Global, 1).unwrap();
        assert_eq!(queue.try_push_back(1_u64), Ok(()));
        assert_eq!(queue.resize(TOO_MANY), Err(AllocError));
        assert_eq!(queue.resize(usize::MAX), Err(AllocError));
        assert_eq!(queue.try_push_back(2), Err(2));
        assert_eq!(
            (queue.len(), queue.pop_front(), queue.pop_front()),
            (1, Some(1), None)
        );
    }

    #[test]
    fn queue_with_memory_returns_ok() {
        let mut queue = HeapCircularBuffer::<u64>::with_capacity(Global, 50).unwrap();
        let allocated = queue.items.capacity();
        for capacity in [3, 0, 50] {
            assert_eq!(queue.resize(capacity), Ok(()));
            assert_eq!(queue.items.capacity(), allocated);
        }
    }

    #[test]
    fn copies_of_a_shared_value_are_one() {
        let shared = Arc::new(Global, core::cell::Cell::new(1)).unwrap();
        let copy = Arc::try_clone(&shared).unwrap();
        copy.set(2);
        assert_eq!(shared.get(), 2);
    }

    #[cfg(feature = "refusals")]
    #[test]
    fn only_refused_requests_fail() {
        let refused = refusals::granting(1, || {
            let mut vector = numbers(1);
            let room = vector.0.capacity() - 1;
            assert_eq!(vector.reserve(room), Ok(()));
            assert_eq!(vector.reserve(room + 1), Err(AllocError));
            let queue = HeapCircularBuffer::<u64>::with_capacity(Global, 1);
            (
                queue.is_err(),
                HeapCircularBuffer::<u64>::with_capacity(Global, 0).is_ok(),
            )
        });
        assert_eq!(refused, (true, true));
        assert!(std::panic::catch_unwind(|| refusals::granting(0, || panic!())).is_err());
        assert_eq!(numbers(100).len(), 100);
    }
}
