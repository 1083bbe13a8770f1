//! A ring buffer that allocates only when it grows.

use crate::kit::HeapCircularBuffer;
use crate::kit::{AllocError, Global};

/// A queue of items. Contracts see a buffer of items with a capacity.
pub struct Ring<T> {
    alloc: Global,
    made: Option<HeapCircularBuffer<T>>,
}

impl<T> Ring<T> {
    /// Returns an empty ring. It allocates nothing.
    pub fn new(alloc: Global) -> Self {
        Ring { alloc, made: None }
    }

    /// Returns an empty ring with the same allocator. It allocates nothing.
    pub fn another<U>(&self) -> Ring<U> {
        Ring::new(self.alloc)
    }

    /// Grows to a capacity of this many items.
    pub fn grow(&mut self, capacity: usize) -> Result<(), AllocError> {
        match &mut self.made {
            Some(ring) => ring.resize(capacity),
            None => {
                let ring = HeapCircularBuffer::with_capacity(self.alloc, capacity)?;
                self.made = Some(ring);
                Ok(())
            }
        }
    }

    /// Adds an item at the back. There must be capacity for it.
    pub fn push(&mut self, item: T) {
        self.offer(item);
    }

    /// Adds an item at the back if there is capacity for it; otherwise drops it.
    pub fn offer(&mut self, item: T) {
        if let Some(ring) = &mut self.made {
            let _ = ring.try_push_back(item);
        }
    }

    /// Removes the item at the front.
    pub fn pop(&mut self) -> Option<T> {
        match &mut self.made {
            Some(ring) => ring.pop_front(),
            None => None,
        }
    }

    /// Returns the count of items.
    pub fn len(&self) -> usize {
        match &self.made {
            Some(ring) => ring.len(),
            None => 0,
        }
    }
}
