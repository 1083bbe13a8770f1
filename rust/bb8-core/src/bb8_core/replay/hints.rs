//! The last known table indexes of records and gets in a replay.

use crate::kit::Vec;
use crate::kit::Global;

/// A table index for each number from a first one on. It is a hint, so any value will do if none is
/// known: if memory for hints is refused, they are given up.
pub(crate) struct Hints {
    first: u64,
    places: Vec<usize>,
}

impl Hints {
    /// Returns an empty list. It allocates nothing.
    pub(crate) fn new(alloc: Global, first: u64) -> Self {
        Hints {
            first,
            places: Vec::new(alloc),
        }
    }

    /// Returns the last known index of a number, or 0.
    pub(crate) fn place(&self, number: u64) -> usize {
        let Some(past) = number.checked_sub(self.first) else {
            return 0;
        };
        self.places.get(past as usize).copied().unwrap_or(0)
    }

    /// Stores the index of a number.
    pub(crate) fn note(&mut self, number: u64, place: usize) {
        let Some(past) = number.checked_sub(self.first) else {
            return;
        };
        for _ in self.places.len()..=past as usize {
            if self.places.push(0).is_err() {
                return;
            }
        }
        if let Some(known) = self.places.get_mut(past as usize) {
            *known = place;
        }
    }
}
