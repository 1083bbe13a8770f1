//! A table of numbered entries, with a queue of some of them.

mod accesses;

use crate::bb8_tables::line::Line;
pub use accesses::{AccessCounter, LatestAccesses, UncountedAccess};
use crate::bb8_types::api::QueueStrategy;
use crate::bb8_types::bounds::END_OF_NUMBERS;
use crate::bb8_types::standing::{GetPlace, Getting, Place, Standing};
use crate::kit::Vec;
use crate::kit::{AllocError, Global};
use std::mem;

/// A table entry: a number and its state.
pub struct Slot<S> {
    /// The number.
    pub number: u64,
    /// The state.
    pub standing: S,
}

/// The most free entries that are added beyond those requested.
const MOST_AT_ONCE: usize = 64;

/// The content of a free entry.
pub trait Vacant {
    /// Returns a state that is never seen.
    fn vacant() -> Self;
}

impl<C> Vacant for Standing<C> {
    fn vacant() -> Self {
        Standing {
            place: Place::Unclaimed,
            birth: 0,
            entered: 0,
        }
    }
}

impl Vacant for Getting {
    fn vacant() -> Self {
        Getting {
            place: GetPlace::Active,
            first_wait: None,
        }
    }
}

/// A table of entries by index. `line` is a queue of some of them; `births` orders connections by
/// birth. Freed indexes are reused, the last one first. Index 0 is never used: it marks the ends of
/// both lists.
pub struct Table<S> {
    slots: Vec<Slot<S>>,
    line: Line,
    births: Line,
    free: Vec<u32>,
}

impl<S> Table<S> {
    /// Returns an empty table, which allocates nothing, and the permission to read it without
    /// counting the access.
    pub fn new(alloc: Global) -> (Self, UncountedAccess) {
        let table = Table {
            slots: Vec::new(alloc),
            line: Line::new(alloc),
            births: Line::new(alloc),
            free: Vec::new(alloc),
        };
        (table, UncountedAccess::given())
    }

    /// Fills a free entry and returns its index. There must be one.
    #[inline]
    pub fn insert(&mut self, slot: Slot<S>) -> usize {
        match self.free.pop() {
            // Unreachable: one is free.
            None => 0,
            Some(place) => {
                self.slots[place as usize] = slot;
                place as usize
            }
        }
    }

    /// Returns the entry at an index if it has this number.
    #[inline]
    fn found(&self, number: u64, at: usize) -> Option<&Slot<S>> {
        let Some(slot) = self.slots.get(at) else {
            return None;
        };
        if slot.number == number && number != END_OF_NUMBERS {
            Some(slot)
        } else {
            None
        }
    }

    /// Searches all entries for a number and returns its index. The search is counted.
    #[cold]
    fn search(&self, number: u64, accesses: &mut AccessCounter) -> Option<usize> {
        accesses.search();
        for i in 0..self.slots.len() {
            if let Some(_) = self.found(number, i) {
                return Some(i);
            }
        }
        None
    }

    /// Returns the index of a number: the hint if it is right, else the result of a counted search.
    #[inline]
    pub fn locate(&self, number: u64, hint: usize, accesses: &mut AccessCounter) -> Option<usize> {
        match self.found(number, hint) {
            Some(_) => Some(hint),
            None => self.search(number, accesses),
        }
    }

    /// Returns the entry with a number, by a counted search.
    #[cold]
    fn sought(&self, number: u64, accesses: &mut AccessCounter) -> Option<&Slot<S>> {
        match self.search(number, accesses) {
            None => None,
            Some(place) => self.found(number, place),
        }
    }

    /// Returns the entry with a number: at the hint if that is right, else by a counted search.
    /// Reads one entry.
    #[inline]
    pub fn slot(&self, number: u64, hint: usize, accesses: &mut AccessCounter) -> Option<&Slot<S>> {
        accesses.count_read();
        match self.found(number, hint) {
            Some(slot) => Some(slot),
            None => self.sought(number, accesses),
        }
    }

    /// Returns the entry at an index. Reads one entry.
    #[inline]
    pub fn at(&self, place: usize, accesses: &mut AccessCounter) -> &Slot<S> {
        accesses.count_read();
        &self.slots[place]
    }

    /// Returns the length of the queue.
    #[inline]
    pub fn len(&self) -> usize {
        self.line.len()
    }

    /// Returns the index at the front of the queue.
    #[inline]
    pub fn first(&self) -> Option<usize> {
        self.line.first()
    }

    /// Returns the index at the front of the queue (`Fifo`) or at its back (`Lifo`).
    #[inline]
    pub fn first_by(&self, strategy: QueueStrategy) -> Option<usize> {
        match strategy {
            QueueStrategy::Fifo => self.line.first(),
            QueueStrategy::Lifo => self.line.last(),
        }
    }

    /// Adds an index at the back of the queue.
    #[inline]
    pub fn line_up(&mut self, place: usize) {
        self.line.push(place);
    }

    /// Returns the length of the order of births.
    #[inline]
    pub fn births(&self) -> usize {
        self.births.len()
    }

    /// Returns the index of the oldest connection.
    #[inline]
    pub fn first_birth(&self) -> Option<usize> {
        self.births.first()
    }

    /// Returns the entry at an index, and the next index in the order of births. Reads one entry
    /// for both.
    #[inline]
    pub fn pass(&self, place: usize, accesses: &mut AccessCounter) -> (&Slot<S>, Option<usize>) {
        let next = self.births.next(place);
        (self.at(place, accesses), next)
    }

    /// Adds an index at the back of the order of births.
    #[inline]
    pub fn add_birth(&mut self, place: usize) {
        self.births.push(place);
    }

    /// Removes an index that is in the queue.
    #[inline]
    pub fn leave(&mut self, place: usize) {
        self.line.leave(place);
    }

    /// Removes an index from the queue if it is in it.
    #[inline]
    pub fn step_out(&mut self, place: usize) {
        self.line.unlink(place);
    }

    /// Replaces the state at an index and returns the old one.
    #[inline]
    pub fn replace(&mut self, place: usize, standing: S, accesses: &mut AccessCounter) -> S {
        accesses.count_read();
        mem::replace(&mut self.slots[place].standing, standing)
    }
}

impl<S: Vacant> Table<S> {
    /// Frees an entry, removes it from both orders, and returns it.
    pub fn take_out(&mut self, place: usize) -> Slot<S> {
        self.step_out(place);
        self.release(place)
    }

    /// Frees an entry that is not in the queue, and returns it.
    // Inlining saves 20 instructions of a pair.
    #[inline(always)]
    pub fn release(&mut self, place: usize) -> Slot<S> {
        self.births.unlink(place);
        self.free.push_reserved(place as u32);
        let vacant = Slot {
            number: END_OF_NUMBERS,
            standing: S::vacant(),
        };
        mem::replace(&mut self.slots[place], vacant)
    }

    /// Allocates for this many more entries.
    fn grow(&mut self, additional: usize) -> Result<(), AllocError> {
        // The largest first, so that little is kept if memory is refused.
        self.slots.reserve(additional)?;
        self.line.reserve(additional)?;
        self.births.reserve(additional)?;
        self.free.reserve(additional)
    }

    /// Adds an empty entry. It is free, except for the one at index 0.
    // Inlining saves 22 instructions of a waiting get.
    #[inline(always)]
    fn add_place(&mut self) -> Result<(), AllocError> {
        let place = self.slots.len();
        self.free
            .reserve((place + 1).saturating_sub(self.free.len()))?;
        self.slots.reserve(1)?;
        self.line.add_place()?;
        self.births.add_place()?;
        self.slots.push_reserved(Slot {
            number: END_OF_NUMBERS,
            standing: S::vacant(),
        });
        if place > 0 {
            self.free.push_reserved(place as u32);
        }
        Ok(())
    }

    /// Adds this many free entries. If memory is refused, some of them may have been added.
    fn add_places(&mut self, count: usize) -> Result<(), AllocError> {
        self.grow(count.saturating_add(1))?;
        if self.slots.is_empty() {
            self.add_place()?;
        }
        for _ in 0..count {
            self.add_place()?;
        }
        Ok(())
    }

    /// Makes sure that this many entries are free. If there are fewer, those missing are added; or,
    /// if that is more, as many as the table has, up to `MOST_AT_ONCE`, so that most calls allocate
    /// nothing. If that memory is refused, only those missing are added.
    pub fn reserve(&mut self, additional: usize) -> Result<(), AllocError> {
        let missing = additional.saturating_sub(self.free.len());
        if missing == 0 {
            return Ok(());
        }
        let spare = self.slots.len().min(MOST_AT_ONCE);
        if self.add_places(missing.max(spare)).is_ok() {
            return Ok(());
        }
        let missing = additional.saturating_sub(self.free.len());
        self.add_places(missing)
    }
}

impl<C> Table<Standing<C>> {
    /// Changes the state of the record at an index, and returns its number and its old state.
    #[inline]
    pub fn put(
        &mut self,
        at: usize,
        place: Place<C>,
        accesses: &mut AccessCounter,
    ) -> (u64, Place<C>) {
        accesses.count_read();
        let slot = &mut self.slots[at];
        (slot.number, mem::replace(&mut slot.standing.place, place))
    }
}

impl Table<Getting> {
    /// Changes the state of the get at an index, and returns its number.
    #[inline]
    pub fn turn(&mut self, at: usize, place: GetPlace, accesses: &mut AccessCounter) -> u64 {
        accesses.count_read();
        let slot = &mut self.slots[at];
        slot.standing.place = place;
        slot.number
    }

    /// Makes the get at an index wait, since `now` if it did not wait before.
    #[inline]
    pub fn wait(&mut self, at: usize, now: u64, accesses: &mut AccessCounter) {
        accesses.count_read();
        let standing = &mut self.slots[at].standing;
        *standing = Getting {
            place: GetPlace::Waiting(false),
            first_wait: Some(standing.first_wait.unwrap_or(now)),
        };
    }
}
