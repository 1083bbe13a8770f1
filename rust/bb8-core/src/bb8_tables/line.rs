//! A doubly linked list of table indexes. An index is added at the back, and can be removed from
//! anywhere.

use crate::kit::Vec;
use crate::kit::{AllocError, Global};

/// The indexes before and after one.
#[derive(Clone, Copy)]
struct Link {
    before: u32,
    after: u32,
}

/// The index that marks both ends.
const END: u32 = 0;

/// The links of all indexes.
struct Links {
    entries: Vec<Link>,
}

/// An ordered list of some of the indexes from 1 on. An index that is not in it links to itself.
pub struct Line {
    links: Links,
    len: usize,
}

impl Links {
    /// Adds an index that links to itself.
    fn append(&mut self, place: u32) -> Result<(), AllocError> {
        let link = Link {
            before: place,
            after: place,
        };
        match self.entries.push(link) {
            Ok(()) => Ok(()),
            Err(_) => Err(AllocError),
        }
    }

    /// Links two indexes: `right` follows `left`.
    #[inline]
    fn join(&mut self, left: u32, right: u32) {
        let entries = self.entries.as_mut_slice();
        entries[left as usize].after = right;
        entries[right as usize].before = left;
    }
}

impl Line {
    /// Returns an empty list. It allocates nothing.
    pub fn new(alloc: Global) -> Self {
        Line {
            links: Links {
                entries: Vec::new(alloc),
            },
            len: 0,
        }
    }

    /// Allocates for this many more indexes.
    pub fn reserve(&mut self, additional: usize) -> Result<(), AllocError> {
        self.links.entries.reserve(additional)
    }

    /// Adds one more index, which is not in the list yet.
    pub fn add_place(&mut self) -> Result<(), AllocError> {
        let place = self.links.entries.len();
        if place > u32::MAX as usize {
            return Err(AllocError);
        }
        self.links.append(place as u32)
    }

    /// Returns the length of the list.
    #[inline]
    pub fn len(&self) -> usize {
        self.len
    }

    /// Returns the index at the front, which was added first.
    #[inline]
    pub fn first(&self) -> Option<usize> {
        if self.len == 0 {
            return None;
        }
        Some(self.links.entries[END as usize].after as usize)
    }

    /// Returns the index at the back, which was added last.
    #[inline]
    pub fn last(&self) -> Option<usize> {
        if self.len == 0 {
            return None;
        }
        Some(self.links.entries[END as usize].before as usize)
    }

    /// Returns the index after one that is in the list.
    #[inline]
    pub fn next(&self, place: usize) -> Option<usize> {
        let next = self.links.entries[place].after;
        if next == END {
            return None;
        }
        Some(next as usize)
    }

    /// Adds an index at the back.
    #[inline]
    pub fn push(&mut self, place: usize) {
        let last = self.links.entries[END as usize].before;
        self.links.join(last, place as u32);
        self.links.join(place as u32, END);
        self.len += 1;
    }

    /// Removes an index that is in the list.
    #[inline]
    pub fn leave(&mut self, place: usize) {
        let _links = &self.links;
        let at = place as u32;
        let link = self.links.entries[at as usize];
        self.links.join(link.before, link.after);
        self.links.join(at, at);
        self.len -= 1;
    }

    /// Removes an index if it is in the list.
    #[inline]
    pub fn unlink(&mut self, place: usize) {
        let _links = &self.links;
        let at = place as u32;
        let link = self.links.entries[at as usize];
        if link.after != at {
            self.links.join(link.before, link.after);
            self.links.join(at, at);
            self.len -= 1;
        }
    }
}
