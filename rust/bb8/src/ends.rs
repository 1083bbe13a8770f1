//! The end of each connection's life, if `max_lifetime_jitter` gives each its own.

use crate::core::Key;

/// The end of each connection, and its number, by its index in the core's table. An entry stays
/// after its connection is gone, until that end or until another connection has the index.
#[derive(Default)]
pub(crate) struct Ends(Vec<(u64, u64)>);

impl Ends {
    /// Notes the end of a connection. If memory is refused, the connection, while idle, is only
    /// closed by the reap after its `max_lifetime`.
    pub(crate) fn note(&mut self, key: Key, end: u64) {
        let length = self.0.len().max(key.place.saturating_add(1));
        if self.0.try_reserve(length - self.0.len()).is_ok() {
            self.0.resize(length, (u64::MAX, 0));
            self.0[key.place] = (end, key.number);
        }
    }

    /// Takes the first connection, from this index on, whose end has passed.
    pub(crate) fn take_past(&mut self, index: usize, at: u64) -> Option<Key> {
        let mut entries = self.0.iter_mut().enumerate().skip(index);
        let (place, entry) = entries.find(|(_, (end, _))| *end <= at)?;
        entry.0 = u64::MAX;
        Some(Key {
            number: entry.1,
            place,
        })
    }

    /// Returns the earliest end.
    pub(crate) fn next(&self) -> u64 {
        self.0.iter().map(|(end, _)| *end).min().unwrap_or(u64::MAX)
    }
}
