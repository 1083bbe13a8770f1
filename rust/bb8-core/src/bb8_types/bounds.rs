//! The bound of ids.

/// The id that is never given, to no connection, approval or get. All smaller ones are.
pub const END_OF_NUMBERS: u64 = u64::MAX;
