//! Why a get ended without a connection.

/// Why a get ended without a connection.
#[derive(Clone, Copy, Debug, PartialEq, Eq)]
pub enum Reason {
    /// Its deadline passed.
    TimedOut,
    /// It was cancelled.
    Cancelled,
}
