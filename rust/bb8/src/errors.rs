//! The errors of a pool.

use std::error::Error;
use std::fmt;

/// The error of a get. A later version may add cases, so a `match` needs a `_`:
///
/// ```compile_fail
/// # use bb8::RunError;
/// fn all<E>(error: RunError<E>) {
///     use RunError::*;
///     match error { User(_) | TimedOut | Memory | Exhausted | Closed => {} }
/// }
/// ```
#[derive(Debug, Clone, PartialEq, Eq)]
#[non_exhaustive]
pub enum RunError<E> {
    /// An error of the manager, as `?` converts it. The pool itself never returns it: errors of
    /// connection attempts and checks go to the error sink, and their gets time out.
    User(E),
    /// No connection became available within `connection_timeout`, or the get's own time.
    TimedOut,
    /// Memory for the get was refused.
    Memory,
    /// The pool has no number left for another get: all below 2^64 - 1 are used up.
    Exhausted,
    /// The pool is closed: see [`Pool::close`](crate::Pool::close).
    Closed,
}

impl<E: Error + 'static> fmt::Display for RunError<E> {
    fn fmt(&self, f: &mut fmt::Formatter<'_>) -> fmt::Result {
        match self {
            RunError::User(error) => write!(f, "{error}"),
            RunError::TimedOut => f.write_str("Timed out in bb8"),
            RunError::Memory => f.write_str("No memory in bb8"),
            RunError::Exhausted => f.write_str("Numbers used up in bb8"),
            RunError::Closed => f.write_str("Pool closed in bb8"),
        }
    }
}

impl<E: Error + 'static> Error for RunError<E> {
    fn source(&self) -> Option<&(dyn Error + 'static)> {
        match self {
            RunError::User(error) => Some(error),
            _ => None,
        }
    }
}

impl<E: Error> From<E> for RunError<E> {
    fn from(error: E) -> Self {
        RunError::User(error)
    }
}

/// The error of adding a connection. Each case returns the connection.
#[derive(Debug, Clone, PartialEq, Eq)]
pub enum AddError<C> {
    /// The manager's `has_broken` returned true.
    Broken(C),
    /// There are `max_size` connections and connection attempts already, counting attempts that
    /// wait for a runtime; or the pool is closed.
    NoCapacity(C),
    /// Memory for the connection was refused, or the pool has no number left for it.
    Withheld(C),
}

impl<C> fmt::Display for AddError<C> {
    fn fmt(&self, f: &mut fmt::Formatter<'_>) -> fmt::Result {
        f.write_str(match self {
            AddError::Broken(_) => "The connection was broken before it could be added",
            AddError::NoCapacity(_) => {
                "Unable to add the connection to the pool due to insufficient capacity"
            }
            AddError::Withheld(_) => "No memory or number to add the connection",
        })
    }
}

impl<C: fmt::Debug> Error for AddError<C> {}
