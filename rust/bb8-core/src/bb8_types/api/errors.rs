//! The errors that callers of a pool can get.

use crate::kit::{AllocError, AllocFailed};
use std::error::Error;
use std::fmt;

/// Memory was refused. It prints as `RunError::Memory` does. bb8 aborts if no memory is left.
#[derive(Clone, Copy, Debug, PartialEq, Eq)]
pub struct Memory;

impl fmt::Display for Memory {
    fn fmt(&self, f: &mut fmt::Formatter) -> fmt::Result {
        write!(f, "No memory in bb8")
    }
}

impl Error for Memory {}

impl<T> From<AllocFailed<T>> for Memory {
    fn from(_refused: AllocFailed<T>) -> Memory {
        Memory
    }
}

impl From<AllocError> for Memory {
    fn from(_refused: AllocError) -> Memory {
        Memory
    }
}

/// Why a `get` or `build` failed.
///
/// Two errors are equal if they are of the same case and, if both are `User`, the manager's errors
/// are equal.
#[derive(Debug, Clone)]
pub enum RunError<E> {
    /// The error of the manager or the customizer; it prints as that error does. As in bb8.
    User(E),
    /// The get was not served within `connection_timeout`. As in bb8.
    TimedOut,
    /// Memory was refused. bb8 aborts if no memory is left.
    Memory,
    /// The pool has no number left for another get: it has given all 18,446,744,073,709,551,615.
    Exhausted,
}

impl<E: fmt::Display> fmt::Display for RunError<E> {
    fn fmt(&self, f: &mut fmt::Formatter) -> fmt::Result {
        match self {
            RunError::User(error) => write!(f, "{error}"),
            RunError::TimedOut => write!(f, "Timed out in bb8"),
            RunError::Memory => write!(f, "No memory in bb8"),
            RunError::Exhausted => write!(f, "Numbers used up in bb8"),
        }
    }
}

impl<E: Error> Error for RunError<E> {}

impl<E> From<E> for RunError<E> {
    /// Wraps the manager's error in `User`, so that `?` passes it on. As in bb8, which requires an
    /// `Error`.
    fn from(error: E) -> Self {
        RunError::User(error)
    }
}

impl<E: PartialEq> PartialEq for RunError<E> {
    fn eq(&self, other: &Self) -> bool {
        match (self, other) {
            (RunError::User(error), RunError::User(other)) => error == other,
            (RunError::TimedOut, RunError::TimedOut)
            | (RunError::Memory, RunError::Memory)
            | (RunError::Exhausted, RunError::Exhausted) => true,
            _ => false,
        }
    }
}

impl<E: Eq> Eq for RunError<E> {
}

/// Why a pool refused a connection passed to `add`. Each case contains the connection.
///
/// Two errors are equal if they are of the same case and the connections are equal. Unlike in bb8,
/// which requires a connection that is an error, it prints for every type of connection, `Display`
/// or not.
#[derive(Debug, Clone)]
pub enum AddError<C> {
    /// The manager's `has_broken` reported the connection as broken. This is checked first. As in
    /// bb8.
    Broken(C),
    /// Connections and open approvals together were `max_size` already. As in bb8.
    NoCapacity(C),
    /// There was no memory for the connection's table entry, or no number left for it. bb8 aborts
    /// if no memory is left.
    Withheld(C),
}

impl<C> fmt::Display for AddError<C> {
    fn fmt(&self, f: &mut fmt::Formatter) -> fmt::Result {
        match self {
            AddError::Broken(_) => write!(f, "The connection was broken before it could be added"),
            AddError::NoCapacity(_) => write!(
                f,
                "Unable to add the connection to the pool due to insufficient capacity"
            ),
            AddError::Withheld(_) => write!(f, "No memory or number to add the connection"),
        }
    }
}

impl<C: fmt::Debug> Error for AddError<C> {}

impl<C: PartialEq> PartialEq for AddError<C> {
    fn eq(&self, other: &Self) -> bool {
        match (self, other) {
            (AddError::Broken(connection), AddError::Broken(other))
            | (AddError::NoCapacity(connection), AddError::NoCapacity(other))
            | (AddError::Withheld(connection), AddError::Withheld(other)) => connection == other,
            _ => false,
        }
    }
}

impl<C: Eq> Eq for AddError<C> {
}
