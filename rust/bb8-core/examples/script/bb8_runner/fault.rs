//! The errors of a script run.

use bb8_core::api;
use crate::kit::AllocError;
use std::fmt;

/// Why nothing was written, or not everything.
#[derive(Clone, Copy, Debug, PartialEq, Eq)]
pub enum Fault {
    /// A read failed.
    Read,
    /// A write failed. The beginning of the output may have been written.
    Write,
    /// Memory for the lists was refused.
    Memory,
}

impl fmt::Display for Fault {
    fn fmt(&self, f: &mut fmt::Formatter) -> fmt::Result {
        match self {
            Fault::Read => write!(f, "cannot read"),
            Fault::Write => write!(f, "cannot write"),
            Fault::Memory => write!(f, "no memory"),
        }
    }
}

impl From<AllocError> for Fault {
    fn from(_e: AllocError) -> Fault {
        Fault::Memory
    }
}

impl From<api::Memory> for Fault {
    fn from(_e: api::Memory) -> Fault {
        Fault::Memory
    }
}
