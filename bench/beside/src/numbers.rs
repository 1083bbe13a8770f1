//! The manager. Its connections are numbers, with more bytes if the program is built so; all are
//! valid and unbroken.

use std::error::Error;
use std::fmt;

/// A connection that is made from a number.
pub trait Numbered {
    fn of(number: u64) -> Self;
    fn number(&self) -> u64;
}

impl Numbered for u64 {
    fn of(number: u64) -> u64 {
        number
    }

    fn number(&self) -> u64 {
        *self
    }
}

/// The number is the first of the words.
impl<const WORDS: usize> Numbered for [u64; WORDS] {
    fn of(number: u64) -> [u64; WORDS] {
        let mut words = [0; WORDS];
        words[0] = number;
        words
    }

    fn number(&self) -> u64 {
        self[0]
    }
}

/// A connection: 128 or 512 bytes, or 8 by default.
#[cfg(feature = "bytes-128")]
pub type Connection = [u64; 16];
#[cfg(feature = "bytes-512")]
pub type Connection = [u64; 64];
#[cfg(not(any(feature = "bytes-128", feature = "bytes-512")))]
pub type Connection = u64;

/// Opens the connection 7.
pub struct Numbers;

/// The error of a call that never fails.
#[derive(Debug)]
pub struct Never;

impl fmt::Display for Never {
    fn fmt(&self, f: &mut fmt::Formatter<'_>) -> fmt::Result {
        f.write_str("never")
    }
}

impl Error for Never {}
