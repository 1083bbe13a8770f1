//! The streams from which a script is read, and to which its results are written. Written by hand,
//! because Rust's `Read` and `Write` differ from Rattle's.

use super::fault::Fault;
use crate::kit::{Global, Vec};
use std::io::{ErrorKind, Read, Write};

/// A source of a script.
pub trait Source {
    /// Reads all bytes up to the end.
    fn read_whole(&mut self, alloc: Global) -> Result<Vec<u8>, Fault>;
}

/// A destination of results.
pub trait Sink {
    /// Writes all bytes.
    fn write_whole(&mut self, bytes: &[u8]) -> Result<(), Fault>;
}

impl<R: Read> Source for R {
    fn read_whole(&mut self, alloc: Global) -> Result<Vec<u8>, Fault> {
        let mut input = Vec::new(alloc);
        let mut chunk = [0; 4096];
        loop {
            match self.read(&mut chunk) {
                Ok(0) => return Ok(input),
                Ok(many) => {
                    input.reserve(many)?;
                    for byte in &chunk[..many] {
                        input.push_reserved(*byte);
                    }
                }
                Err(error) if error.kind() == ErrorKind::Interrupted => {}
                Err(_) => return Err(Fault::Read),
            }
        }
    }
}

impl<W: Write> Sink for W {
    fn write_whole(&mut self, bytes: &[u8]) -> Result<(), Fault> {
        self.write_all(bytes)
            .and_then(|()| self.flush())
            .map_err(|_| Fault::Write)
    }
}
