//! `bb8_core::kit`, and what else the runner uses of Rattle's standard library.

pub use bb8_core::kit::*;
use std::fmt::{self, Write};

/// A text whose growth can fail.
#[derive(Debug)]
pub struct String(Vec<u8>);

impl String {
    /// Returns an empty text. Does not allocate.
    pub fn new(alloc: Global) -> Self {
        String(Vec::new(alloc))
    }

    /// Returns the bytes.
    pub fn as_bytes(&self) -> &[u8] {
        &self.0
    }

    /// Appends what `write!` formats.
    pub fn write_fmt(&mut self, args: fmt::Arguments) -> Result<(), AllocError> {
        Write::write_fmt(self, args).map_err(|_| AllocError)
    }
}

impl Write for String {
    fn write_str(&mut self, text: &str) -> fmt::Result {
        self.0.reserve(text.len()).map_err(|_| fmt::Error)?;
        for byte in text.bytes() {
            self.0.push_reserved(byte);
        }
        Ok(())
    }
}

/// Rattle's `format!`, which takes an allocator and returns an error if memory is refused.
macro_rules! format {
    (in $alloc:expr; $($args:tt)*) => {{
        let mut text = $crate::kit::String::new($alloc);
        text.write_fmt(format_args!($($args)*)).map(|()| text)
    }};
}

/// Rattle's `collect`, which takes an allocator and returns an error if memory is refused.
pub trait CollectIn: Iterator + Sized {
    /// Collects all items in a vector.
    fn collect_in(self, alloc: Global) -> Result<Vec<Self::Item>, AllocError> {
        let mut all = Vec::new(alloc);
        for item in self {
            all.push(item).map_err(|_| AllocError)?;
        }
        Ok(all)
    }
}

impl<I: Iterator> CollectIn for I {}
