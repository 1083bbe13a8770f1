#![doc = include_str!("../README.md")]
#![forbid(unsafe_code)]
#![warn(missing_docs)]
// Without the standard library's prelude, a generated file that lacks the `Vec` of `kit` does not
// compile.
#![no_std]

extern crate alloc;
// The generated files name `std`. They need no more of it than `core` has.
#[cfg(not(feature = "std"))]
extern crate core as std;
#[cfg(feature = "std")]
extern crate std;

// The core's counts are of 32 bits, and become indices.
const _: () = assert!(
    usize::BITS >= 32,
    "bb8-core needs indices of 32 bits or more"
);

// Generated from crates/ by rust/erase. The style is that of the sources, which avoid closures.
// Only contracts use an argument of `give_up` and a field of `UncountedAccess`.
#[allow(unused_variables, clippy::complexity, clippy::style)]
#[rustfmt::skip]
pub mod bb8_core;
#[allow(dead_code, clippy::complexity, clippy::style)]
#[rustfmt::skip]
pub mod bb8_tables;
#[allow(clippy::complexity, clippy::style)]
#[rustfmt::skip]
pub mod bb8_types;

pub mod kit;

pub use crate::bb8_core::{api, internals, replay};
