#![doc = include_str!("../README.md")]
//! # A service
//!
#![doc = concat!("```\n", include_str!("../examples/workers.rs"), "```")]
#![deny(missing_docs, missing_debug_implementations)]
#![forbid(unsafe_code)]

mod api;
mod attempt;
mod boxed;
mod builder;
mod core;
mod ends;
mod errors;
mod events;
mod figures;
mod getting;
mod lock;
mod managers;
mod pool;
mod returning;
#[cfg(test)]
mod tests;
mod waiters;

pub use api::{Pool, PooledConnection};
#[doc(inline)]
pub use bb8_core::api::QueueStrategy;
pub use builder::{Builder, Config};
pub use errors::{AddError, RunError};
pub use figures::{State, Statistics};
pub use managers::{CustomizeConnection, ErrorSink, ManageConnection, NopErrorSink};
