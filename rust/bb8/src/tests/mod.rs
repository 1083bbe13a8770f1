//! Tests of what is behind the public interface: refused memory, the order of waiting gets, and
//! storms of tasks, each of whose steps is compared with the proved `replay`.

mod boxed;
pub(crate) mod journal;
mod order;
mod storm;
mod waiting;
mod wanting;
