//! Plain data of a pool: configuration, moments, statistics, errors, traits, and the states of its
//! records and gets.

pub mod api;
pub mod bounds;
pub mod grants;
pub mod reasons;
pub mod standing;
