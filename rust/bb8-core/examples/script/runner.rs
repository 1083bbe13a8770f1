//! The modules of `crates/bb8_runner` that read and run a script. All but `streams` are generated
//! by `rust/erase`.

#[path = "bb8_runner/errors.rs"]
#[rustfmt::skip]
mod errors;
#[path = "bb8_runner/fault.rs"]
#[rustfmt::skip]
pub mod fault;
#[path = "bb8_runner/grammar.rs"]
#[rustfmt::skip]
mod grammar;
#[allow(clippy::complexity, clippy::style)]
#[path = "bb8_runner/lines.rs"]
#[rustfmt::skip]
mod lines;
#[path = "bb8_runner/script.rs"]
#[rustfmt::skip]
pub mod script;
#[allow(clippy::complexity, clippy::style)]
#[path = "bb8_runner/settings.rs"]
#[rustfmt::skip]
mod settings;
mod streams;
// (Rattle's `writeln!` needs no trait)
#[allow(unused_imports)]
#[path = "bb8_runner/text.rs"]
#[rustfmt::skip]
mod text;
#[path = "bb8_runner/verdict.rs"]
#[rustfmt::skip]
pub mod verdict;
