//! The lines of a script.

use crate::bb8_runner::grammar::event_of;
use crate::bb8_runner::settings::config_of;
use bb8_core::api::Config;
use bb8_core::replay::Event;
use crate::kit::{CollectIn, Vec};
use crate::kit::{AllocError, AllocFailed, Global};

/// A configuration, and the events of a pool with it.
pub struct Script {
    /// The configuration, from the first line.
    pub config: Config,
    /// The events, from the other lines.
    pub events: Vec<Event>,
}

/// Why the input is not a script.
#[derive(Clone, Copy)]
pub enum NoScript {
    /// Memory was refused.
    Memory,
    /// The number of the first bad line, counted from 1.
    BadLine(u64),
}

impl From<AllocError> for NoScript {
    fn from(_e: AllocError) -> NoScript {
        NoScript::Memory
    }
}

impl<T> From<AllocFailed<T>> for NoScript {
    fn from(_e: AllocFailed<T>) -> NoScript {
        NoScript::Memory
    }
}

/// Returns the input without its last line feed.
fn without_line_feed(input: &[u8]) -> &[u8] {
    if let Some((last, front)) = input.split_last() {
        if *last == b'\n' {
            return front;
        }
    }
    input
}

fn pieces_of(alloc: Global, input: &[u8]) -> Result<Vec<&[u8]>, AllocError> {
    input.split(|b| *b == b'\n').collect_in(alloc)
}

/// Returns the lines of an input. A line feed ends each line, and may be missing after the last
/// one. An empty input is one empty line. The input is split as bytes, so bytes that are not text
/// make only their own line bad. Fails if memory is refused.
pub fn lines_of(alloc: Global, input: &[u8]) -> Result<Vec<&[u8]>, AllocError> {
    pieces_of(alloc, without_line_feed(input))
}

fn events_of(alloc: Global, lines: &[&[u8]]) -> Result<Vec<Event>, NoScript> {
    let mut events = Vec::new(alloc);
    let mut number = 2;
    for line in lines {
        let Some(event) = event_of(alloc, line)? else {
            return Err(NoScript::BadLine(number));
        };
        events.push(event)?;
        number += 1;
    }
    Ok(events)
}

/// Parses a script: a valid configuration, and one event per line. Fails if memory is refused, or
/// with the first bad line.
pub fn script_of(alloc: Global, lines: &[&[u8]]) -> Result<Script, NoScript> {
    let [first, others @ ..] = lines else {
        return Err(NoScript::BadLine(1));
    };
    let Some(config) = config_of(alloc, first)? else {
        return Err(NoScript::BadLine(1));
    };
    let events = events_of(alloc, others)?;
    Ok(Script { config, events })
}
