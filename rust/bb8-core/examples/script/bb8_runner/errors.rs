//! Messages about bad lines.

use crate::bb8_runner::grammar::{Message, event_of_fields, fields_of};
use crate::bb8_runner::settings::config_of_fields;
use crate::kit::String;
use crate::kit::{AllocError, Global};
use std::str;

/// Returns the message about a line with these fields, an empty one if they are good.
fn line_error<'a>(number: u64, fields: &[&'a str]) -> Message<'a> {
    let error = if number == 1 {
        config_of_fields(fields).err()
    } else {
        event_of_fields(fields).err()
    };
    error.unwrap_or(("", ""))
}

fn is_printable(bytes: &[u8]) -> bool {
    bytes.iter().all(|b| *b == b' ' || b.is_ascii_graphic())
}

/// Returns the line as text, if all its bytes can be printed.
fn printable(line: &[u8]) -> Option<&str> {
    let Ok(text) = str::from_utf8(line) else {
        return None;
    };
    is_printable(line).then_some(text)
}

/// Returns the message about a bad line. Fails if memory is refused.
fn error_text(alloc: Global, number: u64, line: &[u8]) -> Result<String, AllocError> {
    let Some(text) = printable(line) else {
        return format!(in alloc; "line {number}: expected printable ASCII\n");
    };
    let fields = fields_of(alloc, text)?;
    let (what, word) = line_error(number, fields.as_slice());
    format!(in alloc; "line {number}: {what} \"{word}\"\n")
}

/// Returns the message about the line of this number, counted from 1. Fails if memory is refused.
pub fn error_at(alloc: Global, lines: &[&[u8]], number: u64) -> Result<String, AllocError> {
    match lines.get(number.saturating_sub(1) as usize) {
        Some(line) => error_text(alloc, number, line),
        None => error_text(alloc, number, b""),
    }
}
