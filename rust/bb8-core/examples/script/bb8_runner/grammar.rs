//! The grammar of a script's events. A bad one has a message.

use bb8_core::api::Moment;
use bb8_core::replay::{Act, Event, Reason};
use crate::kit::{CollectIn, Vec};
use crate::kit::{AllocError, Global};
use std::str;

/// A text, and the word of the line that it is about.
pub(crate) type Message<'a> = (&'a str, &'a str);

pub(crate) const EXPECTED_NUMBER: &str =
    "expected a number below 2^64 without leading zeros, found";

/// Parses a number: decimal digits without sign or leading zero, at most
/// 18,446,744,073,709,551,615. Returns None for any other field.
pub fn number(field: &str) -> Option<u64> {
    let [first, rest @ ..] = field.as_bytes() else {
        return None;
    };
    if *first == b'+' {
        return None;
    }
    if *first == b'0' {
        return rest.is_empty().then_some(0);
    }
    field.parse().ok()
}

/// As `number`, but at most 4,294,967,295.
pub fn small_number(field: &str) -> Option<u32> {
    u32::try_from(number(field)?).ok()
}

/// Parses the verbs without argument.
fn plain_act(verb: &str) -> Option<Act> {
    match verb {
        "begin" => Some(Act::Begin),
        "fill" => Some(Act::Fill(false)),
        "ask" => Some(Act::Ask),
        "claim" => Some(Act::Claim),
        "add" => Some(Act::Add(false)),
        "reap" => Some(Act::Reap),
        "retire" => Some(Act::Retire),
        "state" => Some(Act::State),
        "join" => Some(Act::Join),
        "leave" => Some(Act::Leave),
        "close" => Some(Act::Close),
        "look" => Some(Act::Look),
        _ => None,
    }
}

/// Parses the verbs with a word after them.
fn worded_act(verb: &str, word: &str) -> Option<Act> {
    match (verb, word) {
        ("fill", "claimed") => Some(Act::Fill(true)),
        ("add", "broken") => Some(Act::Add(true)),
        _ => None,
    }
}

/// Parses the verbs with a number after them, and `broken` or not.
fn flagged_act(verb: &str, n: u64, broken: bool) -> Option<Act> {
    match verb {
        "err" => Some(Act::CheckedErr(n, broken)),
        "timeout" => Some(Act::GiveUp(n, Reason::TimedOut, broken)),
        "cancel" => Some(Act::GiveUp(n, Reason::Cancelled, broken)),
        "return" => Some(Act::PutBack(n, broken)),
        _ => None,
    }
}

/// Parses the verbs with a number after them.
fn numbered_act(verb: &str, n: u64) -> Option<Act> {
    match verb {
        "try" => Some(Act::Try(n)),
        "ok" => Some(Act::CheckedOk(n)),
        "detach" => Some(Act::Detach(n)),
        "evict" => Some(Act::Evict(n)),
        "open" => Some(Act::Opened(n)),
        "fail" => Some(Act::Failed(n)),
        _ => flagged_act(verb, n, false),
    }
}
fn act_of(verb: &str, args: &[&str]) -> Option<Act> {
    match args {
        [] => plain_act(verb),
        [arg] => match number(arg) {
            Some(n) => numbered_act(verb, n),
            None => worded_act(verb, arg),
        },
        [arg, word] if *word == "broken" => flagged_act(verb, number(arg)?, true),
        _ => None,
    }
}

/// Returns the text about the arguments of a verb. None if there is no such verb.
fn expected_after(verb: &str) -> Option<&'static str> {
    match verb {
        "try" | "ok" => Some("expected only the number of a get after"),
        "err" | "timeout" | "cancel" => {
            Some("expected the number of a get and at most \"broken\" after")
        }
        "return" => Some("expected the number of a connection and at most \"broken\" after"),
        "detach" | "evict" => Some("expected only the number of a connection after"),
        "open" | "fail" => Some("expected only the number of an approval after"),
        "fill" => Some("expected at most \"claimed\" after"),
        "add" => Some("expected at most \"broken\" after"),
        _ if plain_act(verb).is_some() => Some("expected nothing after"),
        _ => None,
    }
}

fn verb_error(verb: &str) -> Message<'_> {
    match expected_after(verb) {
        Some(expected) => (expected, verb),
        None => ("unknown event", verb),
    }
}
fn act_error<'a>(verb: &'a str, args: &[&'a str]) -> Message<'a> {
    match args {
        [arg, ..] if numbered_act(verb, 0).is_some() && number(arg).is_none() => {
            (EXPECTED_NUMBER, arg)
        }
        _ => verb_error(verb),
    }
}
fn act_after<'a>(moment: &'a str, fields: &[&'a str]) -> Result<Act, Message<'a>> {
    let [verb, args @ ..] = fields else {
        return Err(("expected an event after", moment));
    };
    match act_of(verb, args) {
        Some(act) => Ok(act),
        None => Err(act_error(verb, args)),
    }
}

/// Parses an event: a moment, a verb and its arguments.
pub(crate) fn event_of_fields<'a>(fields: &[&'a str]) -> Result<Event, Message<'a>> {
    let [moment, fields @ ..] = fields else {
        return Err(("expected an event after", ""));
    };
    let Some(at) = number(moment) else {
        return Err((EXPECTED_NUMBER, moment));
    };
    let act = act_after(moment, fields)?;
    Ok(Event {
        at: Moment(at),
        act,
    })
}

/// Returns the fields of a line, which spaces separate. Fails if memory is refused.
pub fn fields_of(alloc: Global, line: &str) -> Result<Vec<&str>, AllocError> {
    line.split(' ').collect_in(alloc)
}

/// Parses an event. Returns None for any other line. Fails if memory is refused.
pub fn event_of(alloc: Global, line: &[u8]) -> Result<Option<Event>, AllocError> {
    let Ok(text) = str::from_utf8(line) else {
        return Ok(None);
    };
    let fields = fields_of(alloc, text)?;
    Ok(event_of_fields(fields.as_slice()).ok())
}
