//! The settings of a script's first line, and messages about a bad one: a text, and the word of the
//! line that it is about.

use crate::bb8_runner::grammar::{EXPECTED_NUMBER, Message, fields_of, number, small_number};
use bb8_core::api::{Config, QueueStrategy};
use crate::kit::{AllocError, Global};
use std::str;
use std::time::Duration;

fn on_or_off(value: &str) -> Option<bool> {
    match value {
        "on" => Some(true),
        "off" => Some(false),
        _ => None,
    }
}

fn strategy_of(value: &str) -> Option<QueueStrategy> {
    match value {
        "fifo" => Some(QueueStrategy::Fifo),
        "lifo" => Some(QueueStrategy::Lifo),
        _ => None,
    }
}

/// Parses a duration in nanoseconds.
fn span_of(value: &str) -> Option<Duration> {
    Some(Duration::from_nanos(number(value)?))
}
fn limit_of(value: &str) -> Option<Option<Duration>> {
    if value == "none" {
        return Some(None);
    }
    Some(Some(span_of(value)?))
}
fn small_limit_of(value: &str) -> Option<Option<u32>> {
    if value == "none" {
        return Some(None);
    }
    Some(Some(small_number(value)?))
}

/// Changes a setting. Returns None if there is no such setting, or its value is not allowed.
fn with_setting(config: Config, name: &str, value: &str) -> Option<Config> {
    let mut config = config;
    match name {
        "max_size" => config.max_size = small_number(value)?,
        "min_idle" => config.min_idle = small_limit_of(value)?,
        "check" => config.test_on_check_out = on_or_off(value)?,
        "test_after" => config.test_after = span_of(value)?,
        "lifetime" => config.max_lifetime = limit_of(value)?,
        "idle" => config.idle_timeout = limit_of(value)?,
        "timeout" => config.connection_timeout = span_of(value)?,
        "reaper" => config.reaper_rate = span_of(value)?,
        "retry" => config.retry_connection = on_or_off(value)?,
        "strategy" => config.queue_strategy = strategy_of(value)?,
        _ => return None,
    }
    Some(config)
}

/// Returns the text about another value of a setting. None if there is no such setting.
fn expected_value(name: &str) -> Option<&'static str> {
    match name {
        "max_size" => Some("expected a number below 2^32 without leading zeros, found"),
        "min_idle" => Some("expected \"none\" or a number below 2^32 without leading zeros, found"),
        "check" | "retry" => Some("expected \"on\" or \"off\", found"),
        "test_after" | "timeout" | "reaper" => Some(EXPECTED_NUMBER),
        "lifetime" | "idle" => {
            Some("expected \"none\" or a number below 2^64 without leading zeros, found")
        }
        "strategy" => Some("expected \"fifo\" or \"lifo\", found"),
        _ => None,
    }
}

fn value_error<'a>(name: &'a str, value: &'a str) -> Message<'a> {
    match expected_value(name) {
        Some(expected) => (expected, value),
        None => ("unknown setting", name),
    }
}

/// Returns a setting's name and value, which its first `=` separates.
fn cut(field: &str) -> Option<(&str, &str)> {
    field.split_once('=')
}

/// Returns whether a field is a setting of this name.
fn is_named(name: &str, field: &str) -> bool {
    match cut(field) {
        Some((other, _)) => other == name,
        None => false,
    }
}

fn are_named(name: &str, fields: &[&str]) -> bool {
    fields.iter().any(|field| is_named(name, field))
}

/// Changes the setting of a field. Fails if the field is none, or one before it has its name.
fn with_field<'a>(before: &[&'a str], config: Config, field: &'a str) -> Result<Config, Message<'a>> {
    let Some((name, value)) = cut(field) else {
        return Err(("expected \"=\" and a value after", field));
    };
    let Some(config) = with_setting(config, name, value) else {
        return Err(value_error(name, value));
    };
    if are_named(name, before) {
        return Err(("repeated setting", name));
    }
    Ok(config)
}

fn is_zero(limit: Option<Duration>) -> bool {
    match limit {
        Some(limit) => limit.as_nanos() == 0,
        None => false,
    }
}

fn is_above(least: Option<u32>, most: u32) -> bool {
    match least {
        Some(least) => least > most,
        None => false,
    }
}

fn unlawful_error(config: Config) -> Message<'static> {
    if config.max_size == 0 {
        ("expected more than 0 for", "max_size")
    } else if is_above(config.min_idle, config.max_size) {
        ("expected at most max_size for", "min_idle")
    } else if is_zero(config.max_lifetime) {
        ("expected more than 0 for", "lifetime")
    } else if is_zero(config.idle_timeout) {
        ("expected more than 0 for", "idle")
    } else if config.connection_timeout.as_nanos() == 0 {
        ("expected more than 0 for", "timeout")
    } else {
        ("expected more than 0 for", "reaper")
    }
}
fn if_lawful(config: Config) -> Result<Config, Message<'static>> {
    if config.is_lawful() {
        Ok(config)
    } else {
        Err(unlawful_error(config))
    }
}

/// Returns the configuration with these settings, each at most once. Fails with the first field
/// that is none, or if no pool accepts the whole.
fn config_with<'a>(fields: &[&'a str]) -> Result<Config, Message<'a>> {
    let mut config = Config::default();
    for i in 0..fields.len() {
        match with_field(&fields[..i], config, fields[i]) {
            Ok(more) => config = more,
            Err(error) => return Err(error),
        }
    }
    if_lawful(config)
}

/// Parses a configuration: the word `config`, and settings.
pub fn config_of_fields<'a>(fields: &[&'a str]) -> Result<Config, Message<'a>> {
    match fields {
        [] => Err(("expected \"config\", found", "")),
        [word, settings @ ..] => {
            if *word == "config" {
                config_with(settings)
            } else {
                Err(("expected \"config\", found", word))
            }
        }
    }
}

/// Parses a configuration. Returns None if it is none that a pool accepts. Fails if memory is
/// refused.
pub fn config_of(alloc: Global, line: &[u8]) -> Result<Option<Config>, AllocError> {
    let Ok(text) = str::from_utf8(line) else {
        return Ok(None);
    };
    let fields = fields_of(alloc, text)?;
    Ok(config_of_fields(fields.as_slice()).ok())
}
