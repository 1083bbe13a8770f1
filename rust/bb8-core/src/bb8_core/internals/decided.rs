//! Decisions and changes that several steps share.

use crate::bb8_tables::AccessCounter;
use crate::bb8_tables::gets::Gets;
use crate::bb8_tables::keys::{GetKey, Key};
use crate::bb8_tables::records::{Records, one};
use crate::bb8_types::api::Config;
use crate::bb8_types::grants::Grant;
use crate::bb8_types::standing::Holder;
use std::time::Duration;

/// Returns how many approvals a grant should make.
#[inline]
fn due(config: &Config, handles: u64, taken: u64, asked: u64) -> u64 {
    if handles == 0 {
        0
    } else {
        asked.min((config.max_size as u64).saturating_sub(taken))
    }
}

/// Returns how many of the wanted approvals are due, while a handle is alive.
pub(super) fn want_with_handle<C>(config: &Config, records: &Records<C>) -> u64 {
    let Some(least) = config.min_idle else {
        return 0;
    };
    let taken = records.used();
    if taken >= config.max_size as u64 {
        return 0;
    }
    let room = config.max_size as u64 - taken;
    (least as u64).saturating_sub(records.ready()).min(room)
}

/// Returns how many of the wanted approvals are due.
pub(super) fn want<C>(config: &Config, handles: u64, records: &Records<C>) -> u64 {
    if handles == 0 {
        0
    } else {
        want_with_handle(config, records)
    }
}

/// Returns how many approvals are due to a get that waits: one is requested if there are more gets
/// than open approvals.
pub(super) fn due_waiting<C>(
    config: &Config,
    handles: u64,
    records: &Records<C>,
    alive: u64,
) -> u64 {
    let asked = one(records.approved() < alive);
    due(config, handles, records.used(), asked)
}

/// Returns how many approvals are due to `waiting` unnotified waiters: those without an open
/// approval request one each.
pub(super) fn due_asked<C>(
    config: &Config,
    handles: u64,
    records: &Records<C>,
    waiting: u64,
) -> u64 {
    let asked = waiting.saturating_sub(records.approved());
    due(config, handles, records.used(), asked)
}

/// Returns the greatest age, in nanoseconds, that does not reach a limit.
pub(super) fn max_age(limit: Option<Duration>) -> u64 {
    match limit {
        None => u64::MAX,
        Some(limit) => (limit.as_nanos() - 1).min(u64::MAX as u128) as u64,
    }
}

/// Returns the configuration for a reap that ends all idle connections: each lives too long.
pub(super) fn retiring(config: &Config) -> Config {
    let mut all = *config;
    all.max_lifetime = Some(Duration::from_nanos(0));
    all
}

/// Returns whether at least one holds.
#[inline]
pub(super) fn either(a: bool, b: bool) -> bool {
    a || b
}

/// Returns whether a connection with this birth lives too long.
pub(super) fn is_expired(config: &Config, now: u64, birth: u64) -> bool {
    match config.max_lifetime {
        None => false,
        Some(lifetime) => lifetime.as_nanos() <= now.saturating_sub(birth) as u128,
    }
}

/// Notifies the longest waiter that was not notified, if the test passes.
#[inline]
pub(super) fn notify_next_if(
    gets: &mut Gets,
    test: bool,
    accesses: &mut AccessCounter,
) -> Option<GetKey> {
    if test { gets.notify(accesses) } else { None }
}

/// Returns whether the first idle connection must be checked before a get is served with it. Reads
/// one entry if its idle time decides.
#[inline(always)]
pub(super) fn checks_first<C>(
    config: &Config,
    records: &Records<C>,
    now: u64,
    accesses: &mut AccessCounter,
) -> bool {
    if !config.test_on_check_out {
        return false;
    }
    if config.test_after.is_zero() {
        return true;
    }
    match records.first_entered(config.queue_strategy, accesses) {
        // None is idle, so nothing goes out.
        None => true,
        Some(entered) => config.test_after.as_nanos() <= now.saturating_sub(entered) as u128,
    }
}

/// Returns whether a connection whose check was cut off counts as broken.
#[inline]
pub(super) fn is_doubtful(config: &Config, broken: bool) -> bool {
    broken || !config.test_after.is_zero()
}

/// Returns the holder of a connection that a try takes: the get if it must be checked first,
/// otherwise a guard.
pub(super) fn holder(checked: bool, get: GetKey) -> Holder {
    if checked {
        Holder::Get(get.number)
    } else {
        Holder::Guard
    }
}

/// Ends a checked-out connection, and grants what is wanted then.
#[inline(always)]
pub(super) fn close_and_grant<C>(
    config: &Config,
    handles: u64,
    records: &mut Records<C>,
    k: Key,
    accesses: &mut AccessCounter,
) -> Grant {
    records.close(k, accesses);
    let wanted = want(config, handles, records);
    records.grant(wanted, false)
}
