//! Gets that are served at once, over a pool whose connections are open.

use crate::opening::{opened_pool, NOW};
use bb8_core::api::Moment;
use bb8_core::internals::{AtOnce, BeginAnswer, Key, PoolInternals, PutBackAnswer, ReapAnswer, TryAnswer};

/// Begins a get and serves it. None if no connection is idle or an allocation failed.
fn serve_in_steps(pool: &mut PoolInternals<u64>) -> Option<(Key, u64)> {
    let Ok(BeginAnswer::Begun(get)) = pool.begin(NOW) else {
        return None;
    };
    match pool.try_get(NOW, get) {
        Ok(TryAnswer::Served(key, conn, _)) => Some((key, conn)),
        Ok(TryAnswer::Taken(..) | TryAnswer::Waiting(_)) | Err(_) => None,
    }
}

/// Serves a get in one step if that needs no memory, else in two.
#[inline(always)]
fn serve(pool: &mut PoolInternals<u64>) -> Option<(Key, u64)> {
    match pool.serve_at_once(NOW) {
        Some(AtOnce { key, conn, .. }) => Some((key, conn)),
        None => serve_in_steps(pool),
    }
}

/// Returns a connection to the pool. None if it was closed or is not checked out.
fn give_back(pool: &mut PoolInternals<u64>, key: Key, conn: u64) -> Option<()> {
    match pool.put_back(NOW, key, conn, false) {
        Ok(PutBackAnswer::Kept(_)) => Some(()),
        Ok(PutBackAnswer::Closed(..)) | Err(_) => None,
    }
}

/// Adds a connection's number, counted from 1, to a checksum.
fn sum_with(sum: u64, number: u64) -> u64 {
    sum.saturating_add(number).saturating_add(1)
}

/// Checks out and returns `count` connections, one after another.
#[inline(never)]
fn turned(pool: &mut PoolInternals<u64>, count: u64) -> Option<u64> {
    let mut sum = 0;
    for _ in 0..count {
        let (key, conn) = serve(pool)?;
        give_back(pool, key, conn)?;
        sum = sum_with(sum, key.number);
    }
    Some(sum)
}

/// Checks out `count` connections, none of which is returned.
#[inline(never)]
fn drained(pool: &mut PoolInternals<u64>, count: u32) -> Option<u64> {
    let mut sum = 0;
    for _ in 0..count {
        let (key, _) = serve(pool)?;
        sum = sum_with(sum, key.number);
    }
    Some(sum)
}

/// Opens `size` connections, then `rounds` times checks out the one that has been idle longest and
/// returns it. Returns the sum of the numbers of the connections that were served, counted from 1.
/// None if `size` is 0 or an allocation failed.
pub fn rounds(size: u32, rounds: u64) -> Option<u64> {
    turned(&mut opened_pool(size)?, rounds)
}

/// Opens `size` connections and checks out each. Returns the sum of their numbers, counted from 1.
/// None if `size` is 0 or an allocation failed.
pub fn drain(size: u32) -> Option<u64> {
    drained(&mut opened_pool(size)?, size)
}

/// Opens `size` connections, then reaps `count` times while none has reached a limit. Returns
/// `count`. None if `size` is 0, an allocation failed or a connection was closed.
pub fn reaps(size: u32, count: u64) -> Option<u64> {
    let mut pool = opened_pool(size)?;
    for _ in 0..count {
        let ReapAnswer::Reaped { closed: 0, .. } = pool.reap(Moment(1)) else {
            return None;
        };
    }
    Some(count)
}

#[cfg(test)]
mod tests {
    use super::*;

    #[test]
    fn rounds_serve_the_longest_idle_first() {
        // Numbers 0, 1, 2, 0, 1 are served, and are summed counted from 1.
        assert_eq!(rounds(3, 5), Some(1 + 2 + 3 + 1 + 2));
        assert_eq!(rounds(1, 7), Some(7));
        assert_eq!(rounds(10, 2), Some(1 + 2));
        assert_eq!(rounds(3, 7), Some(6 + 6 + 1));
        assert_eq!(rounds(10, 25), Some(55 + 55 + 15));
        assert_eq!(rounds(3, 0), Some(0));
        assert_eq!(rounds(0, 5), None);
    }

    #[test]
    fn a_drain_serves_each_connection_once() {
        assert_eq!(drain(1), Some(1));
        assert_eq!(drain(4), Some(1 + 2 + 3 + 4));
        assert_eq!(drain(100), Some(5050));
        assert_eq!(drain(0), None);
    }

    #[test]
    fn give_back_reports_a_close() {
        let mut pool = opened_pool(1).expect("a pool of one");
        let (key, conn) = serve(&mut pool).expect("an idle connection");
        assert!(pool.leave(NOW).is_ok());
        assert!(give_back(&mut pool, key, conn).is_none());
    }

    #[test]
    fn a_reap_closes_nothing_before_a_limit() {
        assert_eq!(reaps(3, 2), Some(2));
        assert_eq!(reaps(0, 1), None);
    }
}
