//! Gets that wait for the only connection of a pool, which is checked out. Connections have a type
//! of their own here, so that the code of the rounds in `serving` is compiled for those alone.

use crate::opening::{full_config, NOW};
use bb8_core::internals::{
    BeginAnswer, ClaimAnswer, GetKey, GiveUpAnswer, Key, OpenedAnswer, PoolInternals, PutBackAnswer, Reason, TryAnswer,
};
use bb8_core::kit::Global;

/// A pool whose only connection is checked out under this key.
struct Busy {
    pool: PoolInternals<()>,
    key: Key,
}

/// Begins a get that waits. None if it was served or an allocation failed.
fn wait(pool: &mut PoolInternals<()>) -> Option<GetKey> {
    let BeginAnswer::Begun(get) = pool.begin(NOW).ok()? else {
        return None;
    };
    match pool.try_get(NOW, get).ok()? {
        TryAnswer::Waiting(_) => Some(get),
        TryAnswer::Served(..) | TryAnswer::Taken(..) => None,
    }
}

/// Serves a get that was notified, and returns the connection's key. None if the get waits again.
fn serve(pool: &mut PoolInternals<()>, get: GetKey) -> Option<Key> {
    match pool.try_get(NOW, get).ok()? {
        TryAnswer::Served(key, (), _) => Some(key),
        TryAnswer::Taken(..) | TryAnswer::Waiting(_) => None,
    }
}

/// Opens the connection that was approved, and returns the get that was notified.
fn open(pool: &mut PoolInternals<()>) -> Option<GetKey> {
    let ClaimAnswer::Claimed(Some(approval)) = pool.claim(NOW) else {
        return None;
    };
    match pool.opened(NOW, approval, ()).ok()? {
        OpenedAnswer::Entered(notified) => notified,
        OpenedAnswer::Late(()) => None,
    }
}

/// Returns a connection to the pool, and returns the get that was notified.
fn give_back(pool: &mut PoolInternals<()>, key: Key) -> Option<GetKey> {
    match pool.put_back(NOW, key, (), false).ok()? {
        PutBackAnswer::Kept(notified) => notified,
        PutBackAnswer::Closed(..) => None,
    }
}

/// Cancels a get that waits. None if the pool has no such get.
fn cancel(pool: &mut PoolInternals<()>, get: GetKey) -> Option<()> {
    match pool.give_up(NOW, get, Reason::Cancelled, false).ok()? {
        GiveUpAnswer::GaveUp(_) => Some(()),
        GiveUpAnswer::Kept(..) | GiveUpAnswer::Closed(..) => None,
    }
}

/// Returns a pool of one connection, which its first get was served. None if an allocation failed.
fn one_out() -> Option<Busy> {
    let mut pool = PoolInternals::new(Global, full_config(1));
    wait(&mut pool)?;
    let first = open(&mut pool)?;
    let key = serve(&mut pool, first)?;
    Some(Busy { pool, key })
}

/// Has `gets` gets wait for the connection, then as many times returns it and serves the get that
/// is notified. Returns `gets`. None if a get was notified out of turn or an allocation failed.
#[inline(never)]
pub fn crowd(gets: u32) -> Option<u64> {
    let Busy { mut pool, mut key } = one_out()?;
    for _ in 0..gets {
        wait(&mut pool)?;
    }
    for number in 0..gets {
        let get = give_back(&mut pool, key)?;
        if get.number != u64::from(number) + 1 {
            return None;
        }
        key = serve(&mut pool, get)?;
    }
    Some(gets.into())
}

/// Has `gets` gets wait for the connection, then cancels `count` of them in the order in which they
/// came, from the one that has `from` before it. Returns `count`. None if there are not as many
/// gets or an allocation failed.
#[inline(never)]
pub fn give_ups(gets: u32, from: u32, count: u32) -> Option<u64> {
    let Busy { mut pool, .. } = one_out()?;
    let keys: Vec<GetKey> = (0..gets).map(|_| wait(&mut pool)).collect::<Option<_>>()?;
    for number in 0..count {
        let place = from as usize + number as usize;
        cancel(&mut pool, *keys.get(place)?)?;
    }
    Some(count.into())
}

#[cfg(test)]
mod tests {
    use super::*;

    #[test]
    fn a_crowd_is_served_in_order() {
        for gets in [0, 1, 3, 100] {
            assert_eq!(crowd(gets), Some(gets.into()));
        }
    }

    #[test]
    fn waiting_gets_are_cancelled() {
        // Of five that wait: all, the first two, the three behind two, the last, none.
        assert_eq!(give_ups(5, 0, 5), Some(5));
        assert_eq!(give_ups(5, 0, 2), Some(2));
        assert_eq!(give_ups(5, 2, 3), Some(3));
        assert_eq!(give_ups(5, 4, 1), Some(1));
        assert_eq!(give_ups(5, 2, 0), Some(0));
        // There are only three behind two, and none behind five.
        assert_eq!(give_ups(5, 2, 4), None);
        assert_eq!(give_ups(5, 5, 1), None);
        assert_eq!(give_ups(0, 0, 1), None);
    }
}
