//! Rounds of the original's locked core. `bench/compare.py` adds this file to a copy of the
//! original's crate, as a module of `internals`, whose items are not public.

use super::{Conn, SharedPool, StatsGetKind};
use crate::api::{Builder, ManageConnection};
use std::sync::Arc;
use std::time::Instant;

/// Over `size` idle connections, `count` times begins a get, checks out the first one in the queue
/// and returns it, as `PoolInner::get` and `PoolInner::put_back` do, without the future, its timer
/// and the manager, and with the default limits on ages or none. Returns how many were served.
pub fn rounds<M: ManageConnection>(manager: M, open: fn(u64) -> M::Connection, size: u32, limits: bool, count: u64) -> u64 {
    let builder = Builder::new().max_size(size).test_on_check_out(false);
    let builder = if limits {
        builder
    } else {
        builder.max_lifetime(None).idle_timeout(None)
    };
    let shared = Arc::new(SharedPool::new(builder, manager));
    for number in 0..size {
        assert!(shared.try_put(open(number.into())).is_ok());
    }
    let mut served = 0;
    for _ in 0..count {
        shared.statistics.record_get_started();
        let getting = shared.start_get();
        let (conn, _approvals) = getting.get();
        drop(getting);
        shared.statistics.record_get(StatsGetKind::Direct, None);
        if let Some(conn) = conn {
            served += put_back(&shared, conn);
        }
    }
    served
}

/// Returns a connection to the pool. Returns 1 if it is kept, else 0.
fn put_back<M: ManageConnection>(shared: &Arc<SharedPool<M>>, conn: Conn<M::Connection>) -> u64 {
    let expired = shared
        .statics
        .max_lifetime
        .is_some_and(|limit| conn.is_expired(Instant::now(), limit));
    if expired {
        return 0;
    }
    shared.internals.lock().put(conn, None, shared.clone());
    1
}
