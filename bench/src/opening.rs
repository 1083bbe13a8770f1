//! Pools whose connections are open.

use bb8_core::api::{Config, Moment};
use bb8_core::internals::{ClaimAnswer, OpenedAnswer, PoolInternals};
use bb8_core::kit::Global;

/// The moment at which everything happens.
pub const NOW: Moment = Moment(0);

/// The default settings, except that connections are not checked and the pool keeps itself full.
pub fn full_config(size: u32) -> Config {
    Config {
        max_size: size,
        min_idle: Some(size),
        test_on_check_out: false,
        ..Config::default()
    }
}

/// Opens the connection of the oldest unclaimed approval. The connection is its own number.
fn open_one(pool: &mut PoolInternals<u64>) -> Option<()> {
    let ClaimAnswer::Claimed(Some(key)) = pool.claim(NOW) else {
        return None;
    };
    match pool.opened(NOW, key, key.number) {
        Ok(OpenedAnswer::Entered(_)) => Some(()),
        Ok(OpenedAnswer::Late(_)) | Err(_) => None,
    }
}

/// Returns an empty pool with `size` unclaimed approvals.
fn approved_pool(size: u32) -> Option<PoolInternals<u64>> {
    let config = full_config(size);
    if !config.is_lawful() {
        return None;
    }
    let mut pool = PoolInternals::new(Global, config);
    let grant = pool.fill(NOW, false);
    (grant.count == size).then_some(pool)
}

/// Returns a pool of `size` idle connections. None if `size` is 0 or an allocation failed.
pub fn opened_pool(size: u32) -> Option<PoolInternals<u64>> {
    let mut pool = approved_pool(size)?;
    for _ in 0..size {
        open_one(&mut pool)?;
    }
    Some(pool)
}
