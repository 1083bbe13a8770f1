//! Helpers of the programs of this package.

use bb8::Pool;
use postgres_manager::{Database, Log};

/// Whether the pool's statistics balance, and agree with the log. Connections are opened and
/// dropped outside of the pool's lock, so the log may differ for a moment.
#[cfg(feature = "balance")]
pub async fn balances(pool: &Pool<Database>, log: &Log) -> Option<bool> {
    use std::sync::atomic::Ordering::SeqCst;
    for _ in 0..200 {
        let state = pool.state();
        let counts = &state.statistics;
        let begun = counts.connections_created + counts.connections_added;
        let ended = counts.connections_closed + counts.connections_detached;
        if begun != ended + u64::from(state.connections) {
            return Some(false);
        }
        let opened = log.opened.load(SeqCst) == counts.connections_created;
        if opened && log.dropped.load(SeqCst) == counts.connections_closed {
            return Some(true);
        }
        tokio::time::sleep(std::time::Duration::from_millis(10)).await;
    }
    Some(false)
}

/// The original does not count closed connections.
#[cfg(not(feature = "balance"))]
pub async fn balances(_: &Pool<Database>, _: &Log) -> Option<bool> {
    None
}
