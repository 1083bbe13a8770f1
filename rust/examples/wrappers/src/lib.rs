//! Features that the pool does not have, built in the application: leak detection, keep-alive, and
//! a change of size. Copy what you need.

use bb8::{ManageConnection, Pool, PooledConnection, RunError};
use std::future::Future;
use std::ops::{Deref, DerefMut};
use std::panic::Location;
use std::sync::{PoisonError, RwLock};
use std::time::Duration;
use tokio::task::JoinHandle;
use tokio::time::sleep;

/// A checked-out connection that is reported if it is held for too long.
pub struct Watched<'a, M: ManageConnection> {
    conn: PooledConnection<'a, M>,
    timer: JoinHandle<()>,
}

/// Gets a connection. If it is held for longer than the limit, `report` is called, once, with the
/// place of this call.
///
/// # Errors
///
/// Those of [`Pool::get`].
#[track_caller]
pub fn get_watched<M: ManageConnection>(
    pool: &Pool<M>,
    limit: Duration,
    report: impl FnOnce(&'static Location<'static>) + Send + 'static,
) -> impl Future<Output = Result<Watched<'_, M>, RunError<M::Error>>> {
    let caller = Location::caller();
    async move {
        let conn = pool.get().await?;
        let timer = tokio::spawn(async move {
            sleep(limit).await;
            report(caller);
        });
        Ok(Watched { conn, timer })
    }
}

impl<M: ManageConnection> Drop for Watched<'_, M> {
    fn drop(&mut self) {
        self.timer.abort();
    }
}

impl<M: ManageConnection> Deref for Watched<'_, M> {
    type Target = M::Connection;

    fn deref(&self) -> &M::Connection {
        &self.conn
    }
}

impl<M: ManageConnection> DerefMut for Watched<'_, M> {
    fn deref_mut(&mut self) -> &mut M::Connection {
        &mut self.conn
    }
}

/// Checks each idle connection every so often, one after the other: `try_get` takes the connection
/// that has been idle longest, and checks it. Spawn this, and close the pool at shutdown, as it
/// keeps the pool alive. The pool has to have `test_on_check_out` and the order `Fifo`, which are
/// the defaults, and a `test_on_check_out_after` below the interval.
///
/// A checked connection's idle time starts again, so `idle_timeout` has no effect if it is longer
/// than the interval.
pub async fn keep_alive<M: ManageConnection>(pool: Pool<M>, interval: Duration) {
    while !pool.is_closed() {
        sleep(interval).await;
        for _ in 0..pool.state().idle_connections {
            // A connection that fails its check is closed. Its error goes to the error sink.
            drop(pool.try_get().await);
        }
    }
}

/// A pool that can be replaced while it is used, for example by one of another size.
pub struct Replaceable<M: ManageConnection>(RwLock<Pool<M>>);

impl<M: ManageConnection> Replaceable<M> {
    /// Makes a first pool replaceable.
    pub fn new(pool: Pool<M>) -> Self {
        Replaceable(RwLock::new(pool))
    }

    /// Returns the present pool. Ask for it before each get.
    pub fn pool(&self) -> Pool<M> {
        let pool = self.0.read().unwrap_or_else(PoisonError::into_inner);
        pool.clone()
    }

    /// Puts another pool in its place. The idle connections of the old one are closed once its last
    /// handle and guard are dropped, so for a while there are connections of both.
    pub fn replace(&self, pool: Pool<M>) {
        let old = {
            let mut present = self.0.write().unwrap_or_else(PoisonError::into_inner);
            std::mem::replace(&mut *present, pool)
        };
        // Its connections may be closed here, without the lock.
        drop(old);
    }
}
