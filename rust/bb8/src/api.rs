//! The handle of a pool, and the guard of a checked-out connection.

use crate::boxed::Reserved;
use crate::builder::{Builder, Config, LONGEST};
use crate::core::{AddAnswer, Checkout, Moment};
use crate::errors::{AddError, RunError};
use crate::figures::State;
use crate::managers::ManageConnection;
use crate::pool::{Locked, Owner, Shared};
use std::borrow::Cow;
use std::fmt;
use std::future::Future;
use std::ops::{Deref, DerefMut};
use std::sync::Arc;
use std::time::Duration;
use tokio::time::sleep;

/// A handle to a pool. Its clones are handles to the same pool.
///
/// Once the last handle and the last guard of [`Pool::get_owned`] are gone, the idle connections
/// are closed. [`Pool::close`] closes the pool earlier.
pub struct Pool<M: ManageConnection> {
    pub(crate) owner: Arc<Owner<M>>,
}

impl<M: ManageConnection> Pool<M> {
    /// Returns a builder with the default settings.
    pub fn builder() -> Builder<M> {
        Builder::new()
    }

    /// Checks a connection out, and waits for one if none is idle. It is returned to the pool when
    /// the guard is dropped.
    ///
    /// Waiting gets are woken in the order of a queue. By default, a get that asks before a woken
    /// one is polled takes the connection: [`Builder::fair_after`](crate::Builder::fair_after)
    /// prevents starvation. Dropping the future cancels the get. A connection handed off to it goes
    /// to the next waiter.
    ///
    /// # Errors
    ///
    /// `TimedOut` if no connection became available within `connection_timeout`; `Closed` if the
    /// pool is closed; `Memory` and `Exhausted` if memory or numbers ran out. Errors of the manager
    /// go to the error sink.
    ///
    /// # Panics
    ///
    /// If it has to wait outside a tokio runtime, in one without timers, or after the runtime in
    /// which it first waited has shut down.
    ///
    /// # Examples
    ///
    /// ```
    /// use bb8::{Pool, RunError};
    /// use std::time::Duration;
    /// # include!(concat!(env!("CARGO_MANIFEST_DIR"), "/tests/common/numbers.rs"));
    /// # #[tokio::main] async fn main() {
    /// let pool = Pool::builder().max_size(1).build(Numbers::default()).await.unwrap();
    /// let conn = pool.get().await.unwrap();
    /// assert_eq!(*conn, 0);
    /// // The only connection is checked out.
    /// assert!(pool.try_get().await.unwrap().is_none());
    /// let limit = Duration::from_millis(20);
    /// assert_eq!(pool.get_timeout(limit).await.unwrap_err(), RunError::TimedOut);
    /// assert!(tokio::time::timeout(limit, pool.get()).await.is_err());
    /// let statistics = pool.state().statistics;
    /// assert_eq!((statistics.get_timed_out, statistics.get_cancelled), (1, 1));
    /// # }
    /// ```
    #[doc(alias("cancellation", "queue", "starvation"))]
    // It returns the future itself: in that of an async fn it would take 128 bytes more.
    pub fn get(
        &self,
    ) -> impl Future<Output = Result<PooledConnection<'_, M>, RunError<M::Error>>> + '_ {
        let limit = |config: &Config| config.connection_timeout;
        self.checkout::<true, _>(limit, |got| got.ok_or(RunError::TimedOut))
    }

    /// As [`Pool::get`], with its errors, but the guard is a handle of the pool, too. So it may
    /// outlive this handle, and the pool stays open as long as the guard lives.
    ///
    /// # Examples
    ///
    /// ```
    /// # include!(concat!(env!("CARGO_MANIFEST_DIR"), "/tests/common/numbers.rs"));
    /// # #[tokio::main] async fn main() {
    /// let pool = bb8::Pool::builder().build(Numbers::default()).await.unwrap();
    /// let first = pool.get_owned().await.unwrap();
    /// let second = pool.get_owned_timeout(std::time::Duration::from_secs(5)).await.unwrap();
    /// let none = pool.try_get_owned().await.unwrap();
    /// assert!(none.is_none());
    /// drop(pool);
    /// assert_eq!(tokio::spawn(async move { *first + *second }).await.unwrap(), 1);
    /// # }
    /// ```
    pub async fn get_owned(&self) -> Result<PooledConnection<'static, M>, RunError<M::Error>> {
        Ok(self.get().await?.into_owned())
    }

    /// As [`Pool::get`], with its errors, but with a time of its own, shorter or longer than
    /// `connection_timeout`. If that time is over, the get counts in `get_timed_out`. The
    /// connection attempt that it may have requested continues.
    ///
    /// A check that is cut off closes its connection, so a time shorter than a check takes costs
    /// connections: use [`Pool::try_get`] instead of a time of zero.
    pub async fn get_timeout(
        &self,
        timeout: Duration,
    ) -> Result<PooledConnection<'_, M>, RunError<M::Error>> {
        let limit = move |_: &_| timeout.min(LONGEST);
        self.checkout::<true, _>(limit, |got| got.ok_or(RunError::TimedOut))
            .await
    }

    /// As [`Pool::get_timeout`], with its errors, but the guard is a handle of the pool, as in
    /// [`Pool::get_owned`].
    pub async fn get_owned_timeout(
        &self,
        timeout: Duration,
    ) -> Result<PooledConnection<'static, M>, RunError<M::Error>> {
        Ok(self.get_timeout(timeout).await?.into_owned())
    }

    /// Checks out an idle connection, or returns `None` if none is idle and valid. It never waits
    /// for a connection, and requests none but those missing to `min_idle`. So a pool that is only
    /// used by `try_get` stays empty if it has no `min_idle`.
    ///
    /// If connections are checked, it awaits the check. After one that fails it goes on with the
    /// next idle connection, as long as `connection_timeout` has not passed.
    ///
    /// It counts in `get_direct` if it returns a connection, and nowhere if it finds none idle. If
    /// all that it checked failed, it counts in `get_cancelled`, or in `get_timed_out` if its time
    /// was over.
    ///
    /// # Errors
    ///
    /// `Closed`, `Memory` and `Exhausted`, as [`Pool::get`]; never `TimedOut`.
    ///
    /// # Panics
    ///
    /// If a check is not ready at once outside a tokio runtime, or in one without timers.
    pub async fn try_get(&self) -> Result<Option<PooledConnection<'_, M>>, RunError<M::Error>> {
        let limit = |config: &Config| config.connection_timeout;
        self.checkout::<false, _>(limit, Ok).await
    }

    /// As [`Pool::try_get`], with its errors, but the guard is a handle of the pool, as in
    /// [`Pool::get_owned`].
    pub async fn try_get_owned(
        &self,
    ) -> Result<Option<PooledConnection<'static, M>>, RunError<M::Error>> {
        Ok(self.try_get().await?.map(PooledConnection::into_owned))
    }

    /// Opens a connection that the pool does not track: no limit on size or age applies to it. The
    /// customizer prepares it as well. The attempt has no time limit.
    ///
    /// # Errors
    ///
    /// The error of the manager or the customizer. The attempt is not retried.
    pub async fn dedicated_connection(&self) -> Result<M::Connection, M::Error> {
        self.shared().connect().await
    }

    /// Adds a connection to the pool.
    ///
    /// # Errors
    ///
    /// Each error returns the connection: it is broken, the pool is full or closed, or memory or
    /// numbers have run out.
    ///
    /// # Examples
    ///
    /// ```
    /// use bb8::{AddError, Pool};
    /// # include!(concat!(env!("CARGO_MANIFEST_DIR"), "/tests/common/numbers.rs"));
    /// # #[tokio::main] async fn main() {
    /// let pool = Pool::builder().max_size(1).build(Numbers::default()).await.unwrap();
    /// let conn = pool.dedicated_connection().await.unwrap();
    /// assert_eq!(pool.add(conn), Ok(()));
    /// assert_eq!(pool.add(7), Err(AddError::NoCapacity(7)));
    /// # }
    /// ```
    pub fn add(&self, mut conn: M::Connection) -> Result<(), AddError<M::Connection>> {
        let shared = self.shared();
        if shared.manager.has_broken(&mut conn) {
            return Err(AddError::Broken(conn));
        }
        let Some(reserved) = Reserved::new() else {
            return Err(AddError::Withheld(conn));
        };
        let mut conn = reserved.fill(conn);
        let at = shared.now();
        let end = shared.set_end(&mut conn, at);
        let mut locked = shared.lock();
        let added = locked.core.add(Moment(at), Some(conn), false);
        let (refused, conn): (fn(_) -> _, _) = match added {
            Ok(AddAnswer::Added(key, notified)) => {
                locked.counts.added += 1;
                shared.entered(locked, at, key, end, notified);
                return Ok(());
            }
            Ok(AddAnswer::Withheld(conn)) => (AddError::Withheld, conn),
            // A closed pool has no capacity either. `Broken` cannot be: `broken` was false.
            Ok(AddAnswer::NoCapacity(conn) | AddAnswer::Broken(conn)) | Err(conn) => {
                (AddError::NoCapacity, conn)
            }
        };
        drop(locked);
        let conn = conn.expect("the core returns the connection that it refused");
        Err(refused(conn.into_inner()))
    }

    /// Retires all connections: idle ones are closed now, checked-out ones when they are returned,
    /// and those of attempts in progress once they are open. So no get is handed an old connection
    /// from then on. Exceptions: a get that is checking an old connection, and with
    /// [`Builder::fair_after`](crate::Builder::fair_after) a get that was handed one and has not
    /// been polled since.
    ///
    /// Connections that `min_idle` requires, or that gets wait for, are opened anew, others when a
    /// get needs them.
    ///
    /// It is for changes that only new connections see: other credentials, a restored database,
    /// another server behind the same name.
    ///
    /// If memory to list the idle connections is refused, or in a closed pool, it does nothing.
    /// [`Statistics`](crate::Statistics) has an example.
    ///
    /// # Panics
    ///
    /// If the destructor of an idle connection panics. All are closed then, too.
    pub fn retire(&self) {
        self.shared().retire();
    }

    /// Closes the pool for all its handles, and resolves once all its connections are dropped.
    ///
    /// When it is first polled, waiting gets return [`RunError::Closed`](crate::RunError::Closed)
    /// and count in `get_cancelled`. Every later get returns it, too. Exception: a get that is
    /// checking a connection then, or was handed one by `fair_after`, may still return it. Idle
    /// connections are dropped, and attempts in progress end when next polled. Checked-out
    /// connections are dropped when they are returned. `close` waits for them, so call it without a
    /// guard in the same task, or limit it by a timeout. If its future is dropped, the pool stays
    /// closed.
    ///
    /// # Panics
    ///
    /// If the destructor of an idle connection panics. The pool is closed then, too.
    ///
    /// # Examples
    ///
    /// ```
    /// use bb8::{Pool, RunError};
    /// # include!(concat!(env!("CARGO_MANIFEST_DIR"), "/tests/common/numbers.rs"));
    /// # #[tokio::main] async fn main() {
    /// let pool = Pool::builder().build(Numbers::default()).await.unwrap();
    /// let conn = pool.get_owned().await.unwrap();
    /// let request = tokio::spawn(async move { *conn });
    /// pool.close_now();
    /// assert!(pool.is_closed());
    /// assert_eq!(pool.get().await.unwrap_err(), RunError::Closed);
    /// pool.close().await; // it waits for the request
    /// assert_eq!(pool.state().connections, 0);
    /// assert_eq!(request.await.unwrap(), 0);
    /// # }
    /// ```
    pub async fn close(&self) {
        while !self.shared().close() {
            sleep(Duration::from_millis(1)).await;
        }
        self.shared().reached(Locked::is_empty).await;
    }

    /// Closes the pool as [`Pool::close`] does, but does not wait for its connections. It may be
    /// called outside of a runtime.
    ///
    /// If memory to list the idle connections is refused, the pool stays open, whereas
    /// [`Pool::close`] tries again after a millisecond.
    ///
    /// # Panics
    ///
    /// As [`Pool::close`].
    pub fn close_now(&self) {
        self.shared().close();
    }

    /// Returns whether the pool was closed by [`Pool::close`] or [`Pool::close_now`].
    pub fn is_closed(&self) -> bool {
        self.shared().is_closed()
    }

    /// Returns how many connections there are, and the statistics.
    pub fn state(&self) -> State {
        self.shared().state()
    }

    /// Returns the settings of the pool.
    pub fn config(&self) -> Config {
        Config::from(&self.shared().settings)
    }

    pub(crate) fn shared(&self) -> &Arc<Shared<M>> {
        &self.owner.shared
    }
}

impl<M: ManageConnection> Clone for Pool<M> {
    fn clone(&self) -> Self {
        Pool {
            owner: self.owner.clone(),
        }
    }
}

impl<M: ManageConnection> fmt::Debug for Pool<M> {
    fn fmt(&self, f: &mut fmt::Formatter<'_>) -> fmt::Result {
        f.debug_struct("Pool")
            .field("name", &self.shared().settings.name)
            .field("state", &self.state())
            .field("config", &self.config())
            .finish()
    }
}

/// A checked-out connection. It is returned to the pool when this is dropped.
pub struct PooledConnection<'a, M: ManageConnection> {
    pool: Cow<'a, Arc<Owner<M>>>,
    checkout: Option<Checkout<M::Connection>>,
}

const HELD: &str = "a guard has its connection until it is dropped";

impl<'a, M: ManageConnection> PooledConnection<'a, M> {
    pub(crate) fn new(pool: &'a Arc<Owner<M>>, checkout: Checkout<M::Connection>) -> Self {
        PooledConnection {
            pool: Cow::Borrowed(pool),
            checkout: Some(checkout),
        }
    }

    /// Takes the connection out of the pool for good, and returns it. Its slot is free for another
    /// one.
    ///
    /// It counts in `connections_detached`, not as closed. No limit on size or age applies to it,
    /// and the customizer's `on_release` is not called. This is an associated function, so that it
    /// hides no method of the connection. [`Statistics`](crate::Statistics) has an example.
    pub fn detach(mut this: Self) -> M::Connection {
        let checkout = this.checkout.take().expect(HELD);
        this.pool.shared.detach(checkout)
    }

    /// Makes the guard a handle to its pool, too.
    pub(crate) fn into_owned(mut self) -> PooledConnection<'static, M> {
        PooledConnection {
            pool: Cow::Owned(Arc::clone(&self.pool)),
            checkout: self.checkout.take(),
        }
    }
}

impl<M: ManageConnection> Deref for PooledConnection<'_, M> {
    type Target = M::Connection;

    fn deref(&self) -> &M::Connection {
        &self.checkout.as_ref().expect(HELD).conn
    }
}

impl<M: ManageConnection> DerefMut for PooledConnection<'_, M> {
    fn deref_mut(&mut self) -> &mut M::Connection {
        &mut self.checkout.as_mut().expect(HELD).conn
    }
}

impl<M: ManageConnection> fmt::Debug for PooledConnection<'_, M>
where
    M::Connection: fmt::Debug,
{
    fn fmt(&self, f: &mut fmt::Formatter<'_>) -> fmt::Result {
        (**self).fmt(f)
    }
}

impl<M: ManageConnection> Drop for PooledConnection<'_, M> {
    // Inlining saves 8 instructions of a pair.
    #[inline]
    fn drop(&mut self) {
        if let Some(checkout) = self.checkout.take() {
            self.pool.shared.release(checkout);
        }
    }
}
