//! The traits that users implement: the manager, the customizer and the error sink.

use std::fmt;
use std::future::Future;
use std::pin::Pin;

/// Defines how connections are opened and checked.
pub trait ManageConnection: Sized + Send + Sync + 'static {
    /// The type of connections.
    type Connection: Send + 'static;
    /// The error of a connection that could not be opened or is not valid.
    type Error: fmt::Debug + Send + 'static;

    /// Opens a connection. After an error the pool retries if
    /// [`Builder::retry_connection`](crate::Builder::retry_connection) is set.
    fn connect(&self) -> impl Future<Output = Result<Self::Connection, Self::Error>> + Send;

    /// Checks a connection before it is checked out, if
    /// [`Builder::test_on_check_out`](crate::Builder::test_on_check_out) is set.
    /// [`Builder::test_timeout`](crate::Builder::test_timeout) limits its time.
    ///
    /// After an error the connection is closed, and the get tries another one. If the check is cut
    /// off, because its time is over or its get is cancelled, the connection is closed, too, as
    /// nobody knows what the server will send next.
    fn is_valid(
        &self,
        conn: &mut Self::Connection,
    ) -> impl Future<Output = Result<(), Self::Error>> + Send;

    /// Returns whether a connection is known to be broken, without blocking. The pool calls it for
    /// each connection that is returned, is added or failed its check. It closes a returned
    /// connection that is broken or for which this panics, and does not add a broken one.
    fn has_broken(&self, conn: &mut Self::Connection) -> bool;
}

/// Prepares each connection that a pool opens, and inspects each that is returned.
///
/// # Examples
///
/// ```
/// use bb8::{CustomizeConnection, Pool};
/// # use std::{future::Future, pin::Pin};
/// # include!(concat!(env!("CARGO_MANIFEST_DIR"), "/tests/common/numbers.rs"));
///
/// /// Counts the uses of each connection, and keeps it for two.
/// #[derive(Debug)]
/// struct Twice;
///
/// impl<E: 'static> CustomizeConnection<u32, E> for Twice {
///     fn on_acquire<'a>(
///         &'a self,
///         uses: &'a mut u32,
///     ) -> Pin<Box<dyn Future<Output = Result<(), E>> + Send + 'a>> {
///         *uses = 0;
///         Box::pin(async { Ok(()) })
///     }
///
///     fn on_release(&self, uses: &mut u32) -> bool {
///         *uses += 1;
///         *uses < 2
///     }
/// }
///
/// # #[tokio::main] async fn main() {
/// let builder = Pool::builder().connection_customizer(Box::new(Twice));
/// let pool = builder.build(Numbers::default()).await.unwrap();
/// for idle in [1, 0] {
///     drop(pool.get().await.unwrap());
///     assert_eq!(pool.state().idle_connections, idle);
/// }
/// # }
/// ```
pub trait CustomizeConnection<C: Send + 'static, E: 'static>:
    fmt::Debug + Send + Sync + 'static
{
    /// Prepares a connection that the manager has just opened. An error counts as a failed
    /// connection attempt. By default this does nothing.
    fn on_acquire<'a>(
        &'a self,
        _connection: &'a mut C,
    ) -> Pin<Box<dyn Future<Output = Result<(), E>> + Send + 'a>> {
        Box::pin(async { Ok(()) })
    }

    /// Inspects a connection that a guard returns, and returns whether the pool keeps it. By
    /// default every connection is kept.
    ///
    /// It is called when a guard is dropped, unless [`ManageConnection::has_broken`] returned true.
    /// It should not block. It should not panic either: if the guard is dropped because its task
    /// panics, a second panic aborts the process. A connection for which it returns false or panics
    /// is closed, and counts in `connections_closed_broken`.
    fn on_release(&self, _connection: &mut C) -> bool {
        true
    }
}

/// Receives errors that no caller gets: those of failed checks and of the pool's connection
/// attempts.
pub trait ErrorSink<E>: fmt::Debug + Send + Sync + 'static {
    /// Receives an error.
    fn sink(&self, error: E);

    /// Returns a sink like this one.
    fn boxed_clone(&self) -> Box<dyn ErrorSink<E>>;
}

/// A sink that does nothing.
#[derive(Debug, Clone, Copy)]
pub struct NopErrorSink;

impl<E> ErrorSink<E> for NopErrorSink {
    fn sink(&self, _: E) {}

    fn boxed_clone(&self) -> Box<dyn ErrorSink<E>> {
        Box::new(*self)
    }
}
