//! The trait that prepares new connections.

use super::Moment;
use std::task::Poll;

/// Prepares each connection that the pool opens, dedicated ones too, after it was opened and before
/// a caller gets it. A connection passed to `add` is not prepared.
///
/// As in bb8, with three differences. `on_acquire` returns a state instead of a future, which
/// `poll_acquire` polls. Neither method has a default body (*no-default-body* in docs/TOOLCHAIN.md;
/// `NopCustomizer` has both). `Debug` is not required, because a customizer is a type parameter of
/// the pool.
///
/// Each method has a ghost member: a relation between its arguments and its result. The implementer
/// chooses it; an omitted one allows everything.
pub trait CustomizeConnection<C, E>: Send + Sync + 'static {
    /// A preparation in progress.
    type Acquiring: Send + 'static;

    /// Begins to prepare a connection, without waiting: the polls do what takes time. As in bb8,
    /// but for the state.
    fn on_acquire(&self, connection: &mut C) -> Self::Acquiring;

    /// Continues the preparation of a connection, at the moment `moment`. Returns Ok once it is
    /// done, an error if it failed, pending while it is in progress. It is not polled again after
    /// it was ready. If it failed, the connection is dropped, and the connection attempt counts as
    /// failed.
    fn poll_acquire(
        &self,
        connection: &mut C,
        acquiring: &mut Self::Acquiring,
        moment: Moment,
    ) -> Poll<Result<(), E>>;
}

/// The customizer that changes nothing and is ready at once. A pool without a customizer has it.
/// bb8 has an optional customizer instead.
#[derive(Clone, Copy, Debug)]
pub struct NopCustomizer;

impl<C, E> CustomizeConnection<C, E> for NopCustomizer {
    type Acquiring = ();

    fn on_acquire(&self, _connection: &mut C) {}

    fn poll_acquire(
        &self,
        _connection: &mut C,
        _acquiring: &mut (),
        _moment: Moment,
    ) -> Poll<Result<(), E>> {
        Poll::Ready(Ok(()))
    }
}
