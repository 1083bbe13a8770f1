//! The traits of the public types: those of bb8 0.9.1, asserted by the compiler. That bb8 lacks the
//! others (statistics that compare and copy, `AddError` that prints) is not asserted.

use bb8::{
    AddError, Builder, CustomizeConnection, ErrorSink, ManageConnection, NopErrorSink, Pool,
    PooledConnection, QueueStrategy, RunError, State, Statistics,
};
use std::any::Any;
use std::cell::Cell;
use std::convert::Infallible;
use std::error::Error;
use std::fmt::{Debug, Display};
use std::io;
use std::marker::PhantomPinned;
use std::panic::{RefUnwindSafe, UnwindSafe};

/// Whether a type has a trait.
macro_rules! has {
    ($type:ty: $trait:path) => {{
        #[allow(dead_code)]
        trait Otherwise {
            const HAS: bool = false;
        }
        impl<T: ?Sized> Otherwise for T {}
        #[allow(dead_code)]
        struct Asked<T: ?Sized>(std::marker::PhantomData<T>);
        #[allow(dead_code)]
        impl<T: ?Sized + $trait> Asked<T> {
            const HAS: bool = true;
        }
        <Asked<$type>>::HAS
    }};
}

/// Asserts which traits a type has, and which it has not.
macro_rules! traits {
    ($type:ty: $($trait:path),*; not $($other:path),*) => {
        $(const _: () = assert!(has!($type: $trait), concat!(stringify!($type), ": ", stringify!($trait)));)*
        $(const _: () = assert!(!has!($type: $other), concat!(stringify!($type), ": not ", stringify!($other)));)*
    };
}

/// A manager of connections of a type.
macro_rules! manager {
    ($name:ident, $connection:ty, $error:ty, $new:expr) => {
        #[derive(Debug)]
        struct $name;

        impl ManageConnection for $name {
            type Connection = $connection;
            type Error = $error;

            async fn connect(&self) -> Result<$connection, $error> {
                Ok($new)
            }

            async fn is_valid(&self, _: &mut $connection) -> Result<(), $error> {
                Ok(())
            }

            fn has_broken(&self, _: &mut $connection) -> bool {
                false
            }
        }
    };
}

manager!(Plain, u64, io::Error, 1);
manager!(NotSync, Cell<u64>, String, Cell::new(1));
manager!(Dynamic, Box<dyn Any + Send>, Infallible, Box::new(1));
manager!(Pinned, (u64, PhantomPinned), io::Error, (1, PhantomPinned));

// A pool and its builder, whatever the connections are.
traits!(Pool<Plain>: Send, Sync, Unpin, Debug, Clone; not UnwindSafe, RefUnwindSafe);
traits!(Pool<NotSync>: Send, Sync, Unpin, Debug, Clone; not UnwindSafe, RefUnwindSafe);
traits!(Pool<Dynamic>: Send, Sync, Unpin, Debug, Clone; not UnwindSafe, RefUnwindSafe);
traits!(Pool<Pinned>: Send, Sync, Unpin, Debug, Clone; not UnwindSafe, RefUnwindSafe);
traits!(Builder<Plain>: Send, Sync, Unpin, Debug, Default; not UnwindSafe, RefUnwindSafe, Clone);
traits!(Builder<NotSync>: Send, Sync, Unpin, Debug, Default; not UnwindSafe, RefUnwindSafe, Clone);

// A guard is as its connection is.
traits!(PooledConnection<'static, Plain>: Send, Sync, Unpin, Debug; not UnwindSafe, RefUnwindSafe, Clone);
traits!(PooledConnection<'static, NotSync>: Send, Unpin, Debug; not Sync, UnwindSafe, RefUnwindSafe, Clone);
traits!(PooledConnection<'static, Dynamic>: Send, Unpin, Debug; not Sync, UnwindSafe, RefUnwindSafe, Clone);
traits!(PooledConnection<'static, Pinned>: Send, Sync, Debug; not Unpin, UnwindSafe, RefUnwindSafe, Clone);

// Figures, settings and errors are plain data.
traits!(State: Send, Sync, Unpin, UnwindSafe, RefUnwindSafe, Debug; not Copy, Display);
traits!(Statistics: Send, Sync, Unpin, UnwindSafe, RefUnwindSafe, Debug, Default; not Copy, Display);
traits!(QueueStrategy: Send, Sync, Unpin, UnwindSafe, RefUnwindSafe, Debug, Clone, Copy, Default; not Display);
traits!(NopErrorSink: Send, Sync, Unpin, UnwindSafe, RefUnwindSafe, Debug, Clone, Copy; not Display);
traits!(RunError<io::Error>: Send, Sync, Unpin, Debug, Display, Error; not UnwindSafe, RefUnwindSafe, Clone);
traits!(RunError<String>: Send, Sync, Unpin, UnwindSafe, RefUnwindSafe, Debug, Clone, PartialEq, Eq; not Error);
traits!(AddError<u64>: Send, Sync, Unpin, UnwindSafe, RefUnwindSafe, Debug, Clone, PartialEq, Eq; not Copy);
traits!(AddError<Cell<u64>>: Send, Unpin, UnwindSafe, Debug, Clone, PartialEq, Eq; not Sync, RefUnwindSafe);
traits!(AddError<io::Error>: Send, Sync, Unpin, Debug, Display, Error; not UnwindSafe, RefUnwindSafe, Clone);
traits!(Box<dyn ErrorSink<u8>>: Send, Sync, Unpin, Debug; not UnwindSafe, RefUnwindSafe);
traits!(Box<dyn CustomizeConnection<u8, u8>>: Send, Sync, Unpin, Debug; not UnwindSafe, RefUnwindSafe);

fn is_send<T: Send>(_: T) {}

fn is_sync<T: Sync>(_: T) {}

/// The futures go to other threads, and to others' sight as the original's do.
#[tokio::test]
async fn futures_are_send() {
    let pool = Pool::builder().build_unchecked(Plain);
    is_send(pool.get());
    is_sync(pool.get());
    is_send(pool.get_owned());
    is_sync(pool.get_owned());
    is_send(pool.dedicated_connection());
    is_send(Pool::builder().build(Plain));
    is_send(Pool::builder().build_unchecked(NotSync).get());
}
