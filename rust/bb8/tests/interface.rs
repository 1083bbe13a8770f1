//! The interface of bb8 0.9.1 as its users meet it: each signature, the settings where none is
//! said, what is printed, and what panics.

use bb8::{
    AddError, Builder, CustomizeConnection, ErrorSink, ManageConnection, Pool, PooledConnection,
    QueueStrategy, RunError, State, Statistics,
};
use futures_util::FutureExt;
use std::fmt;
use std::future::Future;
use std::io;
use std::panic::catch_unwind;
use std::pin::Pin;
use std::time::Duration;

#[derive(Debug)]
struct Numbers;

impl ManageConnection for Numbers {
    type Connection = u64;
    type Error = io::Error;

    async fn connect(&self) -> io::Result<u64> {
        Ok(1)
    }

    async fn is_valid(&self, _: &mut u64) -> io::Result<()> {
        Ok(())
    }

    fn has_broken(&self, _: &mut u64) -> bool {
        false
    }
}

/// Each call of a pool and of its builder by its type. It compiles or it does not.
#[allow(dead_code, clippy::type_complexity)]
mod signatures {
    use super::*;

    type Boxed<'a, T> = Pin<Box<dyn Future<Output = T> + Send + 'a>>;
    type Got<'a, M> = Result<PooledConnection<'a, M>, RunError<<M as ManageConnection>::Error>>;

    fn builder<M: ManageConnection>() {
        let _: fn() -> Builder<M> = Builder::new;
        let _: fn() -> Builder<M> = Default::default;
        let _: fn(Builder<M>, u32) -> Builder<M> = Builder::max_size;
        let _: fn(Builder<M>, Option<u32>) -> Builder<M> = Builder::min_idle;
        let _: fn(Builder<M>, u32) -> Builder<M> = Builder::min_idle;
        let _: fn(Builder<M>, bool) -> Builder<M> = Builder::test_on_check_out;
        let _: fn(Builder<M>, Option<Duration>) -> Builder<M> = Builder::max_lifetime;
        let _: fn(Builder<M>, Duration) -> Builder<M> = Builder::max_lifetime;
        let _: fn(Builder<M>, Option<Duration>) -> Builder<M> = Builder::idle_timeout;
        let _: fn(Builder<M>, Duration) -> Builder<M> = Builder::idle_timeout;
        let _: fn(Builder<M>, Duration) -> Builder<M> = Builder::connection_timeout;
        let _: fn(Builder<M>, bool) -> Builder<M> = Builder::retry_connection;
        let _: fn(Builder<M>, Box<dyn ErrorSink<M::Error>>) -> Builder<M> = Builder::error_sink;
        let _: fn(Builder<M>, Duration) -> Builder<M> = Builder::reaper_rate;
        let _: fn(Builder<M>, QueueStrategy) -> Builder<M> = Builder::queue_strategy;
        let _: fn(Builder<M>, Box<dyn CustomizeConnection<M::Connection, M::Error>>) -> Builder<M> =
            Builder::connection_customizer;
        let _: fn(Builder<M>, M) -> Pool<M> = Builder::build_unchecked;
    }

    fn pool<M: ManageConnection>() {
        let _: fn() -> Builder<M> = Pool::builder;
        let _: fn(&Pool<M>) -> State = Pool::state;
        let _: fn(&Pool<M>, M::Connection) -> Result<(), AddError<M::Connection>> = Pool::add;
        let _: fn(&Statistics) -> u64 = Statistics::pending_gets;
        let _: fn(&Statistics) -> u64 = Statistics::completed_gets;
    }

    fn build<M: ManageConnection>(
        builder: Builder<M>,
        manager: M,
    ) -> Boxed<'static, Result<Pool<M>, M::Error>> {
        Box::pin(builder.build(manager))
    }

    fn get<M: ManageConnection>(pool: &Pool<M>) -> Boxed<'_, Got<'_, M>> {
        Box::pin(pool.get())
    }

    fn get_owned<M: ManageConnection>(pool: &Pool<M>) -> Boxed<'_, Got<'static, M>> {
        Box::pin(pool.get_owned())
    }

    fn dedicated<M: ManageConnection>(
        pool: &Pool<M>,
    ) -> Boxed<'_, Result<M::Connection, M::Error>> {
        Box::pin(pool.dedicated_connection())
    }

    fn shorter<'a, 'b: 'a, M: ManageConnection>(
        guard: PooledConnection<'b, M>,
    ) -> PooledConnection<'a, M> {
        guard
    }

    async fn question_mark(
        pool: &Pool<Numbers>,
    ) -> Result<u64, Box<dyn std::error::Error + Send + Sync>> {
        Ok(*pool.get().await?)
    }
}

#[tokio::test]
async fn default_settings_are_those_of_bb8() {
    let pool = Builder::new().build_unchecked(Numbers);
    let printed = "Config { max_size: 10, min_idle: None, test_on_check_out: true, \
                   max_lifetime: Some(1800s), idle_timeout: Some(600s), connection_timeout: 30s, \
                   retry_connection: true, reaper_rate: 30s, queue_strategy: Fifo";
    let config = format!("{:?}", pool.config());
    assert!(config.starts_with(printed), "{config}");
}

#[test]
fn errors_print_as_in_bb8() {
    let missing = io::Error::from_raw_os_error(2);
    for (error, text) in [
        (RunError::TimedOut, "Timed out in bb8"),
        (
            RunError::User(missing),
            "No such file or directory (os error 2)",
        ),
    ] {
        assert_eq!(error.to_string(), text);
    }
    assert_eq!(format!("{:?}", RunError::User(3)), "User(3)");
    let added = AddError::NoCapacity(fmt::Error);
    let text = "Unable to add the connection to the pool due to insufficient capacity";
    assert_eq!(added.to_string(), text);
    assert_eq!(format!("{:?}", AddError::Broken(3)), "Broken(3)");
}

/// The text with which it panics; none where it does not.
fn panics(with: fn()) -> Option<String> {
    let told = catch_unwind(with).err()?;
    let owned = told.downcast_ref::<String>().cloned();
    owned.or_else(|| told.downcast_ref::<&str>().map(ToString::to_string))
}

#[test]
fn own_errors_name_their_causes() {
    for (error, text) in [
        (RunError::Memory, "No memory in bb8"),
        (RunError::Exhausted, "Numbers used up in bb8"),
        (RunError::Closed, "Pool closed in bb8"),
    ] {
        assert_eq!(RunError::<io::Error>::to_string(&error), text);
    }
}

#[test]
fn invalid_settings_panic_as_in_bb8() {
    let cases: [(fn(), &str); 6] = [
        (
            || drop(Builder::<Numbers>::new().max_size(0)),
            "max_size must be greater than zero!",
        ),
        (
            || drop(Builder::<Numbers>::new().max_lifetime(Duration::ZERO)),
            "max_lifetime must be greater than zero!",
        ),
        (
            || drop(Builder::<Numbers>::new().idle_timeout(Duration::ZERO)),
            "idle_timeout must be greater than zero!",
        ),
        (
            || drop(Builder::<Numbers>::new().connection_timeout(Duration::ZERO)),
            "connection_timeout must be non-zero",
        ),
        (
            || {
                drop(
                    Builder::new()
                        .max_size(1)
                        .min_idle(2)
                        .build_unchecked(Numbers),
                )
            },
            "min_idle must be no larger than max_size",
        ),
        (
            || drop(Builder::new().build_unchecked(Numbers)),
            "there is no reactor running",
        ),
    ];
    for (case, text) in cases {
        let told = panics(case);
        assert!(
            told.as_ref().is_some_and(|told| told.contains(text)),
            "{text}: {told:?}"
        );
    }
}

#[test]
fn panics_name_the_invalid_setting() {
    let jitter = "max_lifetime_jitter must be from 0 to 1!";
    let cases: [(fn(), &str); 6] = [
        (
            || drop(Builder::<Numbers>::new().connect_timeout(Duration::ZERO)),
            "connect_timeout must be greater than zero!",
        ),
        (
            || drop(Builder::<Numbers>::new().test_timeout(Duration::ZERO)),
            "test_timeout must be greater than zero!",
        ),
        (
            || {
                let builder = Builder::new().reaper_rate(Duration::ZERO);
                drop(builder.build_unchecked(Numbers));
            },
            "reaper_rate must be greater than zero!",
        ),
        (
            || drop(Builder::<Numbers>::new().max_lifetime_jitter(-0.1)),
            jitter,
        ),
        (
            || drop(Builder::<Numbers>::new().max_lifetime_jitter(1.1)),
            jitter,
        ),
        (
            || drop(Builder::<Numbers>::new().max_lifetime_jitter(f64::NAN)),
            jitter,
        ),
    ];
    for (case, text) in cases {
        assert_eq!(panics(case).as_deref(), Some(text));
    }
}

/// Without a limit there is no reaper.
#[tokio::test]
async fn a_pool_without_limits_takes_any_reaper_rate() {
    let builder = Pool::builder().max_lifetime(None).idle_timeout(None);
    let pool = builder.reaper_rate(Duration::ZERO).build(Numbers).await;
    assert!(pool.unwrap().get().await.is_ok());
}

#[tokio::test]
async fn the_longest_reaper_rate_is_accepted() {
    let builder = Pool::builder().reaper_rate(Duration::MAX);
    let pool = builder.build(Numbers).await.unwrap();
    assert!(pool.get().await.is_ok());
}

#[tokio::test]
async fn a_pool_prints_its_name_its_state_and_its_settings() {
    let builder = Pool::builder().name("orders").max_size(7).min_idle(2);
    let pool = builder
        .max_lifetime_jitter(0.5)
        .build(Numbers)
        .await
        .unwrap();
    let printed = format!("{pool:?}");
    let state =
        "Pool { name: Some(\"orders\"), state: State { connections: 2, idle_connections: 2, \
                 pending_connections: 0, statistics: Statistics { get_started: 0,";
    assert!(printed.starts_with(state), "{printed}");
    for part in [
        "}, config: Config { max_size: 7, min_idle: Some(2),",
        "max_lifetime_jitter: 0.5",
    ] {
        assert!(printed.contains(part), "{printed}");
    }
    assert!(!printed.contains("0x"), "{printed}");
}

/// The longest lifetime with the greatest jitter is a lifetime.
#[tokio::test]
async fn the_longest_lifetime_is_shortened() {
    let builder = Pool::builder().max_lifetime(Duration::MAX);
    let pool = builder
        .max_lifetime_jitter(1.0)
        .build(Numbers)
        .await
        .unwrap();
    assert_eq!(*pool.get().await.unwrap(), 1);
}

/// Durations that no clock reaches are as no limit.
#[tokio::test]
async fn the_longest_spans_are_no_limit() {
    for longest in [Duration::MAX, Duration::from_millis(u64::MAX)] {
        let builder = Pool::builder().max_size(1).max_lifetime(longest);
        let limits = builder.idle_timeout(longest).connection_timeout(longest);
        let limits = limits.connect_timeout(longest).test_timeout(longest);
        let pool = limits.build_unchecked(Numbers);
        let first = pool.get().await.unwrap();
        let mut waiting = Box::pin(pool.get());
        assert!((&mut waiting).now_or_never().is_none());
        drop(first);
        assert_eq!(*waiting.await.unwrap(), 1);
    }
}
