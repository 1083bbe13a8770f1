//! The settings of a pool.

use crate::api::Pool;
use crate::managers::{CustomizeConnection, ErrorSink, ManageConnection, NopErrorSink};
use crate::pool::Owner;
use bb8_core::api::QueueStrategy;
use std::collections::hash_map::RandomState;
use std::hash::{BuildHasher, Hasher};
use std::time::Duration;

/// The settings of a pool, as [`Pool::config`] returns them. The setters of [`Builder`] explain
/// them.
#[derive(Clone, Debug)]
#[non_exhaustive]
pub struct Config {
    /// The maximum of connections and connection attempts, together.
    pub max_size: u32,
    /// How many idle connections the pool tries to keep.
    pub min_idle: Option<u32>,
    /// Whether a connection is checked before it is checked out.
    pub test_on_check_out: bool,
    /// The age at which a connection is closed.
    pub max_lifetime: Option<Duration>,
    /// After how long an idle connection is closed, if more than `min_idle` are idle.
    pub idle_timeout: Option<Duration>,
    /// How long a get may take, and for how long a failed connection attempt is retried.
    pub connection_timeout: Duration,
    /// Whether a failed connection attempt is retried.
    pub retry_connection: bool,
    /// How often the pool closes connections that are too old, or idle for too long.
    pub reaper_rate: Duration,
    /// The order in which idle connections are checked out.
    pub queue_strategy: QueueStrategy,
    /// How long a get waits before it is handed a connection directly.
    pub fair_after: Option<Duration>,
    /// How long one connection attempt may take. `None` leaves it to the pool.
    pub connect_timeout: Option<Duration>,
    /// How long a check may take.
    pub test_timeout: Option<Duration>,
    /// For how long a connection has to be idle until it is checked.
    pub test_on_check_out_after: Duration,
    /// The largest share of `max_lifetime` by which a connection's life is shortened at random.
    pub max_lifetime_jitter: f64,
}

impl<M: ManageConnection> From<&Builder<M>> for Config {
    fn from(builder: &Builder<M>) -> Self {
        builder.config.clone()
    }
}

/// Which connections are checked before they are checked out.
#[derive(Clone, Copy, Debug, PartialEq, Eq)]
pub(crate) enum Checks {
    /// All, by the manager or by their ages.
    All,
    Off,
    /// Those that were idle for `test_on_check_out_after`: each try and return needs the clock.
    Stale,
}

/// The longest time of a timer, 30 years: a clock may not represent the end of a longer one.
pub(crate) const LONGEST: Duration = Duration::from_secs(30 * 365 * 24 * 60 * 60);

/// Builds a pool from settings and a manager. Each setter names its default. A timeout or reaper
/// rate above 30 years counts as 30 years.
///
/// # Examples
///
/// ```
/// use bb8::{ErrorSink, Pool};
/// use std::time::Duration;
/// # include!(concat!(env!("CARGO_MANIFEST_DIR"), "/tests/common/silent.rs"));
///
/// #[derive(Clone, Debug)]
/// struct Log;
///
/// impl<E: std::fmt::Debug + 'static> ErrorSink<E> for Log {
///     fn sink(&self, error: E) {
///         eprintln!("the pool: {error:?}");
///     }
///
///     fn boxed_clone(&self) -> Box<dyn ErrorSink<E>> {
///         Box::new(self.clone())
///     }
/// }
///
/// # #[tokio::main] async fn main() {
/// // Over a server that does not accept connections, and one that does not answer checks.
/// for server in [Silent::Connect, Silent::Check] {
///     let pool = Pool::builder()
///         .name("orders")
///         .error_sink(Box::new(Log))
///         .slow_get_threshold(Duration::from_millis(100))
///         .max_lifetime_jitter(0.2) // each connection lives for 24 to 30 minutes
///         .connect_timeout(Duration::from_millis(20))
///         .test_timeout(Duration::from_millis(20))
///         .build_unchecked(server);
///     assert!(pool.get_timeout(Duration::from_millis(50)).await.is_err());
///     let counts = pool.state().statistics;
///     assert!(counts.connections_failed + counts.checks_timed_out > 0);
/// }
/// # }
/// ```
#[derive(Debug)]
#[must_use]
pub struct Builder<M: ManageConnection> {
    pub(crate) config: Config,
    pub(crate) error_sink: Box<dyn ErrorSink<M::Error>>,
    pub(crate) connection_customizer: Option<Box<dyn CustomizeConnection<M::Connection, M::Error>>>,
    pub(crate) name: Option<String>,
    #[cfg_attr(not(feature = "tracing"), allow(dead_code))]
    pub(crate) slow_get_threshold: Option<Duration>,
}

impl<M: ManageConnection> Default for Builder<M> {
    fn default() -> Self {
        const MINUTE: Duration = Duration::from_secs(60);
        Builder {
            config: Config {
                max_size: 10,
                min_idle: None,
                test_on_check_out: true,
                max_lifetime: Some(30 * MINUTE),
                idle_timeout: Some(10 * MINUTE),
                connection_timeout: MINUTE / 2,
                retry_connection: true,
                reaper_rate: MINUTE / 2,
                queue_strategy: QueueStrategy::default(),
                fair_after: None,
                connect_timeout: None,
                test_timeout: None,
                test_on_check_out_after: Duration::ZERO,
                max_lifetime_jitter: 0.0,
            },
            error_sink: Box::new(NopErrorSink),
            connection_customizer: None,
            name: None,
            slow_get_threshold: Some(Duration::from_secs(2)),
        }
    }
}

/// Returns a limit. Panics if it is zero.
#[track_caller]
fn above_zero(limit: Option<Duration>, name: &str) -> Option<Duration> {
    let is_zero = limit == Some(Duration::ZERO);
    assert!(!is_zero, "{name} must be greater than zero!");
    limit
}

/// Returns a random number from 0 to 1: the standard library seeds its hashers at random.
fn random() -> f64 {
    let bits = RandomState::new().build_hasher().finish();
    u32::try_from(bits >> 32).map_or(0.0, f64::from) / f64::from(u32::MAX)
}

impl Config {
    /// Whether connections are closed for their age, or for how long they are idle.
    pub(crate) fn has_limits(&self) -> bool {
        self.max_lifetime.is_some() || self.idle_timeout.is_some()
    }

    /// The connections that are checked before they are checked out: all if each has an end of its
    /// own.
    pub(crate) fn checks(&self) -> Checks {
        match (self.has_ends(), self.test_on_check_out) {
            (false, false) => Checks::Off,
            (false, true) if self.test_on_check_out_after > Duration::ZERO => Checks::Stale,
            _ => Checks::All,
        }
    }

    /// Whether each connection has an end of its own.
    pub(crate) fn has_ends(&self) -> bool {
        self.max_lifetime.is_some() && self.max_lifetime_jitter > 0.0
    }

    /// Returns for how long a new connection may be used, if it has an end of its own.
    pub(crate) fn life(&self) -> Option<Duration> {
        let longest = self.max_lifetime.filter(|_| self.has_ends())?;
        let cut = longest.as_secs_f64() * self.max_lifetime_jitter * random();
        // An error means more seconds than a duration has.
        Some(longest.saturating_sub(Duration::try_from_secs_f64(cut).unwrap_or_default()))
    }
}

/// Defines setters of the fields of `Config`, each with the type of its parameter, which has the
/// name of the field, and with the value of the field.
macro_rules! setters {
    ($($(#[$about:meta])* $field:ident($parameter:ty) = $value:expr;)*) => {
        impl<M: ManageConnection> Builder<M> {
            $($(#[$about])*
            pub fn $field(mut self, $field: $parameter) -> Self {
                self.config.$field = $value;
                self
            })*
        }
    };
}

setters! {
    /// Sets the maximum of connections and connection attempts, together: the number of slots. The
    /// default is 10. Panics if it is 0.
    #[doc(alias = "slot")]
    max_size(u32) = {
        assert!(max_size > 0, "max_size must be greater than zero!");
        max_size
    };

    /// Sets how many idle connections the pool tries to keep, within `max_size`. The default is
    /// none. The idle timeout spares as many.
    min_idle(impl Into<Option<u32>>) = min_idle.into();

    /// Sets whether the manager's `is_valid` checks a connection before it is checked out. The
    /// default is true.
    test_on_check_out(bool) = test_on_check_out;

    /// Sets for how long a connection has to be idle until it is checked. The default is zero, so
    /// each connection is checked. With 250 ms or 1 s, most gets of a busy pool need no request to
    /// the server. Without `test_on_check_out` it does nothing.
    ///
    /// The price: a get may return a connection that died since it was opened or returned, and each
    /// get and each return reads the clock.
    ///
    /// Exception: with [`Builder::max_lifetime_jitter`] it does nothing, and each connection is
    /// checked, so that none is checked out past its own end.
    ///
    /// # Examples
    ///
    /// ```
    /// # include!(concat!(env!("CARGO_MANIFEST_DIR"), "/tests/common/silent.rs"));
    /// # #[tokio::main] async fn main() {
    /// let builder = bb8::Pool::builder();
    /// let builder = builder.test_on_check_out_after(std::time::Duration::from_secs(60));
    /// // The connection was opened just now, so the server need not answer a check.
    /// let pool = builder.build(Silent::Check).await.unwrap();
    /// assert!(pool.get().await.is_ok());
    /// # }
    /// ```
    test_on_check_out_after(Duration) = test_on_check_out_after;

    /// Sets the age at which a connection is closed. The default is 30 minutes. An idle connection
    /// is closed by the next reap, a checked-out one when it is returned. See also
    /// [`Builder::max_lifetime_jitter`]. Panics if it is zero.
    max_lifetime(impl Into<Option<Duration>>) = above_zero(max_lifetime.into(), "max_lifetime");

    /// Sets the largest share of `max_lifetime` by which each connection's life is shortened at
    /// random. The default is 0. With 0.2 and 30 minutes connections live for 24 to 30 minutes, so
    /// those that were opened together are not all replaced together. Without a `max_lifetime` it
    /// does nothing. Panics if it is below 0 or above 1.
    ///
    /// The reaper closes each idle connection at its own end. One past its end is also closed when
    /// its guard is dropped, or when a get takes it out: [`Statistics`](crate::Statistics) counts
    /// these apart. Each get and each return reads the clock once more.
    max_lifetime_jitter(f64) = {
        let is_share = (0.0..=1.0).contains(&max_lifetime_jitter);
        assert!(is_share, "max_lifetime_jitter must be from 0 to 1!");
        max_lifetime_jitter
    };

    /// Sets how long a connection may be idle: the next reap after that closes it. The default is
    /// 10 minutes. `min_idle` idle connections are kept. Panics if it is zero.
    idle_timeout(impl Into<Option<Duration>>) = above_zero(idle_timeout.into(), "idle_timeout");

    /// Sets how long a get may take, and for how long a failed connection attempt is retried. It is
    /// the default of [`Builder::connect_timeout`], too. The default is 30 seconds. Panics if it is
    /// zero.
    connection_timeout(Duration) = {
        let has_time = connection_timeout > Duration::ZERO;
        assert!(has_time, "connection_timeout must be non-zero");
        connection_timeout
    };

    /// Sets how long one connection attempt may take. An attempt that takes longer is dropped,
    /// counts as failed, and is retried as any failed one ([`Builder::retry_connection`]). So a
    /// server that accepts connections and never replies does not hold the slots of the pool.
    /// Panics if it is zero.
    ///
    /// By default an attempt may take as long as `connection_timeout`. After one that was dropped
    /// the next may take twice as long, up to 30 seconds, until a connection is opened within
    /// `connection_timeout`. So a server that takes longer than a get may wait is reached, too.
    ///
    /// Exceptions: [`Builder::build`] waits for its first connections without this limit, as it has
    /// no error for it; and [`Pool::dedicated_connection`] has none.
    connect_timeout(impl Into<Option<Duration>>) =
        above_zero(connect_timeout.into(), "connect_timeout");

    /// Sets how long a check may take. By default only its get's time limits it. One that takes
    /// longer counts as failed: its connection is closed, and the get goes on with the next one.
    /// Panics if it is zero.
    ///
    /// Set it to some hundred milliseconds if connections may die without a reset, as in a
    /// failover. Without it, a get whose check hangs times out.
    test_timeout(impl Into<Option<Duration>>) = above_zero(test_timeout.into(), "test_timeout");

    /// Sets whether a failed connection attempt is retried until `connection_timeout` has passed.
    /// The default is true. The pauses are 0.4 s, 0.8 s, 1.6 s and so on, at most half the
    /// `connection_timeout`.
    ///
    /// Exception: as long as a get waits for it, an attempt is retried even after that time, even
    /// if this is false, and even if the manager panicked. So a get that outlives an outage is
    /// served.
    retry_connection(bool) = retry_connection;

    /// Sets how often the pool closes connections that are too old, or idle for too long. The
    /// default is every 30 seconds. A pool without these limits has no reaper. The reaper ends with
    /// the runtime in which the pool was built. At zero, building a pool with a reaper panics.
    reaper_rate(Duration) = reaper_rate;

    /// Sets which idle connection is checked out first. The default is `Fifo`, which uses all
    /// evenly. With `Lifo`, those that are rarely needed may reach their idle timeout.
    queue_strategy(QueueStrategy) = queue_strategy;

    /// Sets how long a get waits before it is handed a connection directly, which prevents
    /// starvation. By default this never happens. A millisecond is a good choice.
    ///
    /// By default a returned connection becomes idle, and the longest waiter is woken. A get that
    /// asks before the woken task runs takes the connection, and the woken get goes to the back of
    /// the queue. So a get may time out while a few tasks are served again and again. With this
    /// setting, a get that has waited long enough is handed the connection when it is returned, and
    /// no other get can take it.
    ///
    /// At zero, gets are served in the order of the queue. Exception: if a connection is closed
    /// instead of returned, the get that requests its replacement goes to the back. A returned
    /// connection is unused until the woken task runs. If connections are held for microseconds,
    /// that costs a third to more than half of the throughput. A millisecond costs up to an eighth
    /// if they are held for one yield, and up to a fifth if tasks compute for milliseconds without
    /// an await; otherwise next to nothing.
    ///
    /// A future that was handed a connection has to be polled or dropped. If it is kept without
    /// being polled, it keeps the connection, even from the task that owns it:
    ///
    /// ```
    /// # use std::time::Duration;
    /// # include!(concat!(env!("CARGO_MANIFEST_DIR"), "/tests/common/numbers.rs"));
    /// # #[tokio::main(flavor = "current_thread")] async fn main() {
    /// let builder = bb8::Pool::builder().max_size(1).fair_after(Duration::ZERO);
    /// let pool = builder.build(Numbers::default()).await.unwrap();
    /// let conn = pool.get().await.unwrap();
    /// let mut kept = Box::pin(pool.get());
    /// assert!(futures_util::poll!(&mut kept).is_pending());
    /// drop(conn); // it is handed to `kept`
    /// assert!(pool.get_timeout(Duration::from_millis(50)).await.is_err());
    /// assert!(kept.await.is_ok());
    /// # }
    /// ```
    #[doc(alias("queue", "starvation"))]
    fair_after(impl Into<Option<Duration>>) = fair_after.into();
}

impl<M: ManageConnection> Builder<M> {
    /// Returns a builder with the default settings.
    pub fn new() -> Self {
        Builder::default()
    }

    /// Sets the sink for errors that no caller sees. By default they are ignored.
    pub fn error_sink(mut self, error_sink: Box<dyn ErrorSink<M::Error>>) -> Self {
        self.error_sink = error_sink;
        self
    }

    /// Sets the customizer, which prepares each opened connection and inspects each returned one.
    /// By default there is none.
    pub fn connection_customizer(
        mut self,
        connection_customizer: Box<dyn CustomizeConnection<M::Connection, M::Error>>,
    ) -> Self {
        self.connection_customizer = Some(connection_customizer);
        self
    }

    /// Sets the name of the pool in its `Debug` output, and in its events if the cargo feature
    /// `tracing` is on. By default it has none, and events call it `bb8`.
    pub fn name(mut self, name: impl Into<String>) -> Self {
        self.name = Some(name.into());
        self
    }

    /// Sets the time above which a `get` that waited or checked is reported by `tracing`, with the
    /// pool's state, once it is served. Timed-out and cancelled gets are not reported. The default
    /// is two seconds. Without the cargo feature `tracing` it does nothing.
    pub fn slow_get_threshold(mut self, threshold: impl Into<Option<Duration>>) -> Self {
        self.slow_get_threshold = threshold.into();
        self
    }

    #[track_caller]
    fn make(mut self, manager: M) -> Pool<M> {
        let config = &mut self.config;
        let limits = [&mut config.connect_timeout, &mut config.test_timeout];
        let spans = [&mut config.connection_timeout, &mut config.reaper_rate];
        for span in limits.into_iter().flatten().chain(spans) {
            *span = LONGEST.min(*span);
        }
        assert!(
            config.min_idle.unwrap_or(0) <= config.max_size,
            "min_idle must be no larger than max_size"
        );
        assert!(
            !config.has_limits() || config.reaper_rate > Duration::ZERO,
            "reaper_rate must be greater than zero!"
        );
        Pool {
            owner: Owner::new(self, manager),
        }
    }

    /// Builds the pool, and waits until `min_idle` connections are open. If memory for some of them
    /// is refused, they are opened later.
    ///
    /// # Errors
    ///
    /// The last error of the first connection attempt that failed. No pool is built then.
    ///
    /// # Panics
    ///
    /// If `min_idle` is above `max_size`. With a `max_lifetime` or an `idle_timeout` (by default
    /// there are both), also if `reaper_rate` is zero, or if this is called outside of a tokio
    /// runtime or in one without timers.
    pub async fn build(self, manager: M) -> Result<Pool<M>, M::Error> {
        let pool = self.make(manager);
        pool.shared().start().await?;
        Ok(pool)
    }

    /// Builds the pool without waiting. Its first connections are opened in the background.
    ///
    /// # Panics
    ///
    /// As [`build`](Self::build).
    pub fn build_unchecked(self, manager: M) -> Pool<M> {
        let pool = self.make(manager);
        pool.shared().fill();
        pool
    }
}
