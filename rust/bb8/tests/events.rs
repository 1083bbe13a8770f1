//! The events that a pool reports by `tracing`.

use bb8::{CustomizeConnection, ManageConnection, Pool, PooledConnection};
use std::fmt::{Debug, Write};
use std::panic::{catch_unwind, AssertUnwindSafe};
use std::sync::atomic::{AtomicU32, Ordering::SeqCst};
use std::sync::{Arc, Mutex};
use std::thread::spawn;
use std::time::Duration;
use tokio::runtime;
use tokio::time::{advance, sleep, timeout};
use tracing::field::{Field, Visit};
use tracing::span::{Attributes, Id, Record};
use tracing::{Event, Metadata, Subscriber};

/// Keeps all events, each as its level and its fields. Those of a pool called `panics` panic.
#[derive(Clone, Default)]
struct Log(Arc<Mutex<Vec<String>>>);

struct Line(String);

impl Visit for Line {
    fn record_debug(&mut self, field: &Field, value: &dyn Debug) {
        write!(self.0, " {}={value:?}", field.name()).unwrap();
    }
}

impl Subscriber for Log {
    fn enabled(&self, metadata: &Metadata<'_>) -> bool {
        metadata.target().starts_with("bb8")
    }

    fn new_span(&self, _: &Attributes<'_>) -> Id {
        Id::from_u64(1)
    }

    fn record(&self, _: &Id, _: &Record<'_>) {}

    fn record_follows_from(&self, _: &Id, _: &Id) {}

    fn event(&self, event: &Event<'_>) {
        let mut line = Line(event.metadata().level().to_string());
        event.record(&mut line);
        assert!(!line.0.contains("pool=\"panics\""), "{}", line.0);
        self.0.lock().unwrap().push(line.0);
    }

    fn enter(&self, _: &Id) {}

    fn exit(&self, _: &Id) {}
}

impl Log {
    fn take(&self) -> Vec<String> {
        std::mem::take(&mut self.0.lock().unwrap())
    }
}

#[derive(Debug)]
struct Refused;

/// So many attempts, checks and returns fail next.
#[derive(Default)]
struct Faults {
    attempts: AtomicU32,
    checks: AtomicU32,
    broken: AtomicU32,
    /// How long each check takes, in seconds.
    check_takes: AtomicU32,
}

fn fails(left: &AtomicU32) -> bool {
    let less = |left: u32| left.checked_sub(1);
    left.fetch_update(SeqCst, SeqCst, less).is_ok()
}

struct Manager(Arc<Faults>);

impl ManageConnection for Manager {
    type Connection = ();
    type Error = Refused;

    async fn connect(&self) -> Result<(), Refused> {
        if fails(&self.0.attempts) {
            return Err(Refused);
        }
        Ok(())
    }

    async fn is_valid(&self, _: &mut ()) -> Result<(), Refused> {
        let takes = self.0.check_takes.load(SeqCst);
        if takes > 0 {
            sleep(Duration::from_secs(takes.into())).await;
        }
        if fails(&self.0.checks) {
            return Err(Refused);
        }
        Ok(())
    }

    fn has_broken(&self, _: &mut ()) -> bool {
        fails(&self.0.broken)
    }
}

#[tokio::test(start_paused = true)]
async fn each_failure_and_each_closing_is_reported_with_its_cause() {
    let log = Log::default();
    let _subscribed = tracing::subscriber::set_default(log.clone());
    let faults: Arc<Faults> = Arc::default();
    let pool = Pool::builder()
        .name("orders")
        .max_size(1)
        .idle_timeout(Duration::from_secs(60))
        .reaper_rate(Duration::from_secs(1))
        .build(Manager(faults.clone()))
        .await
        .unwrap();

    faults.attempts.store(1, SeqCst);
    drop(pool.get().await.unwrap());
    assert_eq!(
        log.take(),
        [
            r#"WARN message=connection attempt failed pool="orders" error=Refused"#,
            r#"DEBUG message=connection opened pool="orders""#,
        ]
    );

    faults.checks.store(1, SeqCst);
    advance(Duration::from_secs(5)).await;
    drop(pool.get().await.unwrap());
    assert_eq!(
        log.take(),
        [
            r#"WARN message=check of a connection failed pool="orders" error=Refused"#,
            r#"DEBUG message=connection closed pool="orders" reason="its check failed" age=5s"#,
            r#"DEBUG message=connection opened pool="orders""#,
        ]
    );

    faults.broken.store(1, SeqCst);
    drop(pool.get().await.unwrap());
    assert_eq!(
        log.take(),
        [r#"WARN message=broken connection closed pool="orders" age=0ns"#]
    );

    drop(pool.get().await.unwrap());
    sleep(Duration::from_secs(65)).await;
    let lines = log.take();
    assert!(lines[1].contains(r#"reason="idle_timeout""#), "{lines:?}");
}

/// Keeps no connection.
#[derive(Debug)]
struct Once;

impl CustomizeConnection<(), Refused> for Once {
    fn on_release(&self, (): &mut ()) -> bool {
        false
    }
}

#[tokio::test(start_paused = true)]
async fn a_connection_closed_by_the_customizer_or_by_its_own_end_is_reported_as_such() {
    let log = Log::default();
    let _subscribed = tracing::subscriber::set_default(log.clone());
    let second = Duration::from_secs(1);
    let reason = r#"DEBUG message=connection closed pool="bb8" reason="#;
    // Each end is past with a probability of 0.99, so one of eight is.
    let builder = || Pool::builder().min_idle(8).max_size(8).idle_timeout(None);
    let aging = builder()
        .max_lifetime(100 * second)
        .max_lifetime_jitter(1.0);
    let pool = aging.build(Manager(Arc::default())).await.unwrap();
    let mut all = Vec::new();
    for _ in 0..8 {
        all.push(pool.get().await.unwrap());
    }
    log.take();
    sleep(99 * second).await;
    drop(all);
    let lines = log.take();
    assert!(
        lines.contains(&format!("{reason}\"max_lifetime\" age=99s")),
        "{lines:?}"
    );

    // The same at a check-out, in a pool whose reaper has ended with the runtime that built it.
    let aging = builder()
        .max_lifetime(100 * second)
        .max_lifetime_jitter(1.0);
    let build = move || {
        let runtime = runtime::Builder::new_current_thread().enable_time().build();
        let pool = aging.build(Manager(Arc::default()));
        runtime.unwrap().block_on(pool).unwrap()
    };
    let pool = spawn(build).join().unwrap();
    sleep(99 * second).await;
    drop(pool.get().await.unwrap());
    let lines = log.take();
    let reported = format!("{reason}\"max_lifetime\"");
    assert!(
        lines.iter().any(|it| it.starts_with(&reported)),
        "{lines:?}"
    );

    let picky = builder().connection_customizer(Box::new(Once));
    let pool = picky.build(Manager(Arc::default())).await.unwrap();
    log.take();
    drop(pool.get().await.unwrap());
    let lines = log.take();
    assert_eq!(
        lines,
        [format!("{reason}\"on_release returned false\" age=0ns")]
    );
}

#[tokio::test(start_paused = true)]
async fn connections_that_are_retired_detached_or_of_a_closed_pool_are_reported_as_such() {
    let log = Log::default();
    let _subscribed = tracing::subscriber::set_default(log.clone());
    let manager = || Manager(Arc::default());
    let pool = Pool::builder().max_size(2).build(manager()).await.unwrap();
    let two = || async { (pool.get().await.unwrap(), pool.get().await.unwrap()) };
    let closed = |reason| {
        let line = r#"DEBUG message=connection closed pool="bb8" reason="#;
        format!("{line}\"{reason}\" age=0ns")
    };

    let (held, idle) = two().await;
    drop(idle);
    log.take();
    pool.retire();
    drop(held);
    assert_eq!(log.take(), [closed("retired"), closed("retired")]);

    // As in the statistics, it does not count that the connection has reached its `max_lifetime`.
    let held = pool.get().await.unwrap();
    pool.retire();
    log.take();
    advance(Duration::from_secs(1800)).await;
    drop(held);
    let aged = closed("retired").replace("age=0ns", "age=1800s");
    assert_eq!(log.take(), [aged]);
    assert_eq!(pool.state().statistics.connections_closed_retired, 3);

    PooledConnection::detach(pool.get().await.unwrap());
    let lines = log.take();
    let line = r#"DEBUG message=connection detached pool="bb8" age=0ns"#;
    assert_eq!(lines[1], line);

    let (held, idle) = two().await;
    drop(idle);
    log.take();
    pool.close_now();
    drop(held);
    let reason = "the pool is closed";
    assert_eq!(log.take(), [closed(reason), closed(reason)]);
}

#[tokio::test(start_paused = true)]
async fn a_slow_get_is_reported_with_the_state_of_the_pool() {
    let log = Log::default();
    let _subscribed = tracing::subscriber::set_default(log.clone());
    let builder = Pool::builder().max_size(1).min_idle(1);
    let pool = builder.build(Manager(Arc::default())).await.unwrap();
    for (held, is_slow) in [(1, false), (3, true)] {
        let conn = pool.get().await.unwrap();
        let get = async { drop(pool.get().await.unwrap()) };
        let hold = async {
            sleep(Duration::from_secs(held)).await;
            drop(conn);
        };
        log.take();
        tokio::join!(get, hold);
        let lines = log.take();
        assert_eq!(lines.len(), usize::from(is_slow), "{lines:?}");
        if is_slow {
            assert!(lines[0].starts_with("WARN message=get was slow pool=\"bb8\" took=3"));
            assert!(lines[0].contains("get_waited: 2"), "{lines:?}");
        }
    }
}

#[tokio::test(start_paused = true)]
async fn a_subscriber_that_panics_leaks_no_slot() {
    let _subscribed = tracing::subscriber::set_default(Log::default());
    let second = Duration::from_secs(1);
    let builder = Pool::builder().name("panics").connection_timeout(second);
    let pool = builder.max_size(1).build_unchecked(Manager(Arc::default()));
    assert!(pool.get().await.is_err());
    sleep(second).await;
    let state = pool.state();
    assert_eq!((state.connections, state.pending_connections), (0, 0));
    assert!(state.statistics.connections_failed > 0);
    assert!(pool.add(()).is_ok());
    assert!(catch_unwind(AssertUnwindSafe(|| pool.retire())).is_err());
    assert!(timeout(second, pool.close()).await.is_ok());
}

#[tokio::test(start_paused = true)]
async fn a_subscriber_that_panics_at_a_slow_get_leaks_no_slot() {
    for check in [true, false] {
        let builder = Pool::builder().name("panics").test_on_check_out(check);
        let pool = builder.max_size(1).build(Manager(Arc::default())).await;
        let pool = pool.unwrap();
        pool.add(()).unwrap();
        let conn = pool.get().await.unwrap();
        let _subscribed = tracing::subscriber::set_default(Log::default());
        let gets = pool.clone();
        let get = tokio::spawn(async move { gets.get().await.is_ok() });
        sleep(Duration::from_secs(5)).await;
        drop(conn);
        assert!(get.await.is_err());
        assert!(pool.try_get().await.unwrap().is_some(), "{pool:?}");
    }
}

#[tokio::test(start_paused = true)]
async fn a_connection_closed_for_its_age_is_reported_as_such() {
    let log = Log::default();
    let _subscribed = tracing::subscriber::set_default(log.clone());
    let second = Duration::from_secs(1);
    let faults: Arc<Faults> = Arc::default();
    let builder = || Pool::builder().max_lifetime(10 * second).idle_timeout(None);
    let pool = builder().build(Manager(faults.clone())).await.unwrap();
    let conn = pool.get().await.unwrap();
    advance(20 * second).await;
    log.take();
    drop(conn);
    let line = r#"DEBUG message=connection closed pool="bb8" reason="max_lifetime" age=20s"#;
    assert_eq!(log.take(), [line]);
    // The next one is retired during its check, which fails, and counts as retired. That is not the
    // reason of one after it.
    drop(pool.get().await.unwrap());
    faults.checks.store(1, SeqCst);
    faults.check_takes.store(1, SeqCst);
    let gets = pool.clone();
    let get = tokio::spawn(async move { gets.get_owned().await.unwrap() });
    sleep(second / 2).await;
    pool.retire();
    let conn = get.await.unwrap();
    assert_eq!(pool.state().statistics.connections_closed_retired, 1);
    advance(20 * second).await;
    log.take();
    drop(conn);
    let aged = log.take();
    let start = r#"DEBUG message=connection closed pool="bb8" reason="max_lifetime" age=2"#;
    assert!(aged.len() == 1 && aged[0].starts_with(start), "{aged:?}");
    // The reaper closes an idle connection at its own end, within ten seconds, and opens another.
    let builder = builder().min_idle(1).max_lifetime_jitter(0.5);
    let _pool = builder.build(Manager(Arc::default())).await.unwrap();
    log.take();
    sleep(10 * second).await;
    let lines = log.take();
    let line = r#"DEBUG message=connection closed pool="bb8" reason="max_lifetime" age="#;
    assert!(lines[0].starts_with(line), "{lines:?}");
}
