//! The wrappers over a pool of connections in memory.

use bb8::{ManageConnection, Pool};
use pool_wrappers::{get_watched, keep_alive, Replaceable};
use std::convert::Infallible;
use std::panic::Location;
use std::sync::{Arc, Mutex};
use std::time::Duration;
use tokio::time::sleep;

const SECOND: Duration = Duration::from_secs(1);

/// The numbers of connections: those that were checked, in their order, and those that were
/// dropped.
#[derive(Default)]
struct Log {
    opened: Mutex<u32>,
    checked: Mutex<Vec<u32>>,
    dropped: Mutex<Vec<u32>>,
}

struct Connection(u32, Arc<Log>);

impl Drop for Connection {
    fn drop(&mut self) {
        self.1.dropped.lock().unwrap().push(self.0);
    }
}

struct Manager(Arc<Log>);

impl ManageConnection for Manager {
    type Connection = Connection;
    type Error = Infallible;

    async fn connect(&self) -> Result<Connection, Infallible> {
        let mut opened = self.0.opened.lock().unwrap();
        *opened += 1;
        Ok(Connection(*opened, self.0.clone()))
    }

    async fn is_valid(&self, conn: &mut Connection) -> Result<(), Infallible> {
        self.0.checked.lock().unwrap().push(conn.0);
        Ok(())
    }

    fn has_broken(&self, _: &mut Connection) -> bool {
        false
    }
}

async fn pool(size: u32, log: &Arc<Log>) -> Pool<Manager> {
    let builder = Pool::builder().max_size(size).min_idle(size);
    builder.build(Manager(log.clone())).await.unwrap()
}

#[tokio::test(start_paused = true)]
async fn a_connection_that_is_held_too_long_is_reported_once() {
    let pool = pool(1, &Arc::default()).await;
    let reports = Arc::new(Mutex::new(Vec::new()));
    for held in [9 * SECOND, 30 * SECOND, 9 * SECOND] {
        let reports = reports.clone();
        let report = move |place: &'static Location<'static>| {
            reports.lock().unwrap().push((place.file(), place.line()));
        };
        let conn = get_watched(&pool, 10 * SECOND, report).await.unwrap();
        sleep(held).await;
        drop(conn);
        sleep(30 * SECOND).await;
    }
    let line = 1 + include_str!("wrappers.rs")
        .lines()
        .position(|line| line.contains("= get_watched(&pool"))
        .unwrap() as u32;
    assert_eq!(*reports.lock().unwrap(), [(file!(), line)]);
}

#[tokio::test(start_paused = true)]
async fn each_idle_connection_is_kept_alive() {
    let log = Arc::default();
    let pool = pool(4, &log).await;
    let out = pool.get().await.unwrap();
    log.checked.lock().unwrap().clear();
    let task = tokio::spawn(keep_alive(pool.clone(), 60 * SECOND));
    sleep(59 * SECOND).await;
    assert!(log.checked.lock().unwrap().is_empty());
    sleep(62 * SECOND).await;
    let idle: Vec<u32> = (1..=4).filter(|number| *number != out.0).collect();
    assert_eq!(*log.checked.lock().unwrap(), [&idle[..], &idle].concat());
    drop(out);
    pool.close().await;
    task.await.unwrap();
}

#[tokio::test(start_paused = true)]
async fn a_pool_is_replaced_by_a_larger_one() {
    let (old, new) = (Arc::default(), Arc::default());
    let replaceable = Replaceable::new(pool(2, &old).await);
    let out = replaceable.pool().get_owned().await.unwrap();
    replaceable.replace(pool(3, &new).await);
    assert_eq!(replaceable.pool().config().max_size, 3);
    let present = replaceable.pool();
    let _all = (
        present.get().await.unwrap(),
        present.get().await.unwrap(),
        present.get().await.unwrap(),
    );
    assert!(old.dropped.lock().unwrap().is_empty());
    drop(out);
    sleep(SECOND).await;
    let mut dropped = old.dropped.lock().unwrap().clone();
    dropped.sort_unstable();
    assert_eq!(dropped, [1, 2]);
    assert!(new.dropped.lock().unwrap().is_empty());
}
