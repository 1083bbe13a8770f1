//! A get that waits is served once the server is back, although the attempt that it requested was
//! given up, and no other get comes. Clocks are paused, so each try is at a known moment.

use bb8::{Builder, ErrorSink, ManageConnection, Pool, RunError};
use std::sync::{Arc, Mutex};
use std::time::Duration;
use tokio::time::{sleep, Instant};

const fn millis(millis: u64) -> Duration {
    Duration::from_millis(millis)
}

/// How a server that is down fails.
#[derive(Clone, Copy, Debug, PartialEq)]
enum Fault {
    Refuses,
    Panics,
    SinkPanics,
}

/// A server that is down for a while. It keeps the moments of all attempts.
#[derive(Debug)]
struct Server {
    started: Instant,
    is_back: Duration,
    fault: Fault,
    tries: Mutex<Vec<u128>>,
}

impl Server {
    fn down_for(is_back: Duration, fault: Fault) -> Arc<Self> {
        Arc::new(Server {
            started: Instant::now(),
            is_back,
            fault,
            tries: Mutex::default(),
        })
    }

    /// The moments of the attempts, in milliseconds.
    fn tries(&self) -> Vec<u128> {
        self.tries.lock().unwrap().clone()
    }
}

struct Manager(Arc<Server>);

impl ManageConnection for Manager {
    type Connection = ();
    type Error = ();

    async fn connect(&self) -> Result<(), ()> {
        let now = self.0.started.elapsed();
        self.0.tries.lock().unwrap().push(now.as_millis());
        if now >= self.0.is_back {
            return Ok(());
        }
        assert!(self.0.fault != Fault::Panics);
        Err(())
    }

    async fn is_valid(&self, _: &mut ()) -> Result<(), ()> {
        Ok(())
    }

    fn has_broken(&self, _: &mut ()) -> bool {
        false
    }
}

#[derive(Debug)]
struct Sink(Fault);

impl ErrorSink<()> for Sink {
    fn sink(&self, (): ()) {
        assert!(self.0 != Fault::SinkPanics);
    }

    fn boxed_clone(&self) -> Box<dyn ErrorSink<()>> {
        Box::new(Sink(self.0))
    }
}

/// Attempts of this pool are retried for two seconds, after pauses of a second at most.
fn builder(size: u32, fault: Fault) -> Builder<Manager> {
    Pool::builder()
        .max_size(size)
        .connection_timeout(millis(2000))
        .error_sink(Box::new(Sink(fault)))
}

#[tokio::test(start_paused = true)]
async fn a_get_is_served_when_the_server_is_back() {
    for fault in [Fault::Refuses, Fault::Panics, Fault::SinkPanics] {
        for retries in [true, false] {
            let server = Server::down_for(millis(5500), fault);
            let builder = builder(1, fault).retry_connection(retries);
            let pool = builder.build_unchecked(Manager(server.clone()));
            let got = pool.get_timeout(millis(10_000)).await;
            assert!(got.is_ok(), "{fault:?}");
            // The pauses are 400, 800, and then 1,000 ms.
            let tries = [0, 400, 1200, 2200, 3200, 4200, 5200, 6200];
            // Sleeps are of whole milliseconds, and end in the next one.
            let are_close = |(there, wanted): (&u128, &u128)| there - wanted < 20;
            let seen = server.tries();
            assert!(
                seen.len() == 8 && seen.iter().zip(&tries).all(are_close),
                "{seen:?}"
            );
            let counts = pool.state().statistics;
            assert_eq!((counts.get_waited, counts.get_started), (1, 1));
        }
    }
}

#[tokio::test(start_paused = true)]
async fn a_server_that_is_down_is_not_hammered() {
    for fault in [Fault::Refuses, Fault::Panics] {
        let server = Server::down_for(millis(1_000_000), fault);
        let pool = builder(4, fault).build_unchecked(Manager(server.clone()));
        let gets: Vec<_> = (0..20)
            .map(|_| {
                let pool = pool.clone();
                tokio::spawn(async move { pool.get_timeout(millis(30_500)).await.map(drop) })
            })
            .collect();
        for get in gets {
            assert_eq!(get.await.unwrap(), Err(RunError::TimedOut));
        }
        // Each of four attempts has a try at 0, 0.4 and 1.2 s, and then one each second: at 2.2 to
        // 30.2 s.
        let tries = server.tries();
        assert_eq!(tries.len(), 4 * (3 + 29), "{fault:?}");
        for second in 2..30 {
            let in_it = |at: &&u128| **at / 1000 == second;
            assert_eq!(tries.iter().filter(in_it).count(), 4);
        }
        // Without a get that waits, they end with their next try.
        sleep(millis(60_000)).await;
        assert_eq!(server.tries().len(), 4 * (3 + 29 + 1));
        assert_eq!(pool.state().pending_connections, 0);
    }
}

#[tokio::test(start_paused = true)]
async fn without_a_waiting_get_no_further_attempt_is_made() {
    let server = Server::down_for(millis(1_000_000), Fault::Refuses);
    let builder = builder(2, Fault::Refuses).min_idle(2);
    let pool = builder.build_unchecked(Manager(server.clone()));
    // The first reap, which asks again for `min_idle`, comes later.
    sleep(millis(20_000)).await;
    // At 0, 0.4, 1.2 and 2.2 s: then the time is over.
    assert_eq!(
        (server.tries().len(), pool.state().pending_connections),
        (8, 0)
    );
}

#[tokio::test(start_paused = true)]
async fn the_shortest_timeout_lets_other_tasks_run() {
    for retries in [true, false] {
        let server = Server::down_for(millis(1_000_000), Fault::Refuses);
        let builder = builder(1, Fault::Refuses).connection_timeout(Duration::from_nanos(1));
        let builder = builder.retry_connection(retries);
        let pool = builder.build_unchecked(Manager(server.clone()));
        let get = pool.get_timeout(millis(50)).await;
        assert_eq!(get.map(drop), Err(RunError::TimedOut));
        // The pauses are a millisecond.
        assert!((10..=52).contains(&server.tries().len()));
    }
}

#[tokio::test(start_paused = true)]
async fn the_pauses_begin_anew_with_the_next_get() {
    let server = Server::down_for(millis(1_000_000), Fault::Refuses);
    let pool = builder(1, Fault::Refuses).build_unchecked(Manager(server.clone()));
    for _ in 0..2 {
        let before = server.tries().len();
        let get = pool.get_timeout(millis(1500)).await;
        assert_eq!(get.map(drop), Err(RunError::TimedOut));
        assert_eq!(server.tries().len() - before, 3);
        sleep(millis(10_000)).await;
        assert_eq!(pool.state().pending_connections, 0);
    }
}
