//! Runs over the pools whose gets are futures. They are polled by hand, inside a runtime of tokio
//! that is not driven.

use crate::numbers::{Connection, Never, Numbered, Numbers};
use crate::Run;
use std::future::Future;
use std::hint::{black_box, spin_loop};
use std::mem::{forget, size_of_val};
use std::pin::{pin, Pin};
use std::task::{Context, Poll, Waker};
use std::thread;
use std::time::{Duration, Instant};
use tokio::task::yield_now;
use tokio::{runtime, time};

/// How often `wait` polls, so that it lasts long enough to be seen by massif.
const POLLS: u64 = 200_000;
/// How many gets wait at once in a batch.
const BATCH: usize = 16;
/// How many boxes there are for a crowd whose instructions are counted. As the number of gets does
/// not change them, a difference of two runs does not contain their cost.
const BOXES: usize = 25_000;

/// Polls once.
fn polled<T>(future: Pin<&mut impl Future<Output = T>>) -> Option<T> {
    match future.poll(&mut Context::from_waker(Waker::noop())) {
        Poll::Ready(value) => Some(value),
        Poll::Pending => None,
    }
}

/// Holds a connection in the way that the end of the mode's name says.
async fn hold(mode: &str) {
    match mode.rsplit('-').next() {
        Some("sleep") => time::sleep(Duration::from_millis(1)).await,
        Some("yield") => yield_now().await,
        Some("compute") => {
            let end = Instant::now() + Duration::from_micros(20);
            while Instant::now() < end {
                spin_loop();
            }
        }
        _ => {}
    }
}

macro_rules! runs {
    ($name:ident, $fair:expr) => {
        pub mod $name {
            use super::*;
            use ::$name::{Builder, ManageConnection, Pool, PooledConnection};

            impl ManageConnection for Numbers {
                type Connection = Connection;
                type Error = Never;

                async fn connect(&self) -> Result<Connection, Never> {
                    Ok(Connection::of(7))
                }

                async fn is_valid(&self, _: &mut Connection) -> Result<(), Never> {
                    Ok(())
                }

                fn has_broken(&self, _: &mut Connection) -> bool {
                    false
                }
            }

            /// Returns a full pool.
            fn pool(size: u32, check: bool, limits: bool) -> Pool<Numbers> {
                let builder = Pool::builder().max_size(size).test_on_check_out(check);
                let builder = if limits {
                    builder
                } else {
                    builder.max_lifetime(None).idle_timeout(None)
                };
                let pool = builder.build_unchecked(Numbers);
                for number in 0..size {
                    pool.add(Connection::of(number.into())).expect("there is room");
                }
                pool
            }

            /// Polls `count` gets once each and drops each connection. Returns how many were
            /// served.
            fn rounds(pool: &Pool<Numbers>, count: u64) -> u64 {
                let mut served = 0;
                for _ in 0..count {
                    if let Some(Ok(guard)) = polled(pin!(pool.get())) {
                        black_box(guard.number());
                        served += 1;
                    }
                }
                served
            }

            /// Runs `rounds` in this many threads.
            fn shared(pool: &Pool<Numbers>, count: u64, threads: u32) -> u64 {
                let runtime = runtime::Handle::current();
                thread::scope(|scope| {
                    let one = || {
                        let _inside = runtime.enter();
                        rounds(pool, count)
                    };
                    let all: Vec<_> = (0..threads).map(|_| scope.spawn(one)).collect();
                    all.into_iter().map(|one| one.join().expect("it ends")).sum()
                })
            }

            /// Checks out this many connections.
            fn taken(pool: &Pool<Numbers>, size: u32) -> Vec<PooledConnection<'_, Numbers>> {
                (0..size).filter_map(|_| polled(pin!(pool.get()))?.ok()).collect()
            }

            /// Has `run.count` gets wait at once for connections that are all checked out, each in
            /// one of `boxes` boxes, then serves them one by one, or cancels them. Returns how many
            /// gets were served or cancelled.
            fn crowd(pool: &Pool<Numbers>, run: &Run, boxes: usize, serve: bool) -> u64 {
                let mut guards = taken(pool, run.size);
                let mut all: Vec<_> = (0..boxes).map(|_| Box::pin(None)).collect();
                let gets = &mut all[..run.count as usize];
                for get in &mut *gets {
                    get.set(Some(pool.get()));
                    assert!(get.as_mut().as_pin_mut().and_then(polled).is_none());
                }
                if !serve {
                    return run.count;
                }
                let mut served = 0;
                for get in gets {
                    drop(guards.pop());
                    if let Some(Ok(guard)) = get.as_mut().as_pin_mut().and_then(polled) {
                        guards.push(guard);
                        served += 1;
                    }
                }
                served
            }

            /// Has gets wait for connections that are all checked out, `BATCH` at once, then serves
            /// these one by one, or cancels them, until there were `count`. Returns how many were.
            fn batches(pool: &Pool<Numbers>, count: u64, size: u32, serve: bool) -> u64 {
                let mut guards = taken(pool, size);
                let mut gets: Vec<_> = (0..BATCH).map(|_| Box::pin(None)).collect();
                let mut ended = 0;
                while ended < count {
                    for get in &mut gets {
                        get.set(Some(pool.get()));
                        assert!(get.as_mut().as_pin_mut().and_then(polled).is_none());
                    }
                    for get in &mut gets {
                        if serve {
                            drop(guards.pop());
                            let served = get.as_mut().as_pin_mut().and_then(polled);
                            guards.push(served.expect("it was notified").expect("it is served"));
                        }
                        get.set(None);
                        ended += 1;
                    }
                }
                ended
            }

            /// Has `count` gets wait for connections that are all checked out, and polls the last
            /// one for a while. Returns `count`.
            fn waiting(pool: &Pool<Numbers>, count: u64, size: u32) -> u64 {
                let _guards = taken(pool, size);
                for number in 1..=count {
                    let mut get = Box::pin(pool.get());
                    for _ in 0..if number == count { POLLS } else { 1 } {
                        assert!(polled(get.as_mut()).is_none());
                    }
                    // It waits until the program ends. A list of the boxes would add to the bytes.
                    forget(get);
                }
                count
            }

            /// Until this time, gets a connection, holds it, returns it and starts again. Returns
            /// the number of rounds.
            async fn share(pool: Pool<Numbers>, mode: String, end: Instant) -> u64 {
                let mut rounds = 0;
                while Instant::now() < end {
                    if let Ok(guard) = pool.get().await {
                        hold(&mode).await;
                        drop(guard);
                        rounds += 1;
                        // A task that never waits lets the others of its thread in.
                        if rounds % 256 == 0 {
                            yield_now().await;
                        }
                    }
                }
                rounds
            }

            /// Runs such tasks for this many milliseconds. Returns how many gets timed out, at a
            /// second, and the rounds of each task, sorted.
            pub fn shares(run: &Run) -> Option<String> {
                let builder = Pool::builder()
                    .max_size(run.size)
                    .min_idle(run.size)
                    .connection_timeout(Duration::from_secs(1));
                let fair: fn(Builder<Numbers>) -> Builder<Numbers> = $fair;
                let builder = if run.mode.starts_with("fair") {
                    fair(builder)
                } else {
                    builder
                };
                let runtime = runtime::Builder::new_multi_thread()
                    .worker_threads(4)
                    .enable_time()
                    .build()
                    .ok()?;
                let (late, mut all) = runtime.block_on(async {
                    let pool = builder
                        .test_on_check_out(false)
                        .build(Numbers)
                        .await
                        .expect("it opens numbers");
                    let end = Instant::now() + Duration::from_millis(run.count);
                    let task = |_| tokio::spawn(share(pool.clone(), run.mode.clone(), end));
                    let mut all = Vec::new();
                    for task in (0..run.threads).map(task).collect::<Vec<_>>() {
                        all.push(task.await.expect("it ends"));
                    }
                    (pool.state().statistics.get_timed_out, all)
                });
                all.sort_unstable();
                Some(all.iter().fold(late.to_string(), |told, rounds| format!("{told} {rounds}")))
            }

            /// Returns the result of a run. None if there is no such mode.
            pub fn answer(run: &Run) -> Option<u64> {
                let runtime = runtime::Builder::new_current_thread().enable_time().build().ok()?;
                let _inside = runtime.enter();
                let pool = |check, limits| pool(run.size, check, limits);
                match run.mode.as_str() {
                    "hand" => Some(rounds(&pool(false, true), run.count)),
                    "free" => Some(rounds(&pool(false, false), run.count)),
                    "check" => Some(rounds(&pool(true, true), run.count)),
                    "threads" => Some(shared(&pool(false, true), run.count, run.threads)),
                    "threads-check" => Some(shared(&pool(true, true), run.count, run.threads)),
                    "crowd" => Some(crowd(&pool(false, true), run, run.count as usize, true)),
                    "crowd25000" => Some(crowd(&pool(false, true), run, BOXES, true)),
                    "let-go25000" => Some(crowd(&pool(false, true), run, BOXES, false)),
                    "crowd16" => Some(batches(&pool(false, true), run.count, run.size, true)),
                    "let-go16" => Some(batches(&pool(false, true), run.count, run.size, false)),
                    "wait" => Some(waiting(&pool(false, true), run.count, run.size)),
                    "sizes" => Some(size_of_val(&pool(false, true).get()) as u64),
                    _ => None,
                }
            }
        }
    };
}

#[cfg(feature = "crate")]
runs!(bb8, |builder| builder.fair_after(Duration::from_millis(1)));
#[cfg(feature = "original")]
runs!(original, |builder| builder);
