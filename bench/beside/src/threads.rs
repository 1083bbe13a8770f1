//! Runs over r2d2, whose gets block their thread.

use crate::numbers::{Connection, Never, Numbered, Numbers};
use crate::Run;
use r2d2::{ManageConnection, Pool};
use std::hint::black_box;
use std::sync::atomic::{AtomicU64, Ordering};
use std::thread;
use std::time::{Duration, Instant};

impl ManageConnection for Numbers {
    type Connection = Connection;
    type Error = Never;

    fn connect(&self) -> Result<Connection, Never> {
        Ok(Connection::of(7))
    }

    fn is_valid(&self, _: &mut Connection) -> Result<(), Never> {
        Ok(())
    }

    fn has_broken(&self, _: &mut Connection) -> bool {
        false
    }
}

/// Returns a full pool.
fn pool(size: u32, check: bool, limits: bool) -> Pool<Numbers> {
    let builder = Pool::builder().max_size(size).min_idle(Some(size)).test_on_check_out(check);
    let builder = if limits {
        builder
    } else {
        builder.max_lifetime(None).idle_timeout(None)
    };
    builder.build(Numbers).expect("it opens numbers")
}

/// Makes `count` gets and drops each connection. Returns how many were served.
fn rounds(pool: &Pool<Numbers>, count: u64) -> u64 {
    let mut served = 0;
    for _ in 0..count {
        if let Ok(guard) = pool.get() {
            black_box(guard.number());
            served += 1;
        }
    }
    served
}

/// Runs `rounds` in this many threads.
fn shared(pool: &Pool<Numbers>, count: u64, threads: u32) -> u64 {
    thread::scope(|scope| {
        let all: Vec<_> = (0..threads).map(|_| scope.spawn(|| rounds(pool, count))).collect();
        all.into_iter().map(|one| one.join().expect("it ends")).sum()
    })
}

/// Two threads take turns with one connection, this many rounds each, and sleep in their gets.
/// Returns the median and the 95th percentile of the nanoseconds from a return until the get that
/// waits for it returns.
pub fn woken(rounds: u64) -> Option<String> {
    let pool = pool(1, false, true);
    let start = Instant::now();
    let returned = AtomicU64::new(0);
    let round = |_| {
        let now = || start.elapsed().as_nanos() as u64;
        let asked = now();
        let guard = pool.get().ok()?;
        let (served, back) = (now(), returned.load(Ordering::SeqCst));
        thread::sleep(Duration::from_millis(2));
        returned.store(now(), Ordering::SeqCst);
        drop(guard);
        thread::sleep(Duration::from_millis(1));
        (asked < back).then(|| served.saturating_sub(back))
    };
    let turns = || (0..rounds).filter_map(round).collect::<Vec<_>>();
    let mut all: Vec<u64> = thread::scope(|scope| {
        let both = [scope.spawn(turns), scope.spawn(turns)];
        both.into_iter().flat_map(|one| one.join().expect("it ends")).collect()
    });
    all.sort_unstable();
    let most = all.get(all.len().checked_sub(all.len() / 20 + 1)?)?;
    Some(format!("{} {most}", all[all.len() / 2]))
}

/// Returns the result of a run. None if there is no such mode.
pub fn answer(run: &Run) -> Option<u64> {
    let pool = |check, limits| pool(run.size, check, limits);
    match run.mode.as_str() {
        "hand" => Some(rounds(&pool(false, true), run.count)),
        "free" => Some(rounds(&pool(false, false), run.count)),
        "check" => Some(rounds(&pool(true, true), run.count)),
        "threads" => Some(shared(&pool(false, true), run.count, run.threads)),
        "threads-check" => Some(shared(&pool(true, true), run.count, run.threads)),
        _ => None,
    }
}
