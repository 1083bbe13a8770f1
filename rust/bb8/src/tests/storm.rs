//! Storms: many tasks get, try, cancel, time out, break, fail checks, release, detach, add, reap
//! and retire, and ask again for attempts that failed. Afterwards nothing is lost, the pool is
//! closed, the statistics are those that were counted outside of the pool, and every step had
//! the result that the proved `replay` gives.

use crate::{
    CustomizeConnection, ManageConnection, Pool, PooledConnection, QueueStrategy, RunError, State,
};
use std::sync::atomic::{AtomicU64, Ordering};
use std::sync::Arc;
use std::time::Duration;
use tokio::time::{sleep, timeout};

#[derive(Debug, PartialEq)]
struct Refused;

/// A small generator of numbers.
#[derive(Debug)]
struct Dice(AtomicU64);

impl Dice {
    fn new(seed: u64) -> Self {
        Dice(AtomicU64::new(88_172_645_463_325_252 ^ (seed << 20)))
    }

    fn roll(&self, sides: u64) -> u64 {
        let mut x = self.0.load(Ordering::Relaxed);
        x ^= x << 13;
        x ^= x >> 7;
        x ^= x << 17;
        self.0.store(x, Ordering::Relaxed);
        x % sides
    }
}

/// How many connections there were, counted outside of the pool.
#[derive(Debug, Default)]
struct Tally {
    opened: AtomicU64,
    dropped: AtomicU64,
    by_manager: AtomicU64,
    added: AtomicU64,
    detached: AtomicU64,
    not_kept: AtomicU64,
    tried: AtomicU64,
}

impl Tally {
    fn add(count: &AtomicU64) {
        count.fetch_add(1, Ordering::SeqCst);
    }

    /// All opened and dropped ones, those that the manager opened, that were added and detached.
    fn counts(&self) -> [u64; 5] {
        let opened = [&self.opened, &self.dropped, &self.by_manager];
        let [opened, dropped, by_manager] = opened.map(|count| count.load(Ordering::SeqCst));
        let [added, detached] = [&self.added, &self.detached].map(|it| it.load(Ordering::SeqCst));
        [opened, dropped, by_manager, added, detached]
    }
}

/// Compares the state of a pool in which nothing is in progress with the counts of that moment. The
/// connections that came too late were never the pool's.
fn compare(state: &State, [opened, dropped, by_manager, added, detached]: [u64; 5], late: u64) {
    let seen = &state.statistics;
    let created = (seen.connections_created + late, seen.connections_added);
    assert_eq!(created, (by_manager, added));
    // Their tasks dropped those that could not be added, and those that were detached.
    let refused = opened - seen.connections_created - added;
    assert_eq!(seen.connections_closed, dropped - refused - detached);
    assert_eq!(seen.connections_detached, detached);
    let ended = seen.connections_closed + detached + u64::from(state.connections);
    assert_eq!(seen.connections_created + seen.connections_added, ended);
}

struct Wild {
    dice: Dice,
    tally: Arc<Tally>,
}

/// A connection, and whether the pool may use it again.
struct Connection(Arc<Tally>, bool);

impl Connection {
    fn open(tally: &Arc<Tally>) -> Self {
        Tally::add(&tally.opened);
        Connection(tally.clone(), true)
    }
}

impl Drop for Connection {
    fn drop(&mut self) {
        Tally::add(&self.0.dropped);
    }
}

/// Keeps most connections.
#[derive(Debug)]
struct Picky {
    dice: Dice,
    tally: Arc<Tally>,
}

impl CustomizeConnection<Connection, Refused> for Picky {
    fn on_release(&self, conn: &mut Connection) -> bool {
        conn.1 = self.dice.roll(40) > 0;
        if !conn.1 {
            Tally::add(&self.tally.not_kept);
        }
        conn.1
    }
}

impl ManageConnection for Wild {
    type Connection = Connection;
    type Error = Refused;

    async fn connect(&self) -> Result<Connection, Refused> {
        match self.dice.roll(10) {
            0 => return Err(Refused),
            1 => sleep(Duration::from_millis(self.dice.roll(6))).await,
            _ => tokio::task::yield_now().await,
        }
        Tally::add(&self.tally.by_manager);
        Ok(Connection::open(&self.tally))
    }

    async fn is_valid(&self, _: &mut Connection) -> Result<(), Refused> {
        match self.dice.roll(30) {
            0 => return Err(Refused),
            1 => sleep(Duration::from_millis(self.dice.roll(4))).await,
            2 | 3 => tokio::task::yield_now().await,
            _ => {}
        }
        Ok(())
    }

    fn has_broken(&self, conn: &mut Connection) -> bool {
        assert!(conn.1, "it was not to be kept");
        self.dice.roll(40) == 0
    }
}

#[derive(Clone, Copy, Debug)]
struct Weather {
    check: bool,
    test_after: Duration,
    fair_after: Option<Duration>,
    order: QueueStrategy,
    jitter: f64,
    tasks: u64,
    rounds: u64,
    /// How long a get may take.
    patience: Duration,
}

/// Adds a connection, if the pool takes it.
fn add(pool: &Pool<Wild>, tally: &Arc<Tally>) {
    if pool.add(Connection::open(tally)).is_ok() {
        Tally::add(&tally.added);
    }
}

/// The work of one task.
async fn rounds(pool: Pool<Wild>, tally: Arc<Tally>, dice: Dice, rounds: u64) {
    let brief = || Duration::from_micros(dice.roll(3000));
    for _ in 0..rounds {
        match dice.roll(23) {
            0..=2 => drop(timeout(brief(), pool.get()).await),
            3 => drop(pool.get_owned().await),
            4 => add(&pool, &tally),
            5 => drop(pool.state()),
            6 => sleep(brief() * 4).await,
            7..=9 => {
                if let Ok(Some(conn)) = pool.try_get().await {
                    Tally::add(&tally.tried);
                    sleep(brief()).await;
                    drop(conn);
                }
            }
            10 => drop(timeout(brief(), pool.try_get_owned()).await),
            11 | 12 => drop(pool.get_timeout(brief() * 2).await),
            13 if dice.roll(5) == 0 => {
                if let Ok(conn) = pool.get().await {
                    let conn = PooledConnection::detach(conn);
                    Tally::add(&tally.detached);
                    drop(conn);
                }
            }
            14 if dice.roll(20) == 0 => pool.retire(),
            _ => {
                if let Ok(conn) = pool.get().await {
                    match dice.roll(4) {
                        0 => sleep(brief()).await,
                        _ => tokio::task::yield_now().await,
                    }
                    drop(conn);
                }
            }
        }
    }
}

/// Waits for a moment at which nothing is in progress, as the reaper still runs. Returns the state
/// and the counts of that moment.
async fn calm(pool: &Pool<Wild>, tally: &Tally) -> (State, [u64; 5]) {
    for _ in 0..5000 {
        let counts = tally.counts();
        let state = pool.state();
        let is_there = counts[0] - counts[1] == u64::from(state.connections);
        let is_idle = state.connections == state.idle_connections;
        if is_there && is_idle && tally.counts() == counts {
            return (state, counts);
        }
        sleep(Duration::from_millis(1)).await;
    }
    panic!("no calm comes");
}

async fn storm(weather: Weather) -> [u64; 17] {
    let tally: Arc<Tally> = Arc::default();
    let manager = Wild {
        dice: Dice::new(0),
        tally: tally.clone(),
    };
    let customizer = Picky {
        dice: Dice::new(1000),
        tally: tally.clone(),
    };
    let pool = Pool::builder()
        .max_size(5)
        .min_idle(2)
        .test_on_check_out(weather.check)
        .test_on_check_out_after(weather.test_after)
        .queue_strategy(weather.order)
        .fair_after(weather.fair_after)
        .connection_timeout(weather.patience)
        // Then each failure of an attempt is final, and those that wait ask again.
        .retry_connection(weather.check)
        .connection_customizer(Box::new(customizer))
        .max_lifetime(Duration::from_millis(12))
        .max_lifetime_jitter(weather.jitter)
        .idle_timeout(Duration::from_millis(4))
        .reaper_rate(Duration::from_millis(3))
        .build_unchecked(manager);
    let tasks: Vec<_> = (1..=weather.tasks)
        .map(|task| {
            let all = rounds(pool.clone(), tally.clone(), Dice::new(task), weather.rounds);
            tokio::spawn(all)
        })
        .collect();
    for task in tasks {
        task.await.unwrap();
    }
    // Some more, as after retires and detaches few are idle for long.
    for _ in 0..20 {
        add(&pool, &tally);
        sleep(Duration::from_millis(1)).await;
    }
    // Long enough for idle connections to be closed, as nobody takes them.
    sleep(Duration::from_millis(30)).await;
    let (state, outside) = calm(&pool, &tally).await;
    let (late, evicted) = {
        let core = &pool.shared().lock().core;
        (core.late(), core.evicted())
    };
    let seen = &state.statistics;
    assert_eq!(seen.pending_gets(), 0);
    println!("{weather:?}: {state:?}");
    compare(&state, outside, late);
    let counts = [
        seen.get_direct,
        seen.get_waited,
        seen.get_timed_out,
        seen.get_cancelled,
        seen.connections_created,
        seen.connections_added,
        seen.connections_failed,
        seen.connections_closed_broken,
        seen.connections_closed_invalid,
        seen.connections_closed_max_lifetime,
        seen.connections_closed_idle_timeout,
        seen.connections_closed_retired,
        late,
        evicted,
        seen.connections_detached,
        tally.tried.load(Ordering::SeqCst),
        tally.not_kept.load(Ordering::SeqCst),
    ];
    close(pool, &tally, weather).await;
    counts
}

/// Closes a pool while tasks use it. No connection is left then, and the replay agrees.
async fn close(pool: Pool<Wild>, tally: &Arc<Tally>, weather: Weather) {
    let uses = (0..weather.tasks).map(|task| {
        let (pool, dice) = (pool.clone(), Dice::new(2000 + task));
        tokio::spawn(async move {
            loop {
                match pool.get_owned().await {
                    Ok(_conn) => sleep(Duration::from_micros(dice.roll(900))).await,
                    Err(RunError::Closed) => return,
                    Err(error) => assert_eq!(error, RunError::TimedOut),
                }
            }
        })
    });
    let uses: Vec<_> = uses.collect();
    sleep(Duration::from_millis(5)).await;
    timeout(Duration::from_secs(5), pool.close()).await.unwrap();
    let [opened, dropped, ..] = tally.counts();
    assert_eq!(opened, dropped);
    for task in uses {
        task.await.unwrap();
    }
    let state = pool.state();
    assert_eq!(state.statistics.pending_gets(), 0);
    let core = &pool.shared().lock().core;
    compare(&state, tally.counts(), core.late());
    let (steps, asked) = (core.judge(), core.asked());
    println!("{steps} steps, {asked} of them granted asks, are those of the replay");
    assert!(steps as u64 > weather.tasks * weather.rounds);
    assert!(asked > 0 || weather.check);
}

/// A kind of weather: the check, after how many milliseconds, the order, after how many
/// milliseconds gets are handed connections, and the jitter.
type Kind = (bool, u64, QueueStrategy, Option<u64>, f64);

const KINDS: [Kind; 12] = [
    (true, 0, QueueStrategy::Fifo, None, 0.0),
    (true, 0, QueueStrategy::Lifo, None, 0.0),
    (false, 0, QueueStrategy::Fifo, None, 0.0),
    (false, 0, QueueStrategy::Lifo, None, 0.0),
    (true, 0, QueueStrategy::Fifo, Some(0), 0.0),
    (false, 0, QueueStrategy::Lifo, Some(0), 0.0),
    (true, 0, QueueStrategy::Lifo, Some(1), 0.0),
    (false, 0, QueueStrategy::Fifo, Some(1), 0.0),
    (true, 0, QueueStrategy::Fifo, None, 0.5),
    (false, 0, QueueStrategy::Lifo, Some(0), 0.5),
    (true, 1, QueueStrategy::Fifo, None, 0.0),
    (true, 1, QueueStrategy::Lifo, Some(0), 0.0),
];

/// Returns the weather of this kind. Gets of a fair pool have less time, as otherwise hardly one
/// would time out.
fn weather((check, test_after, order, fair_after, jitter): Kind) -> Weather {
    Weather {
        check,
        test_after: Duration::from_millis(test_after),
        fair_after: fair_after.map(Duration::from_millis),
        order,
        jitter,
        tasks: 24,
        rounds: 400,
        patience: Duration::from_millis(if fair_after.is_some() { 3 } else { 6 }),
    }
}

/// All kinds of weather. Each statistic rises in some of them; in which ones depends on the
/// machine.
async fn storms() {
    let mut sums = [0; 17];
    for kind in KINDS {
        let counts = storm(weather(kind)).await;
        sums.iter_mut()
            .zip(counts)
            .for_each(|(sum, count)| *sum += count);
    }
    assert!(sums.iter().all(|sum| *sum > 0), "{sums:?}");
}

/// All kinds of weather on four threads.
#[tokio::test(flavor = "multi_thread", worker_threads = 4)]
async fn four_threads_on_the_system_clock() {
    storms().await;
}

/// The same on one thread, whose clock moves only when all tasks sleep: so ages, timeouts, waits
/// between tries and reaps come at moments of that clock.
#[tokio::test(start_paused = true)]
async fn one_thread_on_a_paused_clock() {
    storms().await;
}
