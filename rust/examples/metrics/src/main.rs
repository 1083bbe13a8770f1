//! A service whose pool is watched: 32 tasks share four connections in memory, and `/metrics` shows
//! the pool's state and statistics in Prometheus' text format.
//!
//! ```text
//! cargo run -p metrics-service -- --seconds 60
//! ```

use bb8::{ManageConnection, Pool};
use metrics_service::{page, serve};
use std::convert::Infallible;
use std::env;
use std::error::Error;
use std::time::Duration;
use tokio::net::TcpListener;
use tokio::time::{sleep, timeout};

/// Opens connections that count their requests.
struct Memory;

impl ManageConnection for Memory {
    type Connection = u32;
    type Error = Infallible;

    async fn connect(&self) -> Result<u32, Infallible> {
        sleep(Duration::from_millis(5)).await;
        Ok(0)
    }

    async fn is_valid(&self, _: &mut u32) -> Result<(), Infallible> {
        Ok(())
    }

    /// Connections last for 1,000 requests.
    fn has_broken(&self, requests: &mut u32) -> bool {
        *requests >= 1_000
    }
}

/// Makes requests without an end.
async fn work(pool: Pool<Memory>) {
    loop {
        if let Ok(mut requests) = pool.get().await {
            *requests += 1;
            sleep(Duration::from_millis(1)).await;
        }
    }
}

#[tokio::main]
async fn main() -> Result<(), Box<dyn Error>> {
    let words: Vec<String> = env::args().skip(1).collect();
    let seconds = match words.iter().map(String::as_str).collect::<Vec<_>>()[..] {
        [] => 10,
        ["--seconds", number] => number.parse()?,
        _ => return Err("usage: metrics-service [--seconds N]".into()),
    };
    let pool = Pool::builder()
        .max_size(4)
        .fair_after(Duration::from_millis(1))
        .build(Memory)
        .await?;
    for _ in 0..32 {
        tokio::spawn(work(pool.clone()));
    }
    let listener = TcpListener::bind("127.0.0.1:0").await?;
    let address = listener.local_addr()?;
    println!("for {seconds} seconds the pool's metrics are on http://{address}/metrics:");
    println!("    curl http://{address}/metrics");
    let serving = serve(listener, move || page(&[("orders", pool.state())]));
    match timeout(Duration::from_secs(seconds), serving).await {
        Ok(result) => Ok(result?),
        Err(_elapsed) => Ok(()),
    }
}
