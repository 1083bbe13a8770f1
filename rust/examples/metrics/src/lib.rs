//! A page of metrics of pools, in Prometheus' text format.

use bb8::State;
use std::io;
use std::sync::Arc;
use std::time::Duration;
use tokio::io::{AsyncBufReadExt, AsyncReadExt, AsyncWriteExt, BufReader};
use tokio::net::{TcpListener, TcpStream};
use tokio::time::timeout;

/// Name, help and value of a metric. If its name ends in `_total` it is a counter, else a gauge.
type Metric = (&'static str, &'static str, fn(&State) -> String);

/// All figures of `State` and `Statistics`. Both are `non_exhaustive`, so no pattern can require
/// that none is missing: a test compares the page with their `Debug` output.
#[rustfmt::skip]
const METRICS: [Metric; 21] = [
    ("bb8_connections", "Idle plus checked-out connections.",
        |state| state.connections.to_string()),
    ("bb8_idle_connections", "Idle connections.",
        |state| state.idle_connections.to_string()),
    ("bb8_pending_connections", "Connection attempts in progress.",
        |state| state.pending_connections.to_string()),
    ("bb8_pending_gets", "Gets in progress.",
        |state| state.statistics.pending_gets().to_string()),
    ("bb8_get_started_total", "Gets that began.",
        |state| state.statistics.get_started.to_string()),
    ("bb8_get_direct_total", "Gets that were served without having waited.",
        |state| state.statistics.get_direct.to_string()),
    ("bb8_get_waited_total", "Gets that were served after they had waited.",
        |state| state.statistics.get_waited.to_string()),
    ("bb8_get_timed_out_total", "Gets that timed out.",
        |state| state.statistics.get_timed_out.to_string()),
    ("bb8_get_cancelled_total", "Gets that were dropped before they resolved, or that a close ended.",
        |state| state.statistics.get_cancelled.to_string()),
    ("bb8_get_wait_time_seconds_total", "Waits of served and timed-out gets.",
        |state| seconds(state.statistics.get_wait_time)),
    ("bb8_connections_created_total", "Connections opened by the pool.",
        |state| state.statistics.connections_created.to_string()),
    ("bb8_connections_added_total", "Connections added by the application.",
        |state| state.statistics.connections_added.to_string()),
    ("bb8_connections_failed_total", "Connection attempts that failed.",
        |state| state.statistics.connections_failed.to_string()),
    ("bb8_connections_closed_total", "Connections closed for any reason.",
        |state| state.statistics.connections_closed.to_string()),
    ("bb8_connections_closed_broken_total", "Connections closed as broken.",
        |state| state.statistics.connections_closed_broken.to_string()),
    ("bb8_connections_closed_invalid_total", "Connections closed by a failed check.",
        |state| state.statistics.connections_closed_invalid.to_string()),
    ("bb8_connections_closed_max_lifetime_total", "Connections closed by max_lifetime.",
        |state| state.statistics.connections_closed_max_lifetime.to_string()),
    ("bb8_connections_closed_idle_timeout_total", "Connections closed by idle_timeout.",
        |state| state.statistics.connections_closed_idle_timeout.to_string()),
    ("bb8_connections_closed_retired_total", "Connections closed by Pool::retire.",
        |state| state.statistics.connections_closed_retired.to_string()),
    ("bb8_connections_detached_total", "Connections that left the pool by detach.",
        |state| state.statistics.connections_detached.to_string()),
    ("bb8_checks_timed_out_total", "Checks that took too long.",
        |state| state.statistics.checks_timed_out.to_string()),
];

fn seconds(time: Duration) -> String {
    format!("{}.{:06}", time.as_secs(), time.subsec_micros())
}

/// Returns the value of a label as it is written between quotes.
fn escaped(value: &str) -> String {
    value
        .replace('\\', "\\\\")
        .replace('"', "\\\"")
        .replace('\n', "\\n")
}

/// Returns the page of pools, each a name and its state.
pub fn page(pools: &[(&str, State)]) -> String {
    let mut page = String::new();
    for (name, help, value) in METRICS {
        let is_counter = name.ends_with("_total");
        let kind = if is_counter { "counter" } else { "gauge" };
        page += &format!("# HELP {name} {help}\n# TYPE {name} {kind}\n");
        for (pool, state) in pools {
            page += &format!("{name}{{pool=\"{}\"}} {}\n", escaped(pool), value(state));
        }
    }
    page
}

/// Serves a page at `/metrics`, generated for each request. Returns only if it cannot accept.
pub async fn serve(
    listener: TcpListener,
    page: impl Fn() -> String + Send + Sync + 'static,
) -> io::Result<()> {
    let page = Arc::new(page);
    loop {
        let (stream, _) = listener.accept().await?;
        let page = page.clone();
        tokio::spawn(async move {
            let answer = answer(stream, || page());
            // A client that sends nothing, or reads nothing, is disconnected.
            let _ended = timeout(Duration::from_secs(5), answer).await;
        });
    }
}

/// Responds to one request of at most 8 KiB.
async fn answer(mut stream: TcpStream, page: impl Fn() -> String) -> io::Result<()> {
    let (reader, mut writer) = stream.split();
    let mut lines = BufReader::new(reader.take(8192)).lines();
    let request = lines.next_line().await?.unwrap_or_default();
    while lines
        .next_line()
        .await?
        .is_some_and(|line| !line.is_empty())
    {}
    let (status, body) = match request.split(' ').collect::<Vec<_>>()[..] {
        ["GET", "/metrics", _] => ("200 OK", page()),
        _ => ("404 Not Found", "The page is /metrics\n".to_string()),
    };
    let head = format!(
        "HTTP/1.1 {status}\r\nContent-Type: text/plain; version=0.0.4; charset=utf-8\r\n\
         Content-Length: {}\r\nConnection: close\r\n\r\n",
        body.len()
    );
    writer.write_all((head + &body).as_bytes()).await?;
    writer.shutdown().await
}
