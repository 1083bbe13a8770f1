//! Connections to Redis, and their manager.

mod client;

use bb8::{ManageConnection, Pool};
pub use client::{Answer, Client};
use std::collections::HashSet;
use std::io;
use std::sync::atomic::{AtomicU64, Ordering::SeqCst};
use std::sync::{Arc, Mutex};
use std::time::Duration;
use tokio::time::sleep;

/// The events of connections, counted without the pool.
#[derive(Default)]
pub struct Log {
    attempts: AtomicU64,
    opened: AtomicU64,
    pub(crate) dropped: AtomicU64,
    /// The names of dropped connections. The server may list one a little longer, until it has read
    /// that it was closed.
    pub closed: Mutex<HashSet<String>>,
}

/// Opens connections to a server.
pub struct Server {
    /// The host and the port, after a password and `@` if there is one. It may change.
    pub address: Arc<Mutex<String>>,
    /// The log of its connections.
    pub log: Arc<Log>,
}

impl ManageConnection for Server {
    type Connection = Client;
    type Error = io::Error;

    async fn connect(&self) -> io::Result<Client> {
        let name = format!("pool-{}", self.log.attempts.fetch_add(1, SeqCst));
        let address = self.address.lock().unwrap().clone();
        let mut client = Client::open(&address, name, &self.log).await?;
        client.is_counted = true;
        self.log.opened.fetch_add(1, SeqCst);
        Ok(client)
    }

    async fn is_valid(&self, conn: &mut Client) -> io::Result<()> {
        match conn.ask(&["PING"]).await? {
            Ok(_) => Ok(()),
            Err(told) => Err(io::Error::other(told)),
        }
    }

    fn has_broken(&self, conn: &mut Client) -> bool {
        conn.is_broken()
    }
}

/// Whether the pool's statistics balance, and agree with the log. Connections are opened and
/// dropped outside of the pool's lock, so the log may differ for a moment.
pub async fn balances(pool: &Pool<Server>, log: &Log) -> bool {
    for _ in 0..200 {
        let state = pool.state();
        let counts = &state.statistics;
        let begun = counts.connections_created + counts.connections_added;
        let ended = counts.connections_closed + counts.connections_detached;
        if begun != ended + u64::from(state.connections) {
            return false;
        }
        let opened = log.opened.load(SeqCst) == counts.connections_created;
        if opened && log.dropped.load(SeqCst) == counts.connections_closed {
            return true;
        }
        sleep(Duration::from_millis(10)).await;
    }
    false
}
