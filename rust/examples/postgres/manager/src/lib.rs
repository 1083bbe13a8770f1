//! Connections to PostgreSQL, and their manager: an adapter for bb8.

use bb8::ManageConnection;
use std::collections::HashSet;
use std::sync::atomic::{AtomicU64, Ordering::SeqCst};
use std::sync::{Arc, Mutex};
use tokio_postgres::{Client, Config, Error, NoTls, SimpleQueryMessage};

/// The events of connections, counted without the pool.
#[derive(Default)]
pub struct Log {
    /// Connections that were opened.
    pub opened: AtomicU64,
    /// Those of them that were dropped.
    pub dropped: AtomicU64,
    /// The server processes of dropped connections. A process may live a little longer, until it
    /// has read that its connection was closed.
    pub closed: Mutex<HashSet<i32>>,
    /// Connection attempts that were cut off. The server may have a process of each for a while.
    pub cut_off: AtomicU64,
}

/// Counts a connection attempt as cut off, unless it has ended.
struct Attempt<'a> {
    log: &'a Log,
    has_ended: bool,
}

impl Drop for Attempt<'_> {
    fn drop(&mut self) {
        self.log
            .cut_off
            .fetch_add(u64::from(!self.has_ended), SeqCst);
    }
}

/// A connection to PostgreSQL. A task of its own moves its bytes, and ends with it.
pub struct Connection {
    /// The client that speaks to the server.
    pub client: Client,
    /// Whether a transaction is open. Then the connection is not fit for another user.
    pub in_transaction: bool,
    process: i32,
    log: Arc<Log>,
}

impl Drop for Connection {
    fn drop(&mut self) {
        self.log.closed.lock().unwrap().insert(self.process);
        self.log.dropped.fetch_add(1, SeqCst);
    }
}

/// Opens a connection, and has its bytes moved.
pub async fn open(config: &Config) -> Result<Client, Error> {
    let (client, connection) = config.connect(NoTls).await?;
    tokio::spawn(async move {
        // An error ends the connection, which `is_closed` of its client reports.
        let _ended = connection.await;
    });
    Ok(client)
}

/// Opens a connection, and returns the number of its server process, too, by a query that prepares
/// no statement.
async fn open_and_ask(config: &Config) -> Result<(Client, i32), Error> {
    let client = open(config).await?;
    let messages = client.simple_query("SELECT pg_backend_pid()").await?;
    let process = messages.iter().find_map(|message| match message {
        SimpleQueryMessage::Row(row) => row.get(0)?.parse().ok(),
        _ => None,
    });
    Ok((client, process.expect("the server returns a number")))
}

/// Opens connections to one database.
pub struct Database {
    /// The address of the database, and the login.
    pub config: Config,
    /// The log of its connections.
    pub log: Arc<Log>,
}

impl ManageConnection for Database {
    type Connection = Connection;
    type Error = Error;

    async fn connect(&self) -> Result<Connection, Error> {
        let mut attempt = Attempt {
            log: &self.log,
            has_ended: false,
        };
        let opened = open_and_ask(&self.config).await;
        attempt.has_ended = true;
        let (client, process) = opened?;
        // (PgBouncer gives the process of a closed connection to a later one)
        self.log.closed.lock().unwrap().remove(&process);
        self.log.opened.fetch_add(1, SeqCst);
        Ok(Connection {
            client,
            in_transaction: false,
            process,
            log: self.log.clone(),
        })
    }

    async fn is_valid(&self, conn: &mut Connection) -> Result<(), Error> {
        conn.client.batch_execute("").await
    }

    fn has_broken(&self, conn: &mut Connection) -> bool {
        conn.in_transaction || conn.client.is_closed()
    }
}
