//! A bank in one SQLite file: the manager that opens its connections, and its queries.

use bb8::ManageConnection;
use rusqlite::{params, Connection, Error, TransactionBehavior};
use std::path::{Path, PathBuf};
use std::sync::atomic::{AtomicU64, Ordering::SeqCst};
use std::sync::Arc;
use std::time::Duration;
use tokio::task::spawn_blocking;

pub const ACCOUNTS: u64 = 100;
const BALANCE: i64 = 1_000;

/// Opens connections to one file.
#[derive(Clone, Debug)]
pub struct Database {
    file: PathBuf,
    /// How many connections were opened for the pool.
    pub opened: Arc<AtomicU64>,
}

impl Database {
    /// Creates the tables and their accounts in a new file.
    pub fn create(file: &Path) -> Result<Database, Error> {
        let file = file.to_owned();
        let mut conn = open(&file)?;
        let transaction = conn.transaction()?;
        transaction.execute_batch(
            "CREATE TABLE accounts (id INTEGER PRIMARY KEY, balance INTEGER NOT NULL);
             CREATE TABLE transfers (source INTEGER, target INTEGER, amount INTEGER);",
        )?;
        for id in 0..ACCOUNTS {
            let insert = "INSERT INTO accounts (id, balance) VALUES (?1, ?2)";
            transaction.execute(insert, params![id, BALANCE])?;
        }
        transaction.commit()?;
        let opened = Arc::default();
        Ok(Database { file, opened })
    }
}

/// Opens a connection. Readers do not block in WAL mode; a writer waits for another one.
fn open(file: &Path) -> Result<Connection, Error> {
    let conn = Connection::open(file)?;
    conn.busy_timeout(Duration::from_secs(10))?;
    conn.pragma_update(None, "journal_mode", "WAL")?;
    conn.pragma_update(None, "synchronous", "NORMAL")?;
    Ok(conn)
}

impl ManageConnection for Database {
    type Connection = Connection;
    type Error = Error;

    async fn connect(&self) -> Result<Connection, Error> {
        let file = self.file.clone();
        let opening = spawn_blocking(move || open(&file));
        let conn = opening.await.expect("the attempt does not panic")?;
        self.opened.fetch_add(1, SeqCst);
        Ok(conn)
    }

    /// Runs a statement that does not read the file, so this takes microseconds.
    async fn is_valid(&self, conn: &mut Connection) -> Result<(), Error> {
        conn.prepare_cached("SELECT 1")?
            .query_row([], |row| row.get::<_, i64>(0))
            .map(drop)
    }

    /// Closes a connection that is returned in the middle of a transaction.
    fn has_broken(&self, conn: &mut Connection) -> bool {
        !conn.is_autocommit()
    }
}

/// Returns the balance of an account.
pub fn balance(conn: &Connection, id: u64) -> Result<i64, Error> {
    conn.prepare_cached("SELECT balance FROM accounts WHERE id = ?1")?
        .query_row([id], |row| row.get(0))
}

/// Moves an amount between two accounts, and records that. The transaction acquires SQLite's write
/// lock at its beginning, since one that has already read may not be able to acquire it later.
pub fn transfer(conn: &mut Connection, source: u64, target: u64, amount: i64) -> Result<(), Error> {
    let transaction = conn.transaction_with_behavior(TransactionBehavior::Immediate)?;
    for (id, change) in [(source, -amount), (target, amount)] {
        transaction
            .prepare_cached("UPDATE accounts SET balance = balance + ?1 WHERE id = ?2")?
            .execute(params![change, id])?;
    }
    transaction
        .prepare_cached("INSERT INTO transfers VALUES (?1, ?2, ?3)")?
        .execute(params![source, target, amount])?;
    transaction.commit()
}

/// The sums of the tables after a run.
pub struct Sums {
    /// All balances together.
    pub total: i64,
    pub transfers: u64,
    /// Accounts whose balance is not what the transfers say.
    pub wrong: u64,
}

impl Sums {
    pub fn read(conn: &Connection) -> Result<Sums, Error> {
        let total = "SELECT sum(balance) FROM accounts";
        let transfers = "SELECT count(*) FROM transfers";
        let wrong = "SELECT count(*) FROM accounts WHERE balance != ?1
            + (SELECT coalesce(sum(amount), 0) FROM transfers WHERE target = id)
            - (SELECT coalesce(sum(amount), 0) FROM transfers WHERE source = id)";
        Ok(Sums {
            total: conn.query_row(total, [], |row| row.get(0))?,
            transfers: conn.query_row(transfers, [], |row| row.get(0))?,
            wrong: conn.query_row(wrong, [BALANCE], |row| row.get(0))?,
        })
    }

    /// Whether the sums are right after this many transfers.
    pub fn are_right(&self, transfers: u64) -> bool {
        let total = BALANCE * ACCOUNTS as i64;
        self.total == total && self.transfers == transfers && self.wrong == 0
    }
}
