//! A prepared statement through a PgBouncer that pools transactions. Inside of a transaction it is
//! served. Outside, the next request may reach another process of the server, which does not know
//! the statement, unless PgBouncer prepares it there (`max_prepared_statements`, from 1.21 on).
//!
//! Argument: the connection string.

use postgres_manager::open;
use std::env;
use tokio_postgres::error::SqlState;
use tokio_postgres::Config;

#[tokio::main]
async fn main() -> Result<(), Box<dyn std::error::Error>> {
    let arguments: Vec<String> = env::args().collect();
    let [_, server] = &arguments[..] else {
        return Err("argument: CONNECTION".into());
    };
    let config: Config = server.parse()?;
    let (one, other) = (open(&config).await?, open(&config).await?);

    one.batch_execute("BEGIN").await?;
    let inside = one.prepare("SELECT 1").await?;
    one.query_one(&inside, &[]).await?;
    drop(inside);
    one.batch_execute("COMMIT").await?;
    println!("yes: a statement is served inside of its transaction");

    let outside = one.prepare("SELECT 1").await?;
    // The other connection takes the process that has prepared it.
    other.batch_execute("BEGIN").await?;
    match one.query_one(&outside, &[]).await {
        Ok(_) => println!("yes: PgBouncer prepares a statement where it is needed"),
        Err(error) if error.code() == Some(&SqlState::INVALID_SQL_STATEMENT_NAME) => {
            println!("yes: a statement is lost outside of its transaction: {error}");
        }
        Err(error) => return Err(error.into()),
    }
    Ok(())
}
