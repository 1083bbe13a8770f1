//! Twenty tasks share three connections to a server. Then the server goes down.

use bb8::{ManageConnection, Pool, RunError};
use std::sync::atomic::{AtomicBool, AtomicU32, Ordering::Relaxed};
use std::sync::Arc;
use std::time::Duration;

/// A server, which is imaginary. A real one is behind an address.
#[derive(Default)]
struct Server {
    is_down: AtomicBool,
    connections: AtomicU32,
}

/// A connection to the server, as the library of a client has it.
struct Client {
    server: Arc<Server>,
    number: u32,
}

/// The error of the client.
#[derive(Debug)]
struct Down;

impl std::fmt::Display for Down {
    fn fmt(&self, f: &mut std::fmt::Formatter<'_>) -> std::fmt::Result {
        f.write_str("the server is down")
    }
}

impl std::error::Error for Down {}

impl Client {
    async fn open(server: &Arc<Server>) -> Result<Client, Down> {
        let number = server.connections.fetch_add(1, Relaxed);
        let server = server.clone();
        let mut client = Client { server, number };
        client.request().await?;
        Ok(client)
    }

    async fn request(&mut self) -> Result<(), Down> {
        tokio::task::yield_now().await;
        let is_down = self.server.is_down.load(Relaxed);
        if is_down {
            Err(Down)
        } else {
            Ok(())
        }
    }
}

/// The adapter: it defines how the pool opens and checks connections.
struct Clients(Arc<Server>);

impl ManageConnection for Clients {
    type Connection = Client;
    type Error = Down;

    async fn connect(&self) -> Result<Client, Down> {
        Client::open(&self.0).await
    }

    async fn is_valid(&self, client: &mut Client) -> Result<(), Down> {
        client.request().await
    }

    fn has_broken(&self, _: &mut Client) -> bool {
        false
    }
}

/// One task: it waits for a connection, and sends a request.
async fn work(pool: Pool<Clients>) -> Result<u32, RunError<Down>> {
    let mut client = pool.get().await?;
    client.request().await?;
    Ok(client.number)
}

#[tokio::main(flavor = "current_thread")]
async fn main() -> Result<(), RunError<Down>> {
    let server = Arc::new(Server::default());
    let pool = Pool::builder()
        .max_size(3)
        .connection_timeout(Duration::from_millis(200))
        .build(Clients(server.clone()))
        .await?;

    // Load: as many tasks as you like share three connections.
    let tasks: Vec<_> = (0..20).map(|_| tokio::spawn(work(pool.clone()))).collect();
    for task in tasks {
        let number = task.await.expect("no task panics")?;
        assert!(number < 3);
    }

    // An outage: the check finds that the connections are dead, and no other can be opened.
    server.is_down.store(true, Relaxed);
    match work(pool.clone()).await {
        Err(RunError::TimedOut) => println!("no connection in time: try again later"),
        other => panic!("{other:?}"),
    }

    // The server is back, and so is the pool.
    server.is_down.store(false, Relaxed);
    work(pool.clone()).await?;
    println!("{:?}", pool.state());
    Ok(())
}
