//! A connection that speaks the protocol of Redis.

use crate::Log;
use std::io::{self, ErrorKind};
use std::sync::atomic::Ordering::SeqCst;
use std::sync::Arc;
use tokio::io::{AsyncBufReadExt, AsyncReadExt, AsyncWriteExt, BufReader};
use tokio::net::TcpStream;

/// The server's reply: a text, or its own error.
pub type Answer = Result<String, String>;

/// A connection to a server.
pub struct Client {
    stream: BufReader<TcpStream>,
    name: String,
    log: Arc<Log>,
    /// Whether `Log::opened` counts it.
    pub(crate) is_counted: bool,
    /// Whether a reply is still to be read. The next request would get it.
    asked: bool,
}

impl Drop for Client {
    fn drop(&mut self) {
        let name = std::mem::take(&mut self.name);
        self.log.closed.lock().unwrap().insert(name);
        let count = u64::from(self.is_counted);
        self.log.dropped.fetch_add(count, SeqCst);
    }
}

impl Client {
    /// Opens a connection that the server lists by this name. The server is `HOST:PORT`, or
    /// `PASSWORD@HOST:PORT`.
    pub async fn open(server: &str, name: String, log: &Arc<Log>) -> io::Result<Client> {
        let (password, address) = match server.rsplit_once('@') {
            Some((password, address)) => (Some(password), address),
            None => (None, server),
        };
        let stream = TcpStream::connect(address).await?;
        stream.set_nodelay(true)?;
        let mut client = Client {
            stream: BufReader::new(stream),
            name: name.clone(),
            log: log.clone(),
            is_counted: false,
            asked: false,
        };
        if let Some(password) = password {
            let known = client.ask(&["AUTH", password]).await?;
            known.map_err(io::Error::other)?;
        }
        let named = client.ask(&["CLIENT", "SETNAME", &name]).await?;
        named.map_err(io::Error::other)?;
        Ok(client)
    }

    /// Sends a request and reads its reply. If this is cancelled half-way, or fails, the
    /// connection stays broken.
    pub async fn ask(&mut self, words: &[&str]) -> io::Result<Answer> {
        let mut request = format!("*{}\r\n", words.len());
        for word in words {
            request += &format!("${}\r\n{word}\r\n", word.len());
        }
        self.asked = true;
        self.stream.get_mut().write_all(request.as_bytes()).await?;
        let answer = self.answer().await?;
        self.asked = false;
        Ok(answer)
    }

    /// Returns whether a reply is still to be read.
    pub fn is_broken(&self) -> bool {
        self.asked
    }

    async fn answer(&mut self) -> io::Result<Answer> {
        let mut line = String::new();
        if self.stream.read_line(&mut line).await? == 0 {
            return Err(ErrorKind::UnexpectedEof.into());
        }
        let line = line.trim_end();
        let text = line.get(1..).unwrap_or_default();
        match line.get(..1) {
            Some("+" | ":") => Ok(Ok(text.to_string())),
            Some("-") => Ok(Err(text.to_string())),
            Some("$") if text == "-1" => Ok(Ok(String::new())),
            Some("$") => self.bulk(text).await.map(Ok),
            _ => Err(ErrorKind::InvalidData.into()),
        }
    }

    /// Reads a text of the length that the server has sent.
    async fn bulk(&mut self, length: &str) -> io::Result<String> {
        let length: usize = length.parse().map_err(|_| ErrorKind::InvalidData)?;
        let mut bytes = vec![0; length + 2];
        self.stream.read_exact(&mut bytes).await?;
        bytes.truncate(length);
        String::from_utf8(bytes).map_err(|_| ErrorKind::InvalidData.into())
    }
}
