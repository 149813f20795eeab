//! The page: a process of its own, in Python, which the edge starts, hands its requests on to, and starts again.
//!
//! It is started once somebody asks for a page, listens on a private socket, and asks the edge on another one. What it
//! shows it learns from `GET /feed`, so a slow page holds nobody up. It knows what histories name, so it also says which
//! blobs are to be deleted. It ends with its input, which the edge holds.

use crate::os::stderr::report;
use hyper::client::conn;
use hyper::{Body, Request, Response};
use std::path::Path;
use std::process::Stdio;
use std::sync::atomic::{AtomicBool, Ordering};
use std::sync::Arc;
use std::time::{Duration, Instant};
use tokio::net::UnixStream;
use tokio::process::Command;
use tokio::sync::Notify;

/// So long a request waits for a page that was just started.
const MOST_WAIT: Duration = Duration::from_secs(30);
const PAUSE: Duration = Duration::from_millis(20);
/// So long after its end a page is started again.
const REST: Duration = Duration::from_secs(1);

/// A page's process, by its command and the socket on which it answers.
pub struct Page {
    words: Vec<String>,
    socket: String,
    /// Whether it ended last before it listened: nobody waits for such a page. Nothing else is read by it.
    is_broken: AtomicBool,
    /// Told once somebody asks for a page.
    wanted: Notify,
    /// Whether the process deletes the blobs that no history names any more.
    has_sweeps: bool,
}

impl Page {
    /// A page that listens on `socket`, and asks the edge on `edge` by HTTP and on `lines` by lines. It deletes blobs where
    /// the service has a retention.
    pub fn new(command: &[String], socket: String, edge: &str, lines: &str, has_sweeps: bool) -> Page {
        let mut words = command.to_vec();
        words.extend([socket.clone(), edge.to_string(), lines.to_string()]);
        Page { words, socket, is_broken: AtomicBool::new(false), wanted: Notify::new(), has_sweeps }
    }

    /// Has the process run where there are blobs that it would delete.
    pub fn want_sweeps(&self) {
        if self.has_sweeps {
            self.wanted.notify_one();
        }
    }

    /// Keeps the process running from when it is wanted on, until this is dropped: that ends it.
    pub async fn run(self: Arc<Page>) {
        self.wanted.notified().await;
        loop {
            let _ = std::fs::remove_file(&self.socket);
            let mut command = Command::new(&self.words[0]);
            command.args(&self.words[1..]).stdin(Stdio::piped()).stdout(Stdio::null()).kill_on_drop(true);
            match command.spawn() {
                Ok(mut child) => {
                    let input = child.stdin.take();
                    let status = child.wait().await;
                    drop(input);
                    self.is_broken.store(!Path::new(&self.socket).exists(), Ordering::Relaxed);
                    let said = status.map_or_else(|fault| fault.to_string(), |status| status.to_string());
                    report!("the page ended ({said}), and is started again");
                }
                Err(fault) => {
                    self.is_broken.store(true, Ordering::Relaxed);
                    report!("the page: {}: {fault}", self.words[0]);
                }
            }
            tokio::time::sleep(REST).await;
        }
    }

    /// Has the page answer a request.
    pub async fn answer(&self, request: Request<Body>) -> Result<Response<Body>, String> {
        self.wanted.notify_one();
        let socket = self.connected().await.map_err(|fault| format!("the page is not there: {fault}"))?;
        let (mut sender, connection) = conn::handshake(socket).await.map_err(|fault| format!("the page: {fault}"))?;
        tokio::spawn(connection);
        sender.send_request(request).await.map_err(|fault| format!("the page: {fault}"))
    }

    async fn connected(&self) -> std::io::Result<UnixStream> {
        let late = Instant::now() + MOST_WAIT;
        loop {
            match UnixStream::connect(&self.socket).await {
                Ok(socket) => {
                    self.is_broken.store(false, Ordering::Relaxed);
                    return Ok(socket);
                }
                Err(_) if Instant::now() < late && !self.is_broken.load(Ordering::Relaxed) => {
                    tokio::time::sleep(PAUSE).await
                }
                Err(fault) => return Err(fault),
            }
        }
    }
}
