//! The edge's sockets: HTTP over TCP, and over a private socket for the page.

use crate::http::calls;
use crate::http::{is_last, Front, HEAD_LIMIT};
use crate::net::lingering::Lingering;
use crate::net::tls::{Greeted, Tls};
use hyper::server::conn::Http;
use hyper::service::service_fn;
use std::convert::Infallible;
use std::sync::atomic::{AtomicBool, AtomicUsize, Ordering};
use std::sync::{Arc, Mutex, PoisonError};
use std::time::{Duration, Instant};
use tokio::io::{AsyncRead, AsyncWrite};
use tokio::net::{TcpListener, TcpStream, UnixListener};
use tokio::sync::watch;

/// A head beyond this, with a piece that one read brings, is not read to its end. A shorter one that is too long is told so.
const HEAD_BUFFER: usize = 2 * HEAD_LIMIT;
const MOST_CONNECTIONS: usize = 10_000;
/// A connection on which nothing is asked is closed after so long.
pub const IDLE: Duration = Duration::from_secs(75);
/// Where no connection can be taken, as many files are open, it is tried again after so long.
pub const PAUSE: Duration = Duration::from_millis(50);

/// How many connections there are, and whether they have to end.
pub struct Connections {
    count: AtomicUsize,
    stop: watch::Sender<bool>,
}

/// Counts a connection while it is there.
pub struct Counted(pub Arc<Connections>);

impl Drop for Counted {
    fn drop(&mut self) {
        // Who waits until there are none then sees all that was done on them.
        self.0.count.fetch_sub(1, Ordering::Release);
    }
}

impl Connections {
    pub fn new() -> Arc<Connections> {
        Arc::new(Connections { count: AtomicUsize::new(0), stop: watch::channel(false).0 })
    }

    /// Counts one more; None where there are as many as may be.
    pub fn counted(self: &Arc<Connections>) -> Option<Counted> {
        let counted = Counted(self.clone());
        let before = self.count.fetch_add(1, Ordering::Relaxed);
        (before < MOST_CONNECTIONS).then_some(counted)
    }

    /// Told once the connections have to end.
    pub fn told_to_stop(&self) -> watch::Receiver<bool> {
        self.stop.subscribe()
    }

    /// Whether they have to.
    pub fn is_stopped(&self) -> bool {
        *self.stop.borrow()
    }

    /// Has all connections end once what they were asked is answered, and waits for that so long.
    pub async fn stop(&self, most: Duration) {
        let late = Instant::now() + most;
        self.stop.send_replace(true);
        while self.count.load(Ordering::Acquire) > 0 && Instant::now() < late {
            tokio::time::sleep(Duration::from_millis(5)).await;
        }
    }
}

/// What is going on on a connection, and when something was asked or answered on it last. One task at a time has the
/// connection, and looks at it: so no order of memory is asked for.
pub struct Activity {
    last: Mutex<Instant>,
    is_serving: AtomicUsize,
    was_asked: AtomicBool,
    /// Whether an answer was the last one, so that what its client still sends is not read.
    is_unread: AtomicBool,
    /// Whether the edge was told to stop.
    is_stopped: AtomicBool,
}

impl Activity {
    pub fn new() -> Activity {
        Activity {
            last: Mutex::new(Instant::now()),
            is_serving: AtomicUsize::new(0),
            was_asked: AtomicBool::new(false),
            is_unread: AtomicBool::new(false),
            is_stopped: AtomicBool::new(false),
        }
    }

    /// Notes that nothing more is read after an answer.
    pub fn leave_unread(&self) {
        self.is_unread.store(true, Ordering::Relaxed);
    }

    /// Notes that the edge was told to stop.
    pub fn stop(&self) {
        self.is_stopped.store(true, Ordering::Relaxed);
    }

    /// Whether its client may still send something, and so is waited for. An edge that stops waits for no client whose
    /// requests are all answered.
    pub fn lingers(&self) -> bool {
        self.is_unread.load(Ordering::Relaxed) || !self.is_stopped.load(Ordering::Relaxed)
    }

    fn note(&self) {
        *self.last.lock().unwrap_or_else(PoisonError::into_inner) = Instant::now();
    }

    fn begin(&self) {
        self.was_asked.store(true, Ordering::Relaxed);
        self.is_serving.fetch_add(1, Ordering::Relaxed);
    }

    fn end(&self) {
        self.note();
        self.is_serving.fetch_sub(1, Ordering::Relaxed);
    }

    /// For how long it may be silent still; None where it was silent for too long.
    fn rest(&self, read_timeout: Duration) -> Option<Duration> {
        let most = if self.was_asked.load(Ordering::Relaxed) { IDLE.max(read_timeout) } else { read_timeout };
        if self.is_serving.load(Ordering::Relaxed) > 0 {
            return Some(most);
        }
        most.checked_sub(self.last.lock().unwrap_or_else(PoisonError::into_inner).elapsed())
    }
}

/// Serves HTTP to whoever connects, until this is dropped.
pub async fn serve_tcp(listener: TcpListener, tls: Option<Arc<Tls>>, front: Arc<Front>, connections: Arc<Connections>) {
    loop {
        match listener.accept().await {
            Ok((socket, _)) => {
                let _ = socket.set_nodelay(true);
                match (connections.counted(), &tls) {
                    (Some(counted), None) => drop(tokio::spawn(calls::serve(socket, front.clone(), counted))),
                    (Some(counted), Some(tls)) => {
                        drop(tokio::spawn(serve_tls(tls.clone(), socket, front.clone(), counted)));
                    }
                    (None, _) => {}
                }
            }
            Err(_) => tokio::time::sleep(PAUSE).await,
        }
    }
}

/// Serves HTTP to a client once the handshake with it was made.
async fn serve_tls(tls: Arc<Tls>, socket: TcpStream, front: Arc<Front>, counted: Counted) {
    let mut stop = counted.0.told_to_stop();
    let greeted = tokio::select! {
        greeted = tls.greet(socket, front.read_timeout) => greeted,
        _ = stop.changed() => None,
    };
    match greeted {
        Some(Greeted { stream, is_certified: true }) => calls::serve(stream, front, counted).await,
        Some(Greeted { stream, is_certified: false }) => {
            serve_http(stream, Before { lacks_certificate: true, ..Before::default() }, front, counted).await;
        }
        None => {}
    }
}

/// Serves HTTP over a private socket, for the page.
pub async fn serve_private(listener: UnixListener, front: Arc<Front>, connections: Arc<Connections>) {
    loop {
        match listener.accept().await {
            Ok((socket, _)) => {
                if let Some(counted) = connections.counted() {
                    tokio::spawn(serve_http(socket, Before::default(), front.clone(), counted));
                }
            }
            Err(_) => tokio::time::sleep(PAUSE).await,
        }
    }
}

/// What was done on a connection before hyper serves it.
#[derive(Default)]
pub struct Before {
    /// Bytes that were read and are no request yet.
    pub read: Vec<u8>,
    /// Whether there was a request, and whether the edge was told to stop.
    pub was_asked: bool,
    pub is_stopped: bool,
    /// Whether its client has shown no certificate, and has to.
    pub lacks_certificate: bool,
}

/// Serves one connection.
pub async fn serve_http<S>(socket: S, before: Before, front: Arc<Front>, counted: Counted)
where
    S: AsyncRead + AsyncWrite + Unpin + Send + 'static,
{
    let Before { read, was_asked, is_stopped, lacks_certificate } = before;
    let mut stop = counted.0.told_to_stop();
    let (activity, read_timeout) = (Arc::new(Activity::new()), front.read_timeout);
    activity.was_asked.store(was_asked, Ordering::Relaxed);
    let noted = activity.clone();
    let service = service_fn(move |request| {
        let (front, activity) = (front.clone(), noted.clone());
        async move {
            activity.begin();
            let response = front.answer(request, !lacks_certificate).await;
            if is_last(&response) {
                activity.leave_unread();
            }
            activity.end();
            Ok::<_, Infallible>(response)
        }
    });
    let mut http = Http::new();
    http.http1_only(true).max_buf_size(HEAD_BUFFER).http1_header_read_timeout(read_timeout);
    let socket = Lingering::new(socket, read, activity.clone(), read_timeout);
    let connection = http.serve_connection(socket, service);
    tokio::pin!(connection);
    if is_stopped {
        activity.stop();
        connection.as_mut().graceful_shutdown();
    }
    loop {
        let rest = match activity.rest(read_timeout) {
            Some(rest) => rest,
            None => return,
        };
        tokio::select! {
            _ = &mut connection => return,
            _ = stop.changed() => {
                activity.stop();
                connection.as_mut().graceful_shutdown();
            }
            _ = tokio::time::sleep(rest + PAUSE) => {}
        }
    }
}
