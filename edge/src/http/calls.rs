//! Plain calls by HTTP, one after the other on their connection. A request that is none is left to hyper, with all that
//! follows it there.
//!
//! To a client it makes no difference who serves it. Here a call takes one read and one write, and little between them.

use crate::access::log::Access;
use crate::call::body::ParsedCall;
use crate::call::fault::Fault;
use crate::call::operations::Op;
use crate::http::plain::{found, put_answer, Dated, Found};
use crate::http::statuses::status_of;
use crate::http::{name_of, Front, Refusal, CALLS};
use crate::net::guard::Pass;
use crate::net::listen::{serve_http, Before, Counted, IDLE, PAUSE};
use crate::net::stream::Stream;
use hyper::body::Bytes;
use std::cell::RefCell;
use std::future::Future;
use std::pin::Pin;
use std::sync::Arc;
use std::time::Duration;
use tokio::io::{AsyncReadExt, AsyncWriteExt};
use tokio::sync::watch;
use tokio::time::{sleep, timeout, timeout_at, Instant, Sleep};

/// So many bytes a connection has room for when it begins, and keeps between its calls at most.
const ROOM: usize = 1 << 12;
const KEPT: usize = 1 << 14;
/// A request that came in part comes as a whole within so long, or hyper waits for the rest of it.
const SOON: Duration = Duration::from_millis(50);
/// So long the end of an encrypted connection may take to be told.
const GOODBYE: Duration = Duration::from_secs(1);

thread_local! {
    static DATED: RefCell<Dated> = RefCell::default();
}

/// What was read of a connection.
enum Taken {
    /// A call, which may be refused.
    Call(Result<(ParsedCall, Option<Box<str>>), Fault>),
    Nothing,
    Part,
    Other,
}

/// What is noted of a call until it is answered.
#[derive(Default)]
struct Noted {
    /// The operation that its path names.
    named: Option<Op>,
    /// For the log of access: who made it, which operation it is, and when it was there.
    access: Option<(Pass, Option<Op>, Instant)>,
}

impl Noted {
    /// Notes in the log of access how it was answered.
    fn put(&self, front: &Front, status: u16, bytes: usize) {
        if let (Some(log), Some((pass, op, begun))) = (&front.access, &self.access) {
            let path = self.named.map_or_else(|| CALLS.to_string(), |op| format!("{CALLS}/{}", op.name()));
            log.note(&Access {
                name: Some(name_of(pass)),
                method: "POST",
                path: &path,
                op: op.map(Op::name),
                status,
                bytes: Some(bytes as u64),
                took: begun.elapsed(),
            });
        }
    }
}

/// A connection, and what was read of it and is not answered yet.
struct Talk<S> {
    socket: S,
    front: Arc<Front>,
    read: Vec<u8>,
    /// The text of an answer.
    text: Vec<u8>,
    /// When something was answered on it last, and until when what has come in part is waited for here.
    last: Instant,
    soon: Option<Instant>,
    /// Of the call that is being made.
    noted: Noted,
    was_asked: bool,
    is_stopped: bool,
}

/// Serves one connection.
pub async fn serve<S: Stream>(socket: S, front: Arc<Front>, counted: Counted) {
    let (read, text, last) = (Vec::with_capacity(ROOM), Vec::new(), Instant::now());
    let mut talk = Talk {
        socket,
        front,
        read,
        text,
        last,
        soon: None,
        noted: Noted::default(),
        was_asked: false,
        is_stopped: false,
    };
    if talk.serve(counted.0.told_to_stop()).await {
        let Talk { socket, front, read, was_asked, .. } = talk;
        let is_stopped = counted.0.is_stopped();
        // Few connections come here, and hyper's state of one is large.
        Box::pin(serve_http(socket, Before { read, was_asked, is_stopped, lacks_certificate: false }, front, counted))
            .await;
    } else if S::HAS_GOODBYE {
        // A client that has hung up hears none.
        let _ = timeout(GOODBYE, talk.socket.shutdown()).await;
    }
}

impl<S: Stream> Talk<S> {
    /// Serves plain calls until the connection ends. Whether hyper goes on with it.
    async fn serve(&mut self, connections_stop: watch::Receiver<bool>) -> bool {
        let mut stopped = connections_stop.clone();
        let (stop, idle) = (stopped.changed(), sleep(self.most_idle() + PAUSE));
        tokio::pin!(stop, idle);
        loop {
            let goes_on = match self.take() {
                Taken::Call(asked) => {
                    let outcome = match asked {
                        Ok((asked, key)) => self.until_there(asked, key).await,
                        Err(fault) => Some(Err(fault)),
                    };
                    let is_taken = match outcome {
                        Some(outcome) => self.answer(outcome).await,
                        None => false,
                    };
                    is_taken && !self.is_stopped && !connections_stop.has_changed().unwrap_or(true)
                }
                Taken::Nothing => self.read_first(stop.as_mut(), idle.as_mut()).await,
                Taken::Part if self.read_rest().await => true,
                Taken::Part | Taken::Other => return true,
            };
            if !goes_on {
                return false;
            }
        }
    }

    /// For how long nothing may be asked.
    fn most_idle(&self) -> Duration {
        let read_timeout = self.front.read_timeout;
        if self.was_asked {
            IDLE.max(read_timeout)
        } else {
            read_timeout
        }
    }

    /// Takes the first call of what was read.
    fn take(&mut self) -> Taken {
        if self.read.is_empty() {
            return Taken::Nothing;
        }
        let call = match found(&self.read, &self.front.guard) {
            Found::Call(call) => call,
            Found::Part => return Taken::Part,
            Found::Other => return Taken::Other,
        };
        let (length, named, pass) = (call.length, call.named.map(Op::parse), call.pass);
        let parsed = self.front.admit(&pass, &[]).and_then(|()| self.front.parse(call.named, call.body));
        let op = parsed.as_ref().ok().map(|parsed| parsed.facts.op);
        let permitted = parsed.and_then(|parsed| self.front.permit(&pass, parsed));
        let access = self.front.access.is_some().then(|| (pass, op, Instant::now()));
        let taken = Taken::Call(permitted.map(|parsed| (parsed, call.key)));
        self.noted = Noted { named, access };
        self.read.drain(..length);
        self.read.shrink_to(KEPT);
        self.soon = None;
        taken
    }

    /// Reads a request's first bytes. False where none come: the client has hung up or says nothing, or the edge stops.
    async fn read_first<F: Future>(&mut self, mut stop: Pin<&mut F>, mut idle: Pin<&mut Sleep>) -> bool {
        loop {
            tokio::select! {
                biased;
                read = self.socket.read_buf(&mut self.read) => return matches!(read, Ok(count) if count > 0),
                _ = stop.as_mut(), if !self.is_stopped => {
                    self.is_stopped = true;
                    if self.was_asked {
                        return false;
                    }
                }
                _ = idle.as_mut() => {
                    let late = self.last + self.most_idle() + PAUSE;
                    if late <= Instant::now() {
                        return false;
                    }
                    idle.as_mut().reset(late);
                }
            }
        }
    }

    /// Reads more of a request. False where it doesn't come soon.
    async fn read_rest(&mut self) -> bool {
        let soon = *self.soon.get_or_insert_with(|| Instant::now() + SOON);
        let read = timeout_at(soon, self.socket.read_buf(&mut self.read)).await;
        matches!(read, Ok(Ok(count)) if count > 0)
    }

    /// What becomes of a call. None where its client hangs up before; one that has asked more already is not waited for.
    async fn until_there(&mut self, asked: ParsedCall, key: Option<Box<str>>) -> Option<Result<Bytes, Fault>> {
        let front = self.front.clone();
        let reply = front.reply_to(asked, key);
        tokio::pin!(reply);
        loop {
            tokio::select! {
                biased;
                outcome = &mut reply => return Some(outcome),
                read = self.socket.read_buf(&mut self.read), if self.read.is_empty() => match read {
                    Ok(count) if count > 0 => {}
                    _ => return None,
                },
            }
        }
    }

    /// Answers a call. False where its client doesn't take the answer.
    async fn answer(&mut self, outcome: Result<Bytes, Fault>) -> bool {
        self.text.clear();
        let (status, bytes) = DATED.with(|dated| {
            let (text, dated) = (&mut self.text, &mut dated.borrow_mut());
            match outcome {
                Ok(reply) => {
                    let status = self.noted.named.map_or(200, |_| status_of(&reply));
                    put_answer(text, status, &reply, dated);
                    (status, reply.len())
                }
                Err(fault) => {
                    let refusal = Refusal::from(fault);
                    let said = refusal.text();
                    put_answer(text, refusal.status, said.as_bytes(), dated);
                    (refusal.status, said.len())
                }
            }
        });
        self.noted.put(&self.front, status, bytes);
        self.was_asked = true;
        self.last = Instant::now();
        let written = self.socket.write_at_once(&self.text);
        if written < self.text.len() {
            let Talk { socket, text, .. } = self;
            let rest = async move {
                socket.write_all(&text[written..]).await?;
                socket.flush().await
            };
            if !matches!(timeout(IDLE.max(self.front.read_timeout), rest).await, Ok(Ok(()))) {
                return false;
            }
        }
        self.text.shrink_to(KEPT);
        true
    }
}
