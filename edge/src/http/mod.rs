//! HTTP/1.1: POST /calls, /calls/OPERATION and /compact, health, metrics, and the page, which another process answers.
//!
//! Here is what a request is answered, plain calls on a way of their own, and the page. What a call means is read in `call`;
//! who may connect and ask is looked at in `net`.

pub mod blob_paths;
pub mod calls;
pub mod metrics;
pub mod page;
pub mod plain;
pub mod statuses;

use crate::access::caller::NOBODY;
use crate::access::log::{Access, AccessLog};
use crate::access::rights::Right;
use crate::call::body::{call_key, parse_call, parse_fields, ParsedCall};
use crate::call::fault::Fault;
use crate::call::operations::Op;
use crate::core::Core;
use crate::http::page::Page;
use crate::http::statuses::{is_operation, named_in, status_of};
use crate::json::{quoted, Object, Value};
use crate::log::blobs::Store;
use crate::net::guard::{is_health, Guard, Pass, Verdict};
use crate::settings::MOST_CAPACITY;
use crate::turns::close_waiters;
use hyper::body::{Bytes, HttpBody};
use hyper::header::{HeaderName, HeaderValue, ALLOW, CONNECTION, CONTENT_LENGTH, CONTENT_TYPE};
use hyper::header::{LOCATION, RETRY_AFTER, SET_COOKIE, TRANSFER_ENCODING};
use hyper::{Body, Method, Request, Response, StatusCode};
use std::future::Future;
use std::sync::Arc;
use std::time::{Duration, Instant};

const BODY_LIMIT: usize = 1_048_576;
/// So many bytes the first line of a request and its headers may have, with their line ends.
pub const HEAD_LIMIT: usize = 16_384;
/// The rest of a body that has at most so many bytes is read before its request is refused: the connection goes on then.
const SHORT_BODY: u64 = 1 << 16;
/// After so many seconds a call that was not taken may be made again.
pub const RETRY_SECONDS: u16 = 1;
/// The path of calls. Behind it may stand the name of an operation.
pub const CALLS: &str = "/calls";
pub const JSON: &str = "application/json; charset=utf-8";

/// What answers requests.
pub struct Front {
    pub core: Arc<Core>,
    pub guard: Guard,
    pub page: Option<Arc<Page>>,
    /// The texts that are too long for a history.
    pub blobs: Arc<dyn Store>,
    /// Whether the one who asks is the page, which may ask what changed.
    pub is_private: bool,
    /// How long a request may take to come.
    pub read_timeout: Duration,
    pub access: Option<Arc<AccessLog>>,
}

/// A request that is answered by a fault: its status, its name, and what is wrong.
#[derive(Debug)]
pub struct Refusal {
    pub status: u16,
    name: &'static str,
    said: String,
}

impl Refusal {
    pub fn new(status: u16, name: &'static str, said: impl Into<String>) -> Refusal {
        Refusal { status, name, said: said.into() }
    }

    /// The text of its answer.
    pub fn text(&self) -> String {
        fault_text(self.name, &self.said)
    }
}

impl From<Fault> for Refusal {
    fn from(fault: Fault) -> Refusal {
        Refusal::new(fault.status(), fault.name(), fault.to_string())
    }
}

/// Who makes a request, and what for, as far as that is known.
#[derive(Default)]
struct Asker {
    /// Whether he has shown a certificate, or none is wanted.
    is_certified: bool,
    is_let_in: bool,
    pass: Pass,
    op: Option<Op>,
}

impl Asker {
    /// By which name he is noted.
    fn name(&self) -> Option<&str> {
        self.is_let_in.then(|| name_of(&self.pass))
    }
}

/// By which name a caller is noted who was let in.
pub fn name_of(pass: &Pass) -> &str {
    pass.as_ref().map_or(NOBODY, |caller| &caller.name)
}

pub type Answer = Result<Response<Body>, Refusal>;

/// An answer of this status and type.
pub fn answer(status: u16, kind: &'static str, text: impl Into<Body>) -> Response<Body> {
    let mut response = Response::new(text.into());
    *response.status_mut() = StatusCode::from_u16(status).unwrap_or(StatusCode::INTERNAL_SERVER_ERROR);
    response.headers_mut().insert(CONTENT_TYPE, HeaderValue::from_static(kind));
    response
}

/// A fault's answer as JSON.
pub fn fault_text(name: &str, said: &str) -> String {
    format!("{{\"error\": {}, \"said\": {}}}", quoted(name), quoted(said))
}

fn refused(refusal: &Refusal) -> Response<Body> {
    with_retry(answer(refusal.status, JSON, refusal.text()))
}

/// Whether an answer of this status says when to call again.
pub fn says_when(status: StatusCode) -> bool {
    matches!(status, StatusCode::SERVICE_UNAVAILABLE | StatusCode::TOO_MANY_REQUESTS)
}

/// Says when to call again, where nothing took effect now.
pub fn with_retry(mut response: Response<Body>) -> Response<Body> {
    if says_when(response.status()) {
        response.headers_mut().insert(RETRY_AFTER, RETRY_SECONDS.into());
    }
    response
}

/// Has the connection closed after an answer.
fn closing(mut response: Response<Body>) -> Response<Body> {
    response.headers_mut().insert(CONNECTION, HeaderValue::from_static("close"));
    response
}

/// Whether the connection is closed after this answer, with what its client still sends.
pub fn is_last(response: &Response<Body>) -> bool {
    response.headers().contains_key(CONNECTION)
}

impl Front {
    /// Answers a request, and notes that. Where its body was not read to its end, nothing is read after it.
    pub async fn answer(&self, mut request: Request<Body>, is_certified: bool) -> Response<Body> {
        let mut asker = Asker { is_certified, ..Asker::default() };
        let log = match &self.access {
            Some(log) => log,
            None => return self.respond(&mut request, &mut asker).await,
        };
        let (begun, method, path) = (Instant::now(), request.method().clone(), request.uri().path().to_string());
        let response = self.respond(&mut request, &mut asker).await;
        log.note(&Access {
            name: asker.name(),
            method: method.as_str(),
            path: &path,
            op: asker.op.map(Op::name),
            status: response.status().as_u16(),
            bytes: response.body().size_hint().exact(),
            took: begun.elapsed(),
        });
        response
    }

    async fn respond(&self, request: &mut Request<Body>, asker: &mut Asker) -> Response<Body> {
        if head_bytes(request) > HEAD_LIMIT {
            let said = format!("a request's head has at most {HEAD_LIMIT} bytes");
            return closing(refused(&Refusal::new(431, "HeadTooLong", said)));
        }
        // Where something in front of the edge reads a chunked body otherwise, nothing follows it.
        let is_chunked = request.headers().contains_key(TRANSFER_ENCODING);
        if is_chunked && request.headers().contains_key(CONTENT_LENGTH) {
            return closing(refused(&Refusal::new(400, "BadRequest", "a body has one length")));
        }
        let response = match self.guarded(request, asker) {
            Some(response) => response,
            None => self.route(request, asker).await.unwrap_or_else(|refusal| refused(&refusal)),
        };
        let is_slow = response.status() == StatusCode::REQUEST_TIMEOUT;
        match is_chunked || is_slow || !self.has_read(request.body_mut()).await {
            true => closing(response),
            false => response,
        }
    }

    /// Whether a body was read to its end. The rest of a short one is read and dropped.
    async fn has_read(&self, body: &mut Body) -> bool {
        if body.is_end_stream() {
            return true;
        }
        if body.size_hint().upper().map_or(true, |most| most > SHORT_BODY) {
            return false;
        }
        let rest = async { while let Some(Ok(_)) = body.data().await {} };
        let is_in_time = tokio::time::timeout(self.read_timeout, rest).await.is_ok();
        is_in_time && body.is_end_stream()
    }

    /// The answer to a request that is not let in.
    fn guarded(&self, request: &Request<Body>, asker: &mut Asker) -> Option<Response<Body>> {
        if !asker.is_certified && !is_health(request.uri().path()) {
            let said = "this server wants a client's certificate, signed by one of its --tls-client-ca";
            return Some(refused(&Refusal::new(403, "NoCertificate", said)));
        }
        match self.guard.check(request.method(), request.uri(), request.headers()) {
            Verdict::LetIn(pass) => {
                asker.pass = pass;
                asker.is_let_in = true;
                self.admit(&asker.pass, rights_for(request)).err().map(|fault| refused(&fault.into()))
            }
            Verdict::WrongHost => Some(refused(&Refusal::new(403, "WrongHost", "this name is not served here"))),
            Verdict::NoToken => Some(refused(&Refusal::new(401, "NoToken", "this server wants its token"))),
            Verdict::KeepToken { path, cookie } => {
                let mut response = answer(303, "text/plain; charset=utf-8", "303: See Other");
                for (name, value) in [(LOCATION, path), (SET_COOKIE, cookie)] {
                    // What can't be a header's value is left out, and the browser asks for the token again.
                    if let Ok(value) = HeaderValue::from_str(&value) {
                        response.headers_mut().insert::<HeaderName>(name, value);
                    }
                }
                Some(response)
            }
        }
    }

    /// Counts a request of a caller, and refuses it where he lacks a right: one of these is enough, if there are any.
    pub fn admit(&self, pass: &Pass, rights: &[Right]) -> Result<(), Fault> {
        let caller = match pass {
            Some(caller) => caller,
            None => return Ok(()),
        };
        let admitted = caller.count().and_then(|()| caller.check(rights));
        admitted.map_err(|fault| self.note_refused(fault))
    }

    /// Refuses a call that its caller may not make.
    pub fn permit(&self, pass: &Pass, call: ParsedCall) -> Result<ParsedCall, Fault> {
        if let Some(caller) = pass {
            let permitted = caller.check_call(call.facts.op, call.facts.queue.as_deref());
            permitted.map_err(|fault| self.note_refused(fault))?;
        }
        Ok(call)
    }

    fn note_refused(&self, fault: Fault) -> Fault {
        self.core.note_refused(&fault);
        fault
    }

    async fn route(&self, request: &mut Request<Body>, asker: &mut Asker) -> Answer {
        let (is_get, is_post) = (request.method() == Method::GET, request.method() == Method::POST);
        match request.uri().path() {
            "/calls" if is_post => self.call(request, None, asker).await,
            path if named_in(path).is_some() && is_post => self.call_named(request, asker).await,
            path if blob_paths::named_in(path).is_some() => self.blob(request).await,
            "/compact" if is_post => self.compact(request).await,
            "/health/live" if is_get => Ok(answer(200, JSON, "{\"status\": \"live\"}")),
            "/health/ready" if is_get => Ok(self.ready()),
            "/metrics" if is_get => Ok(answer(200, "text/plain; charset=utf-8", self.core.metrics())),
            "/feed" if is_get && self.is_private => self.feed(request),
            "/blobs" if is_get && self.is_private => self.has_blobs().await,
            "/blobs" if is_post && self.is_private => self.sweep_blobs(request).await,
            "/records" if is_get && self.is_private => Ok(answer(200, JSON, self.core.records())),
            "/calls" | "/compact" => Ok(not_allowed("POST")),
            path if named_in(path).is_some() => Ok(not_allowed("POST")),
            "/health/live" | "/health/ready" | "/metrics" => Ok(not_allowed("GET")),
            _ => match &self.page {
                Some(page) if is_get => {
                    let asked = without_body(request);
                    page.answer(asked).await.map_err(|said| Refusal::new(503, "NoPage", said))
                }
                _ => Err(Refusal::new(404, "NotFound", "404: Not Found")),
            },
        }
    }

    /// Answers a call whose operation the path names, by the status of its reply.
    async fn call_named(&self, request: &mut Request<Body>, asker: &mut Asker) -> Answer {
        let name = named_in(request.uri().path()).unwrap_or_default().to_string();
        match is_operation(&name) {
            true => self.call(request, Some(&name), asker).await,
            false => Err(Refusal::new(404, "NoSuchOperation", format!("there is no operation {name}"))),
        }
    }

    /// Answers a call by its reply. Its operation is the body's, or this one.
    async fn call(&self, request: &mut Request<Body>, named: Option<&str>, asker: &mut Asker) -> Answer {
        let key = match request.headers().get("idempotency-key") {
            None => None,
            Some(value) => Some(call_key(value.to_str().unwrap_or("")).map_err(Refusal::from)?),
        };
        let body = self.body_of(request).await?;
        let call = self.parse(named, &body)?;
        asker.op = Some(call.facts.op);
        let reply = self.reply_to(self.permit(&asker.pass, call)?, key).await?;
        let status = named.map_or(200, |_| status_of(&reply));
        Ok(with_retry(answer(status, JSON, reply)))
    }

    /// Reads the body of a call whose operation its path may name.
    pub fn parse(&self, named: Option<&str>, body: &[u8]) -> Result<ParsedCall, Fault> {
        let shards = self.core.shards();
        named.map_or_else(|| parse_call(body, shards), |op| parse_fields(op, body, shards))
    }

    /// The reply to a call, once it is there, or once a run has closed where that is waited for.
    pub async fn reply_to(&self, asked: ParsedCall, key: Option<Box<str>>) -> Result<Bytes, Fault> {
        match close_waiters::waits(&asked) {
            true => close_waiters::until_closed(&self.core, asked).await,
            false => self.core.reply_to(asked, key).await,
        }
    }

    /// Compacts the log while it is served, with room for so many tasks in its queues. Calls wait meanwhile.
    async fn compact(&self, request: &mut Request<Body>) -> Answer {
        let body = self.body_of(request).await?;
        let outcome = self.core.compact(capacity_of(&body)?)?;
        let done = outcome.await.unwrap_or(Err(Fault::Draining))?;
        let text = format!(
            "{{\"ok\": \"compacted\", \"lines\": {}, \"bytes\": {}, \"records\": {}, \"capacity\": {}}}",
            done.lines, done.bytes, done.records, done.capacity
        );
        Ok(answer(200, JSON, text))
    }

    /// Whether calls are taken now. A clock that is ahead is told by how many milliseconds.
    fn ready(&self) -> Response<Body> {
        let health = self.core.health();
        let (status, said) = health.not_ready.map_or((200, "ready"), |why| (503, why.word()));
        let text = format!(
            "{{\"status\": \"{said}\", \"lines\": {}, \"bytes\": {}, \"clock_ahead\": {}, \"queue_full\": {}, \
             \"compacting\": {}}}",
            health.lines, health.bytes, health.clock_ahead, health.is_queue_full, health.is_compacting
        );
        answer(status, JSON, text)
    }

    /// What changed for the list of workflows, for the page alone.
    fn feed(&self, request: &Request<Body>) -> Answer {
        let from =
            request.uri().query().and_then(|query| query.strip_prefix("from=")).and_then(|from| from.parse().ok());
        let text = from.and_then(|from| self.core.changes(from));
        let text = text.ok_or_else(|| Refusal::new(400, "BadCall", "from is a number"))?;
        let moment = self.core.moment();
        Ok(answer(200, JSON, format!("{{\"moment\":{moment},{text}}}")))
    }

    /// The body of a call, which has to come within so many seconds.
    pub async fn body_of(&self, request: &mut Request<Body>) -> Result<Bytes, Refusal> {
        // A page of another site can't send this type without asking first.
        let kind = request.headers().get(CONTENT_TYPE).and_then(|kind| kind.to_str().ok()).unwrap_or("");
        let kind = kind.split(';').next().unwrap_or("").trim();
        if !kind.eq_ignore_ascii_case("application/json") {
            return Err(Refusal::new(415, "NotJson", "a call is application/json"));
        }
        let body = in_time(self.read_timeout, read_body(request.body_mut(), BODY_LIMIT)).await?;
        body.ok_or_else(|| Refusal::new(413, "RequestEntityTooLarge", format!("a body has at most {BODY_LIMIT} bytes")))
    }
}

/// The rights of which one is enough for a request. None where none is wanted, or its call says which.
fn rights_for(request: &Request<Body>) -> &'static [Right] {
    match request.uri().path() {
        "/calls" => &[],
        path if is_health(path) || named_in(path).is_some() => &[],
        "/compact" | "/metrics" => &[Right::Operate],
        path if blob_paths::named_in(path).is_some() && request.method() == Method::PUT => &[Right::Start, Right::Work],
        path if blob_paths::named_in(path).is_some() => &[Right::Read, Right::Work],
        _ => &[Right::Read],
    }
}

/// What has to come within so long.
pub async fn in_time<T>(most: Duration, coming: impl Future<Output = Result<T, Refusal>>) -> Result<T, Refusal> {
    let late =
        |_| Refusal::new(408, "SlowBody", format!("the body did not come within {} seconds", most.as_secs_f64()));
    tokio::time::timeout(most, coming).await.map_err(late)?
}

/// How many bytes a request's head has, without blanks that mean nothing.
fn head_bytes(request: &Request<Body>) -> usize {
    let path = request.uri().path_and_query().map_or(0, |path| path.as_str().len());
    let place = request.uri().authority().map_or(0, |place| "http://".len() + place.as_str().len());
    let first = request.method().as_str().len() + place + path + "  HTTP/1.1\r\n\r\n".len();
    let headers = request.headers().iter();
    first + headers.map(|(name, value)| name.as_str().len() + value.len() + ": \r\n".len()).sum::<usize>()
}

/// A request for the page, which reads no bodies. Its body stays where it was.
fn without_body(request: &mut Request<Body>) -> Request<Body> {
    let mut asked = std::mem::take(request);
    std::mem::swap(asked.body_mut(), request.body_mut());
    for name in [CONTENT_LENGTH, TRANSFER_ENCODING] {
        asked.headers_mut().remove(name);
    }
    asked
}

fn not_allowed(method: &'static str) -> Response<Body> {
    let mut response = refused(&Refusal::new(405, "MethodNotAllowed", "405: Method Not Allowed"));
    response.headers_mut().insert(ALLOW, HeaderValue::from_static(method));
    response
}

/// Reads a body. None where it has more than so many bytes: what is left of it stays unread.
pub async fn read_body(body: &mut Body, most: usize) -> Result<Option<Bytes>, Refusal> {
    if body.size_hint().lower() > most as u64 {
        return Ok(None);
    }
    let hung_up = |_| Refusal::new(400, "BadCall", "the client hung up");
    let first = match body.data().await {
        Some(first) => first.map_err(hung_up)?,
        None => return Ok(Some(Bytes::new())),
    };
    if body.is_end_stream() && first.len() <= most {
        return Ok(Some(first));
    }
    let mut whole = first.to_vec();
    while whole.len() <= most {
        match body.data().await {
            Some(piece) => whole.extend_from_slice(&piece.map_err(hung_up)?),
            None => return Ok(Some(whole.into())),
        }
    }
    Ok(None)
}

/// For how many tasks a request to compact wants room in the queues; 0 where it doesn't say.
fn capacity_of(body: &[u8]) -> Result<u32, Refusal> {
    let request: Object<'_> = match Value::parse(body) {
        Ok(Value::Object(request)) => request,
        _ => return Err(Refusal::new(400, "BadCall", "the body is no JSON object")),
    };
    let capacity = request.get("capacity").map_or(Some(0), Value::whole);
    let capacity = capacity.and_then(|capacity| u32::try_from(capacity).ok()).filter(|it| *it <= MOST_CAPACITY);
    capacity.ok_or_else(|| Refusal::new(400, "BadCall", format!("capacity is a whole number, at most {MOST_CAPACITY}")))
}

#[cfg(test)]
mod tests {
    use super::*;

    #[test]
    fn a_capacity_is_a_whole_number() {
        assert_eq!(capacity_of(b"{}").ok(), Some(0));
        assert_eq!(capacity_of(br#"{"capacity":65536}"#).ok(), Some(65_536));
        for body in ["", "[]", r#"{"capacity":true}"#, r#"{"capacity":-1}"#, r#"{"capacity":65537}"#] {
            assert_eq!(capacity_of(body.as_bytes()).map_err(|refusal| refusal.status).unwrap_err(), 400, "{body}");
        }
    }

    #[test]
    fn a_fault_is_json() {
        let text = fault_text("BadCall", "the key \"a\"\n");
        assert_eq!(text, r#"{"error": "BadCall", "said": "the key \"a\"\n"}"#);
        let busy = refused(&Fault::Busy(String::new()).into());
        assert_eq!((busy.status().as_u16(), busy.headers().get(RETRY_AFTER).is_some()), (503, true));
    }
}
