//! A quick reader of plain calls by HTTP, as most requests are, and a quick writer of their answers.
//!
//! It takes a call whose head and body are there as a whole and say what hyper and `http` would let in, or leaves it to
//! these: it refuses nothing. Its answers are hyper's, byte for byte.

use crate::call::body::call_key;
use crate::http::statuses::{is_operation, named_in};
use crate::http::{says_when, JSON, RETRY_SECONDS};
use crate::json::write_whole;
use crate::net::guard::{Guard, Pass};
use httparse::{Header, Request, Status, EMPTY_HEADER};
use hyper::StatusCode;
use std::time::{Duration, SystemTime};

/// A plain head has at most so many bytes and headers, and a plain body so many bytes, with so many digits.
const MOST_HEAD: usize = 8_192;
const MOST_HEADERS: usize = 32;
const MOST_BODY: usize = 1 << 16;
const MOST_DIGITS: usize = 5;

/// What bytes of a connection begin with.
#[derive(Debug, PartialEq)]
pub enum Found<'a> {
    Call(Call<'a>),
    /// What may become a call once more has come.
    Part,
    /// A request that is left to hyper.
    Other,
}

/// A call that is there as a whole.
#[derive(Debug, PartialEq)]
pub struct Call<'a> {
    /// The operation that its path names.
    pub named: Option<&'a str>,
    pub key: Option<Box<str>>,
    pub body: &'a [u8],
    pub pass: Pass,
    /// How many bytes head and body have.
    pub length: usize,
}

/// What the headers of a call say that is looked at.
#[derive(Default)]
struct CallHeaders<'a> {
    host: Option<&'a str>,
    kind: Option<&'a str>,
    length: Option<usize>,
    authorization: Option<&'a str>,
    key: Option<Box<str>>,
}

/// What bytes of a connection begin with that this guard watches.
pub fn found<'a>(data: &'a [u8], guard: &Guard) -> Found<'a> {
    let mut headers = [EMPTY_HEADER; MOST_HEADERS];
    let mut request = Request::new(&mut headers);
    let begin = match request.parse(data) {
        Ok(Status::Complete(begin)) if begin <= MOST_HEAD => begin,
        Ok(Status::Partial) if data.len() <= MOST_HEAD => return Found::Part,
        _ => return Found::Other,
    };
    let (named, headers) = match (named_by(&request), headers_in(request.headers)) {
        (Some(named), Some(headers)) => (named, headers),
        _ => return Found::Other,
    };
    let length = headers.length.filter(|length| *length <= MOST_BODY);
    let (length, pass) = match length.and_then(|length| Some((begin + length, let_in(&headers, guard)?))) {
        Some(found) => found,
        None => return Found::Other,
    };
    match data.get(begin..length) {
        Some(body) => Found::Call(Call { named, key: headers.key, body, pass, length }),
        None => Found::Part,
    }
}

/// The operation that the path of a call names, or that it names none. None where this is no call.
fn named_by<'a>(request: &Request<'_, 'a>) -> Option<Option<&'a str>> {
    if request.method != Some("POST") || request.version != Some(1) {
        return None;
    }
    match request.path? {
        "/calls" => Some(None),
        path => named_in(path).filter(|name| is_operation(name)).map(Some),
    }
}

/// What headers say. None where one comes twice that counts, or one isn't plain.
fn headers_in<'a>(all: &[Header<'a>]) -> Option<CallHeaders<'a>> {
    let mut headers = CallHeaders::default();
    for Header { name, value } in all {
        let is = |other: &str| name.eq_ignore_ascii_case(other);
        // Most names differ by their lengths.
        let is_new = match name.len() {
            4 if is("host") => headers.host.replace(plain(value)?).is_none(),
            6 if is("expect") => return None,
            6 if is("cookie") => true,
            7 if is("upgrade") => return None,
            10 if is("connection") => value.eq_ignore_ascii_case(b"keep-alive"),
            12 if is("content-type") => headers.kind.replace(plain(value)?).is_none(),
            13 if is("authorization") => headers.authorization.replace(plain(value)?).is_none(),
            14 if is("content-length") => headers.length.replace(whole(value)?).is_none(),
            15 if is("idempotency-key") => headers.key.replace(call_key(plain(value)?).ok()?).is_none(),
            17 if is("transfer-encoding") => return None,
            _ => true,
        };
        if !is_new {
            return None;
        }
    }
    Some(headers)
}

/// A value of visible ASCII characters and blanks.
fn plain(value: &[u8]) -> Option<&str> {
    let is_plain = value.iter().all(|byte| (b' '..=b'~').contains(byte));
    std::str::from_utf8(value).ok().filter(|_| is_plain)
}

fn whole(value: &[u8]) -> Option<usize> {
    let is_short = !value.is_empty() && value.len() <= MOST_DIGITS && value.iter().all(u8::is_ascii_digit);
    is_short.then(|| value.iter().fold(0, |number, digit| 10 * number + usize::from(digit - b'0')))
}

/// Who makes a call, where it may be made and is JSON. One that may not is refused by who reads it then.
fn let_in(headers: &CallHeaders<'_>, guard: &Guard) -> Option<Pass> {
    let kind = headers.kind.unwrap_or("").split(';').next().unwrap_or("").trim();
    let host = headers.host.filter(|_| kind.eq_ignore_ascii_case("application/json"))?;
    guard.lets_in(host, headers.authorization)
}

/// The date of answers, which is written anew once a second.
#[derive(Default)]
pub struct Dated {
    second: u64,
    text: String,
}

impl Dated {
    fn text(&mut self) -> &[u8] {
        let second = SystemTime::now().duration_since(SystemTime::UNIX_EPOCH).map_or(0, |since| since.as_secs());
        if second != self.second || self.text.is_empty() {
            self.second = second;
            self.text = httpdate::fmt_http_date(SystemTime::UNIX_EPOCH + Duration::from_secs(second));
        }
        self.text.as_bytes()
    }
}

/// Adds an answer of this status.
pub fn put_answer(out: &mut Vec<u8>, status: u16, text: &[u8], dated: &mut Dated) {
    let status = StatusCode::from_u16(status).unwrap_or(StatusCode::INTERNAL_SERVER_ERROR);
    for part in ["HTTP/1.1 ", status.as_str(), " ", status.canonical_reason().unwrap_or("")] {
        out.extend_from_slice(part.as_bytes());
    }
    out.extend_from_slice(b"\r\ncontent-type: ");
    out.extend_from_slice(JSON.as_bytes());
    if says_when(status) {
        out.extend_from_slice(b"\r\nretry-after: ");
        write_whole(u64::from(RETRY_SECONDS), out);
    }
    out.extend_from_slice(b"\r\ncontent-length: ");
    write_whole(text.len() as u64, out);
    out.extend_from_slice(b"\r\ndate: ");
    out.extend_from_slice(dated.text());
    out.extend_from_slice(b"\r\n\r\n");
    out.extend_from_slice(text);
}

#[cfg(test)]
mod tests {
    use super::*;
    use crate::http::{answer, with_retry};
    use crate::net::guard::Keys;
    use hyper::service::service_fn;
    use std::convert::Infallible;
    use tokio::io::{duplex, AsyncReadExt, AsyncWriteExt};

    const CALL: &str =
        "POST /calls HTTP/1.1\r\nHost: h\r\nContent-Type: application/json\r\nContent-Length: 2\r\n\r\n{}";
    const TOKEN: &str = "a token of some length";

    fn is_call(text: &str, guard: &Guard) -> bool {
        matches!(found(text.as_bytes(), guard), Found::Call(_))
    }

    #[test]
    fn a_call_is_taken_as_a_whole() {
        let guard = Guard::default();
        let whole = format!("{CALL}{{\"next\":1}}");
        let call = Call { named: None, key: None, body: b"{}", pass: None, length: CALL.len() };
        assert_eq!(found(whole.as_bytes(), &guard), Found::Call(call));
        for size in 0..CALL.len() {
            assert_eq!(found(&CALL.as_bytes()[..size], &guard), Found::Part, "{size}");
        }
        let named = CALL.replace("/calls", "/calls/signal").replace("Host", "Idempotency-Key: k\r\nHost");
        let call = Call { named: Some("signal"), key: Some("k".into()), body: b"{}", pass: None, length: named.len() };
        assert_eq!(found(named.as_bytes(), &guard), Found::Call(call));
    }

    #[test]
    fn what_is_not_plain_is_left() {
        let guard = Guard::new(Keys::Nothing, Some(vec!["h".into()]));
        for (from, to) in [
            ("POST", "POST"),
            ("Host", "hOST"),
            ("Host: h", "Host:h:80"),
            ("json", "json ; charset=utf-8"),
            ("Host", "Connection: Keep-Alive\r\nCookie: a=b\r\nX: \u{e4}\r\nHost"),
            ("Content-Length: 2", "content-length:2"),
        ] {
            assert!(is_call(&CALL.replace(from, to), &guard), "{to}");
        }
        for (from, to) in [
            ("POST", "GET"),
            ("/calls", "/calls?a"),
            ("/calls", "/calls/nothing"),
            ("/calls", "http://h/calls"),
            ("HTTP/1.1", "HTTP/1.0"),
            ("HTTP/1.1", "HTTP/2.0"),
            ("Host: h", "Host: other"),
            ("Host: h", "X: h"),
            ("Host: h", "Host: h\r\nHost: h"),
            ("Host: h", "Host: \u{e4}"),
            ("application/json", "text/plain"),
            ("Content-Type", "X"),
            ("Content-Length: 2", "Content-Length: 2\r\nContent-Length: 2"),
            ("Content-Length: 2", "Content-Length: +2"),
            ("Content-Length: 2", "Content-Length: 65537"),
            ("Content-Length: 2", "X: 2"),
            ("Host", "Transfer-Encoding: chunked\r\nHost"),
            ("Host", "Expect: 100-continue\r\nHost"),
            ("Host", "Upgrade: h2c\r\nHost"),
            ("Host", "Connection: close\r\nHost"),
            ("Host", "Connection: keep-alive, upgrade\r\nHost"),
            ("Host", "Idempotency-Key: a b\r\nHost"),
            ("Host", "Idempotency-Key: a\r\nIdempotency-Key: a\r\nHost"),
            ("Host", " folded\r\nHost"),
        ] {
            assert_eq!(found(CALL.replace(from, to).as_bytes(), &guard), Found::Other, "{to}");
        }
        let long = CALL.replace("Host", &format!("X: {}\r\nHost", "x".repeat(MOST_HEAD)));
        let many = CALL.replace("Host", &format!("{}Host", "X: x\r\n".repeat(MOST_HEADERS)));
        assert!(!is_call(&long, &guard) && !is_call(&many, &guard));
        assert_eq!(found(&long.as_bytes()[..MOST_HEAD + 1], &guard), Found::Other);
    }

    #[test]
    fn who_bears_no_token_is_left() {
        let guard = Guard::new(Keys::One(TOKEN.into()), None);
        let with = |said: &str| CALL.replace("Host", &format!("{said}\r\nHost"));
        assert!(is_call(&with(&format!("Authorization: bEARER {TOKEN}")), &guard));
        for said in [
            "X: x".to_string(),
            format!("Authorization: Bearer {TOKEN}x"),
            format!("Authorization: Basic {TOKEN}"),
            format!("Cookie: wfserve_token_80={TOKEN}"),
            format!("Authorization: Bearer {TOKEN}\r\nAuthorization: Bearer {TOKEN}"),
        ] {
            assert_eq!(found(with(&said).as_bytes(), &guard), Found::Other, "{said}");
        }
    }

    /// What hyper answers with this.
    async fn by_hyper(status: u16, text: &'static str) -> Vec<u8> {
        let (mut client, server) = duplex(1 << 16);
        let service = service_fn(move |_| async move { Ok::<_, Infallible>(with_retry(answer(status, JSON, text))) });
        let serving = tokio::spawn(hyper::server::conn::Http::new().serve_connection(server, service));
        client.write_all(CALL.as_bytes()).await.unwrap();
        let mut found = Vec::new();
        while !found.ends_with(text.as_bytes()) {
            client.read_buf(&mut found).await.unwrap();
        }
        serving.abort();
        found
    }

    /// An answer without its date.
    fn undated(answer: &[u8]) -> String {
        let text = String::from_utf8_lossy(answer).into_owned();
        let place = text.find("\r\ndate: ").unwrap() + "\r\ndate: ".len();
        let end = place + text[place..].find("\r\n").unwrap();
        assert_eq!(end - place, "Sun, 06 Nov 1994 08:49:37 GMT".len());
        text[..place].to_string() + &text[end..]
    }

    #[test]
    fn answers_are_those_of_hyper() {
        tokio::runtime::Builder::new_current_thread().enable_all().build().unwrap().block_on(async {
            for status in [200, 400, 403, 404, 409, 422, 429, 500, 503, 507] {
                for text in ["{\"line\":1,\"ok\":\"signaled\"}", "{}"] {
                    let (mut own, mut dated) = (Vec::new(), Dated::default());
                    put_answer(&mut own, status, text.as_bytes(), &mut dated);
                    assert_eq!(undated(&own), undated(&by_hyper(status, text).await), "{status}");
                }
            }
        });
    }

    #[test]
    fn a_date_is_that_of_now() {
        let now = httpdate::fmt_http_date(SystemTime::now());
        let (mut dated, text) =
            (Dated::default(), |dated: &mut Dated| String::from_utf8_lossy(dated.text()).into_owned());
        let found = text(&mut dated);
        assert!(now <= found && found <= text(&mut dated) || found[..16] != now[..16], "{now} {found}");
        dated.second -= 1;
        dated.text.clear();
        assert!(!text(&mut dated).is_empty());
    }
}
