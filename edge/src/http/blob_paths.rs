//! PUT and GET /blobs/HASH: texts of up to 2 MB, by their SHA-256.

use crate::http::{answer, in_time, read_body, Answer, Front, Refusal, JSON};
use crate::json::{Object, Value};
use crate::log::blobs::{is_name, name_of, Store, MOST_BYTES};
use crate::log::fault::LogFault;
use crate::os::stderr::report;
use hyper::body::Bytes;
use hyper::header::{HeaderName, HeaderValue, CACHE_CONTROL, CONTENT_DISPOSITION, CONTENT_SECURITY_POLICY};
use hyper::header::{ALLOW, X_CONTENT_TYPE_OPTIONS};
use hyper::{Body, Method, Request};
use std::sync::Arc;
use std::time::Duration;

/// What comes before the name of a blob in a path.
const PREFIX: &str = "/blobs/";
/// No script of a text runs in a browser, and none is shown.
const HEADERS: [(HeaderName, &str); 4] = [
    (CONTENT_DISPOSITION, "attachment"),
    (X_CONTENT_TYPE_OPTIONS, "nosniff"),
    (CACHE_CONTROL, "private, immutable"),
    (CONTENT_SECURITY_POLICY, "default-src 'none'"),
];

/// The name that a path has in the place of a blob's. None where it is no path of a blob.
pub fn named_in(path: &str) -> Option<&str> {
    path.strip_prefix(PREFIX).filter(|name| !name.is_empty() && !name.contains('/'))
}

impl Front {
    /// Answers a request for a blob of this name.
    pub async fn blob(&self, request: &mut Request<Body>) -> Answer {
        let name = named_in(request.uri().path()).unwrap_or_default().to_string();
        let blobs = self.blobs.clone();
        match *request.method() {
            Method::GET => get(blobs, checked(name)?).await,
            Method::PUT => self.put_blob(blobs, checked(name)?, request).await,
            _ => {
                let mut response =
                    answer(405, JSON, crate::http::fault_text("MethodNotAllowed", "405: Method Not Allowed"));
                response.headers_mut().insert(ALLOW, HeaderValue::from_static("GET,HEAD,PUT"));
                Ok(response)
            }
        }
    }

    /// Keeps a body by its hash. It is synced once this is answered.
    async fn put_blob(&self, blobs: Arc<dyn Store>, name: String, request: &mut Request<Body>) -> Answer {
        let too_large = || Refusal::new(413, "BlobTooLarge", format!("a blob has at most {MOST_BYTES} bytes"));
        let body = in_time(self.read_timeout, read_body(request.body_mut(), MOST_BYTES)).await?;
        let data = body.ok_or_else(too_large)?;
        let length = data.len();
        let kept = blocking(move || match name_of(&data) == name {
            true => blobs.put(&name, &data).map(Some),
            false => Ok(None),
        });
        kept.await?
            .ok_or_else(|| Refusal::new(422, "OtherHash", "the SHA-256 of the body is not what the path says"))?;
        if let Some(page) = &self.page {
            page.want_sweeps();
        }
        Ok(answer(200, JSON, format!("{{\"ok\": \"kept\", \"bytes\": {length}}}")))
    }

    /// For the page, which knows what histories name: whether there are blobs.
    pub async fn has_blobs(&self) -> Answer {
        let blobs = self.blobs.clone();
        let has_any = blocking(move || blobs.has_any()).await?;
        Ok(answer(200, JSON, format!("{{\"any\": {has_any}}}")))
    }

    /// For the page too: the body says which blobs are named at a moment, and before which one all are deleted that were put
    /// and named last before it. Moments are in seconds since 1970.
    pub async fn sweep_blobs(&self, request: &mut Request<Body>) -> Answer {
        let body = self.body_of(request).await?;
        let Sweep { named, at, before } =
            sweep_of(&body).ok_or_else(|| Refusal::new(400, "BadCall", "the body is no sweep"))?;
        let blobs = self.blobs.clone();
        let count = blocking(move || blobs.touch(&named, at).and_then(|()| blobs.delete_before(before))).await?;
        Ok(answer(200, JSON, format!("{{\"deleted\": {count}}}")))
    }
}

/// What a page says of blobs.
struct Sweep {
    named: Vec<String>,
    at: Duration,
    before: Duration,
}

fn sweep_of(body: &[u8]) -> Option<Sweep> {
    let request: Object<'_> = match Value::parse(body).ok()? {
        Value::Object(request) => request,
        _ => return None,
    };
    let moment = |name: &str| request.get(name).and_then(Value::whole).map(Duration::from_secs);
    let named = match request.get("named")? {
        Value::List(names) => names.iter().map(|name| name.text().filter(|name| is_name(name)).map(str::to_string)),
        _ => return None,
    };
    Some(Sweep { named: named.collect::<Option<Vec<_>>>()?, at: moment("at")?, before: moment("before")? })
}

/// The bytes of a hash.
async fn get(blobs: Arc<dyn Store>, name: String) -> Answer {
    let missing = format!("there is no blob {name}");
    let found = blocking(move || blobs.get(&name)).await?;
    let data = found.ok_or_else(|| Refusal::new(404, "NoBlob", missing))?;
    let mut response = answer(200, "application/octet-stream", Bytes::from(data));
    for (name, value) in HEADERS {
        response.headers_mut().insert(name, HeaderValue::from_static(value));
    }
    Ok(response)
}

fn checked(name: String) -> Result<String, Refusal> {
    let said = "a blob is named by the 64 small hexadecimal digits of its SHA-256";
    is_name(&name).then_some(name).ok_or_else(|| Refusal::new(404, "NoBlob", said))
}

/// What is not the client's fault is said on standard error.
fn refusal_of(fault: &LogFault) -> Refusal {
    match fault {
        LogFault::Full(_) => Refusal::new(507, "BlobsFull", "there is no room for the blob: nothing was kept"),
        fault => {
            report!("blobs: {fault}");
            Refusal::new(500, "Fault", "the server is at fault; its standard error says more")
        }
    }
}

/// Has a thread of its own wait for the disk or the database.
async fn blocking<T: Send + 'static>(
    work: impl FnOnce() -> Result<T, LogFault> + Send + 'static,
) -> Result<T, Refusal> {
    let done = tokio::task::spawn_blocking(work).await;
    done.unwrap_or_else(|fault| Err(LogFault::Io(fault.to_string()))).map_err(|fault| refusal_of(&fault))
}

#[cfg(test)]
mod tests {
    use super::*;

    #[test]
    fn a_path_names_a_blob() {
        assert_eq!(named_in("/blobs/x"), Some("x"));
        for path in ["/blobs", "/blobs/", "/blobs/x/y", "/calls/x"] {
            assert_eq!(named_in(path), None, "{path}");
        }
        assert_eq!(checked("..%2Fa.log".to_string()).unwrap_err().status, 404);
        assert!(checked("0a".repeat(32)).is_ok());
    }

    #[test]
    fn a_full_disk_has_a_name_of_its_own() {
        assert_eq!(refusal_of(&LogFault::Full(String::new())).status, 507);
        assert_eq!(refusal_of(&LogFault::Io(String::new())).status, 500);
    }

    #[test]
    fn a_sweep_names_blobs_and_moments() {
        let name = "0a".repeat(32);
        let found = sweep_of(format!(r#"{{"named":["{name}"],"at":7,"before":5}}"#).as_bytes()).unwrap();
        assert_eq!((found.named, found.at.as_secs(), found.before.as_secs()), (vec![name], 7, 5));
        for body in [
            "",
            "[]",
            r#"{"named":[],"at":7}"#,
            r#"{"named":["../x"],"at":7,"before":5}"#,
            r#"{"named":[],"at":-1,"before":5}"#,
        ] {
            assert!(sweep_of(body.as_bytes()).is_none(), "{body}");
        }
    }
}
