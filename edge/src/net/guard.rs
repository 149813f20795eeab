//! Who may ask: whoever bears a token, where one is wanted; and no page of another site.

use crate::access::caller::Caller;
use crate::access::tokens::{is_same, TokenFile};
use hyper::header::{HeaderMap, AUTHORIZATION, COOKIE, HOST};
use hyper::{Method, Uri};
use std::sync::Arc;

/// Asked by what starts and watches servers, which has no token; they say nothing of workflows.
const HEALTH: [&str; 2] = ["/health/live", "/health/ready"];

/// Which tokens are wanted.
#[derive(Clone, Debug, Default)]
pub enum Keys {
    /// None: whoever asks may do all.
    #[default]
    Nothing,
    /// This one, whose bearers may do all.
    One(String),
    /// Those of a file, each with a name and rights.
    File(Arc<TokenFile>),
}

/// Who asks, where that is looked at: his name, his rights and his limit.
pub type Pass = Option<Arc<Caller>>;

/// Whether a path is asked by what starts and watches servers.
pub fn is_health(path: &str) -> bool {
    HEALTH.contains(&path)
}

/// Who may ask.
#[derive(Clone, Debug, Default)]
pub struct Guard {
    keys: Keys,
    /// Whoever may do all, where his calls are counted or noted.
    anyone: Pass,
    /// The names that are served; None for all of them.
    hosts: Option<Vec<String>>,
    /// Whether a browser is to give the token by https alone.
    is_encrypted: bool,
}

/// What becomes of a request.
#[derive(Debug, PartialEq, Eq)]
pub enum Verdict {
    LetIn(Pass),
    WrongHost,
    NoToken,
    /// A browser's first address had the token: it is kept as a cookie, and the browser is sent to this path.
    KeepToken {
        path: String,
        cookie: String,
    },
}

impl Guard {
    /// Of these names; of all where none are given.
    pub fn new(keys: Keys, hosts: Option<Vec<String>>) -> Guard {
        Guard { keys, anyone: None, hosts, is_encrypted: false }
    }

    /// Has whoever may do all count as this caller.
    pub fn with_anyone(self, anyone: Caller) -> Guard {
        Guard { anyone: Some(Arc::new(anyone)), ..self }
    }

    /// Has browsers give the token by https alone.
    pub fn encrypted(self) -> Guard {
        Guard { is_encrypted: true, ..self }
    }

    /// Who bears this token. None where nobody does.
    fn bearer(&self, token: &[u8]) -> Option<Pass> {
        match &self.keys {
            Keys::Nothing => Some(self.anyone.clone()),
            Keys::One(wanted) => is_same(token, wanted.as_bytes()).then(|| self.anyone.clone()),
            Keys::File(tokens) => tokens.bearer(token).map(Some),
        }
    }

    /// What becomes of a request with this head.
    pub fn check(&self, method: &Method, uri: &Uri, headers: &HeaderMap) -> Verdict {
        let host = match host_of(uri, headers) {
            Some(host) if self.is_named(host) => host,
            _ => return Verdict::WrongHost,
        };
        if is_health(uri.path()) {
            return Verdict::LetIn(None);
        }
        if matches!(self.keys, Keys::Nothing) {
            return Verdict::LetIn(self.anyone.clone());
        }
        let given = query_token(uri).filter(|_| method == Method::GET);
        if let Some(token) = given.filter(|token| self.bearer(token.as_bytes()).is_some()) {
            let secure = if self.is_encrypted { "; Secure" } else { "" };
            let cookie = format!("{}={token}; HttpOnly; Path=/; SameSite=Strict{secure}", cookie_name(host));
            return Verdict::KeepToken { path: path_here(uri), cookie };
        }
        let pass = given_token(headers, host).and_then(|given| self.bearer(given.as_bytes()));
        pass.map_or(Verdict::NoToken, Verdict::LetIn)
    }

    /// Lets a call in that asks for this name, and bears this authorization, where it has one. One that isn't let in may be by
    /// what else it bears.
    pub fn lets_in(&self, host: &str, authorization: Option<&str>) -> Option<Pass> {
        if !self.is_named(host) {
            return None;
        }
        match self.keys {
            Keys::Nothing => Some(self.anyone.clone()),
            _ => self.bearer(authorization.and_then(bearer_in)?.as_bytes()),
        }
    }

    fn is_named(&self, host: &str) -> bool {
        let hosts = match &self.hosts {
            Some(hosts) => hosts,
            None => return true,
        };
        let (name, port) = host.split_once(':').unwrap_or((host, "0"));
        let is_port = port.is_empty() || port.bytes().all(|byte| byte.is_ascii_digit());
        is_port && hosts.iter().any(|other| other.eq_ignore_ascii_case(name))
    }
}

/// The name that was asked for. None where the request names two, or one in its path.
fn host_of<'a>(uri: &Uri, headers: &'a HeaderMap) -> Option<&'a str> {
    let mut hosts = headers.get_all(HOST).iter();
    let host = hosts.next().map_or(Some(""), |host| host.to_str().ok())?;
    (hosts.next().is_none() && uri.authority().is_none()).then_some(host)
}

/// The token that a request bears, in its header or its cookie.
fn given_token<'a>(headers: &'a HeaderMap, host: &str) -> Option<&'a str> {
    let authorization = headers.get(AUTHORIZATION).and_then(|value| value.to_str().ok()).unwrap_or("");
    let bearer = bearer_in(authorization);
    if bearer.is_some() {
        return bearer;
    }
    let name = cookie_name(host);
    let cookies = headers.get_all(COOKIE).iter().filter_map(|value| value.to_str().ok());
    let mut pairs = cookies.flat_map(|cookie| cookie.split(';')).filter_map(|pair| pair.trim().split_once('='));
    pairs.find(|pair| pair.0 == name).map(|pair| pair.1.trim_matches('"'))
}

/// The token that an authorization has.
fn bearer_in(authorization: &str) -> Option<&str> {
    let (scheme, said) = authorization.split_once(' ').unwrap_or((authorization, ""));
    scheme.eq_ignore_ascii_case("bearer").then_some(said)
}

/// The name of the token's cookie. A browser gives cookies to all ports of a host, so each server has its own.
fn cookie_name(host: &str) -> String {
    let port = host.rsplit_once(':').map_or("", |parts| parts.1);
    let is_port = !port.is_empty() && port.bytes().all(|byte| byte.is_ascii_digit());
    format!("wfserve_token_{}", if is_port { port } else { "80" })
}

/// The token that an address has.
fn query_token(uri: &Uri) -> Option<String> {
    let query = uri.query().unwrap_or("");
    query.split('&').find_map(|pair| pair.strip_prefix("token=")).map(unescaped)
}

/// A text without the escapes that an address has.
fn unescaped(text: &str) -> String {
    let (bytes, mut found, mut place) = (text.as_bytes(), Vec::new(), 0);
    while place < bytes.len() {
        let hex = text.get(place + 1..place + 3).and_then(|digits| u8::from_str_radix(digits, 16).ok());
        match (bytes[place], hex) {
            (b'%', Some(byte)) => {
                found.push(byte);
                place += 2;
            }
            (b'+', _) => found.push(b' '),
            (byte, _) => found.push(byte),
        }
        place += 1;
    }
    String::from_utf8_lossy(&found).into_owned()
}

/// A path of this server alone, whatever the address had before it.
fn path_here(uri: &Uri) -> String {
    format!("/{}", uri.path().replace('\\', "/").trim_start_matches('/'))
}

#[cfg(test)]
mod tests {
    use super::*;
    use hyper::header::HeaderValue;

    const TOKEN: &str = "a token of some length";

    fn headers(pairs: &[(&'static str, &str)]) -> HeaderMap {
        let mut headers = HeaderMap::new();
        for (name, value) in pairs {
            headers.append(*name, HeaderValue::from_str(value).unwrap());
        }
        headers
    }

    fn check(guard: &Guard, uri: &str, pairs: &[(&'static str, &str)]) -> Verdict {
        guard.check(&Method::GET, &uri.parse().unwrap(), &headers(pairs))
    }

    #[test]
    fn names_that_are_not_served_are_refused() {
        let guard = Guard::new(Keys::Nothing, Some(vec!["127.0.0.1".into(), "localhost".into()]));
        for host in ["127.0.0.1", "LOCALHOST", "LocalHost:7233", "localhost:"] {
            assert_eq!(check(&guard, "/", &[("host", host)]), Verdict::LetIn(None), "{host}");
        }
        for host in
            ["", "EVIL.test", "127.0.0.1.evil.test", "127.0.0.1:80@evil.test", "evil.test:127.0.0.1", "localhost:no"]
        {
            assert_eq!(check(&guard, "/", &[("host", host)]), Verdict::WrongHost, "{host}");
        }
        assert_eq!(check(&guard, "/", &[]), Verdict::WrongHost);
        assert_eq!(check(&guard, "/", &[("host", "localhost"), ("host", "evil.test")]), Verdict::WrongHost);
        assert_eq!(check(&guard, "http://evil.test/", &[("host", "localhost")]), Verdict::WrongHost);
    }

    #[test]
    fn whoever_bears_the_token_is_let_in() {
        let guard = Guard::new(Keys::One(TOKEN.into()), None);
        for (value, is_let_in) in [
            (format!("Bearer {TOKEN}"), true),
            (format!("bEARER {TOKEN}"), true),
            (format!("Basic {TOKEN}"), false),
            (TOKEN.to_string(), false),
            (format!("Bearer {TOKEN}x"), false),
            ("Bearer ".to_string(), false),
        ] {
            let verdict = check(&guard, "/", &[("host", "h"), ("authorization", &value)]);
            assert_eq!(verdict == Verdict::LetIn(None), is_let_in, "{value}");
        }
        let cookie = format!("a=b; wfserve_token_7233=\"{TOKEN}\"");
        assert_eq!(check(&guard, "/", &[("host", "h:7233"), ("cookie", &cookie)]), Verdict::LetIn(None));
        assert_eq!(check(&guard, "/", &[("host", "h:7234"), ("cookie", &cookie)]), Verdict::NoToken);
        assert_eq!(check(&guard, "/health/ready", &[("host", "h")]), Verdict::LetIn(None));
        assert_eq!(check(&guard, "/health/ready/", &[("host", "h")]), Verdict::NoToken);
    }

    #[test]
    fn an_address_with_the_token_leads_to_a_path_here() {
        let guard = Guard::new(Keys::One(TOKEN.into()), None);
        for (path, here) in [("/", "/"), ("//evil.test/x", "/evil.test/x"), ("/%5cevil.test/", "/%5cevil.test/")] {
            match check(&guard, &format!("{path}?x=1&token=a+token%20of%20some%20length"), &[("host", "h:9")]) {
                Verdict::KeepToken { path, cookie } => {
                    assert_eq!(path, here);
                    assert!(cookie.starts_with("wfserve_token_9=a token") && cookie.contains("HttpOnly"));
                }
                other => panic!("{path}: {other:?}"),
            }
        }
        assert_eq!(check(&guard, "/?token=wrong", &[("host", "h")]), Verdict::NoToken);
    }

    #[test]
    fn bearers_of_a_files_tokens_are_let_in_by_their_names() {
        let scratch = crate::testing::scratch::Scratch::new();
        let path = scratch.path("tokens");
        // What sha256sum makes of the text "first", without a line's end.
        let hash = "sha256:a7937b64b8caa58f03721bb6bacf5c78cb235febe0e70b1b84cd99541461a08e";
        std::fs::write(&path, format!("one {hash} read\n")).unwrap();
        let file = Arc::new(TokenFile::open(&path, None).unwrap());
        let guard = Guard::new(Keys::File(file), None).encrypted();
        let name = |verdict| match verdict {
            Verdict::LetIn(Some(caller)) => caller.name.to_string(),
            other => format!("{other:?}"),
        };
        let bearer = [("host", "h:9"), ("authorization", "Bearer first")];
        assert_eq!(name(check(&guard, "/", &bearer)), "one");
        assert_eq!(name(check(&guard, "/", &[("host", "h:9"), ("cookie", "wfserve_token_9=first")])), "one");
        assert_eq!(check(&guard, "/", &[("host", "h:9"), ("authorization", "Bearer second")]), Verdict::NoToken);
        assert_eq!(check(&guard, "/health/live", &[("host", "h:9")]), Verdict::LetIn(None));
        match check(&guard, "/?token=first", &[("host", "h:9")]) {
            Verdict::KeepToken { cookie, .. } => assert!(cookie.ends_with("SameSite=Strict; Secure"), "{cookie}"),
            other => panic!("{other:?}"),
        }
        assert_eq!(
            guard.lets_in("h", Some("Bearer first")).map(|pass| pass.unwrap().name.to_string()),
            Some("one".into())
        );
        assert_eq!(guard.lets_in("h", Some("Bearer second")), None);
        assert_eq!(guard.lets_in("h", None), None);
    }
}
