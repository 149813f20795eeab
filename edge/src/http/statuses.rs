//! The HTTP status of a reply, where the path names the call's operation: POST /calls/start.
//!
//! POST /calls answers each reply with 200, also a refusal; a path of its own for each operation leaves that as it is.
//! docs/HTTP.md has this table.

use crate::call::operations::Op;
use crate::call::reply::Reply;

/// The status of each refusal that a reply may be.
const REFUSALS: [(&str, u16); 9] = [
    ("InvalidArgument", 422),
    ("InvalidToken", 422),
    ("NotFound", 404),
    ("UnknownTaskQueue", 404),
    ("AlreadyStarted", 409),
    ("CancellationAlreadyRequested", 409),
    ("QueueFull", 503),
    ("Busy", 503),
    ("NoMemory", 507),
];
/// What comes before the operation's name in a path.
const PREFIX: &str = "/calls/";
/// How a refusal's text begins: its keys are in order.
const REFUSED: &[u8] = b"{\"error\":";

/// The status of a reply by its text: 200, or that of its refusal. A refusal that the table doesn't have is 500.
pub fn status_of(text: &[u8]) -> u16 {
    if !text.starts_with(REFUSED) {
        return 200;
    }
    let reply = Reply::parse(text);
    let name = reply.as_ref().and_then(|reply| reply.error.as_deref()).unwrap_or("");
    REFUSALS.iter().find(|row| row.0 == name).map_or(500, |row| row.1)
}

/// What a path names in the place of an operation, whether there is such a one or not. None where it is no path for calls
/// of one operation.
pub fn named_in(path: &str) -> Option<&str> {
    path.strip_prefix(PREFIX).filter(|name| !name.is_empty() && !name.contains('/'))
}

/// Whether there is an operation of this name.
pub fn is_operation(name: &str) -> bool {
    Op::parse(name) != Op::Unknown
}

#[cfg(test)]
mod tests {
    use super::*;

    #[test]
    fn statuses_are_those_of_the_document() {
        let text = std::fs::read_to_string("../docs/HTTP.md").expect("the document");
        let table = text.split("| Refusal | Status | Call again? |").nth(1).expect("the table");
        let rows: Vec<&str> = table.lines().skip(2).take_while(|line| line.starts_with('|')).collect();
        let mut seen = 0;
        for row in rows.iter().filter(|row| !row.contains("any other")) {
            let cells: Vec<&str> = row.trim_matches('|').split('|').map(str::trim).collect();
            let status = cells[1].split(',').next().unwrap_or_default();
            for name in cells[0].split(", ") {
                let text = format!("{{\"error\":\"{name}\",\"line\":1,\"no\":2}}");
                assert_eq!(status_of(text.as_bytes()).to_string(), status, "{name}");
                seen += 1;
            }
        }
        assert_eq!(seen, REFUSALS.len());
    }

    #[test]
    fn a_reply_that_is_no_refusal_is_ok_and_one_that_nobody_knows_is_a_fault() {
        assert_eq!(status_of(br#"{"line":1,"ok":"signaled"}"#), 200);
        assert_eq!(status_of(br#"{"error":"SomethingNew","line":1}"#), 500);
        assert_eq!(status_of(br#"{"error":7}"#), 500);
    }

    #[test]
    fn a_path_names_an_operation() {
        assert_eq!(named_in("/calls/start"), Some("start"));
        assert_eq!(named_in("/calls/nothing"), Some("nothing"));
        for path in ["/calls", "/calls/", "/calls/start/more", "/other/start"] {
            assert_eq!(named_in(path), None, "{path}");
        }
        assert!(is_operation("signal_with_start") && !is_operation("Start") && !is_operation("unknown"));
    }
}
