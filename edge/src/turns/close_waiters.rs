//! Descriptions that wait until a run has closed: who wants a result asks once, and not again and again.
//!
//! A description with `wait` is answered once it says another status than Running, or after so many milliseconds. The
//! program is asked again where a line was added since, and not more often than some times a second.

use crate::call::body::ParsedCall;
use crate::call::fault::Fault;
use crate::call::operations::Op;
use crate::call::texts::lasting;
use crate::core::Core;
use hyper::body::Bytes;
use std::sync::atomic::{AtomicUsize, Ordering};
use std::time::{Duration, Instant};

/// How the description of an open run says so. No text of a reply has these bytes: its quotes are escaped.
const OPEN: &[u8] = b"\"status\":\"Running\"";
/// Between two looks: twice as long each time, up to the longest.
const FIRST_LOOK: Duration = Duration::from_millis(20);
const LAST_LOOK: Duration = Duration::from_millis(250);

/// Counts a description that waits, while it does.
struct Counted<'a>(&'a AtomicUsize);

impl Drop for Counted<'_> {
    fn drop(&mut self) {
        self.0.fetch_sub(1, Ordering::Relaxed);
    }
}

/// Whether a call waits for the end of a run.
pub fn waits(asked: &ParsedCall) -> bool {
    asked.facts.op == Op::Describe && asked.wait > 0
}

/// The description of a run, once it has closed or its time is over. An edge that is told to stop waits no longer.
pub async fn until_closed(core: &Core, asked: ParsedCall) -> Result<Bytes, Fault> {
    let late = Instant::now() + Duration::from_millis(asked.wait);
    let _counted = Counted(&core.close_waiters);
    if core.close_waiters.fetch_add(1, Ordering::Relaxed) >= core.limit() {
        return Err(Fault::Busy(format!("{} descriptions wait already", core.limit())));
    }
    // A description, and how many lines there were before it was asked for.
    let (mut pause, mut last) = (FIRST_LOOK, None);
    loop {
        let lines = core.lines();
        let (reply, before) = match (core.reply_to(asked.clone(), None).await, last) {
            // What was told last still holds, and it is asked again where that may be.
            (Err(Fault::Draining | Fault::Busy(_)), Some(last)) => last,
            (reply, _) => (reply?, lines),
        };
        loop {
            let rest = late.saturating_duration_since(Instant::now());
            if !is_open(&reply) || rest.is_zero() || core.is_closing() {
                return Ok(reply);
            }
            tokio::time::sleep(pause.min(rest)).await;
            pause = LAST_LOOK.min(2 * pause);
            if core.lines() != before {
                break;
            }
        }
        last = Some((lasting(&reply), before));
    }
}

fn is_open(reply: &[u8]) -> bool {
    reply.windows(OPEN.len()).any(|part| part == OPEN)
}

#[cfg(test)]
mod tests {
    use super::*;
    use crate::call::body::parse_call;
    use crate::turns::shards::shards;

    #[test]
    fn a_description_may_wait_and_the_program_does_not_know() {
        let found = parse_call(br#"{"op":"describe","workflow_id":"w","wait":500}"#, shards(1)).unwrap();
        assert!(waits(&found));
        assert_eq!(found.begin, br#"{"op":"describe","workflow_id":"w""#);
        for body in
            [r#"{"op":"describe","wait":0}"#, r#"{"op":"history","wait":5}"#, r#"{"op":"poll_activity_task","wait":5}"#]
        {
            assert!(!waits(&parse_call(body.as_bytes(), shards(1)).unwrap()), "{body}");
        }
        assert!(parse_call(br#"{"op":"describe","wait":60001}"#, shards(1)).is_err());
    }

    #[test]
    fn an_open_run_is_told_from_a_text_that_says_so() {
        assert!(is_open(br#"{"ok":"described","run":"r","signals":0,"status":"Running"}"#));
        assert!(!is_open(br#"{"ok":"described","run":"\"status\":\"Running\"","status":"Completed"}"#));
    }
}
