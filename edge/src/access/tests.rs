//! Files of tokens, their rights, and limits.

use super::caller::Caller;
use super::log::{Access, AccessLog};
use super::rate::Bucket;
use super::rights::{Right, Rights};
use super::tokens::{TokenFile, Tokens};
use crate::call::operations::Op;
use crate::testing::scratch::Scratch;
use crate::testing::test_wait::wait_until;
use sha2::{Digest, Sha256};
use std::time::{Duration, Instant};

/// The word of a token in a file.
fn hash(token: &str) -> String {
    let digits: String = Sha256::digest(token).iter().map(|byte| format!("{byte:02x}")).collect();
    format!("sha256:{digits}")
}

fn rights(text: &str) -> Rights {
    Rights::parse(text.split_whitespace()).unwrap()
}

#[test]
fn who_bears_a_token_has_its_name_and_no_other() {
    let text =
        format!("# all of them\n\none {} read\n  two\t{} work:a,b#c # a worker\n", hash("first"), hash("second"));
    let tokens = Tokens::parse(&text, None).unwrap();
    let name = |token: &str| tokens.bearer(token.as_bytes()).map(|caller| caller.name.to_string());
    assert_eq!((name("first").as_deref(), name("second").as_deref()), (Some("one"), Some("two")));
    let polls = tokens.bearer(b"second").unwrap();
    assert!(polls.check_call(Op::PollActivityTask, Some("b#c")).is_ok());
    for other in ["", "firs", "first ", "First", &hash("first"), "second\n"] {
        assert_eq!(name(other), None, "{other}");
    }
}

#[test]
fn a_file_that_is_wrong_is_refused_by_its_line() {
    let good = hash("t");
    let short = &good[..good.len() - 1];
    for (text, said) in [
        (String::new(), "it has no token"),
        ("# none\n".to_string(), "it has no token"),
        (format!("a/b {good} read"), "line 1: a name has"),
        (format!("{} {good} read", "n".repeat(65)), "line 1: a name has"),
        (format!("- {good} read"), "line 1: a name has"),
        ("a t read".to_string(), "line 1: behind the name"),
        (format!("a {short} read"), "line 1: behind the name"),
        (format!("a {short}x read"), "line 1: behind the name"),
        (format!("a {}+f read", &good[..good.len() - 2]), "line 1: behind the name"),
        (format!("a {good}"), "line 1: it has no right"),
        (format!("a {good} write"), "line 1: write is no right"),
        (format!("a {good} read read"), "line 1: read stands there twice"),
        (format!("a {good} read:x"), "line 1: read names no queues"),
        (format!("a {good} work:x,,y"), "line 1: work names a queue without a name"),
        (format!("a {good} read\nb {good} read"), "line 2: the name b or its token"),
        (format!("a {good} read\na {} read", hash("other")), "line 2: the name a or its token"),
    ] {
        let fault = Tokens::parse(&text, None).map(drop).unwrap_err();
        assert!(fault.starts_with(said), "{text}: {fault}");
    }
}

#[test]
fn a_file_that_is_wrong_when_it_is_read_again_leaves_what_there_was() {
    let scratch = Scratch::new();
    let path = scratch.path("tokens");
    std::fs::write(&path, format!("one {} read\n", hash("first"))).unwrap();
    let file = TokenFile::open(&path, None).unwrap();
    std::fs::write(&path, "one\n").unwrap();
    assert!(file.read_again().unwrap_err().contains("line 1"));
    assert!(file.bearer(b"first").is_some());
    std::fs::write(&path, format!("two {} read\n", hash("second"))).unwrap();
    assert_eq!(file.read_again(), Ok(1));
    assert!(file.bearer(b"first").is_none() && file.bearer(b"second").is_some());
    std::fs::remove_file(&path).unwrap();
    assert!(file.read_again().is_err() && file.bearer(b"second").is_some());
    assert!(TokenFile::open(&path, None).is_err());
}

/// The operations that rights let through.
fn permitted(rights: &Rights) -> Vec<&'static str> {
    let ops = [
        Op::Start,
        Op::Signal,
        Op::SignalWithStart,
        Op::RequestCancel,
        Op::Terminate,
        Op::CompleteWorkflowTask,
        Op::FailWorkflowTask,
        Op::CompleteActivity,
        Op::FailActivity,
        Op::CancelActivity,
        Op::Heartbeat,
        Op::History,
        Op::Describe,
        Op::TimerTurn,
        Op::DispatchTurn,
        Op::TransferTurn,
        Op::PollWorkflowTask,
        Op::PollActivityTask,
        Op::Unknown,
    ];
    ops.into_iter().filter(|op| rights.check_call(*op, None).is_ok()).map(Op::name).collect()
}

#[test]
fn each_operation_wants_one_right() {
    let starts = ["start", "signal", "signal_with_start", "request_cancel", "terminate", "unknown"];
    let works = [
        "complete_workflow_task",
        "fail_workflow_task",
        "complete_activity",
        "fail_activity",
        "cancel_activity",
        "heartbeat",
        "poll_workflow_task",
        "poll_activity_task",
    ];
    assert_eq!(permitted(&rights("start")), starts);
    assert_eq!(permitted(&rights("work")), works);
    assert_eq!(permitted(&rights("read")), ["history", "describe"]);
    assert_eq!(permitted(&rights("operate")), ["timer_turn", "dispatch_turn", "transfer_turn"]);
    assert_eq!(permitted(&rights("peer")), Vec::<&str>::new());
    assert_eq!(permitted(&Rights::all()).len(), 19);
}

#[test]
fn a_worker_polls_the_queues_that_it_may() {
    let caller = Caller::new("mail", rights("work:a,b"), None);
    let poll = |queue| caller.check_call(Op::PollActivityTask, Some(queue)).map_err(|fault| fault.to_string());
    assert_eq!((poll("a"), poll("b")), (Ok(()), Ok(())));
    for queue in ["c", "", "a,b", "A"] {
        assert_eq!(poll(queue), Err(format!("the token mail lacks the right work for the queue {queue}")));
    }
    let fault = caller.check_call(Op::Start, None).unwrap_err();
    assert_eq!((fault.status(), fault.to_string().as_str()), (403, "the token mail lacks the right start"));
    assert!(caller.check(&[Right::Start, Right::Work]).is_ok() && caller.check(&[]).is_ok());
    assert!(caller.check(&[Right::Operate]).is_err());
}

#[test]
fn a_bucket_lets_so_many_calls_through_a_second() {
    let begun = Instant::now();
    let bucket = Bucket::new(10, begun);
    let taken = |at: Duration| (0..100).filter(|_| bucket.take(begun + at)).count();
    assert_eq!(taken(Duration::ZERO), 10);
    assert_eq!(taken(Duration::from_millis(99)), 0);
    assert_eq!(taken(Duration::from_millis(501)), 5);
    // It never holds more than a second's.
    assert_eq!(taken(Duration::from_secs(3_600)), 10);
    let caller = Caller::new("one", Rights::all(), Some(1));
    assert!(caller.count().is_ok());
    let fault = caller.count().unwrap_err();
    assert_eq!((fault.status(), fault.to_string().as_str()), (429, "one may make 1 calls a second"));
}

fn access(path: &str) -> Access<'_> {
    let took = Duration::from_micros(1_500);
    Access { name: Some("one"), method: "POST", path, op: Some("signal"), status: 200, bytes: Some(31), took }
}

#[test]
fn a_log_of_access_has_a_line_for_each_call_and_goes_on_in_a_new_file() {
    let scratch = Scratch::new();
    let (path, away) = (scratch.path("access"), scratch.path("away"));
    let text = |path: &str| std::fs::read_to_string(path).unwrap_or_default();
    let log = AccessLog::open(&path).unwrap();
    log.note(&access("/calls"));
    log.note(&Access { name: None, op: None, bytes: None, ..access("/a\"b") });
    wait_until("two lines", || text(&path).lines().count() == 2);
    let lines: Vec<serde_json::Value> = text(&path).lines().map(|line| serde_json::from_str(line).unwrap()).collect();
    let rest = "\"name\":\"one\",\"method\":\"POST\",\"path\":\"/calls\",\"op\":\"signal\",\"status\":200,\"bytes\":31,\"ms\":1.500}\n";
    assert!(text(&path).lines().next().map(|line| line.to_string() + "\n").unwrap().ends_with(rest));
    assert!(lines[0]["at"].as_f64().unwrap() > 1.6e9 && lines[1]["path"] == "/a\"b");
    assert!(lines[1]["name"].is_null() && lines[1]["op"].is_null() && lines[1]["bytes"].is_null());
    std::fs::rename(&path, &away).unwrap();
    log.open_again();
    log.note(&access("/other"));
    wait_until("a line in the new file", || text(&path).lines().count() == 1);
    assert_eq!(text(&away).lines().count(), 2);
    assert!(AccessLog::open(&scratch.path("no/folder")).unwrap_err().contains("No such file"));
}
