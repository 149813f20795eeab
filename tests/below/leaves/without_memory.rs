//! Calls of the leaves that take no memory, made while every allocation is refused.
//!
//! `tools/without_memory.py` runs this with an allocator that refuses all between two allocations of sizes
//! that nothing else has. To any other allocator they are two allocations.

use crate::leaves::deadlines::are_same;
use crate::leaves::numbers::{clear_first, fill_up};
use crate::leaves::refused::{ask_for, content, due, first_number, id, inbox, outbox};
use crate::leaves::retries::fields;
use crate::leaves::rows::moment;
use id_policy::{Latest, decide};
use retry::{Ended, verdict_on, wait_after};
use service_model_types::answer::Acknowledged;
use service_model_types::decided::{Decision, Verdict};
use service_model_types::transfer::{Delivery, Transfer};
use sparse_numbers::SparseNumbers;
use std::alloc::AllocGlobal;
use std::process::Abort;
use task_token::{RUN_TEXT_LENGTH, RunText, TOKEN_TEXT_LENGTH, TaskToken};
use timeouts::Deadlines;
use wf_event::RetryPolicy;
use wf_event_values::{ConflictPolicy, Field, Id, ReusePolicy, RunId, Span, Status, TaskKind};

/// The sizes by which the allocator is told, in bytes.
const REFUSE_ALL: usize = 1_000_003;

const REFUSE_NONE: usize = 1_000_033;

fn deadlines<R: Abort + AllocGlobal>(rt: &R) {
    let mut deadlines = Deadlines::new(rt.alloc());
    let Ok(()) = deadlines.reserve(2) else {
        panic!(rt; "no memory")
    };
    ask_for(rt, REFUSE_ALL);
    let late = due(9);
    let early = due(8);
    let _ = deadlines.add(late);
    let second = deadlines.add(early);
    assert!(rt; are_same(deadlines.least(), Some(early)));
    deadlines.remove(second);
    assert!(rt; are_same(deadlines.least(), Some(late)));
    assert!(rt; are_same(deadlines.due(moment(rt, 9)), Some(late)));
    deadlines.clear();
    assert!(rt; deadlines.least().is_none());
    ask_for(rt, REFUSE_NONE);
}

/// Where pages were given back, the list still takes no memory for zeros, and for numbers on the other pages.
fn numbers<R: Abort + AllocGlobal>(rt: &R) {
    let mut numbers = SparseNumbers::new(rt.alloc());
    fill_up(rt, &mut numbers, 1025, 7);
    let Ok(()) = numbers.reserve(3000) else {
        panic!(rt; "no memory")
    };
    ask_for(rt, REFUSE_ALL);
    clear_first(&mut numbers, 1024);
    assert!(rt; numbers.set(6, 0).is_ok() && numbers.get(6) == 0);
    assert!(rt; numbers.set(1024, 3).is_ok() && numbers.get(1024) == 3);
    numbers.extend_zeros_reserved(2500);
    numbers.push_reserved(5);
    assert!(rt; numbers.get(3524) == 0 && numbers.get(3525) == 5);
    ask_for(rt, REFUSE_NONE);
}

fn transfers<R: Abort + AllocGlobal>(rt: &R) {
    let mut inbox = inbox(rt);
    let mut outbox = outbox(rt);
    let Ok(()) = outbox.reserve(1, 1) else {
        panic!(rt; "no memory")
    };
    ask_for(rt, REFUSE_ALL);
    outbox.issue(1, content());
    assert!(rt; first_number(&outbox, 1) == 1);
    let transfer = Transfer::restored(1, 1, content());
    assert!(rt; matches!(inbox.judge(&transfer), Delivery::Accepted));
    assert!(rt; matches!(inbox.accept(&transfer), Delivery::Accepted));
    assert!(rt; matches!(outbox.acknowledge(1, 1), Acknowledged::Acknowledged));
    assert!(rt; first_number(&outbox, 1) == 0);
    ask_for(rt, REFUSE_NONE);
}

/// A start without policies that allow it, with the request id of the open run.
fn decided(first: &Id, given: &Id) -> Decision {
    let latest = Latest {
        status: Status::Running,
        request_id: Some(first),
    };
    decide(
        Some(&latest),
        ReusePolicy::RejectDuplicate,
        ConflictPolicy::Fail,
        Some(given),
    )
}

fn decisions<R: Abort + AllocGlobal>(rt: &R) {
    let (first, given) = (id(rt), id(rt));
    let fields = fields(rt.alloc(), 1000, 200, 0);
    ask_for(rt, REFUSE_ALL);
    assert!(rt; matches!(decided(&first, &given), Decision::Same));
    let Ok(policy) = RetryPolicy::new(fields) else {
        panic!(rt; "no policy")
    };
    assert!(rt; wait_after(&policy, 3) == 4000);
    let verdict = verdict_on(&policy, Ended::Timeout, false, 1, moment(rt, 5), None);
    assert!(rt; matches!(verdict, Verdict::Retry { ready: 1005 }));
    assert!(rt; Span::new(Field::Retention, 7).is_ok());
    ask_for(rt, REFUSE_NONE);
}

fn texts<R: Abort + AllocGlobal>(rt: &R) {
    ask_for(rt, REFUSE_ALL);
    let mut buffer = [0; RUN_TEXT_LENGTH];
    let run = RunId::new(1, 0, 1);
    assert!(rt; run.write(&mut buffer) == "00000000-0001-8000-8000-000000000001");
    assert!(rt; RunId::read("00000000-0001-8000-8000-000000000001").is_ok());
    let token = TaskToken {
        kind: TaskKind::Activity,
        shard: 0,
        run: 1,
        event: 5,
        attempt: 3,
    };
    let mut buffer = [0; TOKEN_TEXT_LENGTH];
    assert!(rt; token.write_in(&mut buffer) == "AQIAAAAAAAAAAAABAAAAAAAAAAUAAAAD");
    ask_for(rt, REFUSE_NONE);
}

#[test]
fn what_takes_no_memory(rt: HostRuntime) {
    deadlines(&rt);
    numbers(&rt);
    transfers(&rt);
    decisions(&rt);
    texts(&rt);
}
