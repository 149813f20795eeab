//! What the tests ask.

use serde_json::Value;
use service_model_types::call::Call;
use service_model_types::limits::DEFAULT_CAPACITY;
use service_model_types::request::Start;
use service_model_types::settings::{Settings, main_queue};
use std::alloc::AllocGlobal;
use std::process::Abort;
use wf_event::Boxed;
use wire_requests::{Asked, read_line};

/// So many shards and passes, and the queue `main`.
pub(crate) fn settings<R: Abort + AllocGlobal>(rt: &R, shards: u64, passes: u64) -> Settings {
    match main_queue(rt.alloc()) {
        Ok(queues) => Settings {
            shards,
            passes,
            service: 1,
            queues,
            capacity: DEFAULT_CAPACITY,
            retention: 0,
        },
        Err(_) => panic!(rt; "no memory"),
    }
}

/// The call that a line asks for.
pub(crate) fn call<R: Abort + AllocGlobal>(rt: &R, settings: &Settings, line: &str) -> Call {
    match read_line(rt.alloc(), settings, line) {
        Ok(Asked::Call(lane)) => lane.into_call(),
        _ => panic!(rt; "{line} asks for no call"),
    }
}

/// What came of a call that succeeds.
pub(crate) fn given<T: Drop, E: Drop, R: Abort>(rt: &R, came: Result<T, E>) -> T {
    match came {
        Ok(given) => given,
        Err(_) => panic!(rt; "it was refused"),
    }
}

/// The JSON value of a line.
pub(crate) fn value<R: Abort + AllocGlobal>(rt: &R, line: &str) -> Value {
    given(rt, Value::from_str(rt.alloc(), line))
}

/// A start under the default policies, by its line.
pub(crate) fn start<R: Abort + AllocGlobal>(rt: &R, line: &str) -> Boxed<Start> {
    let asked = given(rt, wire_requests::start(rt.alloc(), &value(rt, line)));
    given(rt, Boxed::new(rt.alloc(), asked))
}

/// Lines that start the workflows `a`, `b` and `d`.
pub(crate) const START_A: &str = r#"{"workflow_id":"a","workflow_type":"w","task_queue":"main"}"#;

pub(crate) const START_B: &str = r#"{"workflow_id":"b","workflow_type":"w","task_queue":"main"}"#;

pub(crate) const START_D: &str = r#"{"workflow_id":"d","workflow_type":"w","task_queue":"main"}"#;
