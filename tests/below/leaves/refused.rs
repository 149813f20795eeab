//! Calls that take memory, each made again where it was refused: it says so and leaves what there was, and
//! then it answers as if nothing had been refused.
//!
//! `tools/refused_leaves.py` runs this once for each allocation, with that one refused. Any other allocator
//! refuses none.

use crate::leaves::deadlines::are_same;
use crate::leaves::drawn_lines::settings;
use service_model_types::call::{Call, StepCall};
use service_model_types::settings::Settings;
use service_model_types::transfer::{ChildStartFailed, Sent, TransferContent};
use sparse_numbers::SparseNumbers;
use std::alloc::{AllocError, AllocGlobal, Global};
use std::process::Abort;
use task_token::TaskToken;
use timeouts::{ByPlace, Deadlines, Due};
use transfer::{Inbox, Outbox};
use wf_event_values::{DeadlineClass, Field, Id, Refusal, RunId, TaskKind, Text};
use wire_record_steps::request_text;
use wire_requests::{Asked, LineReader, read_line};

/// The sizes by which the allocator is told from where on, and up to where, it counts.
const COUNT_FROM: usize = 1_000_037;

const COUNT_TO: usize = 1_000_039;

/// How often a call is made at most: one allocation is refused.
const TIMES: usize = 2;

const WORDS: &str = "a text that is longer than a word";

const TOKEN: &str = "AQIAAAAAAAAAAAABAAAAAAAAAAUAAAAD";

const LINE: &str = r#"{"at":7,"op":"signal","workflow_id":"a","name":"s","input":"i"}"#;

const REQUEST: &str = r#"{"at":7,"input":"i","name":"s","op":"signal","workflow_id":"a"}"#;

/// Asks for so many bytes.
pub(crate) fn ask_for<R: Abort + AllocGlobal>(rt: &R, bytes: usize) {
    if Vec::<u8>::with_capacity(rt.alloc(), bytes).is_err() {
        panic!(rt; "no memory")
    }
}

fn text<R: Abort + AllocGlobal>(rt: &R) -> Text {
    for _ in 0..TIMES {
        match Text::new(rt.alloc(), Field::Input, WORDS) {
            Ok(text) => return text,
            Err(Refusal::NoMemory) => {}
            Err(_) => panic!(rt; "another refusal"),
        }
    }
    panic!(rt; "refused twice")
}

pub(crate) fn id<R: Abort + AllocGlobal>(rt: &R) -> Id {
    for _ in 0..TIMES {
        match Id::new(rt.alloc(), Field::WorkflowId, WORDS) {
            Ok(id) => return id,
            Err(Refusal::NoMemory) => {}
            Err(_) => panic!(rt; "another refusal"),
        }
    }
    panic!(rt; "refused twice")
}

fn texts<R: Abort + AllocGlobal>(rt: &R) {
    assert!(rt; text(rt).as_str() == WORDS);
    assert!(rt; id(rt).as_str() == WORDS);
}

fn written<R: Abort + AllocGlobal>(rt: &R, token: TaskToken) -> String {
    for _ in 0..TIMES {
        if let Ok(text) = token.write(rt.alloc()) {
            return text;
        }
    }
    panic!(rt; "refused twice")
}

fn token<R: Abort + AllocGlobal>(rt: &R) -> TaskToken {
    for _ in 0..TIMES {
        match TaskToken::read(rt.alloc(), TOKEN) {
            Ok(token) => return token,
            Err(Refusal::NoMemory) => {}
            Err(_) => panic!(rt; "another refusal"),
        }
    }
    panic!(rt; "refused twice")
}

fn tokens<R: Abort + AllocGlobal>(rt: &R) {
    let token = token(rt);
    assert!(rt; token.kind.name() == TaskKind::Activity.name() && token.event == 5);
    assert!(rt; written(rt, token).as_str() == TOKEN);
}

pub(crate) fn due(due: u64) -> Due {
    Due {
        due,
        run: 1,
        class: DeadlineClass::UserTimer,
        event: 1,
    }
}

/// Makes room for one deadline more.
fn make_room<R: Abort>(rt: &R, deadlines: &mut Deadlines) {
    for _ in 0..TIMES {
        let before = deadlines.least();
        if let Ok(()) = deadlines.reserve(1) {
            return;
        }
        assert!(rt; are_same(deadlines.least(), before));
    }
    panic!(rt; "refused twice")
}

fn deadlines<R: Abort + AllocGlobal>(rt: &R) {
    let mut deadlines = Deadlines::new(rt.alloc());
    for moment in 0..20 {
        make_room(rt, &mut deadlines);
        deadlines.add(due(100 - moment));
        assert!(rt; are_same(deadlines.least(), Some(due(100 - moment))));
    }
}

/// Makes room for a number more.
fn make_place<R: Abort>(rt: &R, deadlines: &mut ByPlace) {
    for _ in 0..TIMES {
        if let Ok(()) = deadlines.reserve(1) {
            return;
        }
    }
    panic!(rt; "refused twice")
}

/// Puts a deadline at a number.
fn put<R: Abort>(rt: &R, deadlines: &mut ByPlace, number: usize, due: Due) {
    for _ in 0..TIMES {
        let before = deadlines.least();
        if let Ok(()) = deadlines.set(number, Some(due)) {
            return;
        }
        assert!(rt; are_same(deadlines.least(), before));
    }
    panic!(rt; "refused twice")
}

fn places<R: Abort + AllocGlobal>(rt: &R) {
    let mut deadlines = ByPlace::new(rt.alloc());
    for number in 0..20 {
        make_place(rt, &mut deadlines);
        deadlines.push_none();
        let earlier = due(100 - number as u64);
        put(rt, &mut deadlines, number, earlier);
        assert!(rt; are_same(deadlines.least(), Some(earlier)));
    }
}

/// Makes room for so many numbers.
fn make_numbers<R: Abort>(rt: &R, numbers: &mut SparseNumbers, count: usize) {
    for _ in 0..TIMES {
        if let Ok(()) = numbers.reserve(count) {
            return;
        }
    }
    panic!(rt; "refused twice")
}

/// Writes a number, whose page may have to be made.
fn write<R: Abort>(rt: &R, numbers: &mut SparseNumbers, index: usize, number: usize) {
    for _ in 0..TIMES {
        let before = numbers.get(index);
        if let Ok(()) = numbers.set(index, number) {
            return;
        }
        assert!(rt; numbers.get(index) == before);
    }
    panic!(rt; "refused twice")
}

/// Pages of zeros are given back as they come, so a number there takes memory again.
fn numbers<R: Abort + AllocGlobal>(rt: &R) {
    let mut numbers = SparseNumbers::new(rt.alloc());
    make_numbers(rt, &mut numbers, 2049);
    numbers.extend_zeros_reserved(2049);
    write(rt, &mut numbers, 5, 7);
    write(rt, &mut numbers, 1030, 8);
    assert!(rt; numbers.get(5) == 7 && numbers.get(1030) == 8 && numbers.get(6) == 0);
}

/// An outbox and an inbox of two shards.
pub(crate) fn outbox<R: Abort + AllocGlobal>(rt: &R) -> Outbox {
    for _ in 0..TIMES {
        if let Ok(outbox) = Outbox::new(rt.alloc(), 2) {
            return outbox;
        }
    }
    panic!(rt; "refused twice")
}

pub(crate) fn inbox<R: Abort + AllocGlobal>(rt: &R) -> Inbox {
    for _ in 0..TIMES {
        if let Ok(inbox) = Inbox::new(rt.alloc(), 2) {
            return inbox;
        }
    }
    panic!(rt; "refused twice")
}

/// What a transfer may carry.
pub(crate) fn content() -> TransferContent {
    TransferContent::ChildStartFailed(ChildStartFailed {
        parent_run: RunId::new(1, 0, 1),
        initiated: 5,
    })
}

/// Two transfers to shard 1, and one to shard 0.
fn try_sent(alloc: Global) -> Result<Vec<Sent>, AllocError> {
    let mut sent = Vec::new(alloc);
    for to in [1, 0, 1] {
        let content = content();
        sent.push(Sent { to, content })?;
    }
    Ok(sent)
}

fn sent<R: Abort + AllocGlobal>(rt: &R) -> Vec<Sent> {
    for _ in 0..TIMES {
        if let Ok(sent) = try_sent(rt.alloc()) {
            return sent;
        }
    }
    panic!(rt; "refused twice")
}

/// The number of the first transfer to a shard that is not acknowledged, or 0.
pub(crate) fn first_number(outbox: &Outbox, to: u16) -> u64 {
    outbox.first_to(to).map_or(0, |first| first.0)
}

/// Sends all, or none where it is refused.
fn send<R: Abort + AllocGlobal>(rt: &R, outbox: &mut Outbox) {
    for _ in 0..TIMES {
        if let Ok(()) = outbox.send_all(sent(rt)) {
            return;
        }
        assert!(rt; first_number(outbox, 0) == 0 && first_number(outbox, 1) == 0);
    }
    panic!(rt; "refused twice")
}

fn transfers<R: Abort + AllocGlobal>(rt: &R) {
    let _ = inbox(rt);
    let mut outbox = outbox(rt);
    send(rt, &mut outbox);
    assert!(rt; first_number(&outbox, 0) == 1 && first_number(&outbox, 1) == 1);
}

/// What was read of the line, where memory was not refused.
fn call_of<R: Abort>(rt: &R, came: Result<Asked, Refusal>) -> Option<Call> {
    match came {
        Ok(Asked::Call(asked)) => Some(asked.into_call()),
        Err(Refusal::NoMemory) => None,
        _ => panic!(rt; "another answer"),
    }
}

fn read<R: Abort + AllocGlobal>(rt: &R, settings: &Settings) -> Call {
    for _ in 0..TIMES {
        if let Some(call) = call_of(rt, read_line(rt.alloc(), settings, LINE)) {
            return call;
        }
    }
    panic!(rt; "refused twice")
}

/// The same by the reader that keeps its window.
fn read_by<R: Abort + AllocGlobal>(rt: &R, settings: &Settings, reader: &mut LineReader) -> Call {
    for _ in 0..TIMES {
        if let Some(call) = call_of(rt, reader.read(rt.alloc(), settings, LINE)) {
            return call;
        }
    }
    panic!(rt; "refused twice")
}

fn step_of<R: Abort>(rt: &R, call: Call) -> StepCall {
    match call {
        Call::Step(step) => step,
        _ => panic!(rt; "another call"),
    }
}

/// Whether the call is written as the request that it asks for.
fn is_written<R: Abort + AllocGlobal>(rt: &R, call: Call) -> bool {
    let client = step_of(rt, call).into_client();
    for _ in 0..TIMES {
        if let Ok(text) = request_text(rt.alloc(), client.request()) {
            return text.as_str() == REQUEST;
        }
    }
    panic!(rt; "refused twice")
}

fn lines<R: Abort + AllocGlobal>(rt: &R, settings: &Settings) {
    assert!(rt; is_written(rt, read(rt, settings)));
    let mut reader = LineReader::new(rt.alloc());
    for _ in 0..2 {
        assert!(rt; is_written(rt, read_by(rt, settings, &mut reader)));
    }
}

#[test]
fn each_call_is_made_again(rt: HostRuntime) {
    let settings = settings(&rt);
    ask_for(&rt, COUNT_FROM);
    texts(&rt);
    tokens(&rt);
    deadlines(&rt);
    numbers(&rt);
    places(&rt);
    transfers(&rt);
    lines(&rt, &settings);
    ask_for(&rt, COUNT_TO);
}
