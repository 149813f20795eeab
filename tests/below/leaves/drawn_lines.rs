//! Drawn lines, of which both readers say the same: the one that goes on with slices of the line where
//! it can, and the one that makes a tree of each.

use crate::leaves::lines::is_read;
use json::Scratch;
use service_model_types::call::{Call, StepCall};
use service_model_types::limits::DEFAULT_CAPACITY;
use service_model_types::settings::{Settings, main_queue};
use std::alloc::{AllocError, AllocGlobal, Global};
use std::process::Abort;
use wf_event_values::Refusal;
use wire_record_steps::request_text;
use wire_requests::{Asked, LineReader, read_line};

const COUNT: u64 = 2000;

/// How lines begin.
const HEADS: &str = r#"{"op":"start","workflow_id":"a","workflow_type":"w","task_queue":"main"
{"op":"signal","workflow_id":"\u0061","name":"n"
 { "op" : "signal_with_start" , "workflow_id":"b","workflow_type":"w","task_queue":"q","name":"é"
{"op":"request_cancel","workflow_id":"a"
{"op":"history","workflow_id":"a"
{"op":"poll_activity_task","task_queue":"main"
{"op":"timer_turn","shard":1
{"op":"dispatch_turn","shard":0,"stop":2
{"op":"transfer_turn","from":0,"to":1
{"op":"complete_workflow_task","token":"AQEAAAAAAAAAAAABAAAAAAAAAAIAAAAB","commands":[]
{"op":"fail_activity","token":"AQIAAAAAAAAAAAABAAAAAAAAAAUAAAAD","message":"\t"
{"a":[[{"b":[null]}]]"#;

/// What may follow: texts with escapes, numbers, nested values, keys that come twice, and faults.
const MEMBERS: &str = r#","at":7
,"at":18446744073709551615
,"at":18446744073709551616
,"at":7.0
,"at":-0
,"at":1e3
,"at":07
,"at":"7"
,"at":null
,"input":"plain"
,"input":"a \"text\"\\\n\u00e9\ud83d\ude00\/"
,"input":"é 😀"
,"input":"\ud83d"
,"input":"\x"
,"input":
,"reason":"\u0000"
,"request_id":"r"
,"request_id":""
,"run":"00000000-0001-8000-8000-000000000001"
,"run":"no run"
,"run":null
,"lane":1
,"lane":2
,"barrier":true
,"barrier":[]
,"op":"describe"
,"o\u0070":"terminate"
,"workflow_id":"b"
,"shard":2
,"task_timeout":1000000000000
,"commands":[{"type":"StartTimer","timer_id":"\"","duration":7},{"type":"CancelTimer"}]
,"commands":[{"type":"RecordMarker","name":"m","details":"\u0061"}]
,"non_retryable":false
,"x":[[],{},[{"y":[1,true,null,"z"]}],0.5]
 , "x" : { "op" : [ "start" , 1 ] } 
,,"#;

/// How lines end.
const ENDS: &str = r#"}
}
}
}
}
 } 

]
,}
} {}"#;

/// The next number of a linear congruential generator with Knuth's constants for MMIX, modulo the limit.
fn below(state: &mut u64, limit: usize) -> usize {
    *state = state
        .wrapping_mul(6_364_136_223_846_793_005)
        .wrapping_add(1_442_695_040_888_963_407);
    (*state >> 33) as usize % limit
}

/// One of the lines of a text.
fn one_of<'a>(lines: &'a str, state: &mut u64) -> &'a str {
    let count = lines.lines().count().max(1);
    lines.lines().nth(below(state, count)).unwrap_or("")
}

/// A head, up to four members and an end.
fn drawn(alloc: Global, state: &mut u64) -> Result<String, AllocError> {
    let mut line = String::from_str(alloc, one_of(HEADS, state))?;
    for _ in 0..below(state, 5) {
        line.push_str(one_of(MEMBERS, state))?;
    }
    line.push_str(one_of(ENDS, state))?;
    Ok(line)
}

fn shown_step(alloc: Global, step: StepCall) -> Result<String, AllocError> {
    let shard = match &step {
        StepCall::TimerTurn(turn) => turn.shard,
        StepCall::StartTask(_) | StepCall::Request(_) => 0,
    };
    let text = request_text(alloc, step.into_client().request())?;
    format!(in alloc; "{shard} {text}")
}

fn shown_call(alloc: Global, call: Call) -> Result<String, AllocError> {
    match call {
        Call::Step(step) => shown_step(alloc, step),
        Call::Poll(poll) => format!(in alloc;
            "poll {} {} {}",
            poll.kind.name(),
            poll.task_queue.as_str(),
            poll.at.millis()
        ),
        Call::DispatchTurn(turn) => format!(in alloc;
            "dispatch {} {} {}",
            turn.shard,
            turn.stop as u8,
            turn.at.millis()
        ),
        Call::TransferTurn(turn) => format!(in alloc;
            "transfer {} {} {} {}",
            turn.from,
            turn.to,
            turn.stop as u8,
            turn.at.millis()
        ),
    }
}

/// All that was read of a line, or the fault that was found in it.
fn shown(alloc: Global, came: Result<Asked, Refusal>) -> Result<String, AllocError> {
    match came {
        Ok(Asked::Barrier) => format!(in alloc; "barrier"),
        Ok(Asked::Call(asked)) => {
            let lane = asked.lane;
            let call = shown_call(alloc, asked.into_call())?;
            format!(in alloc; "call in {lane}: {call}")
        }
        Err(Refusal::InvalidArgument(field)) => format!(in alloc; "{}", field.name()),
        Err(refusal) => format!(in alloc; "{}", refusal.name()),
    }
}

/// Two shards and two passes.
pub(crate) fn settings<R: Abort + AllocGlobal>(rt: &R) -> Settings {
    match main_queue(rt.alloc()) {
        Ok(queues) => Settings {
            shards: 2,
            passes: 2,
            service: 1,
            queues,
            capacity: DEFAULT_CAPACITY,
            retention: 0,
        },
        Err(_) => panic!(rt; "no memory"),
    }
}

/// What was read of a line, in words.
fn said<R: Abort + AllocGlobal>(rt: &R, came: Result<Asked, Refusal>) -> String {
    match shown(rt.alloc(), came) {
        Ok(text) => text,
        Err(_) => panic!(rt; "no memory"),
    }
}

/// Whether the next drawn line is read as slices, and whether it is a call. Both readers say the same of
/// it.
fn read_next<R: Abort + AllocGlobal>(
    rt: &R,
    settings: &Settings,
    reader: &mut LineReader,
    scratch: &mut Scratch,
    state: &mut u64,
) -> (bool, bool) {
    let Ok(line) = drawn(rt.alloc(), state) else {
        panic!(rt; "no memory")
    };
    let slices = said(rt, reader.read(rt.alloc(), settings, line.as_str()));
    let tree = said(rt, read_line(rt.alloc(), settings, line.as_str()));
    if slices.as_str() != tree.as_str() {
        panic!(rt; "{line}");
    }
    (
        is_read(rt.alloc(), line.as_str(), scratch),
        tree.starts_with("call"),
    )
}

/// How many of the drawn lines are read as slices, and how many are calls.
fn read_all<R: Abort + AllocGlobal>(rt: &R) -> (u64, u64) {
    let settings = settings(rt);
    let mut reader = LineReader::new(rt.alloc());
    let mut scratch = Scratch::new(rt.alloc());
    let (mut state, mut sliced, mut calls) = (1, 0_u64, 0_u64);
    for _ in 0..COUNT {
        let (is_sliced, is_call) = read_next(rt, &settings, &mut reader, &mut scratch, &mut state);
        sliced = sliced.saturating_add(u64::from(is_sliced));
        calls = calls.saturating_add(u64::from(is_call));
    }
    (sliced, calls)
}

/// At least a fifth of the lines are read as slices and a fifth are not, a fifth are calls and a fifth
/// are refused or barriers.
#[test]
fn both_readers_say_the_same(rt: HostRuntime) {
    let (sliced, calls) = read_all(&rt);
    let some = COUNT / 5..=COUNT - COUNT / 5;
    assert!(rt; some.contains(&sliced), "{sliced}");
    assert!(rt; some.contains(&calls), "{calls}");
}
