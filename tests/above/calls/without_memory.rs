//! What takes no memory, made while every allocation is refused: steps' second halves, leaving a shard, a meeting
//! and the close.
//!
//! `tools/without_memory.py` runs this with an allocator that refuses all between two allocations of sizes that
//! nothing else has. To any other allocator they are two allocations.

use crate::calls::asked::{START_D, call, settings, start};
use crate::calls::passes::{give_back, open, take_pass};
use crate::calls::shown::came;
use gate::Object;
use service::{KeepsShard, Pass, Service};
use service_model_types::content::Setup;
use service_model_types::request::Request;
use service_model_types::settings::Settings;
use std::alloc::AllocGlobal;
use std::process::Abort;
use std::sync::Wait;
use step_record::Record;
use wf_event_values::{Field, Moment, Span};

/// The sizes by which the allocator is told, in bytes.
const REFUSE_ALL: usize = 1_000_003;

const REFUSE_NONE: usize = 1_000_033;

/// How long a closed run is kept.
const RETENTION: u64 = 5;

/// A workflow with a timer that is canceled while its firing is buffered, an activity that is tried twice, a child
/// on the other shard and a signal to it, each of which goes through all of its steps, and at the end both runs are
/// deleted: what is answered, and the line.
const WORKFLOWS: &str =
    r##"started|{"op":"start","task_queue":"main","workflow_id":"a","workflow_type":"w","request_id":"r1","execution_timeout":100}
dispatched|{"op":"dispatch_turn","shard":0}
task|{"op":"poll_workflow_task","task_queue":"main"}
signaled|{"op":"signal","workflow_id":"a","name":"s","request_id":"s1"}
completed|{"op":"complete_workflow_task","token":"AQEAAAAAAAAAAAABAAAAAAAAAAIAAAAB","commands":[{"type":"StartTimer","timer_id":"t","duration":3},{"type":"RecordMarker","name":"m"},{"type":"ScheduleActivityTask","activity_id":"x","activity_type":"w","task_queue":"main","start_to_close":10,"retry":{"attempts":3,"coefficient":200,"initial":1,"maximum":0,"non_retryable":[]}},{"type":"StartChildWorkflowExecution","workflow_id":"b","task_queue":"main","workflow_type":"v"},{"type":"SignalExternalWorkflowExecution","workflow_id":"b","name":"s"}]}
accepted|{"op":"transfer_turn","from":0,"to":1}
accepted|{"op":"transfer_turn","from":0,"to":1}
accepted|{"op":"transfer_turn","from":1,"to":0}
accepted|{"op":"transfer_turn","from":1,"to":0}
dispatched|{"op":"dispatch_turn","shard":0}
dispatched|{"op":"dispatch_turn","shard":0}
activity task|{"op":"poll_activity_task","task_queue":"main"}
heartbeat|{"op":"heartbeat","token":"AQIAAAAAAAAAAAABAAAAAAAAAAcAAAAB","details":"d"}
retrying|{"op":"fail_activity","token":"AQIAAAAAAAAAAAABAAAAAAAAAAcAAAAB","message":"m"}
fired|{"at":1,"op":"timer_turn","shard":0}
dispatched|{"at":1,"op":"dispatch_turn","shard":0}
activity task|{"at":1,"op":"poll_activity_task","task_queue":"main"}
activity completed|{"at":2,"op":"complete_activity","token":"AQIAAAAAAAAAAAABAAAAAAAAAAcAAAAC","result":"y"}
task|{"at":3,"op":"poll_workflow_task","task_queue":"main"}
fired|{"at":3,"op":"timer_turn","shard":0}
cancel requested|{"at":3,"op":"request_cancel","workflow_id":"a"}
completed|{"at":3,"op":"complete_workflow_task","token":"AQEAAAAAAAAAAAABAAAAAAAAAAsAAAAB","commands":[{"type":"CancelTimer","timer_id":"t"}]}
dispatched|{"at":3,"op":"dispatch_turn","shard":0}
task|{"at":3,"op":"poll_workflow_task","task_queue":"main"}
failed|{"at":3,"op":"fail_workflow_task","token":"AQEAAAAAAAAAAAABAAAAAAAAABQAAAAB","message":"no"}
history|{"at":3,"op":"history","workflow_id":"a"}
started|{"at":3,"op":"signal_with_start","task_queue":"main","workflow_id":"c","workflow_type":"w","name":"s"}
terminated|{"at":4,"op":"terminate","workflow_id":"a","reason":"r"}
accepted|{"at":4,"op":"transfer_turn","from":0,"to":1}
described|{"at":4,"op":"describe","workflow_id":"b"}
fired|{"at":9,"op":"timer_turn","shard":0}
fired|{"at":9,"op":"timer_turn","shard":1}"##;

/// Asks a line, which is answered as its row says.
fn ask<S: KeepsShard, R: Abort + AllocGlobal + Wait>(
    rt: &R,
    service: &Service<S>,
    pass: &mut Pass<S>,
    row: &str,
) {
    let Some((wanted, line)) = row.split_once('|') else {
        panic!(rt; "{row} is no row")
    };
    let asked = call(rt, service.settings(), line);
    assert!(rt;
        came(service.serve_call(rt, pass, asked)) == wanted,
        "{row}"
    );
}

/// Asks all lines.
fn ask_all<S: KeepsShard, R: Abort + AllocGlobal + Wait>(
    rt: &R,
    service: &Service<S>,
    pass: &mut Pass<S>,
) {
    for row in WORKFLOWS.lines() {
        ask(rt, service, pass, row);
    }
}

/// Asks for so many bytes.
fn ask_for<R: Abort + AllocGlobal>(rt: &R, bytes: usize) {
    if Vec::<u8>::with_capacity(rt.alloc(), bytes).is_err() {
        panic!(rt; "no memory")
    }
}

/// Makes a request's step on a shard, its second half while memory is refused.
fn step<S: KeepsShard, R: Abort + AllocGlobal>(rt: &R, shard: &mut S, request: &Request) {
    let Ok(plan) = Object::prepare(shard, request) else {
        panic!(rt; "no memory")
    };
    ask_for(rt, REFUSE_ALL);
    let reply = Object::commit(shard, plan);
    ask_for(rt, REFUSE_NONE);
    let _ = reply;
}

/// The setup of a shard.
fn setup<R: Abort + AllocGlobal>(rt: &R, settings: &Settings, shard: u16) -> Setup {
    let Ok(queues) = settings.copy_queues(rt.alloc()) else {
        panic!(rt; "no memory")
    };
    let Ok(retention) = Span::new(Field::Retention, RETENTION) else {
        panic!(rt; "no span")
    };
    Setup {
        service: 1,
        shard,
        shards: 2,
        queues,
        retention,
    }
}

/// Makes the steps of a record on a fresh shard.
fn step_all<S: KeepsShard, R: Abort + AllocGlobal>(
    rt: &R,
    settings: &Settings,
    number: u16,
    record: &Record<Request>,
) {
    let Ok(mut shard) = S::open(rt.alloc(), setup(rt, settings, number)) else {
        panic!(rt; "no memory")
    };
    for entry in record.as_slice() {
        step(rt, &mut shard, &entry.request);
    }
}

/// A pass starts a workflow and leaves its shard, and meets another one, each while memory is refused.
fn leave_and_meet<S: KeepsShard, R: Abort + AllocGlobal>(
    rt: &R,
    service: &Service<S>,
    first: Pass<S>,
    mut second: Pass<S>,
) -> (Pass<S>, Pass<S>) {
    let asked = start(rt, START_D);
    let Ok(held) = service.try_enter_start(first, asked, Moment::zero()) else {
        panic!(rt; "the shard was free")
    };
    ask_for(rt, REFUSE_ALL);
    let (mut first, reply) = held.leave();
    service.meet(&mut first, &mut second);
    ask_for(rt, REFUSE_NONE);
    assert!(rt; reply.is_ok());
    (first, second)
}

/// Closes a service while memory is refused. Its records.
fn close<S: KeepsShard, R: Abort + AllocGlobal>(
    rt: &R,
    service: Service<S>,
    passes: Vec<Pass<S>>,
) -> Vec<Record<Request>> {
    ask_for(rt, REFUSE_ALL);
    let closed = service.close(passes);
    ask_for(rt, REFUSE_NONE);
    closed.records
}

pub(crate) fn what_takes_no_memory<S: KeepsShard, R: Abort + AllocGlobal + Wait>(rt: &R) {
    let mut settings = settings(rt, 2, 2);
    settings.retention = RETENTION;
    let (service, mut passes) = open::<S, R>(rt, &settings);
    let second = take_pass(&service, &mut passes);
    let mut first = take_pass(&service, &mut passes);
    ask_all(rt, &service, &mut first);
    let (first, second) = leave_and_meet(rt, &service, first, second);
    give_back(rt, &service, &mut passes, first);
    give_back(rt, &service, &mut passes, second);
    let records = close(rt, service, passes);
    let mut number = 0_u16;
    for record in &records {
        step_all::<S, R>(rt, &settings, number.min(1), record);
        number = number.saturating_add(1);
    }
    assert!(rt; number == 2);
}
