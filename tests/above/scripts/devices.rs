//! Scripts over a reader and a writer that fail at each byte, and over a writer whose flushes fail, with
//! records and without.

use record_text::restore;
use script::{ScriptFault, run_from};
use service::KeepsShard;
use service_model_types::limits::DEFAULT_CAPACITY;
use service_model_types::request::Request;
use service_model_types::settings::{Settings, main_queue};
use std::alloc::AllocGlobal;
use std::io::{Read, Write};
use std::process::Abort;
use std::sync::Wait;
use step_record::Record;
use tests_below::devices::{CutShort, Full, ended_lines};
use wire_counted::Counted;

/// The record of what was served before, if anything was, a script whose last line has no line feed,
/// and what it prints then.
struct Row {
    record: &'static str,
    script: &'static [u8],
    output: &'static [u8],
}

const ROWS: [Row; 3] = [
    Row {
        record: "",
        script: br#"{"op":"start","request_id":"r1","task_queue":"main","workflow_id":"a","workflow_type":"w"}
x
{"name":"s","op":"signal","workflow_id":"a"}
{"op":"history","workflow_id":"a"}"#,
        output: br#"{"line":1,"ok":"started","run":"00000000-0001-8000-8000-000000000001"}
{"error":"InvalidArgument","field":"json","line":2,"no":1}
{"line":3,"ok":"signaled"}
{"events":[{"at":0,"attrs":{"input":"","run_timeout":0,"task_queue":"main","task_timeout":10000,"workflow_id":"a","workflow_type":"w"},"id":1,"type":"WorkflowExecutionStarted"},{"at":0,"attrs":{"attempt":1,"task_queue":"main"},"id":2,"type":"WorkflowTaskScheduled"},{"at":0,"attrs":{"input":"","name":"s"},"id":3,"type":"WorkflowExecutionSignaled"}],"line":4,"ok":"history","run":"00000000-0001-8000-8000-000000000001"}
"#,
    },
    Row {
        record: r#"{"pass":0,"request":{"at":0,"conflict":"Fail","input":"","op":"start","request_id":"r1","reuse":"AllowDuplicate","run_timeout":0,"task_queue":"main","task_timeout":0,"workflow_id":"a","workflow_type":"w"}}
"#,
        script: br#"{"op":"poll_workflow_task","task_queue":"main"}
x
{"name":"s","op":"signal","workflow_id":"a"}
{"op":"describe","workflow_id":"a"}"#,
        output: br#"{"attempt":1,"line":1,"ok":"task","run":"00000000-0001-8000-8000-000000000001","started":3,"token":"AQEAAAAAAAAAAAABAAAAAAAAAAIAAAAB","workflow_id":"a"}
{"error":"InvalidArgument","field":"json","line":2,"no":1}
{"line":3,"ok":"signaled"}
{"activities":0,"cancels":0,"children":0,"held":1,"length":3,"line":4,"ok":"described","run":"00000000-0001-8000-8000-000000000001","signals":0,"status":"Running","timers":0}
"#,
    },
    // A signal is buffered, so a completion that closes its run fails.
    Row {
        record: "",
        script: br#"{"request_id": "r1", "task_queue": "main", "workflow_id": "a", "workflow_type": "w", "op": "start"}
{"shard": 0, "op": "dispatch_turn"}
{"task_queue": "main", "op": "poll_workflow_task", "at": 5}
{"name": "s", "workflow_id": "a", "op": "signal", "at": 7}
{"token": "AQEAAAAAAAAAAAABAAAAAAAAAAIAAAAB", "commands": [{"result": "", "type": "CompleteWorkflowExecution"}], "op": "complete_workflow_task", "at": 9}
{"workflow_id": "a", "op": "history"}"#,
        output: br#"{"line":1,"ok":"started","run":"00000000-0001-8000-8000-000000000001"}
{"line":2,"number":1,"ok":"dispatched"}
{"attempt":1,"line":3,"ok":"task","run":"00000000-0001-8000-8000-000000000001","started":3,"token":"AQEAAAAAAAAAAAABAAAAAAAAAAIAAAAB","workflow_id":"a"}
{"line":4,"ok":"signaled"}
{"cause":"UnhandledCommand","line":5,"ok":"task_failed"}
{"events":[{"at":0,"attrs":{"input":"","run_timeout":0,"task_queue":"main","task_timeout":10000,"workflow_id":"a","workflow_type":"w"},"id":1,"type":"WorkflowExecutionStarted"},{"at":0,"attrs":{"attempt":1,"task_queue":"main"},"id":2,"type":"WorkflowTaskScheduled"},{"at":5,"attrs":{"scheduled":2},"id":3,"type":"WorkflowTaskStarted"},{"at":9,"attrs":{"cause":"UnhandledCommand","message":"","scheduled":2,"started":3},"id":4,"type":"WorkflowTaskFailed"},{"at":7,"attrs":{"input":"","name":"s"},"id":5,"type":"WorkflowExecutionSignaled"},{"at":9,"attrs":{"attempt":2,"task_queue":"main"},"id":6,"type":"WorkflowTaskScheduled"}],"line":6,"ok":"history","run":"00000000-0001-8000-8000-000000000001"}
"#,
    },
];

/// What a script came to.
#[derive(Clone, Copy)]
enum End {
    Whole,
    ReaderFailed,
    WriterFailed,
    Otherwise,
}

/// What the program takes where no option is given.
fn defaults<R: Abort + AllocGlobal>(rt: &R) -> Settings {
    match main_queue(rt.alloc()) {
        Ok(queues) => Settings {
            shards: 1,
            passes: 1,
            service: 1,
            queues,
            capacity: DEFAULT_CAPACITY,
            retention: 0,
        },
        Err(_) => panic!(rt; "no memory"),
    }
}

/// The records of what was served before, if anything was.
fn records<R: Abort + AllocGlobal>(rt: &R, row: &Row) -> Vec<Record<Request>> {
    let mut records = Vec::new(rt.alloc());
    if row.record.is_empty() {
        return records;
    }
    let Ok(record) = restore(rt.alloc(), &mut Counted::new(row.record.as_bytes())) else {
        panic!(rt; "not restored")
    };
    if records.push(record).is_err() {
        panic!(rt; "no memory");
    }
    records
}

/// Runs a script from a row's records.
fn run<S: KeepsShard, H: Abort + AllocGlobal + Wait, R: Read, W: Write>(
    rt: &H,
    row: &Row,
    reader: &mut Counted<R>,
    writer: &mut Counted<W>,
) -> End {
    let settings = defaults(rt);
    let records = records(rt, row);
    match run_from::<S, _, _, _>(rt, rt.alloc(), &settings, false, records, reader, writer) {
        Ok(_) => End::Whole,
        Err(ScriptFault::Read(_)) => End::ReaderFailed,
        Err(ScriptFault::Write(_)) => End::WriterFailed,
        Err(_) => End::Otherwise,
    }
}

/// Whether, of a reader that fails after so many bytes, the lines that end in what was read are replied
/// to, and no others.
fn reads_so_many<S: KeepsShard, H: Abort + AllocGlobal + Wait>(
    rt: &H,
    row: &Row,
    left: usize,
) -> bool {
    let input = row.script;
    let mut reader = Counted::new(CutShort { input, left });
    let mut writer = Counted::new(Vec::new(rt.alloc()));
    let end = run::<S, _, _, _>(rt, row, &mut reader, &mut writer);
    let whole = input.split_at(left.min(input.len())).0;
    matches!(end, End::ReaderFailed)
        && reader.failures == 1
        && writer.failures == 0
        && row.output.starts_with(&writer.inner)
        && ended_lines(&writer.inner) == ended_lines(whole)
}

/// A writer with so much room for bytes, which does so many flushes: whether it fails, and whether these
/// bytes are all that it was told.
#[derive(Clone, Copy)]
struct Written<'a> {
    room: usize,
    flushes: u64,
    fails: bool,
    told: &'a [u8],
    is_told: bool,
}

/// Whether a script is written so.
fn is_written<S: KeepsShard, H: Abort + AllocGlobal + Wait>(
    rt: &H,
    row: &Row,
    written: Written,
) -> bool {
    let mut reader = Counted::new(row.script);
    let mut writer = Counted::new(Full {
        held: Vec::new(rt.alloc()),
        room: written.room,
        flushes: written.flushes,
    });
    let end = run::<S, _, _, _>(rt, row, &mut reader, &mut writer);
    matches!(end, End::WriterFailed) == written.fails
        && reader.failures == 0
        && writer.failures == u64::from(written.fails)
        && (writer.inner.held.as_slice() == written.told) == written.is_told
}

pub(crate) fn readers_fail_at_each_byte<S: KeepsShard, H: Abort + AllocGlobal + Wait>(rt: &H) {
    for row in &ROWS {
        for left in 0..=row.script.len() {
            assert!(rt; reads_so_many::<S, H>(rt, row, left), "{left}");
        }
    }
}

pub(crate) fn writers_fail_at_each_byte<S: KeepsShard, H: Abort + AllocGlobal + Wait>(rt: &H) {
    for row in &ROWS {
        for room in 0..row.output.len() {
            let written = Written {
                room,
                flushes: u64::MAX,
                fails: true,
                told: row.output.split_at(room).0,
                is_told: true,
            };
            assert!(rt; is_written::<S, H>(rt, row, written), "{room}");
        }
    }
}

/// The replies are flushed after what was read, at the end of the input, and after the reply to
/// the last line, which has no line feed. None of these flushes is lost where it fails.
pub(crate) fn writers_whose_flush_fails<S: KeepsShard, H: Abort + AllocGlobal + Wait>(rt: &H) {
    for row in &ROWS {
        for flushes in 0..=3 {
            let written = Written {
                room: usize::MAX,
                flushes,
                fails: flushes < 3,
                told: row.output,
                is_told: flushes >= 2,
            };
            assert!(rt; is_written::<S, H>(rt, row, written), "{flushes}");
        }
    }
}
