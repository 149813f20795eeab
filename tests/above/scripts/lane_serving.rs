//! Scripts that lanes serve, and what becomes of them.

use lanes::run_lanes_from;
use script::ScriptFault;
use service::KeepsShard;
use service_model_types::limits::DEFAULT_CAPACITY;
use service_model_types::request::Request;
use service_model_types::settings::{Settings, main_queue};
use std::alloc::AllocGlobal;
use std::io::{Read, Write};
use std::process::Abort;
use std::sync::Wait;
use std::thread::Threads;
use step_record::Record;
use wire_counted::Counted;

/// The settings of a service of so many shards and passes, with the queue `main`.
pub(crate) fn settings<R: Abort + AllocGlobal>(rt: &R, shards: u64, passes: u64) -> Settings {
    match main_queue(rt.alloc()) {
        Ok(queues) => Settings {
            shards,
            passes,
            service: 1,
            queues,
            capacity: DEFAULT_CAPACITY,
            retention: 0,
        },
        Err(_) => panic!(rt; "no memory"),
    }
}

/// What a script came to.
#[derive(Clone, Copy)]
pub(crate) enum End {
    Served,
    ReaderFailed,
    WriterFailed,
    RecordsRefused,
    Otherwise,
}

/// Serves the lines that the reader gives, from where the records end.
pub(crate) fn serve<
    S: KeepsShard + Send + Sync,
    H: AllocGlobal + Threads + Wait + Sync,
    R: Read,
    W: Write,
>(
    rt: &H,
    settings: &Settings,
    trace: bool,
    records: Vec<Record<Request>>,
    reader: &mut Counted<R>,
    writer: &mut Counted<W>,
) -> End {
    match run_lanes_from::<S, _, _, _>(rt, rt.alloc(), settings, trace, records, reader, writer) {
        Ok(_) => End::Served,
        Err(ScriptFault::Read(_)) => End::ReaderFailed,
        Err(ScriptFault::Write(_)) => End::WriterFailed,
        Err(ScriptFault::Records) => End::RecordsRefused,
        Err(_) => End::Otherwise,
    }
}
