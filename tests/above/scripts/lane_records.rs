//! Records that are not one of each shard. The program finds that a file of theirs is missing.

use crate::scripts::lane_serving::{End, serve, settings};
use service::KeepsShard;
use std::alloc::AllocGlobal;
use std::process::Abort;
use std::sync::Wait;
use std::thread::Threads;
use step_record::Record;
use wire_counted::Counted;

const SCRIPT: &[u8] = br#"{"op":"start","task_queue":"main","workflow_id":"a","workflow_type":"w"}
"#;

/// Lanes of a service of three shards are given one record, and answer nothing.
pub(crate) fn records_of_too_few_shards<
    S: KeepsShard + Send + Sync,
    H: Abort + AllocGlobal + Threads + Wait + Sync,
>(rt: &H) {
    let mut records = Vec::new(rt.alloc());
    if records.push(Record::new(rt.alloc())).is_err() {
        panic!(rt; "no memory");
    }
    let settings = settings(rt, 3, 2);
    let mut reader = Counted::new(SCRIPT);
    let mut writer = Counted::new(Vec::new(rt.alloc()));
    let end = serve::<S, _, _, _>(rt, &settings, false, records, &mut reader, &mut writer);
    assert!(rt; matches!(end, End::RecordsRefused) && writer.inner.is_empty());
}
