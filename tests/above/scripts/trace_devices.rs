//! A writer that fails at each byte of a script whose steps are printed too, by one lane and by three, and one
//! whose flushes fail, that after the steps among them.

use crate::scripts::lane_serving::{End, serve, settings};
use script::{ScriptFault, run_one};
use service::KeepsShard;
use std::alloc::AllocGlobal;
use std::process::Abort;
use std::sync::Wait;
use std::thread::Threads;
use tests_below::devices::Full;
use wire_counted::Counted;

/// How many shards there are, some of which have a step.
const SHARDS: u64 = 12;

/// A script whose last line has no line feed, what is printed, which is the replies and a line for each
/// step, and how often it is flushed: the last time after the steps.
struct Traced {
    has_lanes: bool,
    script: &'static [u8],
    output: &'static [u8],
    flushes: u64,
}

const SCRIPTS: [Traced; 2] = [
    Traced {
        has_lanes: false,
        script: br#"{"op":"history","workflow_id":"l"}
{"op":"history","workflow_id":"b"}
{"op":"history","workflow_id":"m"}"#,
        output: br#"{"error":"NotFound","line":1,"no":2}
{"error":"NotFound","line":2,"no":2}
{"error":"NotFound","line":3,"no":2}
{"pass":0,"request":{"at":0,"op":"history","workflow_id":"l"},"shard":11,"ticket":1}
{"pass":0,"request":{"at":0,"op":"history","workflow_id":"b"},"shard":1,"ticket":2}
{"pass":0,"request":{"at":0,"op":"history","workflow_id":"m"},"shard":0,"ticket":3}
"#,
        // After what was read, at the end of the input, after the last line's reply, and after the steps.
        flushes: 4,
    },
    Traced {
        has_lanes: true,
        script: br#"{"lane":2,"op":"history","workflow_id":"l"}
{"barrier":true}
{"lane":1,"op":"history","workflow_id":"b"}"#,
        output: br#"{"error":"NotFound","line":1,"no":2}
{"error":"NotFound","line":3,"no":2}
{"pass":2,"request":{"at":0,"op":"history","workflow_id":"l"},"shard":11,"ticket":1}
{"pass":1,"request":{"at":0,"op":"history","workflow_id":"b"},"shard":1,"ticket":2}
"#,
        // At the barrier, after the last line's reply, and after the steps.
        flushes: 3,
    },
];

/// Serves a script by one lane. Whether its writer failed.
fn is_failed_by_one<S: KeepsShard, H: AllocGlobal + Abort + Wait>(
    rt: &H,
    traced: &Traced,
    writer: &mut Counted<Full>,
) -> bool {
    let settings = settings(rt, SHARDS, 1);
    let mut reader = Counted::new(traced.script);
    let ran = run_one::<S, _, _, _>(rt, rt.alloc(), &settings, true, &mut reader, writer);
    matches!(ran, Err(ScriptFault::Write(_)))
}

/// Serves a script by three lanes. Whether its writer failed.
fn is_failed_by_lanes<S: KeepsShard + Send + Sync, H: AllocGlobal + Abort + Threads + Wait + Sync>(
    rt: &H,
    traced: &Traced,
    writer: &mut Counted<Full>,
) -> bool {
    let settings = settings(rt, SHARDS, 3);
    let mut reader = Counted::new(traced.script);
    let none = Vec::new(rt.alloc());
    let end = serve::<S, _, _, _>(rt, &settings, true, none, &mut reader, writer);
    matches!(&end, End::WriterFailed)
}

/// How many bytes of its output a script wrote to a writer with so much room, which does so many flushes,
/// and whether the writer failed, once. Nothing where it wrote anything else.
fn written<S: KeepsShard + Send + Sync, H: AllocGlobal + Abort + Threads + Wait + Sync>(
    rt: &H,
    traced: &Traced,
    room: usize,
    flushes: u64,
) -> Option<(usize, bool)> {
    let mut writer = Counted::new(Full {
        held: Vec::new(rt.alloc()),
        room,
        flushes,
    });
    let fails = if traced.has_lanes {
        is_failed_by_lanes::<S, H>(rt, traced, &mut writer)
    } else {
        is_failed_by_one::<S, H>(rt, traced, &mut writer)
    };
    if writer.failures != u64::from(fails) || !traced.output.starts_with(&writer.inner.held) {
        return None;
    }
    Some((writer.inner.held.len(), fails))
}

pub(crate) fn writers_fail_at_each_byte<
    S: KeepsShard + Send + Sync,
    H: AllocGlobal + Abort + Threads + Wait + Sync,
>(rt: &H) {
    for traced in &SCRIPTS {
        for room in 0..traced.output.len() {
            let came = written::<S, H>(rt, traced, room, u64::MAX);
            assert!(rt; came == Some((room, true)), "{room}");
        }
    }
}

/// None of the flushes is lost where it fails, and all is written before the last one.
pub(crate) fn writers_whose_flush_fails<
    S: KeepsShard + Send + Sync,
    H: AllocGlobal + Abort + Threads + Wait + Sync,
>(rt: &H) {
    for traced in &SCRIPTS {
        for flushes in 0..=traced.flushes {
            let Some((count, fails)) = written::<S, H>(rt, traced, usize::MAX, flushes) else {
                panic!(rt; "another output behind {flushes} flushes")
            };
            assert!(rt; fails == (flushes < traced.flushes), "{flushes}");
            let is_whole = count == traced.output.len();
            assert!(rt; is_whole == (flushes + 1 >= traced.flushes), "{flushes}");
        }
    }
}
