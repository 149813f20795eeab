//! A reader and a writer that fail at each byte of a script over lanes, and a writer whose flushes fail.

use crate::scripts::lane_serving::{End, serve, settings};
use service::KeepsShard;
use std::alloc::AllocGlobal;
use std::io::{Read, Write};
use std::process::Abort;
use std::sync::Wait;
use std::thread::Threads;
use tests_below::devices::{CutShort, Full, ended_lines};
use wire_counted::Counted;

/// Two phases over three lanes; the last line has no line feed.
const SCRIPT: &[u8] =
    br#"{"op":"start","request_id":"r1","task_queue":"main","workflow_id":"a","workflow_type":"w"}
{"lane":1,"op":"history","workflow_id":"c"}
{"barrier":true}
{"lane":1,"name":"s","op":"signal","workflow_id":"a"}
x
{"lane":2,"op":"describe","workflow_id":"c"}"#;

/// What the first phase prints.
const FIRST: &[u8] = br#"{"line":1,"ok":"started","run":"00000000-0001-8000-8000-000000000001"}
{"error":"NotFound","line":2,"no":2}
"#;

/// What the lines of the second phase print that have a line feed.
const SECOND: &[u8] = br#"{"line":4,"ok":"signaled"}
{"error":"InvalidArgument","field":"json","line":5,"no":1}
"#;

/// What the last line prints.
const LAST: &[u8] = br#"{"error":"NotFound","line":6,"no":2}
"#;

/// How many bytes are printed by the end of the last line that has a line feed.
fn before_last() -> usize {
    FIRST.len().saturating_add(SECOND.len())
}

/// How many bytes are printed.
fn whole() -> usize {
    before_last().saturating_add(LAST.len())
}

/// Whether the bytes are a beginning of what is printed.
fn begins(bytes: &[u8]) -> bool {
    if let Some(behind) = bytes.get(before_last()..) {
        return bytes.starts_with(FIRST) && ends_in(bytes, SECOND) && LAST.starts_with(behind);
    }
    match bytes.get(FIRST.len()..) {
        Some(behind) => bytes.starts_with(FIRST) && SECOND.starts_with(behind),
        None => FIRST.starts_with(bytes),
    }
}

/// Whether this stands after what the first phase prints.
fn ends_in(bytes: &[u8], part: &[u8]) -> bool {
    match bytes.get(FIRST.len()..) {
        Some(behind) => behind.starts_with(part),
        None => false,
    }
}

/// How many lines are printed for so many lines that ended: the third is a barrier.
fn replies(ended: usize) -> usize {
    if ended < 3 { ended } else { ended - 1 }
}

/// Serves the script over three lanes.
fn run<
    S: KeepsShard + Send + Sync,
    H: Abort + AllocGlobal + Threads + Wait + Sync,
    R: Read,
    W: Write,
>(rt: &H, reader: &mut Counted<R>, writer: &mut Counted<W>) -> End {
    let settings = settings(rt, 1, 3);
    serve::<S, _, _, _>(rt, &settings, false, Vec::new(rt.alloc()), reader, writer)
}

/// Whether, of a reader that fails after so many bytes, the lines that end in what was read are replied
/// to, and no others.
fn reads_so_many<S: KeepsShard + Send + Sync, H: Abort + AllocGlobal + Threads + Wait + Sync>(
    rt: &H,
    left: usize,
) -> bool {
    let mut reader = Counted::new(CutShort {
        input: SCRIPT,
        left,
    });
    let mut writer = Counted::new(Vec::new(rt.alloc()));
    let end = run::<S, _, _, _>(rt, &mut reader, &mut writer);
    matches!(&end, End::ReaderFailed)
        && reader.failures == 1
        && writer.failures == 0
        && are_replies(&writer.inner, left)
}

/// Whether these are the replies to the lines that end in so many bytes of the script, each of them whole.
fn are_replies(written: &[u8], left: usize) -> bool {
    let whole = SCRIPT.split_at(left.min(SCRIPT.len())).0;
    begins(written)
        && ended_lines(written) == replies(ended_lines(whole))
        && matches!(written.last(), None | Some(b'\n'))
}

/// A fault of the reader comes when the lines that it gave before are answered, also those after the
/// last barrier: lanes answer what one read gave before they read on.
pub(crate) fn readers_fail_at_each_byte<
    S: KeepsShard + Send + Sync,
    H: Abort + AllocGlobal + Threads + Wait + Sync,
>(rt: &H) {
    for left in 0..=SCRIPT.len() {
        assert!(rt; reads_so_many::<S, H>(rt, left), "{left}");
    }
}

/// A writer with so much room for bytes, which does so many flushes: whether it fails, and how many bytes
/// it was told.
#[derive(Clone, Copy)]
struct Written {
    room: usize,
    flushes: u64,
    fails: bool,
    told: usize,
}

/// Whether the script is written so.
fn is_written<S: KeepsShard + Send + Sync, H: Abort + AllocGlobal + Threads + Wait + Sync>(
    rt: &H,
    written: Written,
) -> bool {
    let mut reader = Counted::new(SCRIPT);
    let mut writer = Counted::new(Full {
        held: Vec::new(rt.alloc()),
        room: written.room,
        flushes: written.flushes,
    });
    let end = run::<S, _, _, _>(rt, &mut reader, &mut writer);
    matches!(&end, End::WriterFailed) == written.fails
        && reader.failures == 0
        && writer.failures == u64::from(written.fails)
        && writer.inner.held.len() == written.told
        && begins(&writer.inner.held)
}

pub(crate) fn writers_fail_at_each_byte<
    S: KeepsShard + Send + Sync,
    H: Abort + AllocGlobal + Threads + Wait + Sync,
>(rt: &H) {
    for room in 0..whole() {
        let written = Written {
            room,
            flushes: u64::MAX,
            fails: true,
            told: room,
        };
        assert!(rt; is_written::<S, H>(rt, written), "{room}");
    }
}

/// How many bytes are told by so many flushes: at the barrier, after what the one read gave, and after
/// the last line.
fn flushed(flushes: u64) -> usize {
    match flushes {
        0 => FIRST.len(),
        1 => before_last(),
        _ => whole(),
    }
}

/// None of the flushes is lost where it fails.
pub(crate) fn writers_whose_flush_fails<
    S: KeepsShard + Send + Sync,
    H: Abort + AllocGlobal + Threads + Wait + Sync,
>(rt: &H) {
    for flushes in 0..=3 {
        let written = Written {
            room: usize::MAX,
            flushes,
            fails: flushes < 3,
            told: flushed(flushes),
        };
        assert!(rt; is_written::<S, H>(rt, written), "{flushes}");
    }
}
