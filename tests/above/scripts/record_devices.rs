//! A reader and a writer that fail at each byte of a record.

use crate::scripts::rows::WORKFLOW;
use record_text::{RestoreFault, WriteFault, restore, write};
use service_model_types::request::Request;
use std::alloc::AllocGlobal;
use std::process::Abort;
use step_record::Record;
use tests_below::devices::{CutShort, Full};
use wire_counted::Counted;

/// The record of a whole workflow.
fn workflow<R: Abort + AllocGlobal>(rt: &R) -> Record<Request> {
    let mut reader = Counted::new(WORKFLOW.as_bytes());
    let Ok(steps) = restore(rt.alloc(), &mut reader) else {
        panic!(rt; "not restored")
    };
    steps
}

/// Whether a record that is cut short is refused by the reader, which is asked no more then.
fn is_cut_short<R: AllocGlobal>(rt: &R, left: usize) -> bool {
    let input = WORKFLOW.as_bytes();
    let mut reader = Counted::new(CutShort { input, left });
    let restored = restore(rt.alloc(), &mut reader);
    matches!(restored, Err(RestoreFault::Read(_))) && reader.failures == 1
}

/// Whether a writer with so much room for a record holds as many bytes of it, and fails once.
fn is_full<R: AllocGlobal>(rt: &R, steps: &Record<Request>, room: usize) -> bool {
    let mut writer = Counted::new(Full {
        held: Vec::new(rt.alloc()),
        room,
        flushes: u64::MAX,
    });
    let written = write(rt.alloc(), steps, &mut writer);
    let told = WORKFLOW.as_bytes().split_at(room.min(WORKFLOW.len())).0;
    matches!(written, Err(WriteFault::Write(_)))
        && writer.failures == 1
        && writer.inner.held.as_slice() == told
}

pub(crate) fn a_reader_that_fails_at_each_byte<R: Abort + AllocGlobal>(rt: &R) {
    for left in 0..=WORKFLOW.len() {
        assert!(rt; is_cut_short(rt, left), "{left}");
    }
}

pub(crate) fn a_writer_that_fails_at_each_byte<R: Abort + AllocGlobal>(rt: &R) {
    let steps = workflow(rt);
    for room in 0..WORKFLOW.len() {
        assert!(rt; is_full(rt, &steps, room), "{room}");
    }
}
