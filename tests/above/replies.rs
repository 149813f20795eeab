//! The mode `replies`: prints the replies that no line is answered, each as it is written.
//!
//! All others come of lines, and `cases` shows them. What these have to be stands in `tests/above/replies.stdout`.

use service_model_types::answer::{Acknowledged, Answer, Reply};
use std::alloc::AllocGlobal;
use std::io;
use wf_event_values::Refusal;
use wire_replies::reply_text;

fn print_reply<R: Print + AllocGlobal>(rt: &R, line: u64, reply: &Reply) -> io::Result<()> {
    let text = reply_text(rt.alloc(), line, reply)?;
    rt.print(text.as_str())
}

/// The parts of a transfer turn that another thread may be answered, and what a lack of memory or of
/// time is told as.
fn print_parts<R: Print + AllocGlobal>(rt: &R) -> io::Result<()> {
    let replies = [
        Ok(Answer::OutOfOrder(3)),
        Ok(Answer::Counted(Acknowledged::Acknowledged)),
        Ok(Answer::Counted(Acknowledged::Already)),
        Ok(Answer::Counted(Acknowledged::OutOfOrder)),
        Err(Refusal::Busy),
        Err(Refusal::NoMemory),
    ];
    for reply in &replies {
        print_reply(rt, 7, reply)?;
    }
    Ok(())
}

pub(crate) fn print_all<R: Print + AllocGlobal>(rt: &R) -> io::Result<()> {
    print_parts(rt)?;
    print_reply(rt, u64::MAX, &Err(Refusal::BadRecord(3)))
}
