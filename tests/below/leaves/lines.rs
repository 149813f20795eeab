//! Which lines are read without a copy of their texts. No clause says that any is: a reader that
//! leaves each of them to the slower way keeps its contract too.

use json::Scratch;
use std::alloc::Global;
use wire_trees::{Tree, borrowed_value};

/// Lines as clients and workers write them.
const COMMON: &str =
    r#"{"op":"start","workflow_id":"a","workflow_type":"w","task_queue":"main","request_id":"r"}
{"op":"signal","workflow_id":"a","name":"n","input":"a \"text\"\n","at":18446744073709551615}
{"op":"history","workflow_id":"a","run":null}
{"op":"dispatch_turn","shard":0,"stop":1,"lane":3}
{"op":"poll_workflow_task","task_queue":"main"}
{"barrier":true}
{"op":"complete_workflow_task","token":"t","commands":[]}
{"op":"complete_workflow_task","token":"t","commands":[{"type":"StartTimer","duration":7}]}
{"commands":[{"type":"ScheduleActivityTask","retry":{"non_retryable":["a","b"]}},{}]}
{"op":"fail_activity","token":"t","message":"m","non_retryable":false}
 { "op" : "signal" , "op" : "history" } 
{"a":[[[[[[[[[[[[[[[[[[[[]]]]]]]]]]]]]]]]]]]]}"#;

/// Lines that the slower way reads.
const OTHERS: &str = r#"{"at":7.0}
{"at":-1}
{"at":18446744073709551616}
{"at":7} {}
{"at":7"#;

/// Whether a line is read as an object whose texts are slices of it.
pub(crate) fn is_read(alloc: Global, line: &str, scratch: &mut Scratch) -> bool {
    match borrowed_value(alloc, line, scratch) {
        Ok(value) => value.has_members(),
        Err(_) => false,
    }
}

/// How many of the lines are read so, of how many.
fn count_read(alloc: Global, lines: &str) -> (usize, usize) {
    let mut scratch = Scratch::new(alloc);
    let (mut read, mut all): (usize, usize) = (0, 0);
    for line in lines.lines() {
        read = read.saturating_add(usize::from(is_read(alloc, line, &mut scratch)));
        all = all.saturating_add(1);
    }
    (read, all)
}

#[test]
fn common_lines_copy_no_text(rt: HostRuntime) {
    assert!(rt; count_read(rt.alloc(), COMMON) == (12, 12));
    assert!(rt; count_read(rt.alloc(), OTHERS) == (0, 5));
}
