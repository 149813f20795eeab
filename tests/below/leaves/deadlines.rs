//! Deadlines in the order in which they fire.

use crate::leaves::listed::least_of;
use crate::leaves::rows::moment;
use std::process::Abort;
use timeouts::{ByPlace, Due};
use wf_event_values::DeadlineClass;

fn due(due: u64, run: u64, class: DeadlineClass, event: u64) -> Due {
    Due {
        due,
        run,
        class,
        event,
    }
}

/// One deadline after another, in the order of the moments, runs, classes and events.
fn in_order() -> [Due; 12] {
    [
        due(5, 9, DeadlineClass::UserTimer, 9),
        due(6, 1, DeadlineClass::RunTimeout, 1),
        due(6, 1, DeadlineClass::WorkflowTask, 2),
        due(6, 1, DeadlineClass::ScheduleToClose, 7),
        due(6, 1, DeadlineClass::ScheduleToStart, 6),
        due(6, 1, DeadlineClass::Heartbeat, 5),
        due(6, 1, DeadlineClass::StartToClose, 5),
        due(6, 1, DeadlineClass::RetryReady, 4),
        due(6, 1, DeadlineClass::UserTimer, 3),
        due(6, 1, DeadlineClass::UserTimer, 8),
        due(6, 2, DeadlineClass::RunTimeout, 1),
        due(1_000_000_000_000_000, 1, DeadlineClass::RunTimeout, 1),
    ]
}

#[test]
fn fires_in_order(rt: HostRuntime) {
    let mut deadlines = ByPlace::new(rt.alloc());
    fill(&rt, &mut deadlines);
    let there = moment(&rt, 5);
    assert!(rt; deadlines.due(moment(&rt, 4)).is_none() && deadlines.due(there).is_some());
    deadlines.clear(11);
    assert!(rt; deadlines.due(there).is_none());
}

/// Puts all of them at numbers, the last one first: each is the first one then.
fn fill<R: Abort>(rt: &R, deadlines: &mut ByPlace) {
    let all = in_order();
    for number in 0..12 {
        let next = all[11 - number];
        let Ok(()) = deadlines.reserve(1) else {
            panic!(rt; "no memory")
        };
        deadlines.push_none();
        let Ok(()) = deadlines.set(number, Some(next)) else {
            panic!(rt; "no memory")
        };
        assert!(rt; are_same(deadlines.least(), Some(next)));
    }
}

/// How many numbers the drawn deadlines have.
const NUMBERS: usize = 40;

/// The next state of Knuth's generator of 64 bits.
pub(crate) fn next_state(state: u64) -> u64 {
    state
        .wrapping_mul(6_364_136_223_846_793_005)
        .wrapping_add(1_442_695_040_888_963_407)
}

fn drawn_number(state: u64) -> usize {
    ((state >> 40) % 40) as usize
}

/// A deadline, or none in one of four cases. Few moments and runs are drawn, so that many are equal.
pub(crate) fn drawn_due(state: u64) -> Option<Due> {
    if (state >> 33) % 4 == 0 {
        return None;
    }
    Some(due(
        (state >> 20) % 16,
        (state >> 24) % 3,
        DeadlineClass::UserTimer,
        (state >> 28) % 8,
    ))
}

pub(crate) fn are_same(left: Option<Due>, right: Option<Due>) -> bool {
    match (left, right) {
        (Some(one), Some(other)) => {
            one.due == other.due
                && one.run == other.run
                && one.class as u8 == other.class as u8
                && one.event == other.event
        }
        (None, None) => true,
        _ => false,
    }
}

/// Makes the room for all numbers.
fn make_room<R: Abort>(rt: &R, deadlines: &mut ByPlace) {
    for _ in 0..NUMBERS {
        let Ok(()) = deadlines.reserve(1) else {
            panic!(rt; "no memory")
        };
        deadlines.push_none();
    }
}

/// Draws deadlines for both. Each time the first of them is the same one.
fn draw_often<R: Abort>(rt: &R, deadlines: &mut ByPlace, listed: &mut [Option<Due>]) {
    let mut state = 1;
    for _ in 0..2000 {
        state = next_state(state);
        let number = drawn_number(state);
        let due = drawn_due(state);
        let Ok(()) = deadlines.set(number, due) else {
            panic!(rt; "no memory")
        };
        listed[number] = due;
        assert!(rt; are_same(deadlines.least(), least_of(listed)));
    }
}

/// The same drawn deadlines in the heap and in a plain list.
#[test]
fn finds_what_a_walk_finds(rt: HostRuntime) {
    let mut deadlines = ByPlace::new(rt.alloc());
    make_room(&rt, &mut deadlines);
    let mut listed = [None; NUMBERS];
    draw_often(&rt, &mut deadlines, &mut listed);
}
