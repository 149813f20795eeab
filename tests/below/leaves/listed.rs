//! A list of deadlines with the calls of the heap, as plainly as they can be done, and both of them asked
//! the same.

use crate::leaves::deadlines::{are_same, drawn_due, next_state};
use crate::leaves::rows::moment;
use std::alloc::AllocError;
use std::process::Abort;
use timeouts::{Deadlines, Due, DueId};

/// Adds a deadline at the first free number of a list. Each is known by its number there.
fn add_listed(listed: &mut Vec<Option<Due>>, due: Due) -> Result<DueId, AllocError> {
    let free = listed.iter().position(|member| member.is_none());
    let number = free.unwrap_or(listed.len());
    if number == listed.len() {
        listed.push(None)?;
    }
    if let Some(member) = listed.get_mut(number) {
        *member = Some(due);
    }
    Ok(DueId { number })
}

/// The deadline that fires first.
pub(crate) fn least_of(listed: &[Option<Due>]) -> Option<Due> {
    let mut first: Option<Due> = None;
    for member in listed {
        first = match (first, *member) {
            (Some(one), Some(other)) if fires_before(other, one) => Some(other),
            (None, other) => other,
            (one, _) => one,
        };
    }
    first
}

/// By the moment, then by run, class and event.
fn fires_before(one: Due, other: Due) -> bool {
    if one.due != other.due {
        return one.due < other.due;
    }
    if one.run != other.run {
        return one.run < other.run;
    }
    if one.class as u8 != other.class as u8 {
        return (one.class as u8) < other.class as u8;
    }
    one.event < other.event
}

/// By which one deadline is known in the heap and in the list.
#[derive(Clone, Copy)]
struct Known {
    heap: DueId,
    list: DueId,
}

/// A moment by which some of the drawn deadlines have come.
const MIDDLE: u64 = 7;

/// Both say the same of the first deadline.
fn compare<R: Abort>(rt: &R, deadlines: &Deadlines, listed: &[Option<Due>]) {
    let least = least_of(listed);
    assert!(rt; are_same(deadlines.least(), least));
    let come = least.filter(|first| first.due <= MIDDLE);
    assert!(rt; are_same(deadlines.due(moment(rt, MIDDLE)), come));
}

/// Draws a deadline; one is drawn in three cases of four.
fn draw<R: Abort>(rt: &R, state: &mut u64) -> Due {
    for _ in 0..100 {
        *state = next_state(*state);
        if let Some(due) = drawn_due(*state) {
            return due;
        }
    }
    panic!(rt; "no deadline was drawn")
}

/// Adds a drawn deadline to both.
fn add<R: Abort>(
    rt: &R,
    deadlines: &mut Deadlines,
    listed: &mut Vec<Option<Due>>,
    state: &mut u64,
) -> Known {
    let due = draw(rt, state);
    let Ok(()) = deadlines.reserve(1) else {
        panic!(rt; "no memory")
    };
    let Ok(list) = add_listed(listed, due) else {
        panic!(rt; "no memory")
    };
    let heap = deadlines.add(due);
    compare(rt, deadlines, listed.as_slice());
    Known { heap, list }
}

/// Removes a deadline from both.
fn remove<R: Abort>(
    rt: &R,
    deadlines: &mut Deadlines,
    listed: &mut Vec<Option<Due>>,
    known: Known,
) {
    deadlines.remove(known.heap);
    if let Some(member) = listed.get_mut(known.list.number) {
        *member = None;
    }
    compare(rt, deadlines, listed.as_slice());
}

/// Two deadlines come, and go again in either order. Before the first and before the second of them goes,
/// as many more come and go, to this depth.
fn come_and_go<R: Abort>(
    rt: &R,
    deadlines: &mut Deadlines,
    listed: &mut Vec<Option<Due>>,
    state: &mut u64,
    depth: usize,
) {
    if depth == 0 {
        return;
    }
    let first = add(rt, deadlines, listed, state);
    let second = add(rt, deadlines, listed, state);
    come_and_go(rt, deadlines, listed, state, depth - 1);
    if (*state >> 33) % 2 == 0 {
        remove(rt, deadlines, listed, first);
        come_and_go(rt, deadlines, listed, state, depth - 1);
        remove(rt, deadlines, listed, second);
        return;
    }
    remove(rt, deadlines, listed, second);
    come_and_go(rt, deadlines, listed, state, depth - 1);
    remove(rt, deadlines, listed, first);
}

/// How deep deadlines come and go: 512 of them in all, and sixteen at a time at most.
const DEPTH: usize = 8;

/// The heap answers what the list answers, after each of a thousand calls.
#[test]
fn answers_as_a_list_does(rt: HostRuntime) {
    let mut deadlines = Deadlines::new(rt.alloc());
    let mut listed = Vec::new(rt.alloc());
    let mut state = 1;
    come_and_go(&rt, &mut deadlines, &mut listed, &mut state, DEPTH);
    assert!(rt; listed.len() == 2 * DEPTH);
    assert!(rt; deadlines.least().is_none() && least_of(listed.as_slice()).is_none());
}
