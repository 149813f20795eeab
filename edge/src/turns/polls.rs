//! Long polls: those that found nothing wait here, in the order in which they came.
//!
//! All of it is decided in the one order of replies, so no task is handed over beside a poll that waits for it.

use crate::call::operations::Op;
use crate::call::Call;
use crate::json::quoted;
use hyper::body::Bytes;
use std::collections::{HashMap, VecDeque};
use std::time::{Duration, Instant};

/// So long a task that was taken for a client that is gone is given to another one.
const GIVEN_ON: Duration = Duration::from_secs(5);

/// The queue that a poll asks.
#[derive(Clone, Debug, PartialEq, Eq, Hash)]
pub struct Queue {
    op: Op,
    name: Box<str>,
}

impl From<&Call> for Queue {
    /// The queue that a poll asks.
    fn from(call: &Call) -> Queue {
        Queue { op: call.op(), name: call.facts.queue.clone().unwrap_or_default() }
    }
}

impl Queue {
    /// The operation by which it is polled and its name, as members of a list in JSON.
    pub fn json(&self) -> String {
        format!("\"{}\",{}", self.op.name(), quoted(&self.name))
    }
}

/// A poll that found nothing, and the reply that said so.
pub struct Waiting {
    pub call: Call,
    pub reply: Bytes,
}

/// Polls that wait, and tasks whose clients have hung up.
#[derive(Default)]
pub struct Polls {
    waiting: HashMap<Queue, VecDeque<Waiting>>,
    count: usize,
    left: HashMap<Queue, VecDeque<(Instant, Bytes)>>,
}

impl Polls {
    /// How many polls wait.
    pub fn len(&self) -> usize {
        self.count
    }

    /// How many polls wait for each queue.
    pub fn counts(&self) -> Vec<(&Queue, usize)> {
        self.waiting.iter().map(|(queue, waiting)| (queue, waiting.len())).collect()
    }

    /// Has a poll wait. One that was woken and found nothing has its place again.
    pub fn wait(&mut self, poll: Waiting) {
        let queue = self.waiting.entry(Queue::from(&poll.call)).or_default();
        let place = match poll.call.was_woken {
            true => queue.iter().take_while(|other| other.call.since <= poll.call.since).count(),
            false => queue.len(),
        };
        queue.insert(place, poll);
        self.count += 1;
    }

    /// The first polls of each queue, which are asked again: so many tasks were handed over, nobody knows where.
    pub fn wake(&mut self, count: usize, is_gone: impl Fn(&Call) -> bool) -> Woken {
        let mut woken = Woken::default();
        for queue in self.waiting.values_mut() {
            for _ in 0..count {
                match first(queue, &mut self.count, &is_gone, &mut woken.dropped) {
                    Some(poll) => woken.polls.push(poll.call),
                    None => break,
                }
            }
        }
        woken
    }

    /// All polls that wait.
    pub fn wake_all(&mut self, is_gone: impl Fn(&Call) -> bool) -> Woken {
        self.wake(self.count, is_gone)
    }

    /// The polls that waited long enough. Those whose clients have hung up wait no more either.
    pub fn over(&mut self, late_of: impl Fn(&Call) -> Option<Instant>, now: Option<Instant>) -> Over {
        let mut over = Over::default();
        for queue in self.waiting.values_mut() {
            let mut left = VecDeque::with_capacity(queue.len());
            for poll in queue.drain(..) {
                match late_of(&poll.call) {
                    None => over.dropped.push(poll.call),
                    Some(late) if now.map_or(true, |now| late <= now) => over.polls.push(poll),
                    Some(late) => {
                        over.next = Some(over.next.map_or(late, |next: Instant| next.min(late)));
                        left.push_back(poll);
                    }
                }
            }
            *queue = left;
        }
        self.waiting.retain(|_, queue| !queue.is_empty());
        self.count -= over.polls.len() + over.dropped.len();
        over
    }

    /// Leaves a task that was taken for a client that is gone to the next who polls its queue: to one that waits, or
    /// to one who comes.
    pub fn leave(&mut self, queue: Queue, task: Bytes, is_gone: impl Fn(&Call) -> bool) -> (Option<Call>, Vec<Call>) {
        let mut dropped = Vec::new();
        let next = self.waiting.get_mut(&queue);
        let found = next.and_then(|waiting| first(waiting, &mut self.count, &is_gone, &mut dropped));
        if found.is_none() {
            self.left.entry(queue).or_default().push_back((Instant::now() + GIVEN_ON, task));
        }
        (found.map(|poll| poll.call), dropped)
    }

    /// A task that was taken for nobody, whose time is hardly over.
    pub fn left_for(&mut self, queue: &Queue) -> Option<Bytes> {
        if self.left.is_empty() {
            return None;
        }
        let now = Instant::now();
        let left = self.left.get_mut(queue)?;
        let found = std::iter::from_fn(|| left.pop_front()).find(|(late, _)| *late > now);
        if left.is_empty() {
            self.left.remove(queue);
        }
        found.map(|(_, task)| task)
    }
}

/// Polls that are asked again, and those whose clients have hung up.
#[derive(Default)]
pub struct Woken {
    pub polls: Vec<Call>,
    pub dropped: Vec<Call>,
}

/// Polls that waited long enough, those whose clients have hung up, and when the next one will have.
#[derive(Default)]
pub struct Over {
    pub polls: Vec<Waiting>,
    pub dropped: Vec<Call>,
    pub next: Option<Instant>,
}

/// The first poll of a queue whose client is there. It waits no more.
fn first(
    waiting: &mut VecDeque<Waiting>,
    count: &mut usize,
    is_gone: impl Fn(&Call) -> bool,
    dropped: &mut Vec<Call>,
) -> Option<Waiting> {
    while let Some(mut poll) = waiting.pop_front() {
        *count -= 1;
        poll.call.was_woken = true;
        if !is_gone(&poll.call) {
            return Some(poll);
        }
        dropped.push(poll.call);
    }
    None
}

#[cfg(test)]
mod tests {
    use super::*;
    use crate::call::body::parse_call;
    use crate::call::Asker;
    use crate::turns::shards::shards;

    fn poll(queue: &str, wait: u64) -> Call {
        let text = format!(r#"{{"op":"poll_activity_task","task_queue":"{queue}","wait":{wait}}}"#);
        let asked = parse_call(text.as_bytes(), shards(1)).unwrap();
        Call::new(asked.begin, asked.facts, asked.wait, Asker::Client(None))
    }

    fn wait(polls: &mut Polls, call: Call) {
        polls.wait(Waiting { call, reply: Bytes::new() });
    }

    fn sizes(polls: &[Call]) -> Vec<usize> {
        polls.iter().map(Call::size).collect()
    }

    #[test]
    fn the_first_of_each_queue_are_woken_and_have_their_place_again() {
        let mut polls = Polls::default();
        for wait_of in [1, 10, 100] {
            wait(&mut polls, poll("a", wait_of));
        }
        wait(&mut polls, poll("b", 1));
        let woken = polls.wake(1, |_| false).polls;
        assert_eq!((woken.len(), polls.len()), (2, 2));
        for call in woken {
            wait(&mut polls, call);
        }
        let mut found = sizes(&polls.wake_all(|_| false).polls);
        let first = found.iter().min().copied().unwrap();
        found.retain(|size| *size > first);
        assert_eq!((found, polls.len()), (vec![first + 1, first + 2], 0));
    }

    #[test]
    fn those_whose_clients_are_gone_are_passed_over() {
        let mut polls = Polls::default();
        wait(&mut polls, poll("a", 1));
        wait(&mut polls, poll("a", 10));
        let gone = poll("a", 1).size();
        let woken = polls.wake(1, |call| call.size() == gone);
        assert_eq!((sizes(&woken.polls), sizes(&woken.dropped)), (vec![gone + 1], vec![gone]));
    }

    #[test]
    fn polls_end_when_their_time_is_over() {
        let mut polls = Polls::default();
        wait(&mut polls, poll("a", 0));
        wait(&mut polls, poll("b", 60_000));
        let over = polls.over(|call| Some(call.late), Some(Instant::now()));
        assert_eq!((over.polls.len(), over.dropped.len(), polls.len()), (1, 0, 1));
        assert!(over.next.unwrap() > Instant::now());
        assert_eq!(polls.over(|call| Some(call.late), None).polls.len(), 1);
    }

    #[test]
    fn a_task_of_a_client_that_is_gone_is_another_ones() {
        let mut polls = Polls::default();
        let queue = Queue::from(&poll("a", 1));
        assert!(polls.leave(queue.clone(), Bytes::from_static(b"task"), |_| false).0.is_none());
        assert_eq!(polls.left_for(&Queue::from(&poll("b", 1))), None);
        assert_eq!(polls.left_for(&queue), Some(Bytes::from_static(b"task")));
        assert_eq!(polls.left_for(&queue), None);
        wait(&mut polls, poll("a", 1));
        assert!(polls.leave(queue, Bytes::from_static(b"task"), |_| false).0.is_some());
        assert_eq!(polls.len(), 0);
    }
}
