//! How calls are answered: who is told what, once the lock is given back.

use super::State;
use crate::call::fault::Fault;
use crate::call::texts::lasting;
use crate::call::{Asker, Call, Outcome, Receiver};
use crate::lines::mailbox;
use crate::os::stderr::report;
use crate::turns::polls::{Queue, Waiting};
use hyper::body::Bytes;
use std::time::{Duration, Instant};
use tokio::sync::oneshot;

/// For so long no turns are made where the disk was full.
const REST: Duration = Duration::from_secs(1);

/// Tasks, and what they are told.
pub type TaskAnswers = Vec<(oneshot::Sender<Outcome>, Outcome)>;

/// Who is told what, once the lock is given back.
#[derive(Default)]
pub struct Answers {
    pub tasks: TaskAnswers,
    /// Calls of connections for lines.
    pub lines: mailbox::Answers,
}

impl Answers {
    /// Adds what a receiver is told.
    pub fn add(&mut self, receiver: Receiver, outcome: Outcome) {
        match receiver {
            Receiver::Task(task) => self.tasks.push((task, outcome)),
            Receiver::Line(ticket) => self.lines.push((ticket, outcome)),
        }
    }
}

/// A call that the program has answered, and what its reply says.
pub struct Answered {
    pub call: Call,
    pub reply: Bytes,
    pub facts: ReplyFacts,
}

/// What a reply says, as far as it is looked at once the call is answered.
#[derive(Clone, Debug, Default)]
pub struct ReplyFacts {
    pub error: Option<Box<str>>,
    pub has_task: bool,
}

impl State {
    /// Answers a call whose line is on the disk, at this moment.
    pub fn let_go(&mut self, answered: Answered, now: Instant) {
        let Answered { call, reply, facts } = answered;
        self.admission.count_out(&call);
        if facts.has_task || !call.op().is_poll() {
            self.admission.remember(&call, &reply);
        }
        self.note(&call, &facts, now);
        // Whether a client is there is looked at for tasks alone: what says so lies with the thread that serves it.
        let is_left = facts.has_task && call.key().is_none() && self.is_gone(&call);
        let left = is_left.then(|| (Queue::from(&call), lasting(&reply)));
        self.answer(call, Ok(reply));
        if let Some((queue, reply)) = left {
            self.leave(queue, reply);
        }
    }

    /// A task that was taken for a client that is gone is another one's, and needn't time out.
    fn leave(&mut self, queue: Queue, task: Bytes) {
        let (polls, keyed) = (&mut self.admission.polls, &self.admission.keyed);
        let (other, dropped) = polls.leave(queue, task.clone(), |call| keyed.is_gone(call));
        self.drop_all(dropped);
        if let Some(other) = other {
            self.admission.remember(&other, &task);
            self.answer(other, Ok(task));
        }
    }

    fn note(&mut self, call: &Call, facts: &ReplyFacts, now: Instant) {
        self.metrics.note_call(call.op(), facts.error.as_deref());
        if !call.op().is_poll() {
            self.metrics.latency.add(now.saturating_duration_since(call.since).as_secs_f64());
        }
    }

    /// Tells all who wait for a call, once the lock is given back.
    fn answer(&mut self, mut call: Call, result: Result<Bytes, Fault>) {
        match call.take_asker() {
            Asker::Edge(_) | Asker::Client(None) => {}
            Asker::Client(Some(receiver)) => self.answers.add(receiver, Outcome::new(result, Some(call))),
            Asker::Keyed(key, _) => {
                let receivers = self.admission.keyed.take(&key);
                let mut call = Some(call);
                receivers.into_iter().for_each(|one| self.answers.add(one, Outcome::new(result.clone(), call.take())));
            }
        }
    }

    /// Fails a call that is counted.
    pub fn fail(&mut self, call: Call, fault: &Fault) {
        if call.turn().is_none() {
            self.admission.count_out(&call);
            self.fail_waiting(call, fault);
        }
    }

    fn fail_waiting(&mut self, call: Call, fault: &Fault) {
        self.metrics.note_refused(fault.name());
        self.answer(call, Err(fault.clone()));
    }

    /// Forgets polls whose clients have hung up.
    pub fn drop_all(&mut self, dropped: Vec<Call>) {
        for call in dropped {
            self.answer(call, Err(Fault::Draining));
        }
    }

    /// Answers the polls that waited long enough; all of them where the edge is told to stop.
    pub fn end_polls(&mut self, now: Instant) {
        let over = self.admission.late_polls((!self.phase.is_closing()).then_some(now));
        self.due.next_late = over.next;
        self.drop_all(over.dropped);
        for Waiting { call, reply } in over.polls {
            self.note(&call, &ReplyFacts::default(), now);
            self.answer(call, Ok(reply));
        }
    }

    /// A sync has covered the lines up to this one.
    pub fn was_synced(&mut self, number: u64) {
        self.in_flight.synced = number;
        let now = Instant::now();
        while self.in_flight.unsynced.front().map_or(false, |first| first.call.number <= number) {
            if let Some(answered) = self.in_flight.unsynced.pop_front() {
                self.let_go(answered, now);
            }
        }
        if std::mem::take(&mut self.admission.has_missed) {
            self.wake_all_polls();
        }
    }

    /// Fails calls that could not be logged. Turns rest meanwhile, and are made up for by a sweep.
    pub fn refuse(&mut self, calls: Vec<Call>, fault: &Fault) {
        let now = Instant::now();
        if let (true, Some(first)) = (now >= self.due.resting, calls.first()) {
            report!("{fault} ({} calls, the first: {})", calls.len(), first.named());
        }
        self.due.resting = now + REST;
        self.due.called = true;
        for call in calls {
            self.admission.has_missed |= call.op().is_poll();
            self.fail(call, fault);
        }
    }

    /// Nothing is served any more: fails all that waits.
    pub fn end(&mut self, fault: Fault) {
        let held = self.compaction.window.take_held();
        let (sent, asked) = (self.in_flight.sent.drain(..), self.admission.asked.drain(..));
        let left: Vec<Call> = sent.chain(asked).chain(held).collect();
        for call in left {
            self.fail(call, &fault);
        }
        let unsynced: Vec<Answered> = self.in_flight.unsynced.drain(..).collect();
        for answered in unsynced {
            self.fail(answered.call, &fault);
        }
        self.admission.own.clear();
        let over = self.admission.polls.over(|call| Some(call.late), None);
        for Waiting { call, .. } in over.polls {
            self.fail_waiting(call, &fault);
        }
        self.compaction.end();
        self.phase.end(fault);
    }
}
