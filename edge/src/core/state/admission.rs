//! What is asked and not on its way yet: calls that wait for a batch, turns, polls that wait for a task, and who waits for the
//! call of a key.

use super::State;
use crate::call::fault::Fault;
use crate::call::replies::{Mark, Replies};
use crate::call::texts::lasting;
use crate::call::{Asker, Call, Outcome, Receiver};
use crate::turns::ledger::Turn;
use crate::turns::polls::{Over, Polls, Queue, Waiting, Woken};
use hyper::body::Bytes;
use std::collections::{HashMap, VecDeque};
use std::time::Instant;

/// So many bytes of calls may wait.
const MOST_WAITING_BYTES: usize = 64 << 20;

/// Those who wait for the call of a key.
struct UnderWay {
    mark: Mark,
    receivers: Vec<Receiver>,
    late: Instant,
}

/// The calls that are made by keys, and who waits for each.
#[derive(Default)]
pub struct Keyed(HashMap<Box<str>, UnderWay>);

impl Keyed {
    /// Whether all who asked for a call have hung up.
    pub fn is_gone(&self, call: &Call) -> bool {
        match &call.asker {
            Asker::Edge(_) => false,
            Asker::Client(receiver) => receiver.as_ref().map_or(true, Receiver::is_closed),
            Asker::Keyed(key, _) => self.0.get(key).map_or(true, |one| one.receivers.iter().all(Receiver::is_closed)),
        }
    }

    /// Until when a poll waits, where somebody does.
    pub fn late_of(&self, call: &Call) -> Option<Instant> {
        if self.is_gone(call) {
            return None;
        }
        let joined = call.key().and_then(|key| self.0.get(key)).map(|one| one.late);
        Some(joined.map_or(call.late, |late| late.max(call.late)))
    }

    /// Those who wait for the call of this key, which is over.
    pub fn take(&mut self, key: &str) -> Vec<Receiver> {
        self.0.remove(key).map_or_else(Vec::new, |one| one.receivers)
    }
}

/// What is asked, and not on its way.
pub struct Admission {
    /// Calls that wait for a batch, and turns of the edge's own.
    pub asked: VecDeque<Call>,
    pub own: Vec<Turn>,
    /// How many calls of clients wait for their answers, without the polls that wait for tasks, and their bytes.
    count: usize,
    bytes: usize,
    pub keyed: Keyed,
    pub replies: Replies,
    pub polls: Polls,
    /// Whether a poll that was woken could not be asked.
    pub has_missed: bool,
}

impl Admission {
    pub fn new(replies: Replies) -> Admission {
        Admission {
            asked: VecDeque::new(),
            own: Vec::new(),
            count: 0,
            bytes: 0,
            keyed: Keyed::default(),
            replies,
            polls: Polls::default(),
            has_missed: false,
        }
    }

    /// How many calls of clients wait for their answers, without the polls that wait for tasks.
    pub fn count(&self) -> usize {
        self.count
    }

    /// Whether calls or turns wait for a batch.
    pub fn has_asked(&self) -> bool {
        !self.asked.is_empty() || !self.own.is_empty()
    }

    /// Refuses a call where as many wait as may.
    fn check_room(&self, limit: usize) -> Result<(), Fault> {
        if self.count >= limit || self.bytes >= MOST_WAITING_BYTES {
            return Err(Fault::Busy(format!("{} calls wait already", self.count)));
        }
        Ok(())
    }

    /// A call of a client waits for its answer from now on.
    fn count_in(&mut self, call: &Call) {
        self.count += 1;
        self.bytes += call.size();
    }

    /// A call that was counted is answered, or waits as a poll.
    pub fn count_out(&mut self, call: &Call) {
        self.count -= 1;
        self.bytes -= call.size();
    }

    fn add(&mut self, mut call: Call, receiver: Receiver) {
        self.count_in(&call);
        if let Asker::Keyed(key, mark) = &call.asker {
            let one = UnderWay { mark: *mark, receivers: vec![receiver], late: call.late };
            self.keyed.0.insert(key.clone(), one);
        } else {
            call.asker = Asker::Client(Some(receiver));
        }
        self.asked.push_back(call);
    }

    /// Keeps the reply to a call that has a key.
    pub fn remember(&mut self, call: &Call, reply: &Bytes) {
        if let Asker::Keyed(key, mark) = &call.asker {
            self.replies.add(key, *mark, lasting(reply));
        }
    }

    /// Polls that waited long enough; all of them where no moment is given.
    pub fn late_polls(&mut self, now: Option<Instant>) -> Over {
        let Admission { polls, keyed, .. } = self;
        polls.over(|call| keyed.late_of(call), now)
    }
}

impl State {
    /// Takes a client's call in, or answers it at once where it was made before.
    pub fn take_in(&mut self, call: Call, receiver: Receiver, limit: usize) -> Result<(), Fault> {
        if let Some(fault) = self.phase.over() {
            return Err(fault.clone());
        }
        if self.phase.is_closing() {
            return Err(Fault::Draining);
        }
        let receiver = match self.had_again(&call, receiver)? {
            Some(receiver) => receiver,
            None => return Ok(()),
        };
        self.admission.check_room(limit)?;
        self.admission.add(call, receiver);
        Ok(())
    }

    /// Gives the receiver back where the call was not made before with the same key, and no task is left for it.
    fn had_again(&mut self, call: &Call, receiver: Receiver) -> Result<Option<Receiver>, Fault> {
        if let Asker::Keyed(key, mark) = &call.asker {
            if let Some(reply) = self.admission.replies.get(key, *mark)? {
                self.metrics.again += 1;
                self.answers.add(receiver, Outcome::new(Ok(reply), None));
                return Ok(None);
            }
            if let Some(one) = self.admission.keyed.0.get_mut(key) {
                if one.mark != *mark {
                    return Err(Fault::KeyReused(format!("another call is being made with the key {key}")));
                }
                one.receivers.push(receiver);
                one.late = one.late.max(call.late);
                let late = one.late;
                self.due.look_at(late);
                return Ok(None);
            }
        }
        let polls = &mut self.admission.polls;
        let left = if call.op().is_poll() { polls.left_for(&Queue::from(call)) } else { None };
        match left {
            None => Ok(Some(receiver)),
            Some(task) => {
                self.admission.remember(call, &task);
                self.answers.add(receiver, Outcome::new(Ok(task), None));
                Ok(None)
            }
        }
    }

    /// Asks turns of the edge's own.
    pub fn ask_turns(&mut self, turns: Vec<Turn>) {
        if Instant::now() >= self.due.resting && self.phase.over().is_none() {
            self.admission.own.extend(turns);
        }
    }

    /// Has a poll that found nothing wait.
    pub fn wait(&mut self, call: Call, reply: Bytes, limit: usize) {
        if self.admission.polls.len() >= limit {
            let fault = Fault::Busy(format!("{} polls wait already", self.admission.polls.len()));
            self.fail(call, &fault);
            return;
        }
        self.admission.count_out(&call);
        let late = self.admission.keyed.late_of(&call).unwrap_or(call.late);
        self.admission.polls.wait(Waiting { call, reply: lasting(&reply) });
        self.due.look_at(late);
    }

    /// Whether a poll's time is over, or nobody waits for it.
    pub fn is_late(&self, call: &Call) -> bool {
        self.admission.keyed.late_of(call).map_or(true, |late| late <= Instant::now())
    }

    /// Whether all who asked for a call have hung up.
    pub fn is_gone(&self, call: &Call) -> bool {
        self.admission.keyed.is_gone(call)
    }

    /// Has polls look again: the first ones of each queue, since so many tasks were handed over.
    pub fn wake_polls(&mut self, count: usize) {
        let Admission { polls, keyed, .. } = &mut self.admission;
        let woken = polls.wake(count, |call| keyed.is_gone(call));
        self.ask_again(woken);
    }

    /// Has all polls look again.
    pub fn wake_all_polls(&mut self) {
        let Admission { polls, keyed, .. } = &mut self.admission;
        let woken = polls.wake_all(|call| keyed.is_gone(call));
        self.ask_again(woken);
    }

    fn ask_again(&mut self, woken: Woken) {
        self.drop_all(woken.dropped);
        for call in woken.polls {
            self.admission.count_in(&call);
            self.admission.asked.push_back(call);
        }
    }
}
