//! Goes through replies in their order: what follows is asked, and calls are answered.

use super::endings::Endings;
use super::state::{Answered, ReplyFacts, State};
use super::{Core, Input};
use crate::call::fault::Fault;
use crate::call::operations::Op;
use crate::call::reply::Reply;
use crate::call::texts::Texts;
use crate::call::Call;
use crate::log::fault::LogFault;
use crate::log::kept::{start_again, NotServed};
use crate::os::program::{Output, Program};
use crate::os::stderr::report;
use crate::turns::polls::Queue;
use hyper::body::Bytes;
use std::collections::VecDeque;
use std::io::Write;
use std::sync::{Arc, PoisonError};
use std::time::{Duration, Instant};

/// So long after its end a program is started again that was told to end. Ctrl-C in a terminal ends both, and the edge
/// learns of it a little later. One that ended in another way is started again at once.
const PAUSE: Duration = Duration::from_millis(20);
/// Any pipe that is empty holds so many bytes.
const PIPE_HOLDS: usize = 4_096;
/// So often the program is started, where it ends before it has come to the line at which it ended.
const MOST_STARTS: u32 = 3;
/// So many replies are gone through under one lock.
const MOST_AT_ONCE: usize = 256;

/// What takes the place of a program that has ended.
enum Next {
    /// The program that a compaction has opened.
    Opened(Program),
    /// It ended by itself, and is started again.
    Again,
    /// Nothing is served any more.
    Nothing,
}

/// What a poll came to.
#[derive(Clone, Copy, PartialEq)]
enum Polled {
    Task,
    /// A hint of what is over by now.
    Stale,
    Empty,
    Refused,
}

impl From<&Reply<'_>> for Polled {
    fn from(reply: &Reply<'_>) -> Polled {
        match reply.ok.as_deref() {
            Some("task") => Polled::Task,
            Some("stale") => Polled::Stale,
            Some("empty") => Polled::Empty,
            _ => Polled::Refused,
        }
    }
}

impl Core {
    /// Takes the program's replies until the core is closed or over.
    pub(super) fn read(self: Arc<Core>, mut program: Program) {
        loop {
            if program.output.wait() {
                match self.take_replies(&mut program) {
                    Ok(None) => {}
                    Ok(Some(next)) => let_go(std::mem::replace(&mut program, next)),
                    Err(fault) => {
                        self.end(fault);
                        program.kill();
                        return;
                    }
                }
                continue;
            }
            program = match self.next_program(program) {
                Some(next) => next,
                None => return,
            };
        }
    }

    /// Goes through the replies that were read. Another program where that takes the place of this one: then all was answered
    /// before, and this one has just been asked what nobody waits for.
    fn take_replies(&self, program: &mut Program) -> Result<Option<Program>, Fault> {
        let count = program.output.count(MOST_AT_ONCE);
        let mut state = self.lock();
        if let Some(next) = state.in_flight.next_program.take() {
            drop(state);
            self.wake.notify_all();
            return Ok(Some(next));
        }
        let mut calls = state.in_flight.take(count);
        drop(state);
        let (replies, result) = replies_of(&mut program.output, &calls);
        let left = calls.split_off(replies.len());
        let mut state = self.lock();
        state.in_flight.give_back(left.into_iter());
        let gone_through = state.go_through(calls.into_iter().zip(replies), self.limit);
        state.in_flight.end_taking();
        self.release(state);
        result.and(gone_through).map(|()| None)
    }

    /// The program that takes the place of one that has ended; None where nothing is served any more.
    fn next_program(self: &Arc<Core>, mut program: Program) -> Option<Program> {
        match self.exchanged() {
            Next::Nothing => program.end(),
            Next::Opened(next) => {
                program.end();
                return Some(next);
            }
            Next::Again => {
                if program.was_told_to_end() {
                    std::thread::sleep(PAUSE);
                }
                let number = self.lock().in_flight.answered + 1;
                let asked = self.lock().starts_again();
                if let Some(asked) = asked {
                    // What it said last may come late: the next program is not kept waiting for it.
                    std::thread::spawn(move || {
                        report!("{}{asked}: it is started again, and given the log's lines", program.ended(number));
                    });
                    return self.started_again();
                }
                let fault = program.ended(number);
                self.end(fault);
            }
        }
        None
    }

    /// Starts the program, which has ended, and gives it what it had not answered.
    fn started_again(self: &Arc<Core>) -> Option<Program> {
        let (origin, answered) = {
            let state = self.lock();
            (state.origin.clone(), state.in_flight.answered)
        };
        if let Some(next) = self.taken_from_standby(&origin, answered) {
            self.lock().in_flight.endings.follow();
            return Some(self.go_on_with(next));
        }
        for tried in 1.. {
            match start_again(&origin, answered) {
                Ok(next) => return Some(self.go_on_with(next)),
                // It had been opened so before, and had served these lines, so they are not why.
                Err(fault) if tried < MOST_STARTS && is_of_the_program(&fault) => {
                    report!("{fault}: it is started once more");
                }
                Err(fault) => {
                    self.end(Fault::Ended(fault.to_string()));
                    break;
                }
            }
        }
        None
    }

    /// What takes the place of a program that has ended.
    fn exchanged(&self) -> Next {
        let mut state = self.lock();
        while state.compaction.is_exchanging() && !state.phase.is_at_its_end() {
            state = self.wake.wait(state).unwrap_or_else(PoisonError::into_inner);
        }
        if state.phase.is_at_its_end() {
            return Next::Nothing;
        }
        let next = state.in_flight.next_program.take();
        if next.is_none() {
            state.in_flight.restart();
        }
        drop(state);
        self.wake.notify_all();
        next.map_or(Next::Again, Next::Opened)
    }

    /// Gives a program that has served the log what the one before has not answered. What a pipe may not hold it gives by
    /// a thread of its own: this one reads the replies.
    fn go_on_with(self: &Arc<Core>, mut program: Program) -> Program {
        let pipe = program.take_input();
        let mut state = self.lock();
        let generation = state.in_flight.feed(program.pid());
        let mut lines = Vec::new();
        for call in &state.in_flight.sent {
            lines.extend_from_slice(&call.text);
            lines.push(b'\n');
        }
        drop(state);
        let input = Input { generation, pipe };
        if lines.len() <= PIPE_HOLDS {
            self.feed_first(input, &lines);
        } else {
            let core = self.clone();
            std::thread::spawn(move || core.feed_first(input, &lines));
        }
        program
    }

    /// Gives a program its first lines, and has the sequencer go on with it.
    fn feed_first(&self, new: Input, lines: &[u8]) {
        let mut input = self.lock_input();
        *input = new;
        let _ = input.pipe.as_mut().map(|pipe| pipe.write_all(lines));
        drop(input);
        self.end_input_if_closed();
        self.lock().in_flight.go_on();
        self.wake.notify_all();
    }
}

/// The replies to the first of these calls that were read, and why the next one is none.
fn replies_of(output: &mut Output, calls: &VecDeque<Call>) -> (Vec<Bytes>, Result<(), Fault>) {
    let (mut texts, mut result) = (Texts::default(), Ok(()));
    for call in calls {
        match output.take(call.number, texts.room()) {
            Some(Ok(())) => texts.end(),
            Some(Err(fault)) => {
                result = Err(fault);
                break;
            }
            None => break,
        }
    }
    let replies = texts.into_all();
    if replies.is_empty() && result.is_ok() {
        result = Err(Fault::Ended("the program gave a reply to no line".to_string()));
    }
    (replies, result)
}

/// Whether a program was started in vain, and not its log at fault: it may have been ended while it loaded snapshots.
fn is_of_the_program(fault: &NotServed) -> bool {
    matches!(fault, NotServed::Program(_) | NotServed::Log(LogFault::NotOpened(_)))
}

/// Ends a program that nobody asks any more, while others go on.
fn let_go(mut program: Program) {
    std::thread::spawn(move || program.kill());
}

impl State {
    fn go_through(
        &mut self,
        mut replies: impl DoubleEndedIterator<Item = (Call, Bytes)> + ExactSizeIterator,
        limit: usize,
    ) -> Result<(), Fault> {
        let (now, mut handed) = (Instant::now(), 0);
        while let Some((call, text)) = replies.next() {
            let number = call.number;
            self.in_flight.endings = Endings::default();
            if call.is_logged() {
                self.compaction.window.note(number, &text);
            }
            match self.take_reply(call, text, limit, now) {
                Ok(count) => handed += count,
                Err(call) => {
                    self.in_flight.give_back(std::iter::once(*call).chain(replies.map(|(call, _)| call)));
                    return Err(Fault::Ended(format!("line {number}: its reply is no JSON")));
                }
            }
            self.in_flight.answered = number;
        }
        if handed > 0 {
            self.wake_polls(handed);
        }
        Ok(())
    }

    /// Takes one reply. How many tasks it says were handed over; the call again where the reply can't be read.
    fn take_reply(&mut self, call: Call, text: Bytes, limit: usize, now: Instant) -> Result<usize, Box<Call>> {
        if !call.is_logged() {
            let facts = ReplyFacts { error: error_in(&text), has_task: false };
            self.answer_when_synced(Answered { call, reply: text, facts }, now);
            return Ok(0);
        }
        let reply = match Reply::parse(&text) {
            Some(reply) => reply,
            None => return Err(Box::new(call)),
        };
        self.observe(&call, &reply);
        let handed = self.follow(&call, &reply);
        if call.turn().is_some() {
            return Ok(handed);
        }
        let polled = call.op().is_poll().then(|| Polled::from(&reply));
        let facts =
            ReplyFacts { error: reply.error.as_deref().map(Into::into), has_task: polled == Some(Polled::Task) };
        let answered = Answered { call, reply: text, facts };
        match polled {
            Some(polled) => self.take_poll(answered, polled, limit, now),
            None => self.answer_when_synced(answered, now),
        }
        Ok(handed)
    }

    /// Notes what a line and its reply tell of deadlines and of the list of workflows.
    fn observe(&mut self, call: &Call, reply: &Reply<'_>) {
        if self.deadlines.observe(&call.facts, call.at, reply) {
            self.due.look = true;
        }
        if let Some(changes) = &mut self.changes {
            changes.observe(&call.facts, &call.text, call.at, reply);
        }
    }

    /// Asks the turns that follow a turn. How many tasks it handed over.
    fn follow(&mut self, call: &Call, reply: &Reply<'_>) -> usize {
        if !call.op().is_turn() {
            return 0;
        }
        let turns = match call.turn() {
            Some(turn) => self.ledger.follow(turn, reply),
            None => self.ledger.follow_clients(&call.facts, reply),
        };
        let handed = call.op() == Op::DispatchTurn && (reply.is("dispatched") || reply.is("pushed"));
        if call.turn().is_some() {
            self.metrics.note_turn(call.op(), handed || !turns.is_empty());
        }
        self.admission.own.extend(turns);
        usize::from(handed)
    }

    /// Takes a poll's reply: after a hint of what is over by now it is asked again, and it waits where it found nothing.
    fn take_poll(&mut self, mut answered: Answered, polled: Polled, limit: usize, now: Instant) {
        if matches!(polled, Polled::Task | Polled::Stale) {
            let turns = self.ledger.made_room();
            self.admission.own.extend(turns);
        }
        if polled == Polled::Stale && !self.phase.is_closing() && !self.is_gone(&answered.call) {
            self.admission.asked.push_front(answered.call);
            return;
        }
        if polled == Polled::Empty {
            let queue = Queue::from(&answered.call);
            if let Some(task) = self.admission.polls.left_for(&queue) {
                answered.reply = task;
                answered.facts.has_task = true;
            } else if !self.phase.is_closing() && !self.is_late(&answered.call) {
                self.wait(answered.call, answered.reply, limit);
                return;
            }
        }
        self.answer_when_synced(answered, now);
    }

    fn answer_when_synced(&mut self, answered: Answered, now: Instant) {
        if answered.call.number <= self.in_flight.synced {
            self.let_go(answered, now);
        } else {
            self.in_flight.unsynced.push_back(answered);
        }
    }
}

/// The refusal that a read's reply is. A reply that is none is long, and not looked into.
fn error_in(text: &[u8]) -> Option<Box<str>> {
    let refusal = if text.starts_with(b"{\"error\"") { Reply::parse(text) } else { None };
    refusal.and_then(|reply| reply.error).map(|error| error.as_ref().into())
}
