//! Makes batches: a batch is written to the log, then to the program, and is synced while the program works.

use super::compacting::Exchange;
use super::endings::Endings;
use super::state::{Admission, Phase, State};
use super::Core;
use crate::call::body::Moment;
use crate::call::fault::Fault;
use crate::call::Call;
use crate::log::fault::LogFault;
use crate::log::kept::Origin;
use crate::log::Log;
use crate::os::program::{Program, CHANGES_NOTHING};
use crate::turns::ledger::Needed;
use std::io::Write;
use std::sync::{Arc, MutexGuard, PoisonError};
use std::time::{Duration, Instant};

const MOST_LINES: usize = 4_096;
const MOST_BYTES: usize = 1 << 20;
/// In the list of a batch there is room for so many turns that its calls make necessary, before it is made longer.
const ROOM_FOR_TURNS: usize = 16;

/// What the sequencer does next.
enum Work {
    Batch(Vec<Call>),
    Exchange(Box<Exchange>),
    End,
}

/// The fault of calls whose lines the log did not take.
fn fault_of(fault: LogFault) -> Fault {
    match fault {
        LogFault::Full(said) => Fault::LogFull(said),
        other => Fault::LogBroken(other.to_string()),
    }
}

impl Core {
    /// Makes batches until the core is closed or over.
    pub(super) fn sequence(self: &Arc<Core>, mut log: Box<dyn Log>, mut origin: Origin) {
        let mut piped = Vec::new();
        loop {
            match self.next_work() {
                Work::Batch(calls) => self.serve(calls, log.as_mut(), &mut piped),
                Work::Exchange(exchange) => self.exchange_now(*exchange, log.as_mut(), &mut origin),
                Work::End => return,
            }
        }
    }

    fn wait<'a>(&self, mut state: MutexGuard<'a, State>) -> MutexGuard<'a, State> {
        state.is_idle = true;
        self.wake.wait(state).unwrap_or_else(PoisonError::into_inner)
    }

    /// Waits where nothing is to be done, but no longer than batches may wait for a program beside.
    fn wait_for_work<'a>(&self, mut state: MutexGuard<'a, State>) -> MutexGuard<'a, State> {
        match state.left_of_wait(Instant::now()) {
            None => self.wait(state),
            Some(left) => {
                state.is_idle = true;
                self.wake.wait_timeout(state, left).unwrap_or_else(PoisonError::into_inner).0
            }
        }
    }

    fn next_work(self: &Arc<Core>) -> Work {
        let mut state = self.lock();
        loop {
            if state.phase.is_at_its_end() {
                return Work::End;
            }
            if state.is_long() {
                state.compaction.begin();
                drop(state);
                self.compact_long();
                state = self.lock();
                continue;
            }
            match state.next_work() {
                Some(work) => return work,
                None => state = self.wait_for_work(state),
            }
        }
    }

    /// Serves a batch.
    fn serve(&self, mut calls: Vec<Call>, log: &mut dyn Log, piped: &mut Vec<u8>) {
        let moment = Moment::new(self.now());
        for call in &mut calls {
            call.end(&moment);
        }
        let before = log.lines();
        let mut logged = calls.iter().filter(|call| call.is_logged()).map(|call| call.text.as_slice()).peekable();
        let kept = if logged.peek().is_some() { log.write(&mut logged) } else { log.confirm() };
        if let Err(fault) = kept {
            calls = self.refuse(calls, log, fault);
        }
        let mut number = before.saturating_sub(1);
        piped.clear();
        for call in &mut calls {
            number += u64::from(call.is_logged());
            call.number = number;
            piped.extend_from_slice(&call.text);
            piped.push(b'\n');
        }
        let written = log.lines() - before;
        if let Some(generation) = self.hand_over(calls, log, written) {
            self.feed(piped, generation);
        }
        if written > 0 {
            self.sync(log);
        }
    }

    /// Fails the calls that the log did not take. The reads are left.
    fn refuse(&self, calls: Vec<Call>, log: &dyn Log, fault: LogFault) -> Vec<Call> {
        let (refused, left) = calls.into_iter().partition(Call::is_logged);
        let fault = fault_of(fault);
        let mut state = self.lock();
        state.log = log.state();
        state.refuse(refused, &fault);
        self.release(state);
        if log.is_broken() {
            self.end(fault);
        }
        left
    }

    /// Notes calls as sent. The program that they are for; None where nothing is served any more.
    fn hand_over(&self, calls: Vec<Call>, log: &dyn Log, written: u64) -> Option<u64> {
        let mut state = self.lock();
        while state.in_flight.is_restarting() && !state.phase.is_at_its_end() {
            state = self.wait(state);
        }
        state.log = log.state();
        if let Some(fault) = state.phase.over().cloned() {
            for call in calls {
                state.fail(call, &fault);
            }
            self.release(state);
            return None;
        }
        if written > 0 {
            state.metrics.batches.add(written as f64);
        }
        state.in_flight.sent.extend(calls);
        Some(state.in_flight.generation)
    }

    /// Gives the program lines, unless another one was started meanwhile, which was given them. That it has ended shows
    /// where its replies are read.
    fn feed(&self, lines: &[u8], generation: u64) {
        let mut input = self.lock_input();
        if input.generation == generation {
            let _ = input.pipe.as_mut().map(|pipe| pipe.write_all(lines));
        }
    }

    /// Has the disk keep what was written, and answers the calls that waited for it.
    fn sync(&self, log: &mut dyn Log) {
        let begun = Instant::now();
        if let Err(fault) = log.sync() {
            self.lock().log = log.state();
            self.end(fault_of(fault));
            return;
        }
        let mut state = self.lock();
        state.metrics.syncs.add(begun.elapsed().as_secs_f64());
        state.was_synced(log.lines().saturating_sub(1));
        let answers = std::mem::take(&mut state.answers);
        drop(state);
        self.answer_queue.tell(answers);
    }

    // Compaction.

    /// Waits until all that was written is synced and answered.
    pub(super) fn wait_until_quiet(&self) -> Result<(), Fault> {
        let mut state = self.lock();
        state.compaction.rest();
        while !state.is_settled() {
            state = self.wait(state);
        }
        state.compaction.serve_on();
        match &state.phase {
            Phase::Over { fault, .. } => Err(fault.clone()),
            Phase::Closed => Err(Fault::Draining),
            Phase::Serving | Phase::Draining => {
                state.compaction.exchange_now();
                Ok(())
            }
        }
    }

    /// Has calls served by another program, which has served the lines that the log has now, and lets the one before go.
    pub(super) fn take_up(&self, mut program: Program, log: &dyn Log, origin: &Origin) {
        let pipe = program.take_input();
        let mut state = self.lock();
        let generation = state.in_flight.feed(program.pid());
        state.in_flight.next_program = Some(program);
        state.origin = origin.clone();
        state.log = log.state();
        state.in_flight.answered = state.log.lines;
        state.in_flight.synced = state.log.lines;
        state.in_flight.endings = Endings::default();
        state.metrics.compactions += 1;
        drop(state);
        let mut input = self.lock_input();
        input.generation = generation;
        if let Some(mut before) = std::mem::replace(&mut input.pipe, pipe) {
            // By its answer to this the reader is woken, which need not wait until it has ended.
            let _ = before.write_all(CHANGES_NOTHING);
        }
        drop(input);
        self.end_input_if_closed();
        let mut state = self.lock();
        state.compaction.serve_on();
        self.wake.notify_all();
        while state.in_flight.next_program.is_some() && !state.phase.is_at_its_end() {
            state = self.wait(state);
        }
    }
}

impl State {
    /// What is to be done next; None where nothing is.
    fn next_work(&mut self) -> Option<Work> {
        if self.in_flight.is_restarting() {
            return None;
        }
        if let Some(exchange) = self.compaction.exchange.take() {
            return Some(Work::Exchange(Box::new(exchange)));
        }
        let may_go_on = self.admission.has_asked() && !self.compaction.window.is_far_ahead(self.log.lines);
        may_go_on.then(|| Work::Batch(self.next_calls()))
    }

    /// For how long calls that are far ahead of a program beside may still wait for it; None where none wait.
    fn left_of_wait(&mut self, now: Instant) -> Option<Duration> {
        let may_wait = self.admission.has_asked() && !self.in_flight.is_restarting();
        may_wait.then(|| self.compaction.window.left_of_wait(self.log.lines, now))?
    }

    /// Whether all that was written was answered, or nothing is served any more.
    fn is_settled(&self) -> bool {
        self.phase.is_at_its_end() || self.in_flight.is_settled()
    }

    /// The calls of the next batch, and after them the turns that they make necessary.
    fn next_calls(&mut self) -> Vec<Call> {
        let (line, window) = (self.log.lines, &mut self.compaction.window);
        let Admission { asked, own, .. } = &mut self.admission;
        window.hold(asked, own, line);
        let mut calls = Vec::with_capacity(own.len() + asked.len().min(MOST_LINES) + ROOM_FOR_TURNS);
        calls.extend(own.drain(..).map(Call::own));
        let (mut needed, mut size) = (Needed::default(), 0);
        while calls.len() < MOST_LINES && size < MOST_BYTES {
            let call = match asked.pop_front() {
                Some(call) => call,
                None => break,
            };
            size += call.size();
            self.ledger.note(&call.facts, &mut needed);
            calls.push(call);
        }
        let mut turns = self.ledger.turns(&needed);
        self.due.called |= !turns.is_empty();
        window.hold_turns(&mut turns);
        calls.extend(turns.into_iter().map(Call::own));
        calls
    }
}
