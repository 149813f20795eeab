//! Compacts a log while it is served.
//!
//! A program beside the one that serves is given the log's lines, and writes snapshots after one of them. Another one is
//! opened from these, and given the lines since as they come: so it serves the same, and is soon as far. Then batches
//! rest for a moment, in which it and its log (`log::successor`) take the place of the others.
//!
//! A program that is opened from snapshots has the tasks that wait in its queues in another order, so a poll may be
//! handed another one. Then the next log would tell something else than clients were told. So each reply to a line since
//! the snapshots is compared, and where one differs the compaction is made once more, with polls and dispatch turns held
//! back until the programs were exchanged: all other replies are the same by whatever order of the queues.

use super::state::{Phase, State};
use super::window::mark_of;
use super::{Compacted, Core};
use crate::call::fault::Fault;
use crate::call::replies::text_of;
use crate::log::compaction::{give_line, next_origin, open_program, write_snapshots};
use crate::log::fault::LogFault;
use crate::log::following::serve;
use crate::log::generation::{folder_of, remove_leftovers, Files, ATTEMPTS, REPLIES};
use crate::log::kept::{tell_growth, Origin};
use crate::log::successor::{Successor, Tail};
use crate::log::{Log, LogState};
use crate::os::program::Program;
use crate::os::stderr::report;
use std::io::Write;
use std::sync::mpsc::{channel, RecvTimeoutError, Sender};
use std::sync::Arc;
use std::thread::Builder;
use std::time::Duration;
use tokio::sync::oneshot;

/// Fewer lines than a batch may have: batches rest for no longer than one of them takes.
const NEAR: u64 = 512;
/// So often what was written meanwhile is given before batches have to wait for it.
const FREE_ROUNDS: u32 = 4;
/// So many lines bring a program beside nearer.
const NEARER: u64 = 8;
/// So long a thread rests that waits for another one.
const REST: Duration = Duration::from_millis(1);
const LONG_REST: Duration = Duration::from_millis(50);

/// When a log is compacted without being asked, and whether a second program follows one in a file.
#[derive(Clone, Copy, Debug, PartialEq, Eq)]
pub struct Limits {
    /// From so many bytes on, or from twice as many as the snapshots have where these are more; 0 for never.
    pub bytes: u64,
    /// After so long, where enough was written to be worth it; 0 for never.
    pub time: Duration,
    pub has_standby: bool,
}

/// Who is told what an asked compaction came to.
pub type Done = oneshot::Sender<Result<Compacted, Fault>>;

/// Why a compaction stopped.
enum Stopped {
    /// A reply of the program beside is another one than the one that was given.
    Differs(u64),
    Fault(Fault),
}

impl From<LogFault> for Stopped {
    fn from(fault: LogFault) -> Stopped {
        Stopped::Fault(Fault::NotCompacted(fault.to_string()))
    }
}

impl From<Fault> for Stopped {
    fn from(fault: Fault) -> Stopped {
        Stopped::Fault(fault)
    }
}

/// A program that was opened from new snapshots and is given the lines since, and the log that will have them.
pub struct Behind {
    program: Option<Program>,
    next: Origin,
    tail: Tail,
    successor: Option<Successor>,
    /// How many of the replies by keys lie beside the snapshots.
    replies: u64,
}

impl Behind {
    fn successor(&mut self) -> Result<&mut Successor, Fault> {
        self.successor.as_mut().ok_or(Fault::Draining)
    }

    /// Puts a text beside the snapshots.
    fn write_beside(&mut self, name: &str, text: &[u8]) -> Result<(), Stopped> {
        let next = self.next.clone();
        Ok(self.successor()?.write_beside(&next, name, text)?)
    }
}

impl Drop for Behind {
    fn drop(&mut self) {
        if let Some(program) = &mut self.program {
            program.kill();
        }
    }
}

/// A program and a log that are ready to take the place of those that serve.
pub struct Exchange {
    behind: Behind,
    done: Sender<Result<(), Stopped>>,
}

impl Core {
    /// Puts snapshots in the place of the log's lines, with that much room in the queues. It is served meanwhile.
    pub fn compact(self: &Arc<Core>, capacity: u32) -> Result<oneshot::Receiver<Result<Compacted, Fault>>, Fault> {
        let (done, outcome) = oneshot::channel();
        let mut state = self.lock();
        if state.compaction.is_under_way() || state.phase.is_closing() {
            let said = "the log is being compacted, or the server is told to stop";
            return Err(Fault::Busy(said.to_string()));
        }
        if let Some(fault) = state.phase.over() {
            return Err(fault.clone());
        }
        state.compaction.begin();
        drop(state);
        self.compact_beside(capacity, Some(done))?;
        Ok(outcome)
    }

    /// Compacts the log by itself where it is long or old enough. The state says so.
    pub(super) fn compact_long(self: &Arc<Core>) {
        if let Err(fault) = self.compact_beside(0, None) {
            report!("{fault}");
        }
    }

    /// Has a thread of its own compact the log.
    fn compact_beside(self: &Arc<Core>, capacity: u32, done: Option<Done>) -> Result<(), Fault> {
        let core = self.clone();
        let started = Builder::new().name("compactor".to_string()).spawn(move || core.run_compaction(capacity, done));
        started.map(drop).map_err(|fault| {
            self.lock().compaction.end();
            Fault::NotCompacted(fault.to_string())
        })
    }

    fn run_compaction(&self, capacity: u32, done: Option<Done>) {
        let origin = self.lock().origin.clone();
        // More room in the queues is told by replies of dispatch turns.
        let mut result = self.try_compaction(&origin, capacity, done.is_some(), capacity > origin.settings.capacity);
        if let Err(Stopped::Differs(_)) = result {
            result = self.try_compaction(&origin, capacity, done.is_some(), true);
        }
        let outcome = result.map_err(|stopped| match stopped {
            Stopped::Differs(line) => Fault::NotCompacted(format!("line {line} was answered in another way")),
            Stopped::Fault(fault) => fault,
        });
        let generation = self.lock().origin.generation;
        if let Err(fault) = remove_leftovers(&origin.base, generation) {
            report!("{fault}");
        }
        let snapshots = Files::find(&origin.base, generation).map_or(0, |files| files.snapshots_size());
        let mut state = self.lock();
        state.compaction.end();
        let has = if outcome.is_ok() { 0 } else { state.log.bytes };
        state.compaction.plan(snapshots, has);
        self.release(state);
        self.wake.notify_all();
        match (done, outcome) {
            (Some(done), outcome) => drop(done.send(outcome)),
            (None, Err(Fault::Draining)) | (None, Ok(_)) => {}
            (None, Err(fault)) => report!("the log could not be compacted, and is served on: {fault}"),
        }
    }

    /// Compacts the log. With `holds`, polls and dispatch turns wait from the snapshots on.
    fn try_compaction(
        &self,
        origin: &Origin,
        capacity: u32,
        is_asked: bool,
        holds: bool,
    ) -> Result<Compacted, Stopped> {
        let result = self.come_behind(origin, capacity, is_asked, holds).and_then(|mut behind| {
            self.come_near(&mut behind, is_asked)?;
            behind.successor()?.make_ready(origin)?;
            // That may have taken a while, and in the exchange batches wait for each line that is left.
            self.catch_up_near(&mut behind, is_asked)?;
            let (lines, next) = (behind.tail.count(), behind.next.clone());
            let bytes = self.lock().log.bytes;
            self.exchange(behind)?;
            if next.settings.capacity != origin.settings.capacity {
                tell_growth(&origin.log, origin.settings.capacity, next.settings.capacity);
            }
            let records = Files::find(&next.base, next.generation).map_or(0, |files| files.size());
            Ok(Compacted { lines, bytes, records, capacity: next.settings.capacity })
        });
        let mut state = self.lock();
        state.end_window();
        self.release(state);
        self.wake.notify_all();
        result
    }

    /// Refuses to go on where nothing is served any more; where the edge was told to stop, what was not asked for stops.
    fn go_on(&self, is_asked: bool) -> Result<u64, Fault> {
        let state = self.lock();
        match &state.phase {
            Phase::Over { fault, .. } => Err(fault.clone()),
            Phase::Closed => Err(Fault::Draining),
            Phase::Draining if !is_asked => Err(Fault::Draining),
            _ if state.compaction.window.is_given_up() => {
                let said = "what it had to wait for came no nearer while calls waited";
                Err(Fault::NotCompacted(said.to_string()))
            }
            _ => Ok(state.in_flight.answered),
        }
    }

    /// Writes snapshots, and opens a program from them.
    fn come_behind(&self, origin: &Origin, capacity: u32, is_asked: bool, holds: bool) -> Result<Behind, Stopped> {
        let mut next = next_origin(origin, capacity);
        let (mut tail, mut base) = (Tail::open(origin)?, LogState::default());
        let give = |input: &mut dyn Write| -> Result<(), LogFault> {
            let not = |fault: Fault| LogFault::NotCompacted(fault.to_string());
            for _ in 0..FREE_ROUNDS {
                let answered = self.go_on(is_asked).map_err(not)?;
                give_lines(input, &mut tail, answered)?;
            }
            base = self.begin_window(is_asked, holds).map_err(not)?;
            give_lines(input, &mut tail, base.lines)
        };
        write_snapshots(origin, give, &folder_of(&next.base, next.generation))?;
        let mut program = open_program(&mut next)?;
        let successor = match Successor::begin(origin, &next, &base) {
            Ok(successor) => successor,
            Err(fault) => {
                program.kill();
                return Err(fault.into());
            }
        };
        Ok(Behind { program: Some(program), next, tail, successor: Some(successor), replies: 0 })
    }

    /// From now on replies are noted, to the lines behind those that the log has here. With `holds` no poll and no dispatch
    /// turn is among them.
    fn begin_window(&self, is_asked: bool, holds: bool) -> Result<LogState, Fault> {
        self.lock().compaction.window.begin_to_hold(holds);
        loop {
            self.go_on(is_asked)?;
            let mut state = self.lock();
            if !holds || state.has_held() {
                // All batches so far are whole in the log, also where they are not answered.
                let log = state.log;
                state.compaction.window.begin_to_note(log.lines);
                return Ok(log);
            }
            drop(state);
            std::thread::sleep(REST);
        }
    }

    /// Gives a program what was written since its snapshots, until hardly anything is left.
    fn come_near(&self, behind: &mut Behind, is_asked: bool) -> Result<(), Stopped> {
        self.write_replies_of(behind)?;
        // The lines since tell again what else was told by then.
        let attempts = self.lock().attempts_text();
        behind.write_beside(ATTEMPTS, &attempts)?;
        self.catch_up_near(behind, is_asked)?;
        // What was answered meanwhile is few lines.
        self.write_replies_of(behind)
    }

    /// Gives a program lines until hardly any are left.
    fn catch_up_near(&self, behind: &mut Behind, is_asked: bool) -> Result<(), Stopped> {
        for round in 0.. {
            let answered = self.go_on(is_asked)?;
            let left = answered.saturating_sub(behind.tail.count());
            if left <= NEAR {
                break;
            }
            if round >= FREE_ROUNDS {
                // Who serves is about as fast: then its batches wait, each a little.
                let mut state = self.lock();
                state.compaction.window.come_nearer(behind.tail.count());
                state.compaction.window.have_wait((left * 3 / 4).max(NEAR / 2));
            }
            self.catch_up(behind, answered, None)?;
        }
        Ok(())
    }

    /// Gives a program the lines up to this one, and compares its replies with those that were given. Who has the log, in
    /// which no line is written meanwhile, gives it.
    fn catch_up(&self, behind: &mut Behind, number: u64, mut log: Option<&mut dyn Log>) -> Result<(), Stopped> {
        let Behind { program, tail, successor, .. } = behind;
        let (program, successor) = match (program, successor) {
            (Some(program), Some(successor)) => (program, successor),
            _ => return Err(Fault::Draining.into()),
        };
        while tail.count() < number {
            let first = tail.count() + 1;
            let lines = match log.as_deref_mut() {
                Some(log) => log.next_of(tail, number)?,
                None => tail.next(number)?,
            };
            let mut marks = self.lock().compaction.window.take_marks(lines.len());
            let mut place = first;
            serve(program, &lines, first, |_, reply| {
                let is_same = marks.pop_front() == Some(mark_of(reply));
                if place % NEARER == 0 {
                    self.lock().compaction.window.come_nearer(place);
                }
                place += 1;
                is_same.then_some(()).ok_or(Stopped::Differs(place - 1))
            })?;
            successor.add(&lines)?;
            self.lock().compaction.window.come_nearer(tail.count());
            self.wake.notify_all();
        }
        Ok(())
    }

    /// Writes the replies by keys that were kept since this was done last beside the snapshots.
    fn write_replies_of(&self, behind: &mut Behind) -> Result<(), Stopped> {
        let replies = self.next_replies(behind);
        behind.write_beside(REPLIES, &replies)
    }

    /// The replies by keys that were kept since they were asked for last, as text.
    fn next_replies(&self, behind: &mut Behind) -> Vec<u8> {
        let (replies, added) = {
            let state = self.lock();
            (state.admission.replies.after(behind.replies), state.admission.replies.added())
        };
        behind.replies = added;
        text_of(&replies)
    }

    /// Has the sequencer exchange log and program.
    fn exchange(&self, behind: Behind) -> Result<(), Stopped> {
        let (done, outcome) = channel();
        self.lock().compaction.exchange = Some(Exchange { behind, done });
        self.wake.notify_all();
        loop {
            match outcome.recv_timeout(LONG_REST) {
                Ok(result) => return result,
                Err(RecvTimeoutError::Disconnected) => return Err(Fault::Draining.into()),
                // An asked compaction is waited for where the edge is told to stop.
                Err(RecvTimeoutError::Timeout) => {
                    if let Err(fault) = self.go_on(true) {
                        self.lock().compaction.exchange = None;
                        return Err(fault.into());
                    }
                }
            }
        }
    }

    /// Exchanges log and program, in the sequencer.
    pub(super) fn exchange_now(&self, exchange: Exchange, log: &mut dyn Log, origin: &mut Origin) {
        let Exchange { mut behind, done } = exchange;
        let mut result = self.exchange_for(&mut behind, log, origin);
        if let (Err(Stopped::Fault(fault)), true) = (&mut result, log.is_broken()) {
            // Whether the log was exchanged is not known.
            *fault = Fault::LogBroken(fault.to_string());
            self.lock().log = log.state();
            self.end(fault.clone());
        }
        let mut state = self.lock();
        state.compaction.serve_on();
        state.due.called = true;
        state.due.look = true;
        self.release(state);
        self.wake.notify_all();
        let _ = done.send(result);
    }

    fn exchange_for(&self, behind: &mut Behind, log: &mut dyn Log, origin: &mut Origin) -> Result<(), Stopped> {
        self.wait_until_quiet()?;
        self.catch_up(behind, log.lines().saturating_sub(1), Some(&mut *log))?;
        let replies = self.next_replies(behind);
        let successor = behind.successor.take().ok_or(Fault::Draining)?;
        log.give_way(successor, &mut behind.next, &replies)?;
        *origin = behind.next.clone();
        if let Some(program) = behind.program.take() {
            self.take_up(program, log, origin);
        }
        Ok(())
    }
}

/// Gives a program the lines up to this one. That it has ended shows by its status.
fn give_lines(input: &mut dyn Write, tail: &mut Tail, number: u64) -> Result<(), LogFault> {
    while tail.count() < number {
        let lines = tail.next(number)?;
        let _ = lines.iter().try_for_each(|line| give_line(input, line));
    }
    Ok(())
}

impl State {
    /// Whether no poll and no dispatch turn is on its way any more, since they are held back.
    fn has_held(&self) -> bool {
        self.is_quiet() || self.compaction.window.has_held(self.in_flight.answered)
    }

    /// Has what was held back asked.
    fn end_window(&mut self) {
        let (held, turns) = self.compaction.window.end();
        for call in held.into_iter().rev() {
            self.admission.asked.push_front(call);
        }
        self.admission.own.extend(turns);
        self.compaction.exchange = None;
    }
}
