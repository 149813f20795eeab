//! The one order of lines: all calls that wait are one batch, and are answered once its lines are on the disk.
//!
//! A batch is written to the log, then to the program, and is synced while the program works; what comes meanwhile is
//! the next batch. No timer gathers calls, the sync does. Written to the log first, lines for which the disk has no
//! room have no effect; and what a killed edge leaves, the next one finds. A reply is let go once the program gave it
//! and a sync has covered its line.
//!
//! Three threads do this. The *sequencer* makes batches, and owns the log. The *reader* goes through replies in their
//! order, and owns the program. The *clock* makes the turns that time asks for, and ends polls. What they share is one
//! `State`, behind one lock that nobody holds while a disk or a pipe is waited for. Beside them a *standby* keeps a
//! second program, which takes the place of one that ends, and a *compactor* runs while the log is compacted.

mod clock;
mod compacting;
mod endings;
mod reader;
mod sequencer;
mod standby;
mod state;
#[cfg(test)]
mod tests;
mod window;

use crate::call::body::ParsedCall;
use crate::call::changes::Changes;
use crate::call::fault::Fault;
use crate::call::{asker_of, Call, Outcome, Receiver};
use crate::http::metrics::{resident_bytes, Gauge};
use crate::json::quoted;
use crate::lines::mailbox;
use crate::lines::talk::Asking;
use crate::log::generation::Files;
use crate::log::kept::{Kept, Origin};
use crate::log::opening::Opened;
use crate::log::Log;
use crate::os::program::Program;
use crate::os::system;
use crate::turns::clock::Clock;
use crate::turns::shards::ShardCount;
pub use compacting::Limits;
use hyper::body::Bytes;
pub use state::NotReady;
use state::{Answers, State, TaskAnswers};
use std::process::ChildStdin;
use std::sync::atomic::{AtomicBool, AtomicUsize, Ordering};
use std::sync::{Arc, Condvar, Mutex, MutexGuard, PoisonError};
use std::thread::{Builder, JoinHandle};
use std::time::{Duration, Instant};
use tokio::sync::{oneshot, Notify};

/// What becomes of a call, once it is there.
pub type Pending = oneshot::Receiver<Outcome>;

/// The program's input, and which of the programs that were started it is of.
struct Input {
    generation: u64,
    pipe: Option<ChildStdin>,
}

/// A kept program, which many clients call.
pub struct Core {
    state: Mutex<State>,
    /// Told where the sequencer, or who waits for it, may go on.
    wake: Condvar,
    /// Told where the clock has to look again.
    clock_wake: Condvar,
    /// Told where it stands otherwise with the second program.
    standby: Condvar,
    input: Mutex<Input>,
    clock: Mutex<Clock>,
    /// Told once nothing is served any more.
    over: Notify,
    answer_queue: AnswerQueue,
    shards: ShardCount,
    limit: usize,
    /// How many descriptions wait until a run has closed.
    pub close_waiters: AtomicUsize,
}

/// Answers for tasks that were not told yet, where one of them tells the others.
#[derive(Default)]
struct AnswerQueue {
    answers: Mutex<TaskAnswers>,
    /// Told where there are some.
    wake: Notify,
    has_teller: AtomicBool,
}

impl AnswerQueue {
    fn lock(&self) -> MutexGuard<'_, TaskAnswers> {
        self.answers.lock().unwrap_or_else(PoisonError::into_inner)
    }

    /// Has who waits told of answers.
    fn tell(&self, answers: Answers) {
        let Answers { mut tasks, lines } = answers;
        mailbox::deliver(lines);
        if tasks.is_empty() {
            return;
        }
        if self.has_teller.load(Ordering::Relaxed) {
            self.lock().append(&mut tasks);
            self.wake.notify_one();
        } else {
            tell(tasks);
        }
    }
}

/// The threads of a core, for who ends it.
pub struct Threads(Vec<JoinHandle<()>>);

impl Threads {
    /// Waits until all have ended, which they do once the core is closed or over, and the program has ended. False where
    /// that takes longer: a program may hang.
    pub fn join(&self, most: Duration) -> bool {
        let late = Instant::now() + most;
        while Instant::now() < late {
            if self.0.iter().all(JoinHandle::is_finished) {
                return true;
            }
            std::thread::sleep(Duration::from_millis(2));
        }
        false
    }

    /// The names of those that have not ended.
    pub fn left(&self) -> Vec<&str> {
        let left = self.0.iter().filter(|thread| !thread.is_finished());
        left.map(|thread| thread.thread().name().unwrap_or_default()).collect()
    }
}

/// How things are, for `GET /health/ready`.
pub struct Health {
    /// Why no call is taken now; none where they are.
    pub not_ready: Option<NotReady>,
    pub lines: u64,
    pub bytes: u64,
    pub clock_ahead: i64,
    pub is_queue_full: bool,
    pub is_compacting: bool,
}

/// What a compaction came to.
pub struct Compacted {
    pub lines: u64,
    pub bytes: u64,
    pub records: u64,
    pub capacity: u32,
}

impl Core {
    /// Takes up an opened service, and starts the threads.
    pub fn start(opened: Opened, clock: Clock, limit: usize, limits: Limits) -> std::io::Result<(Arc<Core>, Threads)> {
        let Opened { kept, observed } = opened;
        let Kept { origin, log, mut program, .. } = kept;
        let pipe = program.take_input();
        let shards = origin.settings.shards;
        let snapshots = Files::find(&origin.base, origin.generation).map_or(0, |files| files.snapshots_size());
        let state = State::new(origin.clone(), log.as_ref(), program.pid(), observed, limits, snapshots);
        let core = Arc::new(Core {
            state: Mutex::new(state),
            wake: Condvar::new(),
            clock_wake: Condvar::new(),
            standby: Condvar::new(),
            input: Mutex::new(Input { generation: 0, pipe }),
            clock: Mutex::new(clock),
            over: Notify::new(),
            answer_queue: AnswerQueue::default(),
            shards,
            limit,
            close_waiters: AtomicUsize::new(0),
        });
        let has_standby = limits.has_standby && origin.table.is_none();
        let threads = core.clone().spawn(log, origin, program, has_standby)?;
        Ok((core, threads))
    }

    fn spawn(
        self: Arc<Core>,
        log: Box<dyn Log>,
        origin: Origin,
        program: Program,
        has_standby: bool,
    ) -> std::io::Result<Threads> {
        let (sequencer, reader, clock, standby) = (self.clone(), self.clone(), self.clone(), self);
        let named = |name: &str| Builder::new().name(name.to_string());
        if has_standby {
            // It may be opening a program when all else has ended, and goes with this process.
            named("standby").spawn(move || standby.stand_by())?;
        }
        Ok(Threads(vec![
            named("sequencer").spawn(move || sequencer.sequence(log, origin))?,
            named("reader").spawn(move || reader.read(program))?,
            named("clock").spawn(move || clock.run_clock())?,
        ]))
    }

    fn lock(&self) -> MutexGuard<'_, State> {
        self.state.lock().unwrap_or_else(PoisonError::into_inner)
    }

    fn lock_input(&self) -> MutexGuard<'_, Input> {
        self.input.lock().unwrap_or_else(PoisonError::into_inner)
    }

    fn now(&self) -> u64 {
        self.clock.lock().unwrap_or_else(PoisonError::into_inner).now()
    }

    /// Gives the state back, and tells what was found out under the lock.
    fn release(&self, mut state: MutexGuard<'_, State>) {
        let answers = std::mem::take(&mut state.answers);
        let look = std::mem::take(&mut state.due.look);
        let wakes = state.is_idle && state.has_work();
        state.is_idle &= !wakes;
        drop(state);
        if wakes {
            self.wake.notify_all();
        }
        if look {
            self.clock_wake.notify_one();
        }
        self.answer_queue.tell(answers);
    }

    /// Tells who waits from the thread on which this runs: on the one that serves the sockets, a batch of answers wakes that
    /// thread once, and who waits is woken there without a word to another thread.
    pub async fn tell_answers(&self) {
        // Until another thread sees this it tells by itself, which is as well.
        self.answer_queue.has_teller.store(true, Ordering::Relaxed);
        loop {
            let answers = std::mem::take(&mut *self.answer_queue.lock());
            if answers.is_empty() {
                self.answer_queue.wake.notified().await;
            } else {
                tell(answers);
                tokio::task::yield_now().await;
            }
        }
    }

    pub fn shards(&self) -> ShardCount {
        self.shards
    }

    /// Asks for a client. An outcome that is dropped says that the client has hung up.
    pub fn submit(&self, asked: ParsedCall, key: Option<Box<str>>) -> Result<Pending, Fault> {
        let (receiver, outcome) = oneshot::channel();
        let ParsedCall { begin, facts, wait } = asked;
        let asker = asker_of(key.filter(|_| !facts.op.is_read()), &begin);
        let call = Call::new(begin, facts, wait, asker);
        let mut state = self.lock();
        let taken = state.take_in(call, Receiver::Task(receiver), self.limit);
        if let Err(fault) = &taken {
            state.metrics.note_refused(fault.name());
        }
        self.release(state);
        taken.map(|()| outcome)
    }

    /// Asks calls of connections for lines, in their order. What becomes of them is told to these.
    pub fn submit_all(&self, asking: &mut Asking) {
        let mut state = self.lock();
        for (call, ticket) in asking.calls.drain(..) {
            if let Err(fault) = state.take_in(call, Receiver::Line(ticket.clone()), self.limit) {
                state.metrics.note_refused(fault.name());
                state.answers.add(Receiver::Line(ticket), Outcome::new(Err(fault), None));
            }
        }
        self.release(state);
    }

    /// Counts a call that was refused before it was asked.
    pub fn note_refused(&self, fault: &Fault) {
        self.lock().metrics.note_refused(fault.name());
    }

    /// The reply to a call, once it is there.
    pub async fn reply_to(&self, asked: ParsedCall, key: Option<Box<str>>) -> Result<Bytes, Fault> {
        let outcome = self.submit(asked, key)?.await;
        outcome.map_or_else(|_| Err(Fault::Ended("the call was dropped".to_string())), |outcome| outcome.result)
    }

    /// How many calls may wait, and as many polls, and descriptions.
    pub fn limit(&self) -> usize {
        self.limit
    }

    /// How many lines the log has.
    pub fn lines(&self) -> u64 {
        self.lock().log.lines
    }

    /// Whether no more calls are taken, as the edge was told to stop.
    pub fn is_closing(&self) -> bool {
        self.lock().phase.is_closing()
    }

    /// How things are.
    pub fn health(&self) -> Health {
        let clock_ahead = self.clock.lock().unwrap_or_else(PoisonError::into_inner).ahead();
        let state = self.lock();
        Health {
            not_ready: state.not_ready(),
            lines: state.log.lines,
            bytes: state.log.bytes,
            clock_ahead,
            is_queue_full: state.ledger.is_full(),
            is_compacting: state.compaction.is_under_way(),
        }
    }

    /// Counts and times, as Prometheus reads them.
    pub fn metrics(&self) -> String {
        let ahead = self.clock.lock().unwrap_or_else(PoisonError::into_inner).ahead();
        let state = self.lock();
        let gauges: [Gauge; 10] = [
            ("calls_waiting", "Calls of clients that wait for their answers.", state.admission.count() as f64),
            ("polls_waiting", "Polls that wait for a task.", state.admission.polls.len() as f64),
            (
                "ends_waiting",
                "Descriptions that wait until a run has closed.",
                self.close_waiters.load(Ordering::Relaxed) as f64,
            ),
            ("log_lines", "Lines of the log.", state.log.lines as f64),
            ("log_bytes", "Bytes of the log.", state.log.bytes as f64),
            ("program_bytes", "Memory of the program.", resident_bytes(state.in_flight.pid) as f64),
            ("clock_ahead_seconds", "How far moments are ahead of the wall clock.", ahead as f64 / 1_000.0),
            ("sweeps_found", "Turns of a sweep that found what no call had told of.", state.ledger.missed() as f64),
            ("standby", "Whether a second program follows the log closely.", f64::from(u8::from(state.has_standby()))),
            ("ready", "Whether calls are taken.", f64::from(u8::from(state.not_ready().is_none()))),
        ];
        state.metrics.text(&gauges)
    }

    /// What changed for the list of workflows since it was asked last, and the polls that wait, as members of an object.
    pub fn changes(&self, from: u64) -> Option<String> {
        let mut state = self.lock();
        let counts = state.admission.polls.counts();
        let polls: Vec<String> = counts.iter().map(|(queue, count)| format!("[{},{count}]", queue.json())).collect();
        let changes = state.changes.as_mut().map(|changes: &mut Changes| changes.text(from))?;
        Some(format!("{changes},\"polls\":[{}]", polls.join(",")))
    }

    /// The snapshots or records that the log goes on from, the queues, and what the ids of runs need, as JSON for the page.
    pub fn records(&self) -> String {
        let origin = self.lock().origin.clone();
        let files = Files::find(&origin.base, origin.generation).map_or_else(|_| Vec::new(), |files| files.paths);
        let files: Vec<String> = files.iter().map(|file| quoted(&file.to_string_lossy())).collect();
        let (service, retention) = (origin.settings.service, origin.settings.retention);
        let queues: Vec<String> = origin.settings.queues.iter().map(|queue| quoted(queue)).collect();
        format!(
            "{{\"service\":{service},\"retention\":{retention},\"queues\":[{}],\"files\":[{}]}}",
            queues.join(","),
            files.join(",")
        )
    }

    /// The moment of now.
    pub fn moment(&self) -> u64 {
        self.now()
    }

    /// Returns once nothing is served any more: why.
    pub async fn ended(&self) -> Fault {
        loop {
            let notified = self.over.notified();
            if let Some(fault) = self.lock().phase.over().cloned() {
                return fault;
            }
            notified.await;
        }
    }

    /// Takes no more calls, ends the polls that wait, and lets those on their way and a compaction be answered, and the turns
    /// be made that follow from them.
    pub async fn drain(&self, most: Duration) {
        let late = Instant::now() + most;
        self.lock().phase.drain();
        self.clock_wake.notify_one();
        while !self.is_drained() && Instant::now() < late {
            tokio::time::sleep(Duration::from_millis(5)).await;
        }
    }

    fn is_drained(&self) -> bool {
        let state = self.lock();
        let is_answered = state.admission.count() == 0 && state.admission.polls.len() == 0;
        let is_done = is_answered && !state.compaction.is_under_way() && state.is_quiet() && !state.has_work();
        is_done || state.phase.over().is_some()
    }

    /// Ends the program's input, and with it the program and the threads.
    pub fn close(&self) {
        self.lock().phase.close();
        self.lock_input().pipe = None;
        self.wake.notify_all();
        self.clock_wake.notify_all();
        self.standby.notify_all();
    }

    /// The same of a program that was taken up meanwhile.
    fn end_input_if_closed(&self) {
        if self.lock().phase.is_at_its_end() {
            self.lock_input().pipe = None;
        }
    }

    /// Kills a program that doesn't end by itself.
    pub fn kill_program(&self) {
        system::kill(self.lock().in_flight.pid);
    }

    /// Nothing is served any more.
    fn end(&self, fault: Fault) {
        let mut state = self.lock();
        state.end(fault);
        self.release(state);
        self.wake.notify_all();
        self.clock_wake.notify_all();
        self.over.notify_one();
    }
}

/// Tells who waits.
fn tell(answers: TaskAnswers) {
    for (task, told) in answers {
        let _ = task.send(told);
    }
}
