//! How far a compaction is, and when the next one begins by itself.

use super::State;
use crate::call::changes::Changes;
use crate::core::compacting::{Exchange, Limits};
use crate::core::window::Window;
use crate::log::LogState;
use std::time::{Duration, Instant};

/// A log is compacted once it has so many times the bytes of the snapshots that it goes on from, and by time once it has
/// one part in so many of what it is compacted at.
const TIMES_SNAPSHOTS: u64 = 2;
const WORTH_IT: u64 = 16;
/// A hundred years.
const FOREVER: Duration = Duration::from_secs(3_155_760_000);

/// How far a compaction is.
#[derive(Clone, Copy, PartialEq, Eq)]
enum Step {
    /// There is none.
    None,
    /// Another program is made ready beside the one that serves.
    Beside,
    /// Batches rest until all is answered.
    Resting,
    /// Log and program are being exchanged.
    Exchanging,
}

/// Compactions of the log.
pub struct Compaction {
    step: Step,
    /// What a compaction under way has noted and left, and the program and the log that it has made ready.
    pub window: Window,
    pub exchange: Option<Exchange>,
    limits: Limits,
    /// The log is compacted without being asked from so many bytes on, and from this moment on where it is worth it.
    at_bytes: u64,
    worth_it: u64,
    from: Instant,
}

impl Compaction {
    /// Of a log that goes on from snapshots of so many bytes.
    pub fn new(limits: Limits, snapshots: u64) -> Compaction {
        let mut compaction = Compaction {
            step: Step::None,
            window: Window::default(),
            exchange: None,
            limits,
            at_bytes: u64::MAX,
            worth_it: 0,
            from: Instant::now(),
        };
        compaction.plan(snapshots, 0);
        compaction
    }

    /// Says when the log is compacted next. It goes on from snapshots of so many bytes; where it could not be compacted, that
    /// is tried again once as much was written behind the bytes that it has.
    pub fn plan(&mut self, snapshots: u64, has: u64) {
        let Limits { bytes, time, .. } = self.limits;
        let most = bytes.max(TIMES_SNAPSHOTS * snapshots);
        self.at_bytes = if bytes == 0 { u64::MAX } else { has + most };
        self.worth_it = has + most / WORTH_IT;
        self.from = Instant::now() + if time.is_zero() { FOREVER } else { time };
    }

    fn is_long(&self, log: &LogState) -> bool {
        log.bytes >= self.at_bytes
    }

    fn is_old(&self, log: &LogState, now: Instant) -> bool {
        now >= self.from && log.lines > 0 && log.bytes >= self.worth_it
    }

    /// Whether the log is being compacted.
    pub fn is_under_way(&self) -> bool {
        self.step != Step::None
    }

    pub fn begin(&mut self) {
        self.step = Step::Beside;
    }

    pub fn end(&mut self) {
        self.step = Step::None;
    }

    /// Whether batches rest until all is answered.
    pub fn is_resting(&self) -> bool {
        self.step == Step::Resting
    }

    /// Has batches rest.
    pub fn rest(&mut self) {
        self.step = Step::Resting;
    }

    /// Whether log and program are being exchanged.
    pub fn is_exchanging(&self) -> bool {
        self.step == Step::Exchanging
    }

    /// All is answered: log and program are exchanged now.
    pub fn exchange_now(&mut self) {
        self.step = Step::Exchanging;
    }

    /// Batches go on. What serves was exchanged, or stays.
    pub fn serve_on(&mut self) {
        if self.is_resting() || self.is_exchanging() {
            self.step = Step::Beside;
        }
    }
}

impl State {
    /// Whether the log has so many bytes that it is compacted.
    pub fn is_long(&self) -> bool {
        self.compaction.is_long(&self.log) && self.may_compact()
    }

    /// Whether it is so long ago that it was compacted last that it is now.
    pub fn is_old(&self, now: Instant) -> bool {
        self.compaction.is_old(&self.log, now) && self.may_compact()
    }

    fn may_compact(&self) -> bool {
        !self.compaction.is_under_way() && !self.phase.is_closing()
    }

    /// What a page was told of attempts, as text; none where there is no page.
    pub fn attempts_text(&self) -> Vec<u8> {
        self.changes.as_ref().map_or_else(Vec::new, Changes::attempts_text)
    }
}
