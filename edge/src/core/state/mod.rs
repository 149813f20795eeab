//! What the core's threads share: calls by where they are on their way, and all that is known of them.
//!
//! `admission` has what is asked and not on its way, `in_flight` what the program has and what waits for a sync, `compaction`
//! how far one is, and `phase` how far the edge is itself. How calls are answered is in `answers`. Nothing here waits for a
//! disk, a pipe or a lock.

mod admission;
mod answers;
mod compaction;
mod in_flight;
mod phase;

use crate::call::changes::Changes;
use crate::core::compacting::Limits;
use crate::core::standby::Place;
use crate::http::metrics::Metrics;
use crate::log::kept::Origin;
use crate::log::opening::Observed;
use crate::log::{Log, LogState};
use crate::os::system;
use crate::turns::deadlines::Deadlines;
use crate::turns::ledger::Ledger;
pub use admission::Admission;
pub use answers::{Answered, Answers, ReplyFacts, TaskAnswers};
use compaction::Compaction;
use in_flight::InFlight;
pub use phase::{NotReady, Phase};
use std::time::Instant;

/// When the clock has to look, and for what.
pub struct Due {
    /// Whether a call that may issue something was made since the last sweep.
    pub called: bool,
    /// Until when no turns are made.
    pub resting: Instant,
    /// Whether the clock has to look again.
    pub look: bool,
    /// When the next poll's time is over, as far as the clock knows.
    pub next_late: Option<Instant>,
}

impl Due {
    /// Has the clock look at polls once this moment is over.
    pub fn look_at(&mut self, late: Instant) {
        if self.next_late.map_or(true, |next| late < next) {
            self.next_late = Some(late);
            self.look = true;
        }
    }
}

/// All that the threads share.
pub struct State {
    pub phase: Phase,
    pub admission: Admission,
    pub in_flight: InFlight,
    pub compaction: Compaction,
    pub ledger: Ledger,
    pub deadlines: Deadlines,
    pub changes: Option<Changes>,
    pub metrics: Metrics,
    /// How the log is, which the sequencer has.
    pub log: LogState,
    pub origin: Origin,
    /// The second program.
    pub standby: Place,
    pub due: Due,
    /// Whether the sequencer waits to be woken.
    pub is_idle: bool,
    pub answers: Answers,
}

impl State {
    /// Of a log that goes on from snapshots of so many bytes, by the program of this process.
    pub fn new(origin: Origin, log: &dyn Log, pid: u32, observed: Observed, limits: Limits, snapshots: u64) -> State {
        let Observed { ledger, deadlines, replies, changes, .. } = observed;
        let log = log.state();
        State {
            phase: Phase::Serving,
            admission: Admission::new(replies),
            in_flight: InFlight::new(log.lines, pid),
            compaction: Compaction::new(limits, snapshots),
            ledger,
            deadlines,
            changes,
            metrics: Metrics::default(),
            log,
            origin,
            standby: Place::default(),
            due: Due { called: true, resting: Instant::now(), look: false, next_late: None },
            is_idle: false,
            answers: Answers::default(),
        }
    }

    /// Why no call is taken now; none where they are.
    pub fn not_ready(&self) -> Option<NotReady> {
        match self {
            State { phase, .. } if phase.is_closing() => Some(NotReady::Draining),
            State { log: LogState { is_broken: true, .. }, .. } => Some(NotReady::Broken),
            State { phase: Phase::Over { .. }, .. } => Some(NotReady::Ended),
            State { log: LogState { is_full: true, .. }, .. } => Some(NotReady::Full),
            State { in_flight, .. } if in_flight.is_restarting() => Some(NotReady::Restarting),
            // The reader learns of it a little later.
            State { in_flight, .. } if system::has_ended(in_flight.pid) => Some(NotReady::Restarting),
            _ => None,
        }
    }

    /// Whether something waits for the sequencer.
    pub fn has_work(&self) -> bool {
        self.admission.has_asked() || self.compaction.is_resting() || self.compaction.exchange.is_some()
    }
}
