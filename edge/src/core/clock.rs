//! The turns that time asks for: timers fire, and a sweep finds what no call and no reply told of. Polls end here too.

use super::Core;
use crate::turns::ledger::Ledger;
use crate::turns::shards::Shard;
use std::collections::BTreeSet;
use std::sync::{Arc, PoisonError};
use std::time::{Duration, Instant};

/// In milliseconds.
const SECOND: u64 = 1_000;
/// From one sweep to the next, where something was called since: twice as long after one that found nothing.
const FIRST_SWEEP: Duration = Duration::from_secs(1);
const LONGEST_SWEEP: Duration = Duration::from_secs(10);
/// Polls are looked through so often at most.
const TICK: Duration = Duration::from_millis(10);

/// When the clock looked last, and when it sweeps next.
struct Looked {
    at: u64,
    next_sweep: Instant,
    between: Duration,
    missed: u64,
}

impl Core {
    /// Makes turns until the core is closed or over. What an edge that ended left undone is done first, by a sweep.
    pub(super) fn run_clock(self: &Arc<Core>) {
        let mut looked = Looked { at: 0, next_sweep: Instant::now(), between: FIRST_SWEEP, missed: 0 };
        loop {
            let rest = self.turn(&mut looked);
            let mut state = self.lock();
            if state.phase.is_at_its_end() {
                return;
            }
            if state.is_old(Instant::now()) {
                state.compaction.begin();
                drop(state);
                self.compact_long();
                continue;
            }
            if !state.due.look {
                let waited = self.clock_wake.wait_timeout(state, rest);
                drop(waited.unwrap_or_else(PoisonError::into_inner));
            }
        }
    }

    /// Makes the turns that are due. For how long nothing is.
    fn turn(&self, looked: &mut Looked) -> Duration {
        let (at, now) = (self.now(), Instant::now());
        let mut state = self.lock();
        state.due.look = false;
        state.end_polls(now);
        let mut due: BTreeSet<Shard> = state.deadlines.pass_by(at);
        if at >= looked.at + SECOND {
            due = self.shards.all().collect();
            looked.at = at;
        }
        state.ask_turns(Ledger::timers(due));
        if state.due.called && now >= looked.next_sweep.max(state.due.resting) {
            let missed = state.ledger.missed();
            looked.between = match missed > looked.missed {
                true => FIRST_SWEEP,
                false => LONGEST_SWEEP.min(2 * looked.between),
            };
            looked.missed = missed;
            looked.next_sweep = now + looked.between;
            state.due.called = false;
            let sweep = state.ledger.sweep();
            state.ask_turns(sweep);
        }
        let due = state.deadlines.next().map_or(SECOND, |next| next.saturating_sub(at));
        let rest = Duration::from_millis(due.min(looked.at + SECOND - at));
        let polls = state.due.next_late.map_or(rest, |late| late.saturating_duration_since(now) + TICK);
        self.release(state);
        rest.min(polls)
    }
}
