//! A second program beside the one that serves a log in a file, which takes its place where that one ends.
//!
//! It is given the same lines a little later, so it has the same state, and what it lacks is soon served. Without it a
//! program that was killed is started again, and given all lines since the last compaction. While the log is compacted
//! there is none: other programs are started then.

use super::state::State;
use super::Core;
use crate::log::following::{serve_text, Tail};
use crate::log::kept::{NotServed, Origin};
use crate::os::program::Program;
use crate::os::stderr::report;
use std::sync::{MutexGuard, PoisonError};
use std::time::{Duration, Instant};

/// How often it is given lines, where there are some, and how soon it is looked for others where there are none.
const REST: Duration = Duration::from_millis(20);
const LONG_REST: Duration = Duration::from_millis(250);
/// So few lines are soon served, and so many it is given at once: then it is looked whether it is wanted.
const NEAR: u64 = 256;
const AT_ONCE: u64 = 256;
/// How long it is let be after one that could not be started or ended, and how long who wants it waits for it.
const REST_AFTER_FAULT: Duration = Duration::from_secs(30);
const PATIENCE: Duration = Duration::from_secs(5);

/// A program that was given the lines of a log up to a place.
pub struct Standby {
    program: Program,
    tail: Tail,
    /// What it is given.
    text: Vec<u8>,
    /// The generation of its log.
    generation: u64,
}

/// How it stands with the second program, as all threads see it.
#[derive(Default)]
pub struct Place {
    /// Whether one is given lines, whether few are left, whether it is wanted, and the one that was handed over.
    is_there: bool,
    is_near: bool,
    is_wanted: bool,
    handed: Option<Standby>,
}

impl Core {
    /// Keeps a second program until the core is closed or over.
    pub(super) fn stand_by(&self) {
        while let Some(origin) = self.next_to_follow() {
            let generation = origin.generation;
            let result = Core::begin_standby(origin).and_then(|mut standby| {
                let result = self.keep_up(&mut standby);
                match result {
                    Ok(true) => self.hand(standby),
                    _ => standby.program.kill(),
                }
                result.map(drop)
            });
            let is_same = {
                let mut state = self.lock();
                state.standby.is_there = false;
                state.origin.generation == generation
            };
            self.standby.notify_all();
            // The lines of a log that was exchanged may be gone just while they are read.
            if let (Err(fault), true) = (result, is_same) {
                report!("the second program ended, and another one is started later: {fault}");
                self.rest_unless_compacted(generation);
            }
        }
    }

    fn wait_for<'a>(&'a self, state: MutexGuard<'a, State>, most: Duration) -> MutexGuard<'a, State> {
        self.standby.wait_timeout(state, most).unwrap_or_else(PoisonError::into_inner).0
    }

    /// What a second program is opened from, once one may be. None where nothing is served any more.
    fn next_to_follow(&self) -> Option<Origin> {
        let mut state = self.lock();
        loop {
            if state.phase.is_at_its_end() {
                return None;
            }
            if !state.compaction.is_under_way() && !state.in_flight.is_restarting() {
                return Some(state.origin.clone());
            }
            state = self.wait_for(state, LONG_REST);
        }
    }

    fn rest_unless_compacted(&self, generation: u64) {
        let late = Instant::now() + REST_AFTER_FAULT;
        let mut state = self.lock();
        while !state.phase.is_at_its_end() && state.origin.generation == generation && Instant::now() < late {
            state = self.wait_for(state, LONG_REST);
        }
    }

    fn begin_standby(mut origin: Origin) -> Result<Standby, NotServed> {
        let tail = Tail::open(&origin.log)?;
        let mut program = origin.start()?;
        // It is there once it has answered.
        if let Err(fault) = program.check_answers() {
            program.kill();
            return Err(fault.into());
        }
        Ok(Standby { program, tail, text: Vec::new(), generation: origin.generation })
    }

    /// Gives it the lines that are answered, as they come. Whether it is wanted; else another one is started once there may be
    /// one.
    fn keep_up(&self, standby: &mut Standby) -> Result<bool, NotServed> {
        let mut rest = LONG_REST;
        loop {
            let mut state = self.lock();
            if state.phase.is_at_its_end()
                || state.compaction.is_under_way()
                || state.origin.generation != standby.generation
            {
                return Ok(false);
            }
            if state.standby.is_wanted {
                return Ok(true);
            }
            let answered = state.in_flight.answered;
            let left = answered - standby.tail.count();
            state.standby.is_there = true;
            state.standby.is_near = left <= NEAR;
            if left > NEAR || rest == Duration::ZERO {
                rest = REST;
                drop(state);
                standby.serve(answered.min(standby.tail.count() + AT_ONCE))?;
                continue;
            }
            // What comes meanwhile is given at once.
            drop(self.wait_for(state, rest));
            rest = if left > 0 { Duration::ZERO } else { LONG_REST };
        }
    }

    fn hand(&self, standby: Standby) {
        let mut state = self.lock();
        state.standby.is_wanted = false;
        state.standby.handed = Some(standby);
    }

    /// The second program, once it has served so many lines of this log. None where there is none.
    pub(super) fn taken_from_standby(&self, origin: &Origin, answered: u64) -> Option<Program> {
        let late = Instant::now() + PATIENCE;
        let mut state = self.lock();
        state.standby.is_wanted = state.standby.is_there;
        self.standby.notify_all();
        while state.standby.is_there && state.standby.handed.is_none() && Instant::now() < late {
            state = self.wait_for(state, REST);
        }
        state.standby.is_wanted = false;
        let handed = state.standby.handed.take();
        state.standby.is_there &= handed.is_none();
        drop(state);
        let mut standby = handed?;
        if standby.generation == origin.generation && standby.is_ready(answered) {
            return Some(standby.program);
        }
        standby.program.kill();
        None
    }
}

impl Standby {
    /// Whether it has served the lines up to this one, and is still there: one that has nothing left to serve may have ended.
    fn is_ready(&mut self, number: u64) -> bool {
        self.serve(number).is_ok() && self.program.check_answers().is_ok()
    }

    /// Serves the lines up to this one.
    fn serve(&mut self, number: u64) -> Result<(), NotServed> {
        while self.tail.count() < number {
            let first = self.tail.count() + 1;
            self.tail.next_text(number, &mut self.text)?;
            let numbers = first..self.tail.count() + 1;
            serve_text(&mut self.program, &self.text, numbers, |_| Ok::<(), NotServed>(()))?;
        }
        Ok(())
    }
}

impl State {
    /// Whether there is a second program that is near.
    pub fn has_standby(&self) -> bool {
        self.standby.is_there && self.standby.is_near
    }
}
