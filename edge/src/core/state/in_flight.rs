//! What is on its way: calls that the program has, and replies that wait for a sync.

use super::answers::Answered;
use super::State;
use crate::call::Call;
use crate::core::endings::Endings;
use crate::os::program::Program;
use std::collections::VecDeque;

/// Who serves what is on its way.
#[derive(Clone, Copy, PartialEq, Eq)]
enum Server {
    Program,
    /// The program has ended, and is started again.
    Restarting,
}

/// What is on its way.
pub struct InFlight {
    /// Calls that the program has, and those that wait for a sync.
    pub sent: VecDeque<Call>,
    pub unsynced: VecDeque<Answered>,
    /// The number of the last line that was answered, and of the last one that a sync covers.
    pub answered: u64,
    pub synced: u64,
    /// Whether the reader has taken calls off `sent` and not gone through them.
    is_taking: bool,
    server: Server,
    pub pid: u32,
    /// Which of the programs that were started is fed, and the one that takes its place once it has ended.
    pub generation: u64,
    pub next_program: Option<Program>,
    /// How programs ended since something was answered.
    pub endings: Endings,
}

impl InFlight {
    /// Nothing, behind so many lines, by the program of this process.
    pub fn new(lines: u64, pid: u32) -> InFlight {
        InFlight {
            sent: VecDeque::new(),
            unsynced: VecDeque::new(),
            answered: lines,
            synced: lines,
            is_taking: false,
            server: Server::Program,
            pid,
            generation: 0,
            next_program: None,
            endings: Endings::default(),
        }
    }

    /// Whether the program has answered all that it was given, and is there.
    pub fn is_settled(&self) -> bool {
        self.sent.is_empty() && !self.is_taking && !self.is_restarting()
    }

    /// Whether the program is started again.
    pub fn is_restarting(&self) -> bool {
        self.server == Server::Restarting
    }

    /// From now on the program is started again.
    pub fn restart(&mut self) {
        self.server = Server::Restarting;
    }

    /// The program that was started again is fed.
    pub fn go_on(&mut self) {
        self.server = Server::Program;
    }

    /// Another program is fed from now on. Which one of those that were started it is.
    pub fn feed(&mut self, pid: u32) -> u64 {
        self.generation += 1;
        self.pid = pid;
        self.generation
    }

    /// Takes so many calls off those that the program has.
    pub fn take(&mut self, most: usize) -> VecDeque<Call> {
        self.is_taking = true;
        let count = most.min(self.sent.len());
        self.sent.drain(..count).collect()
    }

    /// Puts calls back that were not answered.
    pub fn give_back(&mut self, calls: impl DoubleEndedIterator<Item = Call>) {
        for call in calls.rev() {
            self.sent.push_front(call);
        }
    }

    /// All calls that were taken were gone through, or given back.
    pub fn end_taking(&mut self) {
        self.is_taking = false;
    }
}

impl State {
    /// Whether nothing is on its way from the sequencer to the program and back.
    pub fn is_quiet(&self) -> bool {
        self.is_idle && self.in_flight.is_settled()
    }

    /// What the program was asked, which has ended, where another one takes its place.
    pub fn starts_again(&mut self) -> Option<String> {
        let is_done = self.phase.is_closing() && self.admission.count() == 0;
        let InFlight { sent, endings, .. } = &mut self.in_flight;
        if self.log.is_broken || is_done || !endings.go_on(!sent.is_empty()) {
            return None;
        }
        self.metrics.restarts += 1;
        Some(sent.front().map_or_else(String::new, |call| format!(" ({})", call.named())))
    }
}
