//! What the threads of a core note, hold back and wait for while a log is compacted.

use crate::call::operations::Op;
use crate::call::Call;
use crate::turns::ledger::Turn;
use std::collections::hash_map::DefaultHasher;
use std::collections::VecDeque;
use std::hash::Hasher;
use std::time::{Duration, Instant};

/// So long batches wait for a program beside that comes no nearer.
pub const MOST_HELD: Duration = Duration::from_secs(1);

/// What the threads of a core note and leave while a log is compacted.
#[derive(Default)]
pub struct Window {
    /// The marks of the replies to the lines behind this one, up to which the snapshots go.
    marks: Option<VecDeque<u64>>,
    marks_from: u64,
    /// Whether polls and dispatch turns are held back, and behind which line none was made.
    is_holding: bool,
    holds_from: Option<u64>,
    held: Vec<Call>,
    held_turns: Vec<Turn>,
    /// How many lines the program beside has served, and by how many the other one may be ahead of it.
    behind: u64,
    most_ahead: Option<u64>,
    /// Since when batches wait and it has served nothing, and whether that was too long: then the compaction is given up.
    held_since: Option<Instant>,
    is_given_up: bool,
}

/// The mark of a reply.
pub fn mark_of(reply: &[u8]) -> u64 {
    let mut hasher = DefaultHasher::new();
    hasher.write(reply);
    hasher.finish()
}

fn is_by_queues(op: Op) -> bool {
    op.is_poll() || op == Op::DispatchTurn
}

impl Window {
    /// Has polls and dispatch turns held back from now on, or not.
    pub fn begin_to_hold(&mut self, is_holding: bool) {
        self.is_holding = is_holding;
    }

    /// Whether no poll and no dispatch turn is on its way any more, once so many lines are answered.
    pub fn has_held(&self, answered: u64) -> bool {
        self.holds_from.map_or(false, |line| answered >= line)
    }

    /// Notes replies to the lines behind this one, up to which the snapshots go.
    pub fn begin_to_note(&mut self, line: u64) {
        self.marks = Some(VecDeque::new());
        self.marks_from = line;
    }

    /// The marks of so many replies, the first ones that were not taken.
    pub fn take_marks(&mut self, count: usize) -> VecDeque<u64> {
        let marks = self.marks.get_or_insert_with(VecDeque::new);
        let count = count.min(marks.len());
        marks.drain(..count).collect()
    }

    /// Whether batches waited for the program beside for too long.
    pub fn is_given_up(&self) -> bool {
        self.is_given_up
    }

    /// Notes the reply to the line of this number.
    pub fn note(&mut self, number: u64, reply: &[u8]) {
        match &mut self.marks {
            Some(marks) if number > self.marks_from => marks.push_back(mark_of(reply)),
            _ => {}
        }
    }

    /// Whether batches have to wait for the program beside. The log has so many lines.
    pub fn is_far_ahead(&self, lines: u64) -> bool {
        self.most_ahead.map_or(false, |most| lines > self.behind + most)
    }

    /// For how long batches may still wait for the program beside. Once it comes no nearer in that time, none waits for it
    /// any more. None where none waits.
    pub fn left_of_wait(&mut self, lines: u64, now: Instant) -> Option<Duration> {
        if !self.is_far_ahead(lines) {
            self.held_since = None;
            return None;
        }
        let left = MOST_HELD.saturating_sub(now - *self.held_since.get_or_insert(now));
        if left.is_zero() {
            self.most_ahead = None;
            self.is_given_up = true;
        }
        Some(left)
    }

    /// From now on batches wait that are by so many lines ahead of the program beside.
    pub fn have_wait(&mut self, most_ahead: u64) {
        self.most_ahead = Some(most_ahead);
        self.held_since = None;
    }

    /// The program beside has served so many lines.
    pub fn come_nearer(&mut self, lines: u64) {
        self.behind = lines;
        self.held_since = None;
    }

    /// Takes what is held back out of what waits for a batch that begins behind this line.
    pub fn hold(&mut self, asked: &mut VecDeque<Call>, own: &mut Vec<Turn>, line: u64) {
        if !self.is_holding {
            return;
        }
        self.holds_from.get_or_insert(line);
        self.hold_turns(own);
        if asked.iter().any(|call| is_by_queues(call.op())) {
            let (held, left): (Vec<Call>, Vec<Call>) = asked.drain(..).partition(|call| is_by_queues(call.op()));
            self.held.extend(held);
            asked.extend(left);
        }
    }

    /// Takes turns that are held back out of these.
    pub fn hold_turns(&mut self, turns: &mut Vec<Turn>) {
        if self.is_holding {
            self.held_turns.extend(turns.iter().filter(|turn| is_by_queues(turn.op())));
            turns.retain(|turn| !is_by_queues(turn.op()));
        }
    }

    /// The calls that were held back, which are asked no more.
    pub fn take_held(&mut self) -> Vec<Call> {
        std::mem::take(&mut self.held)
    }

    /// Ends it. The calls and the turns that were held back.
    pub fn end(&mut self) -> (Vec<Call>, Vec<Turn>) {
        let Window { held, held_turns, .. } = std::mem::take(self);
        (held, held_turns)
    }
}
