//! Which turns a call makes necessary: a ledger of the shards that it may change and of the tasks that it issues.
//!
//! A turn is a line of the log like any other, so none is made for nothing. What a turn found is known by its reply,
//! and decides which turns follow. A sweep of all shards and pairs, once in a while, is a net beneath it.

use crate::call::facts::Facts;
use crate::call::operations::Op;
use crate::call::reply::Reply;
use crate::turns::shards::{Shard, ShardCount};
use std::collections::{BTreeMap, BTreeSet, HashMap};

/// So many dispatch turns of a shard are made at once, at most.
const MOST_AT_ONCE: u32 = 64;
/// Deadlines of these classes close a run.
const CLOSING_CLASSES: [&str; 2] = ["execution_timeout", "run_timeout"];

/// From a shard to another one.
pub type Pair = (Shard, Shard);

/// What a turn does.
#[derive(Clone, Copy, Debug, PartialEq, Eq)]
pub enum Kind {
    /// One of so many dispatch turns of a shard. If the last one finds a task, twice as many follow.
    Dispatch {
        shard: Shard,
        at_once: u32,
        is_last: bool,
    },
    /// Where the end of a run may be told by it, `closing` is its number among such turns, and else 0.
    Transfer {
        pair: Pair,
        closing: u64,
    },
    Timer {
        shard: Shard,
    },
}

/// A turn of the edge's own.
#[derive(Clone, Copy, Debug, PartialEq, Eq)]
pub struct Turn {
    pub kind: Kind,
    /// Whether it is one of a sweep.
    pub is_net: bool,
}

impl From<Kind> for Turn {
    fn from(kind: Kind) -> Turn {
        Turn { kind, is_net: false }
    }
}

impl Turn {
    /// Its operation.
    pub fn op(&self) -> Op {
        match self.kind {
            Kind::Dispatch { .. } => Op::DispatchTurn,
            Kind::Transfer { .. } => Op::TransferTurn,
            Kind::Timer { .. } => Op::TimerTurn,
        }
    }

    /// The beginning of its line.
    pub fn begin(&self) -> Vec<u8> {
        let named = match self.kind {
            Kind::Dispatch { shard, .. } | Kind::Timer { shard } => format!("\"shard\":{shard}"),
            Kind::Transfer { pair: (from, to), .. } => format!("\"from\":{from},\"to\":{to}"),
        };
        format!("{{\"op\":\"{}\",{named}", self.op().name()).into_bytes()
    }
}

/// So many dispatch turns of a shard; if the last one finds a task, twice as many follow.
fn dispatches(shard: Shard, count: u32) -> impl Iterator<Item = Turn> {
    (1..=count).map(move |number| Turn::from(Kind::Dispatch { shard, at_once: count, is_last: number == count }))
}

/// What the calls of one batch make necessary.
#[derive(Default)]
pub struct Needed {
    /// Of each shard how many tasks are issued for certain, and where more may be.
    issued: BTreeMap<Shard, u32>,
    may_issue: BTreeSet<Shard>,
    /// Pairs of shards between which something was sent, and shards on which a run may have closed.
    pairs: BTreeSet<Pair>,
    closing: BTreeSet<Shard>,
}

/// The turns that are necessary, by what was asked and what was answered.
pub struct Ledger {
    shards: ShardCount,
    /// Shards whose next task has no room in its queue.
    full: BTreeSet<Shard>,
    /// Between which shards a transfer was ever accepted, both ways: a parent and its child are among these.
    partners: HashMap<Shard, BTreeSet<Shard>>,
    /// Pairs over which the end of a run may be told, until the last turn that was made for it finds nothing.
    closing: HashMap<Pair, u64>,
    closings: u64,
    /// How often a turn of a sweep found something.
    missed: u64,
}

impl Ledger {
    pub fn new(shards: ShardCount) -> Ledger {
        let (partners, closing) = (HashMap::new(), HashMap::new());
        Ledger { shards, full: BTreeSet::new(), partners, closing, closings: 0, missed: 0 }
    }

    pub fn shards(&self) -> ShardCount {
        self.shards
    }

    /// How often a turn of a sweep found what no call had told of.
    pub fn missed(&self) -> u64 {
        self.missed
    }

    /// Whether a task has no room in its queue.
    pub fn is_full(&self) -> bool {
        !self.full.is_empty()
    }

    /// Adds what a call makes necessary.
    pub fn note(&self, facts: &Facts, needed: &mut Needed) {
        let shard = match facts.shard {
            Some(shard) if facts.op.may_issue() => shard,
            _ => return,
        };
        if facts.issues > 0 {
            *needed.issued.entry(shard).or_default() += facts.issues;
        }
        if facts.may_issue {
            needed.may_issue.insert(shard);
        }
        if facts.closes {
            needed.closing.insert(shard);
        }
        needed.pairs.extend(facts.sends.iter().map(|to| (shard, *to)));
    }

    /// The turns that a batch of calls makes necessary.
    pub fn turns(&mut self, needed: &Needed) -> Vec<Turn> {
        let mut found: Vec<Turn> = needed.pairs.iter().map(|pair| self.transfer(*pair, false)).collect();
        for shard in &needed.closing {
            self.add_told_of(*shard, &mut found);
        }
        for (shard, count) in &needed.issued {
            let one = Turn::from(Kind::Dispatch { shard: *shard, at_once: 1, is_last: false });
            found.extend((0..*count).map(|_| one));
        }
        found.extend(needed.may_issue.iter().flat_map(|shard| dispatches(*shard, 1)));
        found
    }

    fn transfer(&mut self, pair: Pair, is_closing: bool) -> Turn {
        let mut number = 0;
        if is_closing {
            self.closings += 1;
            number = self.closings;
            self.closing.insert(pair, number);
        }
        Turn::from(Kind::Transfer { pair, closing: number })
    }

    /// The turns to all shards that may have a parent or a child of a run of this one, which may have closed.
    fn add_told_of(&mut self, shard: Shard, found: &mut Vec<Turn>) {
        let others: Vec<Shard> = self.partners.get(&shard).into_iter().flatten().copied().collect();
        for other in others {
            found.push(self.transfer((shard, other), true));
        }
    }

    /// The turns that follow by what a turn of the edge's own came to.
    pub fn follow(&mut self, turn: &Turn, reply: &Reply<'_>) -> Vec<Turn> {
        let found = match turn.kind {
            Kind::Dispatch { shard, at_once, is_last } => {
                self.note_dispatch(shard, reply);
                let more = if is_last && has_found(reply) { (2 * at_once).min(MOST_AT_ONCE) } else { 0 };
                dispatches(shard, more).collect()
            }
            Kind::Transfer { pair, closing } => self.after_transfer(pair, closing, reply),
            Kind::Timer { shard } => self.after_timer(shard, reply),
        };
        if turn.is_net && has_found(reply) {
            self.missed += 1;
        }
        found
    }

    /// The turns that follow by what a client's turn came to.
    pub fn follow_clients(&mut self, facts: &Facts, reply: &Reply<'_>) -> Vec<Turn> {
        match (facts.op, facts.turn) {
            (Op::DispatchTurn, Some((shard, _))) => {
                self.note_dispatch(shard, reply);
                Vec::new()
            }
            (Op::TransferTurn, Some(pair)) => self.after_transfer(pair, 0, reply),
            (Op::TimerTurn, Some((shard, _))) => self.after_timer(shard, reply),
            _ => Vec::new(),
        }
    }

    fn note_dispatch(&mut self, shard: Shard, reply: &Reply<'_>) {
        if reply.error.as_deref() == Some("QueueFull") {
            self.full.insert(shard);
        } else if reply.ok.is_some() {
            self.full.remove(&shard);
        }
    }

    fn after_transfer(&mut self, pair: Pair, closing: u64, reply: &Reply<'_>) -> Vec<Turn> {
        if !reply.is("accepted") && !reply.is("already") {
            if reply.is("none") && closing > 0 && self.closing.get(&pair) == Some(&closing) {
                self.closing.remove(&pair);
            }
            return Vec::new();
        }
        let (from, to) = pair;
        self.met(pair);
        let mut found = Vec::new();
        // What is told here of the end of a run may end others.
        let is_closing = self.closing.contains_key(&pair);
        if is_closing {
            self.add_told_of(to, &mut found);
        }
        found.push(self.transfer(pair, is_closing));
        let is_back_closing = self.closing.contains_key(&(to, from));
        found.push(self.transfer((to, from), is_back_closing));
        found.extend(dispatches(to, 1));
        found
    }

    fn after_timer(&mut self, shard: Shard, reply: &Reply<'_>) -> Vec<Turn> {
        if !reply.is("fired") {
            return Vec::new();
        }
        let mut found = vec![Turn::from(Kind::Timer { shard })];
        found.extend(dispatches(shard, 1));
        if reply.class.as_deref().map_or(false, |class| CLOSING_CLASSES.contains(&class)) {
            self.add_told_of(shard, &mut found);
        }
        found
    }

    /// Notes that a transfer was accepted between these shards.
    pub fn met(&mut self, (from, to): Pair) {
        self.partners.entry(from).or_default().insert(to);
        self.partners.entry(to).or_default().insert(from);
    }

    /// Notes what a line of a log came to that is opened.
    pub fn observe(&mut self, facts: &Facts, reply: &Reply<'_>) {
        if let (Op::TransferTurn, Some(pair), true) = (facts.op, facts.turn, reply.is("accepted")) {
            self.met(pair);
        }
    }

    /// The turns that follow where something was taken out of a queue, and tasks wait outside of it.
    pub fn made_room(&self) -> Vec<Turn> {
        self.full.iter().flat_map(|shard| dispatches(*shard, 1)).collect()
    }

    /// A timer turn of each of these shards.
    pub fn timers(shards: impl IntoIterator<Item = Shard>) -> Vec<Turn> {
        shards.into_iter().map(|shard| Turn::from(Kind::Timer { shard })).collect()
    }

    /// A transfer turn of each pair of shards, and a dispatch turn of each shard.
    pub fn sweep(&mut self) -> Vec<Turn> {
        let every = self.shards.all();
        let pairs = every.clone().flat_map(|from| self.shards.all().map(move |to| (from, to)));
        let mut found: Vec<Turn> = pairs.map(|pair| Turn::from(Kind::Transfer { pair, closing: 0 })).collect();
        found.extend(every.flat_map(|shard| dispatches(shard, 1)));
        for turn in &mut found {
            turn.is_net = true;
        }
        found
    }
}

/// Whether a turn found something to do. A refusal, as of a full queue, is nothing.
fn has_found(reply: &Reply<'_>) -> bool {
    reply.ok.is_some() && !reply.is("none")
}

#[cfg(test)]
mod tests {
    use super::*;
    use crate::turns::shards::shards;

    fn reply(text: &str) -> Reply<'_> {
        Reply::parse(text.as_bytes()).unwrap()
    }

    fn call(op: Op, shard: Shard) -> Facts {
        let mut facts = Facts::unknown();
        facts.op = op;
        facts.shard = Some(shard);
        facts.may_issue = true;
        facts
    }

    fn kinds(turns: &[Turn]) -> Vec<String> {
        let text = |turn: &Turn| String::from_utf8(turn.begin()).unwrap().replace("{\"op\":", "").replace('"', "");
        turns.iter().map(text).collect()
    }

    #[test]
    fn a_batch_needs_one_turn_for_each_task_and_one_for_what_may_be_there() {
        let (mut ledger, mut needed) = (Ledger::new(shards(4)), Needed::default());
        let start = Facts { issues: 1, may_issue: false, ..call(Op::Start, 1) };
        ledger.note(&start, &mut needed);
        ledger.note(&start, &mut needed);
        for _ in 0..3 {
            ledger.note(&call(Op::Signal, 2), &mut needed);
        }
        ledger.note(&Facts { sends: vec![3, 3], ..call(Op::CompleteWorkflowTask, 0) }, &mut needed);
        assert_eq!(
            kinds(&ledger.turns(&needed)),
            [
                "transfer_turn,from:0,to:3",
                "dispatch_turn,shard:1",
                "dispatch_turn,shard:1",
                "dispatch_turn,shard:0",
                "dispatch_turn,shard:2"
            ]
        );
    }

    #[test]
    fn dispatches_double_while_the_last_one_finds_something() {
        let mut ledger = Ledger::new(shards(1));
        let mut turns: Vec<Turn> = dispatches(0, 1).collect();
        let mut counts = Vec::new();
        for _ in 0..8 {
            turns = ledger.follow(turns.last().unwrap(), &reply(r#"{"ok":"dispatched"}"#));
            counts.push(turns.len());
        }
        assert_eq!(counts, [2, 4, 8, 16, 32, 64, 64, 64]);
        assert!(ledger.follow(&turns[0], &reply(r#"{"ok":"dispatched"}"#)).is_empty());
        assert!(ledger.follow(turns.last().unwrap(), &reply(r#"{"ok":"none"}"#)).is_empty());
    }

    #[test]
    fn a_full_queue_is_remembered_until_a_turn_finds_room() {
        let mut ledger = Ledger::new(shards(1));
        let turn = dispatches(0, 1).next().unwrap();
        assert!(ledger.follow(&turn, &reply(r#"{"error":"QueueFull","code":9}"#)).is_empty());
        assert!(ledger.is_full());
        assert_eq!(kinds(&ledger.made_room()), ["dispatch_turn,shard:0"]);
        ledger.follow(&turn, &reply(r#"{"ok":"none"}"#));
        assert!(!ledger.is_full() && ledger.made_room().is_empty());
    }

    #[test]
    fn an_accepted_transfer_is_followed_both_ways_and_by_a_dispatch() {
        let mut ledger = Ledger::new(shards(4));
        let turn = ledger.transfer((1, 2), false);
        let found = ledger.follow(&turn, &reply(r#"{"ok":"accepted"}"#));
        assert_eq!(kinds(&found), ["transfer_turn,from:1,to:2", "transfer_turn,from:2,to:1", "dispatch_turn,shard:2"]);
        assert!(ledger.follow(&found[0], &reply(r#"{"ok":"none"}"#)).is_empty());
    }

    #[test]
    fn the_end_of_a_run_is_told_to_shards_that_it_ever_met() {
        let mut ledger = Ledger::new(shards(4));
        let facts = Facts { turn: Some((0, 2)), ..Facts::unknown() };
        ledger.observe(&Facts { op: Op::TransferTurn, ..facts }, &reply(r#"{"ok":"accepted"}"#));
        let mut needed = Needed::default();
        ledger.note(&Facts { closes: true, ..call(Op::Terminate, 2) }, &mut needed);
        let turns = ledger.turns(&needed);
        assert_eq!(kinds(&turns), ["transfer_turn,from:2,to:0", "dispatch_turn,shard:2"]);
        assert_eq!(ledger.closing.len(), 1);
        let found = ledger.follow(&turns[0], &reply(r#"{"ok":"accepted"}"#));
        assert_eq!(
            kinds(&found),
            [
                "transfer_turn,from:0,to:2",
                "transfer_turn,from:2,to:0",
                "transfer_turn,from:0,to:2",
                "dispatch_turn,shard:0"
            ]
        );
        for turn in &found {
            ledger.follow(turn, &reply(r#"{"ok":"none"}"#));
        }
        assert!(ledger.closing.is_empty());
    }

    #[test]
    fn a_timer_that_fired_is_followed_by_the_next_one() {
        let mut ledger = Ledger::new(shards(2));
        let turn = Ledger::timers([1])[0];
        let found = ledger.follow(&turn, &reply(r#"{"ok":"fired","class":"timer"}"#));
        assert_eq!(kinds(&found), ["timer_turn,shard:1", "dispatch_turn,shard:1"]);
        assert!(ledger.follow(&turn, &reply(r#"{"ok":"none"}"#)).is_empty());
    }

    #[test]
    fn a_sweep_has_all_pairs_and_counts_what_it_finds() {
        let mut ledger = Ledger::new(shards(3));
        let turns = ledger.sweep();
        assert_eq!(turns.len(), 12);
        for turn in &turns {
            ledger.follow(turn, &reply(r#"{"ok":"none"}"#));
        }
        assert_eq!(ledger.missed(), 0);
        ledger.follow(&turns[0], &reply(r#"{"ok":"accepted"}"#));
        assert_eq!(ledger.missed(), 1);
    }
}
