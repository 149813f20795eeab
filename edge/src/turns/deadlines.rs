//! Moments at which something may be due on a shard, as far as lines and replies tell.

use crate::call::facts::Facts;
use crate::call::reply::Reply;
use crate::turns::shards::Shard;
use std::cmp::Reverse;
use std::collections::{BTreeSet, BinaryHeap};

/// The first of these is the next one.
#[derive(Default)]
pub struct Deadlines {
    moments: BinaryHeap<Reverse<(u64, Shard)>>,
}

impl Deadlines {
    /// Notes what a call that was made at a moment, and its reply, say. True where something is due sooner than all
    /// else.
    pub fn observe(&mut self, facts: &Facts, at: u64, reply: &Reply<'_>) -> bool {
        let shard = match facts.shard {
            Some(shard) if reply.error.is_none() => shard,
            _ => return false,
        };
        let due = facts.durations.iter().map(|duration| at.saturating_add(*duration));
        let mut is_sooner = false;
        for moment in due.chain(reply.ready) {
            is_sooner |= self.moments.peek().map_or(true, |first| moment < first.0 .0);
            self.moments.push(Reverse((moment, shard)));
        }
        is_sooner
    }

    /// The moment at which something may be due next.
    pub fn next(&self) -> Option<u64> {
        self.moments.peek().map(|first| first.0 .0)
    }

    /// The shards on which something may be due by now. It is forgotten.
    pub fn pass_by(&mut self, now: u64) -> BTreeSet<Shard> {
        let mut shards = BTreeSet::new();
        while self.next().map_or(false, |moment| moment <= now) {
            shards.extend(self.moments.pop().map(|first| first.0 .1));
        }
        shards
    }
}

#[cfg(test)]
mod tests {
    use super::*;

    #[test]
    fn deadlines_are_found_in_the_order_of_their_moments() {
        let mut deadlines = Deadlines::default();
        let ok = Reply::parse(br#"{"ok":"started"}"#).unwrap();
        let facts = Facts { shard: Some(1), durations: vec![50, 7], ..Facts::unknown() };
        assert!(deadlines.observe(&facts, 1_000, &ok));
        let later = Facts { shard: Some(2), durations: vec![], ..Facts::unknown() };
        assert!(!deadlines.observe(&later, 1_000, &Reply::parse(br#"{"ok":"completed","ready":1020}"#).unwrap()));
        assert!(!deadlines.observe(&facts, 0, &Reply::parse(br#"{"error":"NotFound"}"#).unwrap()));
        assert_eq!(deadlines.next(), Some(1_007));
        assert!(deadlines.pass_by(1_006).is_empty());
        assert_eq!(deadlines.pass_by(1_020).into_iter().collect::<Vec<_>>(), [1, 2]);
        assert_eq!((deadlines.next(), deadlines.pass_by(u64::MAX).len(), deadlines.next()), (Some(1_050), 1, None));
    }
}
