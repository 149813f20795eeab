//! Opens a service, and learns from its log what an edge has to know.

use crate::call::body::facts_of_line;
use crate::call::changes::Changes;
use crate::call::replies::Replies;
use crate::call::reply::Reply;
use crate::log::compaction::Beside;
use crate::log::kept::{self, Kept, NotServed, Observe};
use crate::log::table;
use crate::log::table::Connect;
use crate::settings::{Named, Settings};
use crate::turns::deadlines::Deadlines;
use crate::turns::ledger::{Ledger, Pair};
use crate::turns::shards::ShardCount;

/// A service that was opened, and all that was learned of its log.
pub struct Opened {
    pub kept: Kept,
    pub observed: Observed,
}

/// What is learned of the lines of a log, and of their replies.
pub struct Observed {
    pub ledger: Ledger,
    pub deadlines: Deadlines,
    pub replies: Replies,
    /// What a page has to be told, where there is one.
    pub changes: Option<Changes>,
    pub last_moment: u64,
}

impl Observed {
    fn new(shards: ShardCount, has_page: bool) -> Observed {
        Observed {
            ledger: Ledger::new(shards),
            deadlines: Deadlines::default(),
            replies: Replies::default(),
            changes: has_page.then(Changes::default),
            last_moment: 0,
        }
    }
}

impl Observe for Observed {
    fn line(&mut self, line: &[u8], reply: &[u8]) {
        let (facts, at) = facts_of_line(line, self.ledger.shards());
        self.last_moment = self.last_moment.max(at.unwrap_or(0));
        if facts.op.is_read() {
            return;
        }
        if let Some(said) = Reply::parse(reply) {
            self.ledger.observe(&facts, &said);
            self.deadlines.observe(&facts, at.unwrap_or(0), &said);
            self.replies.replayed(facts.op, line, &said, reply);
            if let Some(changes) = &mut self.changes {
                changes.observe(&facts, line, at.unwrap_or(0), &said);
            }
        }
    }

    fn beside(&mut self, beside: &Beside) -> bool {
        if let Some(changes) = &mut self.changes {
            changes.take_attempts(&beside.attempts);
        }
        self.replies.take_text(&beside.replies).is_some()
    }

    fn pairs(&mut self, pairs: &[Pair]) {
        pairs.iter().for_each(|pair| self.ledger.met(*pair));
    }

    fn kept_beside(&self) -> Beside {
        let attempts = self.changes.as_ref().map_or_else(Vec::new, Changes::attempts_text);
        Beside { replies: self.replies.text(), attempts }
    }
}

impl Opened {
    /// Opens the service of a log in a file.
    pub fn from_file(program: &str, log: &str, named: &Named, has_page: bool) -> Result<Opened, NotServed> {
        let (kept, observed) = kept::open(program, log, named, observed(has_page))?;
        Ok(Opened { kept, observed })
    }

    /// Follows the log of a table, and opens its service once this edge leads.
    pub fn from_table(program: &str, connect: &Connect, named: &Named, has_page: bool) -> Result<Opened, NotServed> {
        let (kept, observed) = table::log::open(program, connect, named, observed(has_page))?;
        Ok(Opened { kept, observed })
    }

    /// The last moment that the log and its records have.
    pub fn last_moment(&self) -> u64 {
        self.observed.last_moment.max(self.kept.last_moment)
    }
}

/// What learns of a log that has these settings.
fn observed(has_page: bool) -> impl FnOnce(&Settings) -> Observed {
    move |settings| Observed::new(settings.shards, has_page)
}
