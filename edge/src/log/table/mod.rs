//! A log in a table of a database, as an edge uses it. A client of the database implements it (`postgres/` has one).
//!
//! The table has batches of lines, numbered from 1; the first one is the log's header. Any number of edges follow it,
//! each of which gives the batches to its own program, and one of them leads: it alone adds batches. A leader has an
//! *epoch*, which is raised by who takes over; a batch of an earlier epoch is refused. That is the fence. What makes a
//! takeover quick, a lock and a time for which a leader may be silent, decides nothing.
//!
//! A compaction puts snapshots of the shards into the database, in pieces, and adds a batch that is the header of the log
//! from then on: its *generation* says how often the log was compacted. Batches go on while the snapshots are made, so
//! the first piece names their *base*: the batches behind it, up to the header, are lines of the new generation too. Every
//! edge exchanges its program at the header for one that is opened from the snapshots and has served the lines since the
//! base, so all of them serve the same.
//!
//! `log` is such a log, `records` what it goes on from, and `tail` reads its lines for who follows. No SQL is here.

pub(crate) mod log;
#[cfg(test)]
pub(crate) mod memory;
pub(crate) mod records;
pub(crate) mod tail;

use crate::log::blobs::Store;
use crate::log::fault::LogFault;
use std::sync::Arc;

/// Some lines of the table, with a line's end between two of them.
#[derive(Clone, Debug, PartialEq, Eq)]
pub struct Batch {
    pub number: u64,
    pub lines: Vec<u8>,
    /// How often the log was compacted, where it goes on from this batch, its header; 0 of any other batch.
    pub generation: u64,
}

/// Where a log goes on from: how often it was compacted, and the number of the batch that is its header since.
#[derive(Clone, Copy, Debug, PartialEq, Eq)]
pub struct Start {
    pub generation: u64,
    pub number: u64,
}

impl Default for Start {
    /// Of a log that was never compacted.
    fn default() -> Start {
        Start { generation: 0, number: 1 }
    }
}

/// A piece of what a log goes on from: some bytes of a file of this name, behind those of the pieces before.
#[derive(Clone, Debug, PartialEq, Eq)]
pub struct Piece {
    pub name: String,
    pub data: Vec<u8>,
}

/// What a compaction puts into a table, piece by piece.
pub type Pieces<'a> = &'a mut dyn Iterator<Item = Result<Piece, LogFault>>;

/// Where the next piece of a compaction goes: the epoch of who puts it, the generation that it is of, and its number.
#[derive(Clone, Copy, Debug, PartialEq, Eq)]
pub struct PiecePlace {
    pub epoch: u64,
    pub generation: u64,
    pub number: u64,
}

/// A table, by a connection of its own.
pub trait Table: Send {
    /// Begins the log with its header, where it has none: another one may have done that meanwhile.
    fn begin(&mut self, header: &[u8]) -> Result<(), LogFault>;

    /// So many batches at most that follow the one of this number. None are left where there are none.
    fn read(&mut self, after: u64, most: u32) -> Result<Vec<Batch>, LogFault>;

    /// Tells who watches that this edge follows, and has served up to this batch.
    fn tell(&mut self, number: u64) -> Result<(), LogFault>;

    /// Leads from now on, where no other one does that is heard. Whether it does.
    fn try_lead(&mut self) -> Result<bool, LogFault>;

    /// The epoch under which this edge leads; 0 where it never did.
    fn epoch(&self) -> u64;

    /// Adds a batch under the epoch of this edge. It is kept once this has returned, by all that the database keeps it on.
    fn append(&mut self, batch: &Batch) -> Result<(), LogFault>;

    /// Refuses where another one leads: then what is read here may be old.
    fn confirm(&mut self) -> Result<(), LogFault>;

    /// Where the log goes on from.
    fn start(&mut self) -> Result<Start, LogFault>;

    /// A piece of what the log of this generation goes on from, numbered from 1. None behind the last one.
    fn piece(&mut self, generation: u64, number: u64) -> Result<Option<Piece>, LogFault>;

    /// Puts pieces there from this place on; before the first one it deletes what an earlier try left. They count for nothing
    /// until the log goes on from them, so any connection may put them. The number of the next one.
    fn put(&mut self, from: PiecePlace, pieces: Pieces<'_>) -> Result<u64, LogFault>;

    /// Has the log go on from the pieces of its generation, under the epoch of this edge, with this batch as its header:
    /// from those that were put, and this one of a number that was left for it. NotCompacted where nothing was changed; after
    /// any other fault it isn't known.
    fn compact(&mut self, header: &Batch, number: u64, piece: &Piece) -> Result<(), LogFault>;

    /// Has what is older than the generation before deleted meanwhile, and what a compaction left that was not ended.
    fn forget(&mut self);
}

/// How a table is connected to: by the address of a database, and how many milliseconds a leader may be silent.
pub type OpenTable = fn(&str, u64) -> Result<Box<dyn Table>, LogFault>;

/// How the blobs of a database are connected to: by its address.
pub type OpenBlobs = fn(&str) -> Box<dyn Store>;

/// A client of a database.
#[derive(Clone, Copy)]
pub struct Client {
    pub table: OpenTable,
    pub blobs: OpenBlobs,
}

/// Connects to a table, as often as it is wanted.
#[derive(Clone)]
pub struct Connect {
    /// The address as it may be shown.
    pub shown: String,
    open: Arc<dyn Fn() -> Result<Box<dyn Table>, LogFault> + Send + Sync>,
}

impl std::fmt::Debug for Connect {
    fn fmt(&self, out: &mut std::fmt::Formatter<'_>) -> std::fmt::Result {
        out.write_str(&self.shown)
    }
}

impl Connect {
    /// To the table at this address.
    pub fn new(open: OpenTable, address: &str, silence: u64) -> Connect {
        let own = address.to_string();
        Connect::by(shown(address), move || open(&own, silence))
    }

    /// By what connects, to a table that is shown so.
    pub fn by(shown: String, open: impl Fn() -> Result<Box<dyn Table>, LogFault> + Send + Sync + 'static) -> Connect {
        Connect { shown, open: Arc::new(open) }
    }

    /// A new connection.
    pub fn table(&self) -> Result<Box<dyn Table>, LogFault> {
        (self.open)()
    }
}

/// Whether a log's name is the address of a database.
pub fn is_address(log: &str) -> bool {
    log.starts_with("postgres://") || log.starts_with("postgresql://")
}

/// An address without its password and its options.
fn shown(address: &str) -> String {
    let address = address.split('?').next().unwrap_or_default();
    match (address.split_once("://"), address.rsplit_once('@')) {
        (Some((kind, rest)), Some((_, place))) => {
            let user = rest.split([':', '@']).next().unwrap_or_default();
            format!("{kind}://{user}@{place}")
        }
        _ => address.to_string(),
    }
}

#[cfg(test)]
mod tests {
    use super::*;

    #[test]
    fn an_address_is_shown_without_its_password() {
        for (address, wanted) in [
            ("postgres://me:secret@db:5432/orders?sslmode=x", "postgres://me@db:5432/orders"),
            ("postgres://me:s@cret@db/orders", "postgres://me@db/orders"),
            ("postgresql://db/orders", "postgresql://db/orders"),
        ] {
            assert_eq!(shown(address), wanted);
            assert!(is_address(address));
        }
        assert!(!is_address("orders.log"));
    }
}
