//! What keeps the calls: a file of lines, or a table of a database.
//!
//! Both are written before the program reads the lines. A file is synced while the program works; what a table has
//! taken is kept by then. A file is one edge's; of a table another edge may have become the leader, so an answer that
//! no line covers is given only once the table has confirmed that this edge leads.
//!
//! Here are also the ways to open a log (`kept`, `opening`), to follow one, and to compact one, with what it goes on from
//! (`generation`), and the texts that are too long for a history (`blobs`). What a line says to the service is not known here, but
//! for its moment and what `opening` learns of it. Who waits for a line is known in `core` alone.

pub mod blobs;
pub(crate) mod compaction;
pub mod fault;
pub(crate) mod file;
pub(crate) mod following;
pub(crate) mod generation;
pub(crate) mod kept;
pub(crate) mod opening;
pub(crate) mod successor;
pub mod table;

use crate::log::fault::LogFault;
use crate::log::kept::Origin;
use crate::log::successor::{Successor, Tail};

/// An open log. It keeps lines in the order in which they are written, behind a header.
pub trait Log: Send {
    /// How many lines it has, with its header.
    fn lines(&self) -> u64;

    /// How many bytes it has.
    fn bytes(&self) -> u64;

    /// How many batches a table has had; 0 of a file.
    fn batches(&self) -> u64 {
        0
    }

    /// Whether a fault left it unknown what is kept, so that nothing more is written.
    fn is_broken(&self) -> bool;

    /// Whether there was no room for the last lines.
    fn is_full(&self) -> bool {
        false
    }

    /// Writes lines, which count once `sync` has returned. All are written, or none.
    fn write(&mut self, lines: &mut dyn Iterator<Item = &[u8]>) -> Result<(), LogFault>;

    /// Has what was written kept.
    fn sync(&mut self) -> Result<(), LogFault> {
        Ok(())
    }

    /// Refuses where another edge has become the leader.
    fn confirm(&mut self) -> Result<(), LogFault> {
        Ok(())
    }

    /// The next lines of a tail of this log, up to the one of this number, while no line is written.
    fn next_of(&mut self, tail: &mut Tail, number: u64) -> Result<Vec<Vec<u8>>, LogFault> {
        tail.next(number)
    }

    /// Has a successor take its place, which was given all lines that this log has, with these replies by keys besides.
    fn give_way(&mut self, successor: Successor, next: &mut Origin, replies: &[u8]) -> Result<(), LogFault>;

    /// How it is now.
    fn state(&self) -> LogState {
        let (lines, bytes, batches) = (self.lines().saturating_sub(1), self.bytes(), self.batches());
        LogState { lines, bytes, batches, is_full: self.is_full(), is_broken: self.is_broken() }
    }
}

/// How a log was when it was looked at. Its lines are counted without the header.
#[derive(Clone, Copy, Default)]
pub struct LogState {
    pub lines: u64,
    pub bytes: u64,
    pub batches: u64,
    pub is_full: bool,
    pub is_broken: bool,
}
