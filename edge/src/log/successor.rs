//! What a log that is compacted while it is served is read by, and what takes its place.

use crate::log::compaction::{keep_log, write_beside};
use crate::log::fault::LogFault;
use crate::log::file::LineLog;
use crate::log::following;
use crate::log::kept::Origin;
use crate::log::table::log::Place;
use crate::log::table::records::Upload;
use crate::log::table::tail::TableTail;
use crate::log::{Log, LogState};

/// Reads the lines of a log that is written meanwhile.
pub enum Tail {
    File(following::Tail),
    Table(Box<TableTail>),
}

impl Tail {
    /// Before the first line of a log.
    pub fn open(origin: &Origin) -> Result<Tail, LogFault> {
        match origin.table {
            None => following::Tail::open(&origin.log).map(Tail::File),
            Some(_) => Ok(Tail::Table(Box::new(TableTail::new(origin)?))),
        }
    }

    /// How many lines were read, without the header.
    pub fn count(&self) -> u64 {
        match self {
            Tail::File(tail) => tail.count(),
            Tail::Table(tail) => tail.count(),
        }
    }

    /// The next lines, up to the one of this number, which was written. Only the first ones where they are many.
    pub fn next(&mut self, number: u64) -> Result<Vec<Vec<u8>>, LogFault> {
        match self {
            Tail::File(tail) => tail.next(number),
            Tail::Table(tail) => tail.next(number),
        }
    }
}

/// A log that goes on from new snapshots, while it is made ready beside the one that is written.
pub enum Successor {
    /// A file, which is given the lines since the snapshots.
    File(LineLog),
    /// Pieces in the table, which has these lines.
    Table(Box<Upload>),
}

impl Successor {
    /// Behind snapshots that have all lines of a log up to this base.
    pub fn begin(origin: &Origin, next: &Origin, base: &LogState) -> Result<Successor, LogFault> {
        if origin.table.is_none() {
            return LineLog::beside(&origin.log, &next.settings.header(next.generation)).map(Successor::File);
        }
        let base = Place { batches: base.batches, lines: base.lines + 1, bytes: base.bytes };
        Ok(Successor::Table(Box::new(Upload::begin(next, next.generation, base)?)))
    }

    /// Takes lines since the snapshots, as they were written.
    pub fn add(&mut self, lines: &[Vec<u8>]) -> Result<(), LogFault> {
        match self {
            Successor::File(log) => log.write(&mut lines.iter().map(Vec::as_slice)),
            Successor::Table(_) => Ok(()),
        }
    }

    /// Puts a text beside the snapshots, behind what is there under this name.
    pub fn write_beside(&mut self, next: &Origin, name: &str, text: &[u8]) -> Result<(), LogFault> {
        match self {
            Successor::File(_) => write_beside(&next.base, next.generation, name, text),
            Successor::Table(upload) => upload.write(name, text),
        }
    }

    /// Does all that can be done while the log is written.
    pub fn make_ready(&mut self, origin: &Origin) -> Result<(), LogFault> {
        match self {
            Successor::File(log) => keep_log(&origin.log, origin.generation).and_then(|()| log.sync()),
            Successor::Table(upload) => upload.end(),
        }
    }
}

/// Of a successor that is of another kind of log.
pub fn other_log(next: &Origin) -> LogFault {
    LogFault::NotCompacted(format!("{}: it is another log", next.log))
}
