//! The table of batches: its form, who leads, and who may add a batch.
//!
//! `wfserve_leader` has one row with the epoch. A batch is added by a statement that reads this row under a lock and
//! finds its own epoch there, so who raises the epoch waits for a batch under way, and none of an earlier epoch follows.
//! An advisory lock, which goes with its connection, makes that only one edge tries; a leader says twice in its time of
//! silence that it lives, and a follower ends the connection of one that does not, and has asked nothing for as long.
//!
//! `wfserve_starts` has a row for each compaction, and `wfserve_records` what the log goes on from then, under the epoch of
//! the leader that put it there: so pieces of a leader that is none any more are never taken for another one's. A statement
//! of the same form as a batch's adds the row and the header of the log since: the compaction counts from then on. Batches
//! behind its base, which its first piece names, are lines of the log since too.

use crate::connection::{Connection, Result, Values};
use crate::planted::Planted;
use std::sync::atomic::{AtomicBool, Ordering};
use std::sync::Arc;
use std::time::Duration;
use tokio_postgres::{Row, Statement};
use wfedge::log::fault::LogFault;
use wfedge::log::table::{Batch, Piece, PiecePlace, Pieces, Start, Table};
use wfedge::os::stderr;

const TABLES: &str = "
    begin;
    select pg_advisory_xact_lock(7232, hashtext(current_schema()));
    create table if not exists wfserve_log
        (number bigint primary key, epoch bigint not null, lines bytea not null);
    create table if not exists wfserve_leader
        (one int primary key check (one = 1), epoch bigint not null, name text not null, until timestamptz not null);
    create table if not exists wfserve_followers
        (name text primary key, number bigint not null, at timestamptz not null);
    create table if not exists wfserve_starts
        (generation bigint primary key, number bigint not null unique, epoch bigint not null, at timestamptz not null);
    create table if not exists wfserve_records
        (epoch bigint, generation bigint, number bigint, name text not null, data bytea not null,
        primary key (epoch, generation, number));
    insert into wfserve_leader values (1, 0, '', now()) on conflict do nothing;
    commit";
const BEGIN: &str = "insert into wfserve_log values (1, 0, $1) on conflict do nothing";
const READ: &str = "
    select log.number, lines, coalesce(generation, 0) from wfserve_log log left join wfserve_starts start
    on start.number = log.number where log.number > $1 order by log.number limit $2";
const TELL: &str = "
    insert into wfserve_followers values ($1, $2, clock_timestamp())
    on conflict (name) do update set number = excluded.number, at = excluded.at";
const TRY: &str = "select pg_try_advisory_lock(7233, hashtext(current_schema()))";
// Who has the lock and is about to raise the epoch has the moment of the leader before: it has just asked something.
const END_SILENT: &str = "
    select pg_terminate_backend(holder.pid) from pg_locks holder, wfserve_leader, pg_stat_activity asked
    where locktype = 'advisory' and classid = 7233 and granted and until < clock_timestamp() and asked.pid = holder.pid
    and coalesce(asked.query_start < clock_timestamp() - $1::bigint * interval '1 ms', true)
    and objid::bigint = (hashtext(current_schema())::bigint & 4294967295)
    and database = (select oid from pg_database where datname = current_database())";
const LEAD: &str = "
    update wfserve_leader set epoch = epoch + 1, name = $1, until = clock_timestamp() + $2::bigint * interval '1 ms'
    returning epoch";
const BEAT: &str = "
    update wfserve_leader set until = clock_timestamp() + $2::bigint * interval '1 ms' where epoch = $1";
pub const APPEND: &str = "
    with lead as (select 1 from wfserve_leader where epoch = $1 for share)
    insert into wfserve_log select $2, $1, $3 from lead";
const CONFIRM: &str = "select 1 from wfserve_leader where epoch = $1";
const START: &str = "select generation, number from wfserve_starts order by generation desc limit 1";
const PIECE: &str = "
    select name, data from wfserve_records where number = $2 and generation = $1
    and epoch = (select epoch from wfserve_starts where generation = $1)";
const CLEAR: &str = "delete from wfserve_records where epoch = $1 and generation = $2";
const PUT: &str = "insert into wfserve_records values ($1, $2, $3, $4, $5)";
const COMPACT: &str = "
    with lead as (select 1 from wfserve_leader where epoch = $1 for share),
    start as (insert into wfserve_starts select $4, $2, $1, clock_timestamp() from lead),
    last as (insert into wfserve_records select $1, $4, $5, $6, $7 from lead)
    insert into wfserve_log select $2, $1, $3 from lead";
// What is older than the generation before, a little at a time. Its lines begin behind its base, or with its header.
const FORGET: [&str; 3] = [
    "delete from wfserve_log where number in (select number from wfserve_log where number <
        (select coalesce((select convert_from(data, 'UTF8')::bigint + 1 from wfserve_records record
        where record.epoch = start.epoch and record.generation = start.generation and record.number = 1
        and name = 'base'), start.number) from wfserve_starts start order by generation desc offset 1 limit 1)
        order by number limit 1000)",
    "delete from wfserve_starts where generation < (select max(generation) - 1 from wfserve_starts)",
    "delete from wfserve_records where (epoch, generation, number) in (select epoch, generation, number
        from wfserve_records record where (epoch < (select epoch from wfserve_leader)
        or generation < (select max(generation) - 1 from wfserve_starts)) and not exists (select 1
        from wfserve_starts start where start.epoch = record.epoch and start.generation = record.generation) limit 20)",
];

/// What is asked often.
struct Statements {
    read: Statement,
    tell: Statement,
    try_lock: Statement,
    end_silent: Statement,
    append: Statement,
    confirm: Statement,
    /// Made ready once it is asked.
    piece: Option<Statement>,
}

/// A table by its connection.
struct Postgres {
    connection: Connection,
    statements: Statements,
    name: String,
    silence: i64,
    epoch: i64,
    /// By what a leader says that it leads: a connection of its own, which is there before it does.
    beat: Option<(Connection, Statement)>,
    /// Whether nobody hears any more that this edge leads. It makes an end come sooner: the epoch is what refuses.
    is_unheard: Arc<AtomicBool>,
    planted: Planted,
    address: String,
}

/// Connects to the table of an address. A leader may be silent for so many milliseconds.
pub fn open(address: &str, silence: u64) -> Result<Box<dyn Table>> {
    let connection = Connection::new(address)?;
    make_tables(&connection)?;
    let statements = Statements {
        read: connection.prepare(READ)?,
        tell: connection.prepare(TELL)?,
        try_lock: connection.prepare(TRY)?,
        end_silent: connection.prepare(END_SILENT)?,
        append: connection.prepare(APPEND)?,
        confirm: connection.prepare(CONFIRM)?,
        piece: None,
    };
    let beating = Connection::new(address)?;
    let beat = beating.prepare(BEAT)?;
    let silence = i64::try_from(silence).unwrap_or(i64::MAX);
    let is_unheard = Arc::new(AtomicBool::new(false));
    Ok(Box::new(Postgres {
        planted: Planted::new(address)?,
        connection,
        statements,
        name: name(),
        silence,
        epoch: 0,
        beat: Some((beating, beat)),
        is_unheard,
        address: address.to_string(),
    }))
}

/// Makes the tables where they are not there. A role that may not make any finds them there.
fn make_tables(connection: &Connection) -> Result<()> {
    let commit: String = connection.row("show synchronous_commit", &[])?.get(0);
    if commit == "off" {
        return Err(LogFault::Other("the database's synchronous_commit is off: answers could be lost".to_string()));
    }
    let is_there: bool = connection.row("select to_regclass('wfserve_records') is not null", &[])?.get(0);
    if is_there {
        Ok(())
    } else {
        connection.run(TABLES)
    }
}

/// What this edge is called in the tables: its machine and its process.
fn name() -> String {
    let host = std::fs::read_to_string("/proc/sys/kernel/hostname").unwrap_or_default();
    format!("{}:{}", host.trim(), std::process::id())
}

impl Postgres {
    fn ousted(&self) -> LogFault {
        LogFault::Broken(format!("another edge leads: epoch {} is over", self.epoch))
    }

    /// Says that this edge leads, until it can't.
    fn keep_heard(&mut self) {
        let (epoch, silence, is_unheard) = (self.epoch, self.silence, self.is_unheard.clone());
        let (connection, beat) = match self.beat.take() {
            Some(beat) => beat,
            None => return,
        };
        let rest = Duration::from_millis((silence / 4).max(1) as u64);
        std::thread::spawn(move || loop {
            std::thread::sleep(rest);
            match connection.change(&beat, &[&epoch, &silence]) {
                Ok(1) => {}
                other => {
                    let why = other.err().map_or_else(|| "another edge leads".to_string(), |fault| fault.to_string());
                    stderr::line(format_args!("nobody hears any more that this edge leads: {why}"));
                    is_unheard.store(true, Ordering::Relaxed);
                    return;
                }
            }
        });
    }
}

impl Table for Postgres {
    fn begin(&mut self, header: &[u8]) -> Result<()> {
        let begin = self.connection.prepare(BEGIN)?;
        self.connection.change(&begin, &[&header]).map(drop)
    }

    fn read(&mut self, after: u64, most: u32) -> Result<Vec<Batch>> {
        let rows = self.connection.rows(&self.statements.read, &[&(after as i64), &i64::from(most)])?;
        let number = |row: &Row, place: usize| row.get::<_, i64>(place) as u64;
        let batch = |row: &Row| Batch { number: number(row, 0), lines: row.get(1), generation: number(row, 2) };
        Ok(rows.iter().map(batch).collect())
    }

    fn tell(&mut self, number: u64) -> Result<()> {
        self.connection.change(&self.statements.tell, &[&self.name, &(number as i64)]).map(drop)
    }

    fn try_lead(&mut self) -> Result<bool> {
        let found = self.connection.rows(&self.statements.try_lock, &[])?;
        if !found.first().map_or(false, |row| row.try_get(0).unwrap_or(false)) {
            self.connection.rows(&self.statements.end_silent, &[&self.silence])?;
            return Ok(false);
        }
        self.epoch = self.connection.row(LEAD, &[&self.name, &self.silence])?.get(0);
        self.keep_heard();
        Ok(true)
    }

    fn epoch(&self) -> u64 {
        self.epoch as u64
    }

    fn append(&mut self, batch: &Batch) -> Result<()> {
        if self.planted.take(self.epoch, batch) {
            return Ok(());
        }
        let number = batch.number as i64;
        match self.connection.change(&self.statements.append, &[&self.epoch, &number, &batch.lines])? {
            1 if !self.is_unheard.load(Ordering::Relaxed) => Ok(()),
            _ => Err(self.ousted()),
        }
    }

    fn confirm(&mut self) -> Result<()> {
        let found = self.connection.rows(&self.statements.confirm, &[&self.epoch])?;
        if found.is_empty() || self.is_unheard.load(Ordering::Relaxed) {
            return Err(self.ousted());
        }
        Ok(())
    }

    fn start(&mut self) -> Result<Start> {
        let start = self.connection.prepare(START)?;
        let found = self.connection.rows(&start, &[])?;
        let number = |row: &Row, place: usize| row.get::<_, i64>(place) as u64;
        Ok(found
            .first()
            .map_or_else(Start::default, |row| Start { generation: number(row, 0), number: number(row, 1) }))
    }

    fn piece(&mut self, generation: u64, number: u64) -> Result<Option<Piece>> {
        if self.statements.piece.is_none() {
            self.statements.piece = Some(self.connection.prepare(PIECE)?);
        }
        let piece = match &self.statements.piece {
            Some(piece) => piece,
            None => return Ok(None),
        };
        let rows = self.connection.rows(piece, &[&(generation as i64), &(number as i64)])?;
        Ok(rows.first().map(|row| Piece { name: row.get(0), data: row.get(1) }))
    }

    fn put(&mut self, from: PiecePlace, pieces: Pieces<'_>) -> Result<u64> {
        let (epoch, generation, mut number) = (from.epoch as i64, from.generation as i64, from.number as i64);
        if number == 1 {
            let clear = self.connection.prepare(CLEAR)?;
            self.connection.change(&clear, &[&epoch, &generation])?;
        }
        let put = self.connection.prepare(PUT)?;
        for piece in pieces {
            let Piece { name, data } = piece?;
            self.connection.change(&put, &[&epoch, &generation, &number, &name, &data])?;
            number += 1;
        }
        Ok(number as u64)
    }

    fn compact(&mut self, header: &Batch, number: u64, piece: &Piece) -> Result<()> {
        let prepared = self.connection.prepare(COMPACT);
        let compact = prepared.map_err(|fault| LogFault::NotCompacted(fault.to_string()))?;
        let (batch, generation, number) = (header.number as i64, header.generation as i64, number as i64);
        let values: Values<'_> = &[&self.epoch, &batch, &header.lines, &generation, &number, &piece.name, &piece.data];
        match self.connection.change(&compact, values)? {
            1 if !self.is_unheard.load(Ordering::Relaxed) => Ok(()),
            _ => Err(self.ousted()),
        }
    }

    fn forget(&mut self) {
        let address = self.address.clone();
        std::thread::spawn(move || {
            if let Err(fault) = forget_all(&address) {
                stderr::line(format_args!("what a compaction left stays for now: {fault}"));
            }
        });
    }
}

/// Deletes what is older than the generation before, and pieces of compactions that were not ended.
fn forget_all(address: &str) -> Result<()> {
    let connection = Connection::new(address)?;
    for statement in FORGET {
        let forget = connection.prepare(statement)?;
        while connection.change(&forget, &[])? > 0 {}
    }
    Ok(())
}
