//! What a table's log goes on from after a compaction: snapshots of the shards, the replies by keys and what was told of
//! attempts, in pieces. Earlier versions put records of the shards there, which are opened too.
//!
//! The leader has a program write snapshots, as for a file (`compaction`), and puts these into the table by a connection
//! beside its own. The first piece names the base: the batch up to which the snapshots have all lines. A compaction of an
//! earlier version has none, and its lines follow its header. An edge of an earlier version refuses a piece of that name.

use crate::log::compaction::Beside;
use crate::log::fault::{said_of, LogFault};
use crate::log::generation::{folder_of, is_of_a_shard, ATTEMPTS, REPLIES};
use crate::log::kept::Origin;
use crate::log::table::log::{Place, TableLog};
use crate::log::table::{Piece, PiecePlace, Pieces, Table};
use std::fs::{self, DirBuilder, File, OpenOptions};
use std::io::{Read, Write};
use std::os::unix::fs::{DirBuilderExt, OpenOptionsExt};
use std::path::{Path, PathBuf};

/// So many bytes a piece has at most.
const PIECE: usize = 1 << 20;
/// The name of the first piece, and of the one behind the last one.
const BASE: &str = "base";
const END: &str = "end";

/// Pieces on their way into a table, which goes on from them later.
pub struct Upload {
    table: Box<dyn Table>,
    next: PiecePlace,
    base: Place,
}

impl Upload {
    /// Puts the snapshots of a generation there, which have all lines up to this base.
    pub fn begin(origin: &Origin, generation: u64, base: Place) -> Result<Upload, LogFault> {
        let from = origin.table_source()?;
        let next = PiecePlace { epoch: from.epoch, generation, number: 1 };
        let mut upload = Upload { table: from.connect.table()?, next, base };
        let first = Piece { name: BASE.to_string(), data: base.batches.to_string().into_bytes() };
        let snapshots = pieces_of(&folder_of(&origin.base, generation))?;
        upload.put(&mut std::iter::once(Ok(first)).chain(snapshots))?;
        Ok(upload)
    }

    /// Puts a text there under this name.
    pub fn write(&mut self, name: &str, text: &[u8]) -> Result<(), LogFault> {
        self.put(&mut pieces_in(name, text))
    }

    fn put(&mut self, pieces: Pieces<'_>) -> Result<(), LogFault> {
        self.next.number = self.table.put(self.next, pieces)?;
        Ok(())
    }

    /// Ends what was put. A number is left for the last replies by keys.
    pub fn end(&mut self) -> Result<(), LogFault> {
        let behind = PiecePlace { number: self.next.number + 1, ..self.next };
        let end = Piece { name: END.to_string(), data: Vec::new() };
        self.table.put(behind, &mut std::iter::once(Ok(end))).map(drop)
    }

    /// Has the log go on from what was put, from the last replies by keys, and from the lines since the base. The batch
    /// behind which these are.
    pub fn take_over(&self, log: &mut TableLog, header: Vec<u8>, replies: &[u8]) -> Result<u64, LogFault> {
        let last = Piece { name: REPLIES.to_string(), data: replies.to_vec() };
        log.compact((header, self.next.generation), self.base, (self.next.number, &last))?;
        log.forget();
        Ok(self.base.batches)
    }
}

/// The pieces of a text.
fn pieces_in<'a>(name: &'a str, text: &'a [u8]) -> impl Iterator<Item = Result<Piece, LogFault>> + 'a {
    text.chunks(PIECE).map(move |data| Ok(Piece { name: name.to_string(), data: data.to_vec() }))
}

/// The pieces of the files of a folder.
fn pieces_of(folder: &str) -> Result<impl Iterator<Item = Result<Piece, LogFault>>, LogFault> {
    let found = fs::read_dir(folder).map_err(|fault| not_compacted(folder, &fault))?;
    let mut paths: Vec<PathBuf> = found.flatten().map(|file| file.path()).collect();
    paths.sort();
    Ok(paths.into_iter().flat_map(FilePieces::open))
}

fn not_compacted(path: &str, fault: &std::io::Error) -> LogFault {
    LogFault::NotCompacted(format!("{path}: {}", said_of(fault)))
}

/// The pieces of a file.
struct FilePieces {
    path: PathBuf,
    /// None behind the last piece.
    file: Option<File>,
}

impl FilePieces {
    fn open(path: PathBuf) -> Box<dyn Iterator<Item = Result<Piece, LogFault>>> {
        match File::open(&path) {
            Ok(file) => Box::new(FilePieces { path, file: Some(file) }),
            Err(fault) => Box::new(std::iter::once(Err(not_compacted(&path.to_string_lossy(), &fault)))),
        }
    }
}

impl Iterator for FilePieces {
    type Item = Result<Piece, LogFault>;

    fn next(&mut self) -> Option<Self::Item> {
        let mut data = Vec::new();
        let read = self.file.as_ref()?.take(PIECE as u64).read_to_end(&mut data);
        if data.len() < PIECE {
            self.file = None;
        }
        let name = self.path.file_name().unwrap_or_default().to_string_lossy().into_owned();
        Some(read.map(|_| Piece { name, data }).map_err(|fault| not_compacted(&self.path.to_string_lossy(), &fault)))
    }
}

/// Fetches what the log goes on from: the snapshots into their folder, where a program opens them, and the base into its
/// origin, where there is one. What lies beside them.
pub fn fetch(table: &mut dyn Table, origin: &mut Origin) -> Result<Beside, LogFault> {
    let folder = folder_of(&origin.base, origin.generation);
    let io = |fault: std::io::Error| LogFault::io(&folder, &fault);
    let _ = fs::remove_dir_all(&folder);
    DirBuilder::new().mode(0o700).create(&folder).map_err(io)?;
    let (mut beside, mut number) = (Beside::default(), 0);
    loop {
        number += 1;
        let piece = match table.piece(origin.generation, number)? {
            Some(piece) => piece,
            None => return Err(LogFault::Damaged(format!("piece {number} of the table's records is gone"))),
        };
        match piece.name.as_str() {
            END => return Ok(beside),
            BASE => take_base(&piece.data, origin)?,
            REPLIES => beside.replies.extend_from_slice(&piece.data),
            ATTEMPTS => beside.attempts.extend_from_slice(&piece.data),
            name if is_of_a_shard(name) => {
                let path = Path::new(&folder).join(name);
                let file = OpenOptions::new().append(true).create(true).mode(0o600).open(path);
                file.and_then(|mut file| file.write_all(&piece.data)).map_err(io)?;
            }
            name => return Err(LogFault::Damaged(format!("the table's records have a file {name:?}"))),
        }
    }
}

/// Notes behind which batch the lines are: one before the header, which stood for it so far.
fn take_base(data: &[u8], origin: &mut Origin) -> Result<(), LogFault> {
    let base = std::str::from_utf8(data).ok().and_then(|text| text.parse::<u64>().ok());
    match (base, &mut origin.table) {
        (Some(base), Some(from)) if (1..from.base).contains(&base) => {
            from.base = base;
            Ok(())
        }
        _ => Err(LogFault::Damaged(format!("the table's records have the base {:?}", String::from_utf8_lossy(data)))),
    }
}

#[cfg(test)]
mod tests {
    use super::*;
    use crate::log::table::memory::{table_in, Shared};
    use crate::log::table::{Batch, Start};
    use crate::settings::Settings;
    use crate::testing::scratch::Scratch;
    use std::sync::{Arc, Mutex};

    const START: Start = Start { generation: 4, number: 3 };

    /// A table that was compacted, and what goes on from it.
    struct Compacted {
        shared: Arc<Mutex<Shared>>,
        table: Box<dyn Table>,
        origin: Origin,
    }

    /// Puts these pieces there, and has the table go on from them.
    fn compacted(pieces: impl Iterator<Item = Result<Piece, LogFault>>) -> Compacted {
        let shared = Arc::new(Mutex::new(Shared::default()));
        let connect = table_in(&shared);
        let mut table = connect.table().unwrap();
        assert!(table.try_lead().unwrap());
        for number in 1..=2 {
            table.append(&Batch { number, lines: b"line".to_vec(), generation: 0 }).unwrap();
        }
        let header = Batch { number: START.number, lines: b"header".to_vec(), generation: START.generation };
        let (mut pieces, place) =
            (pieces, PiecePlace { epoch: table.epoch(), generation: START.generation, number: 1 });
        let number = table.put(place, &mut pieces).unwrap();
        table.compact(&header, number, &Piece { name: END.to_string(), data: Vec::new() }).unwrap();
        let origin = Origin::for_table("program", &connect, Settings::default(), START).unwrap();
        Compacted { shared, table, origin }
    }

    fn piece(name: &str, data: &[u8]) -> Result<Piece, LogFault> {
        Ok(Piece { name: name.to_string(), data: data.to_vec() })
    }

    #[test]
    fn what_was_put_is_fetched_as_it_was() {
        let scratch = Scratch::new();
        let folder = scratch.path("records");
        fs::create_dir(&folder).unwrap();
        let long: Vec<u8> = (0..2 * PIECE + 17).map(|place| place as u8).collect();
        for (name, data) in
            [("shard-00.snap", long.as_slice()), ("shard-01.snap", b""), ("shard-02.snap", &long[..PIECE])]
        {
            fs::write(format!("{folder}/{name}"), data).unwrap();
        }
        let beside = Beside { replies: vec![b'r'; PIECE + 1], attempts: b"told".to_vec() };
        let told = pieces_in(REPLIES, &beside.replies).chain(pieces_in(ATTEMPTS, &beside.attempts));
        let Compacted { shared, mut table, mut origin, .. } = compacted(pieces_of(&folder).unwrap().chain(told));
        assert_eq!(table.start().unwrap(), START);
        for _ in 0..2 {
            assert_eq!(fetch(table.as_mut(), &mut origin).unwrap(), beside);
            // It has no base, as those of earlier versions.
            assert_eq!(origin.table_source().unwrap().base, START.number);
            for name in ["shard-00.snap", "shard-01.snap", "shard-02.snap"] {
                let found = fs::read(format!("{}/{name}", folder_of(&origin.base, START.generation))).unwrap();
                assert_eq!(found, fs::read(format!("{folder}/{name}")).unwrap(), "{name}");
            }
        }
        // Pieces that are gone, and names that would lead elsewhere.
        shared.lock().unwrap().starts[0].1.pop();
        assert!(matches!(fetch(table.as_mut(), &mut origin), Err(LogFault::Damaged(_))));
        for name in ["../shard-00.rec", "shard-.rec", "shard-0x.rec", "other"] {
            shared.lock().unwrap().starts[0].1 = vec![Piece { name: name.to_string(), data: Vec::new() }];
            assert!(matches!(fetch(table.as_mut(), &mut origin), Err(LogFault::Damaged(_))), "{name}");
        }
    }

    #[test]
    fn a_base_is_a_batch_before_the_header() {
        for (text, base) in [("1", Some(1)), ("2", Some(2)), ("0", None), ("3", None), ("", None), ("-1", None)] {
            let pieces = [piece(BASE, text.as_bytes()), piece("shard-00.snap", b"s")];
            let Compacted { mut table, mut origin, .. } = compacted(pieces.into_iter());
            let found = fetch(table.as_mut(), &mut origin);
            assert_eq!(found.ok().map(|_| origin.table_source().unwrap().base), base, "{text}");
        }
    }
}
