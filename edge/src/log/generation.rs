//! What a generation of a log goes on from: its files, and what they tell.
//!
//! Each compaction begins another generation of the log, as the Python package says too
//! (clients/python/src/wfserve/durable/edge_log.py). Beside the log stand the folder that it goes on from
//! (`.records-N` after its name), and the log before with its own (`.generation-N`). The folder has a snapshot of each
//! shard, or a record as earlier versions left them; the replies by keys that are kept; and what a page was told of the
//! attempts of activities.

use crate::log::fault::LogFault;
use crate::turns::ledger::Pair;
use serde::Deserialize;
use std::fs::{self, File, Permissions};
use std::io::{BufRead, BufReader, Read, Seek, SeekFrom};
use std::os::unix::fs::PermissionsExt;
use std::path::{Path, PathBuf};
use std::time::{Duration, Instant};

const MOMENT: &[u8] = b"\"at\":";
/// So long a folder is tried to be removed in which a file is made meanwhile, and between two tries.
const PATIENCE: Duration = Duration::from_secs(3);
const REST: Duration = Duration::from_millis(10);
/// The last line of a snapshot is shorter than this.
const LAST_LINE: u64 = 256;
/// The files with the replies by keys, and with what was told of attempts.
pub const REPLIES: &str = "replies";
pub const ATTEMPTS: &str = "attempts";

/// The folder that a log goes on from which was compacted so often.
pub fn folder_of(log: &str, generation: u64) -> String {
    format!("{log}.records-{generation}")
}

/// The name of a log of an earlier generation.
pub fn kept_log(log: &str, generation: u64) -> String {
    format!("{log}.generation-{generation}")
}

/// The file of this name that a log goes on from.
pub fn file_of(log: &str, generation: u64, name: &str) -> String {
    format!("{}/{name}", folder_of(log, generation))
}

/// The program's options for a log that was compacted so often.
pub fn load_options(log: &str, generation: u64) -> Vec<String> {
    match generation {
        0 => Vec::new(),
        _ => vec!["--load".to_string(), folder_of(log, generation)],
    }
}

/// The generation that follows a prefix in a file's name.
fn generation_in(name: &str, prefix: &str) -> Option<u64> {
    let digits = name.strip_prefix(prefix)?;
    digits.bytes().all(|byte| byte.is_ascii_digit()).then(|| digits.parse().ok())?
}

/// Removes what an interrupted compaction left, and what is older than the generation before.
pub fn remove_leftovers(log: &str, generation: u64) -> Result<(), LogFault> {
    let path = Path::new(log);
    let folder = path.parent().filter(|parent| !parent.as_os_str().is_empty()).unwrap_or_else(|| Path::new("."));
    let name = path.file_name().unwrap_or_default().to_string_lossy().into_owned();
    let before = generation.checked_sub(1);
    for found in fs::read_dir(folder).map_err(|fault| LogFault::io(log, &fault))?.flatten() {
        let found_name = found.file_name().to_string_lossy().into_owned();
        let lines = generation_in(&found_name, &format!("{name}.generation-"));
        let records = generation_in(&found_name, &format!("{name}.records-"));
        let removed = if found_name == format!("{name}.new") || (lines.is_some() && lines != before) {
            fs::remove_file(found.path())
        } else if records.is_some() && records != before && records != Some(generation) {
            remove_folder(&found.path())
        } else {
            Ok(())
        };
        removed.map_err(|fault| LogFault::io(&found.path().to_string_lossy(), &fault))?;
    }
    Ok(())
}

/// Removes a folder. A program that was killed with its edge may just be making a last file in it.
fn remove_folder(path: &Path) -> std::io::Result<()> {
    let late = Instant::now() + PATIENCE;
    loop {
        match fs::remove_dir_all(path) {
            Err(fault) if fault.raw_os_error() == Some(libc::ENOTEMPTY) && Instant::now() < late => {
                std::thread::sleep(REST);
            }
            result => return result,
        }
    }
}

/// Lets nobody else read what a log goes on from: it has all that workflows were given.
pub fn keep_private(log: &str, generation: u64) -> Result<(), LogFault> {
    let folder = folder_of(log, generation);
    let make = || -> std::io::Result<()> {
        fs::set_permissions(&folder, Permissions::from_mode(0o700))?;
        for file in fs::read_dir(&folder)?.flatten() {
            fs::set_permissions(file.path(), Permissions::from_mode(0o600))?;
        }
        Ok(())
    };
    make().map_err(|fault| LogFault::io(&folder, &fault))
}

/// Whether a name is that of a shard's snapshot or record.
pub fn is_of_a_shard(name: &str) -> bool {
    let rest = name.strip_prefix("shard-");
    let shard = rest.and_then(|rest| rest.strip_suffix(".snap").or_else(|| rest.strip_suffix(".rec")));
    shard.map_or(false, |shard| !shard.is_empty() && shard.bytes().all(|byte| byte.is_ascii_digit()))
}

/// The files of the shards that a log goes on from.
pub struct Files {
    pub paths: Vec<PathBuf>,
    /// Whether they are snapshots, and no records.
    pub are_snapshots: bool,
}

impl Files {
    /// Those of a log that was compacted so often. The program takes snapshots where there are any.
    pub fn find(log: &str, generation: u64) -> Result<Files, LogFault> {
        if generation == 0 {
            return Ok(Files { paths: Vec::new(), are_snapshots: false });
        }
        let folder = folder_of(log, generation);
        let found = fs::read_dir(&folder).map_err(|fault| LogFault::io(&folder, &fault))?;
        let mut paths: Vec<PathBuf> = found.flatten().map(|file| file.path()).collect();
        paths.retain(|path| path.file_name().map_or(false, |name| is_of_a_shard(&name.to_string_lossy())));
        let is_snapshot = |path: &PathBuf| path.extension().map_or(false, |end| end == "snap");
        let are_snapshots = paths.iter().any(is_snapshot);
        paths.retain(|path| is_snapshot(path) == are_snapshots);
        paths.sort();
        Ok(Files { paths, are_snapshots })
    }

    /// How many bytes they have.
    pub fn size(&self) -> u64 {
        self.paths.iter().filter_map(|file| file.metadata().ok()).map(|found| found.len()).sum()
    }

    /// How many bytes they have, where they are snapshots; 0 of records, which only grow.
    pub fn snapshots_size(&self) -> u64 {
        if self.are_snapshots {
            self.size()
        } else {
            0
        }
    }

    /// The greatest moment that they have.
    pub fn last_moment(&self) -> Result<u64, LogFault> {
        let mut last = 0;
        for path in &self.paths {
            let found = if self.are_snapshots { last_of_snapshot(path) } else { last_of_record(path) };
            last = last.max(found.map_err(|fault| LogFault::io(&path.to_string_lossy(), &fault))?);
        }
        Ok(last)
    }

    /// The pairs of shards between which transfers were accepted. Records don't say.
    pub fn pairs(&self) -> Result<Vec<Pair>, LogFault> {
        let mut found = Vec::new();
        for path in self.paths.iter().filter(|_| self.are_snapshots) {
            pairs_of(path, &mut found).map_err(|fault| LogFault::io(&path.to_string_lossy(), &fault))?;
        }
        Ok(found)
    }
}

/// A line of a snapshot, as far as the edge needs it.
#[derive(Default, Deserialize)]
struct Piece {
    #[serde(default)]
    head: Head,
    #[serde(default)]
    counted: Counted,
    #[serde(default)]
    end: End,
}

#[derive(Default, Deserialize)]
struct Head {
    #[serde(default)]
    shard: u16,
}

#[derive(Default, Deserialize)]
struct Counted {
    #[serde(default)]
    transfers: Vec<Accepted>,
}

#[derive(Deserialize)]
struct Accepted {
    #[serde(default)]
    accepted: u64,
}

#[derive(Default, Deserialize)]
struct End {
    #[serde(default)]
    last: u64,
}

/// The moment of a shard's last step, which a snapshot's last line has.
fn last_of_snapshot(path: &Path) -> std::io::Result<u64> {
    let mut file = File::open(path)?;
    let begin = file.metadata()?.len().saturating_sub(LAST_LINE);
    file.seek(SeekFrom::Start(begin))?;
    let mut text = Vec::new();
    file.read_to_end(&mut text)?;
    let line = text.split(|byte| *byte == b'\n').rev().find(|line| !line.is_empty()).unwrap_or(&[]);
    let begin = line.windows(7).position(|window| window == b"{\"end\":").unwrap_or(line.len());
    // What is none is refused by the program.
    Ok(serde_json::from_slice(&line[begin..]).map_or(0, |piece: Piece| piece.end.last))
}

/// The moment of a record's last step.
fn last_of_record(path: &Path) -> std::io::Result<u64> {
    let (mut lines, mut line, mut last) = (BufReader::new(File::open(path)?), Vec::new(), 0);
    while lines.read_until(b'\n', &mut line)? > 0 {
        last = last.max(moment_in(&line).unwrap_or(0));
        line.clear();
    }
    Ok(last)
}

/// The moment of a record's step. A text in it has no such key, since its quotes are escaped.
fn moment_in(line: &[u8]) -> Option<u64> {
    let found = line.windows(MOMENT.len()).position(|window| window == MOMENT)? + MOMENT.len();
    let digits = line[found..].iter().take_while(|byte| byte.is_ascii_digit()).count();
    std::str::from_utf8(&line[found..found + digits]).ok()?.parse().ok()
}

/// Adds the shards whose transfers this one's snapshot has accepted. Its first two lines say so.
fn pairs_of(path: &Path, found: &mut Vec<Pair>) -> std::io::Result<()> {
    let mut lines = BufReader::new(File::open(path)?);
    let (mut head, mut counted) = (Vec::new(), Vec::new());
    lines.read_until(b'\n', &mut head)?;
    lines.read_until(b'\n', &mut counted)?;
    let piece = |line: &[u8]| -> Piece { serde_json::from_slice(line).unwrap_or_default() };
    let here = piece(&head).head.shard;
    for (from, counts) in (0..).zip(piece(&counted).counted.transfers) {
        if counts.accepted > 0 {
            found.push((from, here));
        }
    }
    Ok(())
}

#[cfg(test)]
mod tests {
    use super::*;
    use crate::testing::scratch::Scratch;

    #[test]
    fn leftovers_of_other_generations_are_removed() {
        let scratch = Scratch::new();
        let log = scratch.path("a.log");
        for name in ["a.log", "a.log.new", "a.log.generation-1", "a.log.generation-2", "b.log.generation-1"] {
            fs::write(scratch.path(name), b"").unwrap();
        }
        for name in ["a.log.records-1", "a.log.records-2", "a.log.records-3", "a.log.records-4", "a.log.records-x"] {
            fs::create_dir(scratch.path(name)).unwrap();
        }
        remove_leftovers(&log, 3).unwrap();
        let folder = Path::new(&log).parent().unwrap();
        let mut left: Vec<_> = fs::read_dir(folder).unwrap().flatten().map(|found| found.file_name()).collect();
        left.sort();
        let wanted = [
            "a.log",
            "a.log.generation-2",
            "a.log.records-2",
            "a.log.records-3",
            "a.log.records-x",
            "b.log.generation-1",
        ];
        assert_eq!(left, wanted);
    }

    #[test]
    fn a_folder_in_which_files_are_made_still_is_removed() {
        let scratch = Scratch::new();
        let (log, folder) = (scratch.path("a.log"), scratch.path("a.log.records-9"));
        fs::create_dir(&folder).unwrap();
        let made = folder.clone();
        let making = std::thread::spawn(move || {
            for number in 0..100 {
                let _ = File::create(format!("{made}/{number}"));
                std::thread::sleep(Duration::from_millis(1));
            }
        });
        remove_leftovers(&log, 3).unwrap();
        assert!(!Path::new(&folder).exists());
        making.join().unwrap();
    }

    #[test]
    fn a_records_moments_are_found() {
        let scratch = Scratch::new();
        let log = scratch.path("a.log");
        fs::create_dir(folder_of(&log, 1)).unwrap();
        let lines = "{\"pass\":0,\"request\":{\"at\":7,\"op\":\"start\"}}\n{\"pass\":0,\"request\":{\"at\":5}}\n";
        fs::write(format!("{}/shard-00.rec", folder_of(&log, 1)), lines).unwrap();
        fs::write(file_of(&log, 1, REPLIES), b"").unwrap();
        let files = Files::find(&log, 1).unwrap();
        assert_eq!((files.last_moment(), files.pairs(), files.size()), (Ok(7), Ok(Vec::new()), lines.len() as u64));
        assert_eq!(Files::find(&log, 0).unwrap().last_moment(), Ok(0));
    }

    #[test]
    fn snapshots_tell_their_moments_and_pairs() {
        let scratch = Scratch::new();
        let log = scratch.path("a.log");
        fs::create_dir(folder_of(&log, 2)).unwrap();
        let long = "x".repeat(400);
        for (shard, accepted, last) in [(0, "2", 17), (1, "0", 12)] {
            let text = format!(
                "{{\"head\":{{\"retention\":0,\"service\":1,\"shard\":{shard},\"shards\":2}}}}\n{{\"counted\":\
                 {{\"dispatched\":2,\"transfers\":[{{\"accepted\":0,\"acknowledged\":0}},{{\"accepted\":{accepted},\
                 \"acknowledged\":1}}]}}}}\n{{\"request_id\":\"{long}\"}}\n{{\"end\":{{\"last\":{last},\"lines\":3}}}}\n"
            );
            fs::write(format!("{}/shard-0{shard}.snap", folder_of(&log, 2)), text).unwrap();
        }
        // The program takes snapshots where there are any, and refuses records beside them.
        fs::write(format!("{}/shard-00.rec", folder_of(&log, 2)), "{\"at\":99}\n").unwrap();
        let files = Files::find(&log, 2).unwrap();
        assert!(files.are_snapshots && files.paths.len() == 2);
        assert_eq!((files.last_moment(), files.pairs()), (Ok(17), Ok(vec![(1, 0)])));
    }

    #[test]
    fn files_of_shards_are_told_from_others() {
        assert!(is_of_a_shard("shard-00.snap") && is_of_a_shard("shard-255.rec"));
        for name in
            ["../shard-00.rec", "shard-.rec", "shard-0x.snap", "shard-00.snap.new", REPLIES, ATTEMPTS, "shard-00"]
        {
            assert!(!is_of_a_shard(name), "{name}");
        }
    }
}
