//! A log that goes on from snapshots of the shards: how they are written and opened.
//!
//! The program itself writes what each shard has left of its requests, and is opened from that again (--snapshot,
//! --load); earlier versions had it write records of all requests (--save), which are opened too. A log takes the place
//! of the one before by one renaming, and only after a program that was opened from the new snapshots has answered. A
//! crash leaves the one log or the other, with what it goes on from. `generation` has the names of the files.

use crate::call::body::for_replay;
use crate::log::fault::{said_of, LogFault};
use crate::log::file::{sync_folder, LineLog};
use crate::log::generation::{file_of, folder_of, kept_log, remove_leftovers, ATTEMPTS, REPLIES};
use crate::log::kept::{tell_growth, Origin};
use crate::os::program::Program;
use crate::os::system;
use crate::settings::MOST_CAPACITY;
use std::fs::{self, DirBuilder, File, OpenOptions, Permissions};
use std::io::{BufWriter, Read, Write};
use std::os::unix::fs::{DirBuilderExt, OpenOptionsExt, PermissionsExt};
use std::path::Path;
use std::process::{Command, Stdio};

/// What an edge keeps beside the snapshots, as texts: the replies by keys, and what was told of attempts.
#[derive(Default, Debug, PartialEq, Eq)]
pub struct Beside {
    pub replies: Vec<u8>,
    pub attempts: Vec<u8>,
}

const MORE_THAN_QUEUES_HOLD: &str = "more tasks wait in the records than their queues hold";
/// How much more room the queues get at once. Each opening reads all records.
const GROWTH: u32 = 4;

/// A program that was opened from what its log goes on from, and has answered. Where more tasks wait in records than the
/// queues hold, these get more room; snapshots are never refused for what waits.
pub fn open_program(origin: &mut Origin) -> Result<Program, LogFault> {
    loop {
        let fault = match Program::start(&origin.words(), Some(MORE_THAN_QUEUES_HOLD)) {
            Err(fault) => fault,
            Ok(mut program) => match program.check_answers() {
                Ok(()) => return Ok(program),
                Err(fault) => fault,
            },
        };
        let capacity = origin.settings.capacity;
        if !fault.to_string().contains(MORE_THAN_QUEUES_HOLD) || capacity >= MOST_CAPACITY {
            return Err(LogFault::NotOpened(format!("{}: {fault}", folder_of(&origin.base, origin.generation))));
        }
        origin.settings.capacity = (GROWTH * capacity).min(MOST_CAPACITY);
    }
}

/// Puts snapshots of the shards in the place of the log's lines, with this beside them, and opens a program from them, with
/// this much room in its queues at least. Nothing may be asked meanwhile. Where it can't be done all is as it was.
pub fn compact(origin: &mut Origin, log: &mut LineLog, capacity: u32, beside: &Beside) -> Result<Program, LogFault> {
    let mut lines = log.reader()?;
    lines.next()?;
    let give = |input: &mut dyn Write| {
        while let Some(line) = lines.next()? {
            if give_line(input, line).is_err() {
                break;
            }
        }
        Ok(())
    };
    let mut next = next_origin(origin, capacity);
    write_snapshots(origin, give, &folder_of(&origin.base, next.generation))?;
    let opened = open_program(&mut next).and_then(|mut program| match exchange(origin, &next, log, beside) {
        Ok(()) => Ok(program),
        Err(fault) => {
            program.kill();
            Err(fault)
        }
    });
    let program = match opened {
        Ok(program) => program,
        Err(fault) => {
            let _ = remove_leftovers(&origin.base, origin.generation);
            return Err(fault);
        }
    };
    if next.settings.capacity != origin.settings.capacity {
        tell_growth(&origin.log, origin.settings.capacity, next.settings.capacity);
    }
    *origin = next;
    Ok(program)
}

/// Has a log go on from snapshots that were written, with this beside them.
fn exchange(origin: &Origin, next: &Origin, log: &mut LineLog, beside: &Beside) -> Result<(), LogFault> {
    write_beside(&next.base, next.generation, REPLIES, &beside.replies)?;
    write_beside(&next.base, next.generation, ATTEMPTS, &beside.attempts)?;
    keep_log(&origin.log, origin.generation)?;
    log.replace(&next.settings.header(next.generation))
}

/// What a log of this origin goes on from after its next compaction.
pub fn next_origin(origin: &Origin, capacity: u32) -> Origin {
    let mut next = origin.clone();
    next.generation += 1;
    next.settings.capacity = capacity.max(origin.settings.capacity);
    next
}

/// Gives the log a second name, under which it stays where another one takes its place.
pub fn keep_log(log: &str, generation: u64) -> Result<(), LogFault> {
    let kept = kept_log(log, generation);
    let link = || -> std::io::Result<()> {
        if Path::new(&kept).exists() {
            fs::remove_file(&kept)?;
        }
        fs::hard_link(log, &kept)?;
        sync_folder(&kept)
    };
    link().map_err(|fault| {
        LogFault::NotCompacted(format!("{kept}: {}: the log can't be kept under this name", said_of(&fault)))
    })
}

/// Writes a text that a generation goes on with into the file of this name, behind what is there.
pub fn write_beside(base: &str, generation: u64, name: &str, text: &[u8]) -> Result<(), LogFault> {
    let path = file_of(base, generation, name);
    let write = || -> std::io::Result<()> {
        let is_new = !Path::new(&path).exists();
        let mut file = OpenOptions::new().append(true).create(true).mode(0o600).open(&path)?;
        file.write_all(text)?;
        file.sync_all()?;
        if is_new {
            sync_folder(&path)?;
        }
        Ok(())
    };
    write().map_err(|fault| LogFault::NotCompacted(format!("{path}: {}", said_of(&fault))))
}

/// What a generation goes on with beside its snapshots. Empty where it has nothing, as earlier versions left it.
pub fn beside(base: &str, generation: u64) -> Result<Beside, LogFault> {
    let text = |name: &str| text_in(&file_of(base, generation, name));
    Ok(Beside { replies: text(REPLIES)?, attempts: text(ATTEMPTS)? })
}

/// The text of a file, where it is there.
fn text_in(path: &str) -> Result<Vec<u8>, LogFault> {
    let mut text = Vec::new();
    match File::open(path).and_then(|mut file| file.read_to_end(&mut text)) {
        Err(fault) if fault.kind() != std::io::ErrorKind::NotFound => Err(LogFault::io(path, &fault)),
        _ => Ok(text),
    }
}

/// Has a program serve the lines that it is given, and write its snapshots into a new folder, on the disk. It goes with
/// the thread that waits for it here: one that was left would write later into a folder that is another one's by then.
pub fn write_snapshots(
    origin: &Origin,
    give: impl FnOnce(&mut dyn Write) -> Result<(), LogFault>,
    folder: &str,
) -> Result<(), LogFault> {
    let failed = |said: String| LogFault::NotCompacted(format!("{folder}: {said}"));
    let io = |fault: std::io::Error| failed(said_of(&fault));
    let _ = fs::remove_dir_all(folder);
    DirBuilder::new().mode(0o700).create(folder).map_err(io)?;
    let words = origin.words();
    let mut writing = Command::new(&words[0]);
    writing.args(&words[1..]).args(["--snapshot", folder]);
    system::end_with_this_thread(&mut writing);
    let piped = writing.stdin(Stdio::piped()).stdout(Stdio::null()).stderr(Stdio::piped()).spawn();
    let mut child = piped.map_err(io)?;
    let error = child.stderr.take();
    let listener = std::thread::spawn(move || {
        let mut said = String::new();
        let _ = error.map(|mut error| error.read_to_string(&mut said));
        said
    });
    let given = child.stdin.take().map_or(Ok(()), |input| {
        let mut out = BufWriter::with_capacity(1 << 16, input);
        give(&mut out).map(|()| drop(out.flush()))
    });
    if let Err(fault) = given {
        let _ = child.kill().and_then(|()| child.wait());
        let _ = fs::remove_dir_all(folder);
        return Err(failed(fault.to_string()));
    }
    let status = child.wait().map_err(io)?;
    let said = listener.join().unwrap_or_default();
    // A script with a refusal among its replies ends with status 1, a fault with 2.
    if !matches!(status.code(), Some(0 | 1)) {
        let _ = fs::remove_dir_all(folder);
        return Err(failed(if said.trim().is_empty() { status.to_string() } else { said.trim().to_string() }));
    }
    for file in fs::read_dir(folder).map_err(io)?.flatten() {
        fs::set_permissions(file.path(), Permissions::from_mode(0o600)).map_err(io)?;
    }
    sync_folder(&format!("{folder}/.")).and_then(|()| sync_folder(folder)).map_err(io)
}

/// Gives a program a line of a log. That it has ended shows by its status.
pub fn give_line(out: &mut dyn Write, line: &[u8]) -> std::io::Result<()> {
    out.write_all(for_replay(line).as_deref().unwrap_or(line)).and_then(|()| out.write_all(b"\n"))
}
