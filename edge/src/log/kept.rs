//! A program and the log of its lines: how they are opened, and how the program is started again.
//!
//! With one pass the program's replies are a proved function of the lines that it was given, so the log is all there
//! is to keep. Opened on a log that is there, the program is started with the log's own settings and given its lines
//! again. Who hands in calls from then on writes each line to the log before the program reads it.

use crate::call::body::for_replay;
use crate::call::fault::Fault;
use crate::log::compaction::{self, Beside};
use crate::log::fault::LogFault;
use crate::log::file::{LineLog, Lines};
use crate::log::generation::{self, Files, REPLIES};
use crate::log::table;
use crate::log::table::{Connect, Start};
use crate::log::Log;
use crate::os::local::Local;
use crate::os::program::Program;
use crate::os::stderr::report;
use crate::settings::{Named, Settings};
use crate::turns::ledger::Pair;
use std::io::{BufWriter, Write};
use std::process::{ChildStdin, Command, Stdio};
use std::sync::Arc;
use std::thread::JoinHandle;

/// Why a service is not opened, or not opened again.
#[derive(Clone, Debug)]
pub enum NotServed {
    Log(LogFault),
    Program(Fault),
}

impl std::fmt::Display for NotServed {
    fn fmt(&self, out: &mut std::fmt::Formatter<'_>) -> std::fmt::Result {
        match self {
            NotServed::Log(fault) => fault.fmt(out),
            NotServed::Program(fault) => fault.fmt(out),
        }
    }
}

impl From<LogFault> for NotServed {
    fn from(fault: LogFault) -> NotServed {
        NotServed::Log(fault)
    }
}

impl From<Fault> for NotServed {
    fn from(fault: Fault) -> NotServed {
        NotServed::Program(fault)
    }
}

/// What a program is started with: its path, the log, the service's settings, and how often the log was compacted.
#[derive(Clone, Debug)]
pub struct Origin {
    pub program: String,
    /// The log's path, or the address of its table as it may be shown.
    pub log: String,
    /// The path after which the folders of its records are named: that of the log, or one in a folder of this process.
    pub base: String,
    pub settings: Settings,
    pub generation: u64,
    /// The table that has the lines, where no file has them.
    pub table: Option<FromTable>,
}

/// Where the lines of a table are: how it is connected to, and the batch behind which they are. That is their header, or
/// an earlier one where lines came while the snapshots were made.
#[derive(Clone, Debug)]
pub struct FromTable {
    pub connect: Connect,
    pub base: u64,
    /// Under which this edge leads; 0 while it follows.
    pub epoch: u64,
    /// Of the records.
    _folder: Arc<Local>,
}

impl Origin {
    /// Of a log in a file.
    fn for_file(program: &str, path: &str, settings: Settings, generation: u64) -> Origin {
        let (program, log, base) = (program.to_string(), path.to_string(), path.to_string());
        Origin { program, log, base, settings, generation, table: None }
    }

    /// Of a table that goes on from here. Its snapshots will lie in a folder of this process.
    pub fn for_table(program: &str, connect: &Connect, settings: Settings, start: Start) -> Result<Origin, LogFault> {
        let (program, log) = (program.to_string(), connect.shown.clone());
        let folder = Arc::new(Local::new()?);
        let base = folder.path("table");
        let table = Some(FromTable { connect: connect.clone(), base: start.number, epoch: 0, _folder: folder });
        Ok(Origin { program, log, base, settings, generation: start.generation, table })
    }

    /// The table that has the lines.
    pub fn table_source(&self) -> Result<&FromTable, LogFault> {
        self.table.as_ref().ok_or_else(|| LogFault::Io(format!("{}: this is no table", self.log)))
    }

    /// A program that has served nothing.
    pub fn start_new(&self) -> Result<Program, NotServed> {
        Ok(Program::start(&self.words(), None)?)
    }

    /// The program's words.
    pub fn words(&self) -> Vec<String> {
        let mut words = vec![self.program.clone()];
        words.extend(self.settings.options());
        words.extend(generation::load_options(&self.base, self.generation));
        words
    }

    /// The program, started from the records where the log's file has some. With more room in its queues where the records
    /// have more tasks: then the settings have it too.
    pub fn start(&mut self) -> Result<Program, NotServed> {
        if self.generation == 0 {
            return self.start_new();
        }
        generation::keep_private(&self.base, self.generation)?;
        Ok(compaction::open_program(self)?)
    }
}

/// Told each line of the log as it is served again: the line and its reply.
pub trait Observe {
    fn line(&mut self, line: &[u8], reply: &[u8]);

    /// Told what was kept beside the snapshots of a compaction. False where the replies by keys are damaged.
    fn beside(&mut self, _: &Beside) -> bool {
        true
    }

    /// Told between which shards there were transfers before a compaction, where that is known.
    fn pairs(&mut self, _: &[Pair]) {}

    /// What is to be kept beside the snapshots of a compaction.
    fn kept_beside(&self) -> Beside {
        Beside::default()
    }
}

/// An opened service.
pub struct Kept {
    pub origin: Origin,
    pub log: Box<dyn Log>,
    pub program: Program,
    /// The greatest moment of the records that the log goes on from.
    pub last_moment: u64,
}

/// Opens a log in a file, or begins one, and has the program serve its lines again.
pub fn open<O: Observe>(
    program: &str,
    path: &str,
    named: &Named,
    observer: impl FnOnce(&Settings) -> O,
) -> Result<(Kept, O), NotServed> {
    let mut log = LineLog::open(path)?;
    let (settings, generation) = settled(program, &mut log, named)?;
    generation::remove_leftovers(path, generation)?;
    let mut origin = Origin::for_file(program, path, settings, generation);
    let room = origin.settings.capacity;
    let mut started = origin.start()?;
    if origin.settings.capacity != room {
        take_room(&mut log, &origin, room, &mut started)?;
    }
    let mut observer = observer(&origin.settings);
    let last_moment = look_before(path, generation, &mut observer)?;
    replay(&mut started, &mut log.reader()?, log.lines().saturating_sub(1), &mut observer)?;
    grow(&mut origin, &mut log, &mut started, named, || observer.kept_beside())?;
    Ok((Kept { origin, log: Box::new(log), program: started, last_moment }, observer))
}

/// Tells what is known of the time before a log's compaction. The last moment of it.
fn look_before(path: &str, generation: u64, observer: &mut impl Observe) -> Result<u64, LogFault> {
    let files = Files::find(path, generation)?;
    if generation > 0 && !observer.beside(&compaction::beside(path, generation)?) {
        let file = generation::file_of(path, generation, REPLIES);
        return Err(LogFault::Damaged(format!("{file}: the replies by keys are damaged")));
    }
    observer.pairs(&files.pairs()?);
    files.last_moment()
}

/// Has the log say that its queues have more room from now on.
fn take_room(log: &mut LineLog, origin: &Origin, room: u32, program: &mut Program) -> Result<(), NotServed> {
    if log.lines() > 1 {
        // With other queues these lines may be answered otherwise than they were.
        program.kill();
        let said = "more tasks wait in its records than its queues hold, and it has lines after them";
        return Err(LogFault::NotOpened(format!("{}: {said}", origin.log)).into());
    }
    log.replace(&origin.settings.header(origin.generation))?;
    tell_growth(&origin.log, room, origin.settings.capacity);
    Ok(())
}

/// Says that the queues have more room.
pub fn tell_growth(log: &str, former: u32, capacity: u32) {
    report!("{log}: the queues have room for {capacity} tasks from now on, and had for {former}");
}

/// The log's settings, and how often it was compacted; a new log gets the settings that are wanted.
fn settled(program: &str, log: &mut LineLog, named: &Named) -> Result<(Settings, u64), NotServed> {
    let header = log.reader()?.next()?.map(<[u8]>::to_vec);
    if let Some(header) = header {
        let (found, generation) = Settings::parse_header(&header, &log.path)?;
        found.check(&found.clone().with(named), &log.path)?;
        return Ok((found, generation));
    }
    let settings = Settings::default().with(named);
    check(program, &settings)?;
    log.append([settings.header(0).as_slice()])?;
    Ok((settings, 0))
}

/// Has the program serve an empty script: a log can't change the settings that it was begun with.
pub fn check(program: &str, settings: &Settings) -> Result<(), LogFault> {
    let options = settings.options();
    let ran = Command::new(program).args(&options).stdin(Stdio::null()).stdout(Stdio::null()).status();
    let status = match ran {
        Ok(status) if status.success() => return Ok(()),
        Ok(status) => format!("status {}", status.code().unwrap_or(-1)),
        Err(fault) => fault.to_string(),
    };
    Err(LogFault::Other(format!("the program refuses {}: {status}", options.join(" "))))
}

/// Gives the program so many lines of the log, and takes its replies.
fn replay(program: &mut Program, lines: &mut Lines, count: u64, observer: &mut impl Observe) -> Result<(), NotServed> {
    let mut given = Lines::open(lines.path())?.ok_or_else(|| LogFault::Io("the log is gone".to_string()))?;
    let mut input = program.take_input();
    let feeder = std::thread::spawn(move || {
        // That the program has ended shows where its replies are read.
        let _ = input.as_mut().map(|input| feed(input, &mut given, count));
        input
    });
    let result = take_replies(program, lines, count, observer);
    if result.is_err() {
        program.kill();
    }
    program.give_input(joined(feeder));
    result
}

fn joined(feeder: JoinHandle<Option<ChildStdin>>) -> Option<ChildStdin> {
    feeder.join().unwrap_or(None)
}

/// Writes so many lines of a log to the program.
fn feed(input: &mut ChildStdin, lines: &mut Lines, count: u64) -> std::io::Result<()> {
    let mut out = BufWriter::with_capacity(1 << 16, input);
    let is_there = |lines: &mut Lines| matches!(lines.next(), Ok(Some(_)));
    if !is_there(lines) {
        return Ok(());
    }
    for _ in 0..count {
        let line = match lines.next() {
            Ok(Some(line)) => line,
            _ => break,
        };
        match for_replay(line) {
            Some(other) => out.write_all(&other)?,
            None => out.write_all(line)?,
        }
        out.write_all(b"\n")?;
    }
    out.flush()
}

fn take_replies(
    program: &mut Program,
    lines: &mut Lines,
    count: u64,
    observer: &mut impl Observe,
) -> Result<(), NotServed> {
    let mut text = Vec::new();
    lines.next()?;
    for number in 1..=count {
        let line = match lines.next()? {
            Some(line) => line,
            None => return Err(LogFault::Io(format!("line {number} of the log is gone")).into()),
        };
        match program.output.reply(number, &mut text) {
            Some(reply) => {
                reply?;
                observer.line(line, &text);
            }
            None => return Err(program.ended(number).into()),
        }
    }
    Ok(())
}

/// A program in the place of one that has ended, once it has served so many lines of the log.
pub fn start_again(origin: &Origin, count: u64) -> Result<Program, NotServed> {
    if origin.table.is_some() {
        return table::log::serve_again(origin, count);
    }
    let mut origin = origin.clone();
    let mut program = origin.start()?;
    let mut lines =
        Lines::open(&origin.log)?.ok_or_else(|| LogFault::Io(format!("{}: the log is gone", origin.log)))?;
    replay(&mut program, &mut lines, count, &mut Nobody)?;
    Ok(program)
}

/// Looks at nothing.
struct Nobody;

impl Observe for Nobody {
    fn line(&mut self, _: &[u8], _: &[u8]) {}
}

/// Gives the queues the room that is wanted, where that is more than they have.
fn grow(
    origin: &mut Origin,
    log: &mut LineLog,
    program: &mut Program,
    named: &Named,
    beside: impl FnOnce() -> Beside,
) -> Result<(), NotServed> {
    let has = origin.settings.capacity;
    let wanted = named.capacity.unwrap_or(has);
    if wanted < has {
        report!("{}: the queues keep their room for {has} tasks: it never falls, so {wanted} is not taken", log.path);
    } else if wanted > has {
        let opened = compaction::compact(origin, log, wanted, &beside())?;
        std::mem::replace(program, opened).end();
        generation::remove_leftovers(&log.path, origin.generation)?;
    }
    Ok(())
}
