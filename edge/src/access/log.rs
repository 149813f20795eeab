//! A log of access: a line of JSON for each call by HTTP.
//!
//! A thread of its own writes it, so no call waits for a disk. Where that is slower than calls come, lines are left out, and
//! the next one that is written says how many.

use crate::json::{quoted, write_text};
use crate::os::stderr::report;
use std::fs::{File, OpenOptions};
use std::io::Write;
use std::os::unix::fs::OpenOptionsExt;
use std::sync::atomic::{AtomicBool, AtomicU64, Ordering};
use std::sync::mpsc::{sync_channel, Receiver, SyncSender};
use std::sync::Arc;
use std::thread::Builder;
use std::time::{Duration, SystemTime, UNIX_EPOCH};

/// So many lines may wait to be written.
const MOST_WAITING: usize = 16_384;

/// One call, as it was answered.
#[derive(Clone, Debug)]
pub struct Access<'a> {
    /// Who made it; none where he was not let in.
    pub name: Option<&'a str>,
    pub method: &'a str,
    /// Without a query, which may have a token.
    pub path: &'a str,
    /// Its operation, where it is a call of the service that could be read.
    pub op: Option<&'static str>,
    pub status: u16,
    /// Of the answer's body, where that is known before it is sent.
    pub bytes: Option<u64>,
    pub took: Duration,
}

impl Access<'_> {
    /// Its line, at this time since 1970, after so many that were left out.
    fn line(&self, at: Duration, left_out: u64) -> Vec<u8> {
        let mut line = format!("{{\"at\":{}.{:03},\"name\":", at.as_secs(), at.subsec_millis()).into_bytes();
        put_or_null(self.name, &mut line);
        line.extend_from_slice(b",\"method\":");
        write_text(self.method, &mut line);
        line.extend_from_slice(b",\"path\":");
        write_text(self.path, &mut line);
        line.extend_from_slice(b",\"op\":");
        put_or_null(self.op, &mut line);
        let bytes = self.bytes.map_or_else(|| "null".to_string(), |bytes| bytes.to_string());
        let took = self.took.as_secs_f64() * 1_000.0;
        line.extend_from_slice(format!(",\"status\":{},\"bytes\":{bytes},\"ms\":{took:.3}", self.status).as_bytes());
        if left_out > 0 {
            line.extend_from_slice(format!(",\"left_out\":{left_out}").as_bytes());
        }
        line.extend_from_slice(b"}\n");
        line
    }
}

fn put_or_null(text: Option<&str>, line: &mut Vec<u8>) {
    match text {
        Some(text) => write_text(text, line),
        None => line.extend_from_slice(b"null"),
    }
}

/// A log of access that is written.
#[derive(Debug)]
pub struct AccessLog {
    lines: SyncSender<Vec<u8>>,
    left_out: AtomicU64,
    /// Whether the file of this name is another one by now, as where logs are rotated.
    is_moved: Arc<AtomicBool>,
}

impl AccessLog {
    /// Writes to the file of this path, behind what is there.
    pub fn open(path: &str) -> Result<AccessLog, String> {
        let file = open(path)?;
        let (lines, waiting) = sync_channel(MOST_WAITING);
        let (path, is_moved) = (path.to_string(), Arc::new(AtomicBool::new(false)));
        let moved = is_moved.clone();
        let writer = Builder::new().name("access log".to_string()).spawn(move || write(&waiting, file, &path, &moved));
        writer.map_err(|fault| fault.to_string())?;
        Ok(AccessLog { lines, left_out: AtomicU64::new(0), is_moved })
    }

    /// Opens the file anew before the next line.
    pub fn open_again(&self) {
        self.is_moved.store(true, Ordering::Relaxed);
    }

    /// Has a call written.
    pub fn note(&self, access: &Access<'_>) {
        let at = SystemTime::now().duration_since(UNIX_EPOCH).unwrap_or_default();
        let left_out = self.left_out.swap(0, Ordering::Relaxed);
        if self.lines.try_send(access.line(at, left_out)).is_err() {
            self.left_out.fetch_add(left_out + 1, Ordering::Relaxed);
        }
    }
}

fn open(path: &str) -> Result<File, String> {
    let opened = OpenOptions::new().append(true).create(true).mode(0o600).open(path);
    opened.map_err(|fault| format!("{}: {fault}", quoted(path)))
}

/// Writes lines until nobody has more. A disk that is full ends nothing: it is said once, until a line is written again.
fn write(waiting: &Receiver<Vec<u8>>, mut file: File, path: &str, is_moved: &AtomicBool) {
    let mut fails = false;
    for line in waiting {
        if is_moved.swap(false, Ordering::Relaxed) {
            match open(path) {
                Ok(other) => file = other,
                Err(fault) => report!("the log of access goes on in the file that it had: {fault}"),
            }
        }
        let written = file.write_all(&line);
        if let (Err(fault), false) = (&written, fails) {
            report!("{path}: the log of access lacks lines: {fault}");
        }
        fails = written.is_err();
    }
}
