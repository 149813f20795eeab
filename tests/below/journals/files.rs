//! A real file, and replies that can't be told.

use crate::devices::Full;
use crate::journals::batches::{BATCHES, are_first, are_told, commit, commit_each, open};
use journal_disk::{DiskError, Memory};
use journal_file::FileDisk;
use journal_frames::{RecoverFault, find, framed};
use std::alloc::{AllocError, AllocGlobal, Global};
use std::fs::{self, OpenOptions};
use std::rt::Files;

/// Where the test's file is.
const PATH: &str = "journal_tests.journal";

/// Where a test keeps a file with which nothing can be done but read it.
const READ_ONLY: &str = "journal_tests.read_only";

/// How many batches are found in the file, where they are the first ones, and then the others are
/// committed to it by their replies' room.
fn go_on<R: Files + AllocGlobal>(rt: &R, room: usize) -> Option<(usize, usize, Vec<u8>)> {
    let alloc = rt.alloc();
    let file = OpenOptions::new()
        .read(true)
        .write(true)
        .create(true)
        .open(rt, PATH)
        .ok()?;
    let replies = Full {
        held: Vec::new(alloc),
        room,
        flushes: u64::MAX,
    };
    let (mut journal, bodies) = open(alloc, FileDisk::new(alloc, file, replies)).ok()?;
    if !are_first(&bodies) {
        return None;
    }
    let rest = BATCHES.get(bodies.len()..).unwrap_or_default();
    let done = commit_each(alloc, &mut journal, rest);
    let (_, replies, _) = journal.into_disk().into_parts();
    Some((bodies.len(), done, replies.held))
}

#[test]
fn goes_on_where_replies_were_not_told(rt: HostRuntime) {
    if matches!(fs::exists(&rt, PATH), Ok(true)) {
        assert!(rt; fs::remove_file(&rt, PATH).is_ok());
    }
    // Of the first replies half are told: the batch is on the disk.
    let Some((found, done, told)) = go_on(&rt, 15) else {
        panic!(rt; "no file")
    };
    assert!(rt; found == 0 && done == 0 && told.as_slice() == b"{\"line\":1}\n{\"li".as_slice());
    // The second batch has no replies, and of the third's none is told.
    let Some((found, done, told)) = go_on(&rt, 0) else {
        panic!(rt; "no file")
    };
    assert!(rt; found == 1 && done == 1 && told.is_empty());
    let Some((found, done, _)) = go_on(&rt, 1000) else {
        panic!(rt; "no file")
    };
    assert!(rt; found == 3 && done == 2);
    assert!(rt; fs::remove_file(&rt, PATH).is_ok());
    let Some((found, done, told)) = go_on(&rt, 1000) else {
        panic!(rt; "no file")
    };
    assert!(rt; found == 0 && done == BATCHES.len() && are_told(&told, done));
    assert!(rt; fs::remove_file(&rt, PATH).is_ok());
}

#[test]
fn a_file_that_is_not_written_is_a_fault(rt: HostRuntime) {
    let alloc = rt.alloc();
    assert!(rt; fs::write(&rt, READ_ONLY, b"").is_ok());
    let Ok(file) = fs::open(&rt, READ_ONLY) else {
        panic!(rt; "no file")
    };
    let fault = match open(alloc, FileDisk::new(alloc, file, Vec::new(alloc))) {
        Ok((_journal, _bodies)) => None,
        Err((fault, _disk)) => Some(fault),
    };
    assert!(rt; fault == Some(RecoverFault::Device(DiskError::Failed)));
    assert!(rt; fs::remove_file(&rt, READ_ONLY).is_ok());
}

/// Where a test's file begins with bytes that are no journal's.
const AFTER: &str = "journal_tests.after";

/// What such a file begins with.
const BEFORE: &[u8] = b"room that was given back";

/// The file at first: no batch, and the zero that comes after the last one.
const AT_FIRST: &[u8] = b"room that was given back\0";

/// The batches that are found in the file, the first of them in front of it, and then the others are
/// committed to it.
fn go_on_after<R: Files + AllocGlobal>(rt: &R) -> Option<Vec<Vec<u8>>> {
    let alloc = rt.alloc();
    let mut how = OpenOptions::new();
    let file = how.read(true).write(true).open(rt, AFTER).ok()?;
    let front = framed(alloc, BATCHES.first()?.0).ok()?;
    let base = BEFORE.len() as u64;
    let disk = FileDisk::after(alloc, front, base, file, Vec::new(alloc));
    let (mut journal, bodies) = open(alloc, disk).ok()?;
    let rest = BATCHES.get(bodies.len()..).unwrap_or_default();
    if commit_each(alloc, &mut journal, rest) == rest.len() {
        return Some(bodies);
    }
    None
}

#[test]
fn what_comes_before_a_base_is_neither_read_nor_written(rt: HostRuntime) {
    let alloc = rt.alloc();
    assert!(rt; fs::write(&rt, AFTER, AT_FIRST).is_ok());
    let Some(bodies) = go_on_after(&rt) else {
        panic!(rt; "no file")
    };
    assert!(rt; bodies.len() == 1 && are_first(&bodies));
    let Some(bodies) = go_on_after(&rt) else {
        panic!(rt; "no file")
    };
    assert!(rt; bodies.len() == BATCHES.len() && are_first(&bodies));
    let (Ok(bytes), Ok(second)) = (fs::read(&rt, AFTER), framed(alloc, BATCHES[1].0)) else {
        panic!(rt; "no file")
    };
    let since = bytes.get(BEFORE.len()..).unwrap_or_default();
    assert!(rt; bytes.starts_with(BEFORE) && since.starts_with(&second));
    assert!(rt; fs::remove_file(&rt, AFTER).is_ok());
}

/// How many bytes each batch of a file that grows has.
const LARGE: usize = 50_000;

/// Commits so many large batches to a new file in memory. The file as it is then, where all were.
fn grown(alloc: Global, count: usize) -> Result<Option<Vec<u8>>, AllocError> {
    let body = vec![in alloc; b'a'; LARGE]?;
    let Ok((mut journal, _bodies)) = open(alloc, Memory::new(alloc, Vec::new(alloc))) else {
        return Ok(None);
    };
    for _ in 0..count {
        if commit(alloc, &mut journal, (&body, b"")) != Some(Ok(())) {
            return Ok(None);
        }
    }
    Ok(Some(journal.into_disk().bytes().to_vec(alloc)?))
}

#[test]
fn a_file_is_at_most_some_times_as_long_as_its_batches(rt: HostRuntime) {
    let alloc = rt.alloc();
    for count in 0..8 {
        let Ok(Some(bytes)) = grown(alloc, count) else {
            panic!(rt; "no file")
        };
        assert!(rt; bytes.len() <= 65_536 + 3 * count * (LARGE + 34));
        let Ok((_journal, bodies)) = open(alloc, Memory::new(alloc, bytes)) else {
            panic!(rt; "not found")
        };
        assert!(rt; bodies.len() == count);
        assert!(rt; bodies.iter().all(|body| body.len() == LARGE));
    }
}

#[test]
fn a_file_that_is_found_is_not_written(rt: HostRuntime) {
    let alloc = rt.alloc();
    let Ok(Some(mut bytes)) = grown(alloc, 2) else {
        panic!(rt; "no file")
    };
    // A beginning of a third batch, as a crash leaves it.
    let Some(byte) = bytes.get_mut(2 * (LARGE + 34)) else {
        panic!(rt; "no zeros")
    };
    *byte = 29;
    let Ok(before) = bytes.to_vec(alloc) else {
        panic!(rt; "no memory")
    };
    let Ok(found) = find(alloc, Memory::new(alloc, bytes)) else {
        panic!(rt; "not found")
    };
    assert!(rt; found.bodies().len() == 2);
    let disk = found.into_disk();
    assert!(rt; disk.bytes() == before.as_slice());
}
