//! A machine that crashes after each call of its file.

use crate::journals::batches::{BATCHES, are_first, are_told, commit_each, open};
use crate::journals::crashing_file::CrashingFile;
use journal_file::FileDisk;
use std::alloc::{AllocError, Global};

/// How many calls the file is asked for by all batches and by the opening, at most.
const CALLS: u64 = 40;

/// What a crash left.
#[derive(Drop)]
struct Left {
    image: Vec<u8>,
    told: Vec<u8>,
    /// How many batches were committed.
    committed: usize,
}

/// Commits the batches from this one on over such a file, on a machine that does so many calls, and then
/// crashes. All batches before that one have to be found.
fn run(
    alloc: Global,
    image: Vec<u8>,
    first: usize,
    calls: u64,
    seed: u64,
) -> Result<Left, AllocError> {
    let file = CrashingFile::new(alloc, image, calls)?;
    let disk = FileDisk::new(alloc, file, Vec::new(alloc));
    let (disk, committed) = match open(alloc, disk) {
        Ok((mut journal, _bodies)) => {
            let rest = BATCHES.get(first..).unwrap_or_default();
            let done = commit_each(alloc, &mut journal, rest);
            (journal.into_disk(), done)
        }
        Err((_fault, disk)) => (disk, 0),
    };
    let (file, told, _) = disk.into_parts();
    Ok(Left {
        image: file.crash(seed)?,
        told,
        committed,
    })
}

/// How many batches are found in a file, where they are the first ones.
fn found(alloc: Global, image: &[u8]) -> Result<Option<usize>, AllocError> {
    let file = CrashingFile::new(alloc, image.to_vec(alloc)?, u64::MAX)?;
    match open(alloc, FileDisk::new(alloc, file, Vec::new(alloc))) {
        Ok((_journal, bodies)) => Ok(are_first(&bodies).then_some(bodies.len())),
        Err((_fault, _disk)) => Ok(None),
    }
}

/// Whether a crash after so many calls left all that was committed and at most one batch more, and no
/// reply was told before its batch was there; and whether so does a second crash.
fn is_safe(alloc: Global, calls: u64, seed: u64) -> Result<bool, AllocError> {
    let left = run(alloc, Vec::new(alloc), 0, calls, seed)?;
    let Some(count) = found(alloc, &left.image)? else {
        return Ok(false);
    };
    if count < left.committed || count > left.committed.saturating_add(1) {
        return Ok(false);
    }
    if !are_told(&left.told, left.committed) {
        return Ok(false);
    }
    let again = run(alloc, left.image, count, calls, seed.wrapping_add(1))?;
    let after = found(alloc, &again.image)?;
    let least = count.saturating_add(again.committed);
    Ok(after == Some(least) || after == Some(least.saturating_add(1)))
}

#[test]
fn crashes_after_each_call(rt: HostRuntime) {
    for calls in 0..CALLS {
        assert!(rt; is_safe(rt.alloc(), calls, calls) == Ok(true));
    }
}

#[test]
fn commits_all_where_no_call_fails(rt: HostRuntime) {
    let alloc = rt.alloc();
    let Ok(left) = run(alloc, Vec::new(alloc), 0, CALLS, 1) else {
        panic!(rt; "no memory")
    };
    assert!(rt; left.committed == BATCHES.len());
    assert!(rt; found(alloc, &left.image) == Ok(Some(BATCHES.len())));
    assert!(rt; are_told(&left.told, BATCHES.len()));
}
