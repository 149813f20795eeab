//! A file of which one byte is another than was written.

use crate::journals::batches::{BATCHES, are_first, commit_each, open};
use journal_disk::Memory;
use journal_frames::RecoverFault;
use std::alloc::{AllocError, Global};

/// How many zeros are left after the last batch.
const ZEROS: usize = 20;

/// How many bytes a batch takes beside its text: two marks and its check.
const MARKS: usize = 34;

/// What a byte becomes: a zero, a mark, and bytes that a text or a check has.
const VALUES: [u8; 8] = [0, 10, 29, 30, 32, 97, 112, 255];

/// The byte before a batch.
const START: u8 = 29;

/// Where the batches begin, and where the last one ends.
fn begins(alloc: Global) -> Result<Vec<usize>, AllocError> {
    let mut places = Vec::new(alloc);
    let mut at = 0usize;
    places.push(at)?;
    for (body, _) in BATCHES {
        at = at.saturating_add(body.len()).saturating_add(MARKS);
        places.push(at)?;
    }
    Ok(places)
}

/// A file with all batches.
fn whole(alloc: Global, end: usize) -> Result<Option<Vec<u8>>, AllocError> {
    let Ok((mut journal, _bodies)) = open(alloc, Memory::new(alloc, Vec::new(alloc))) else {
        return Ok(None);
    };
    if commit_each(alloc, &mut journal, &BATCHES) != BATCHES.len() {
        return Ok(None);
    }
    let disk = journal.into_disk();
    let kept = disk.bytes().get(..end.saturating_add(ZEROS));
    match kept {
        Some(bytes) => Ok(Some(bytes.to_vec(alloc)?)),
        None => Ok(None),
    }
}

/// What a file is read as: so many first batches, or the place of its damage.
fn reading(alloc: Global, bytes: Vec<u8>) -> Option<Result<usize, usize>> {
    match open(alloc, Memory::new(alloc, bytes)) {
        Ok((_journal, bodies)) => are_first(&bodies).then_some(Ok(bodies.len())),
        Err((RecoverFault::Damaged(at), _disk)) => Some(Err(at)),
        Err((RecoverFault::Device(_cause), _disk)) => None,
    }
}

/// Whether a changed byte of this batch is refused, at the batch's first byte. The last one is as a crash
/// may leave it where it has a zero or doesn't end, and is dropped.
fn is_found(
    alloc: Global,
    bytes: &[u8],
    place: usize,
    value: u8,
    batch: (usize, usize),
) -> Result<bool, AllocError> {
    let mut changed = bytes.to_vec(alloc)?;
    let Some(byte) = changed.get_mut(place) else {
        return Ok(false);
    };
    if *byte == value {
        return Ok(true);
    }
    *byte = value;
    let (number, begin) = batch;
    let is_last = number.saturating_add(1) == BATCHES.len();
    let ends_it = place.saturating_add(ZEROS + 1) == bytes.len();
    let is_torn = is_last && (value == 0 || (ends_it && value != START));
    let expected = if is_torn { Ok(number) } else { Err(begin) };
    Ok(reading(alloc, changed) == Some(expected))
}

#[test]
fn a_changed_byte_is_refused(rt: HostRuntime) {
    let alloc = rt.alloc();
    let Ok(places) = begins(alloc) else {
        panic!(rt; "no memory")
    };
    let end = places.last().copied().unwrap_or(0);
    let Ok(Some(bytes)) = whole(alloc, end) else {
        panic!(rt; "no file")
    };
    for place in 0..end {
        let number = places
            .iter()
            .filter(|begin| **begin <= place)
            .count()
            .saturating_sub(1);
        let begin = places.get(number).copied().unwrap_or(0);
        for value in VALUES {
            assert!(rt; is_found(alloc, &bytes, place, value, (number, begin)) == Ok(true));
        }
    }
}

#[test]
fn a_file_cut_in_its_zeros_is_read_whole(rt: HostRuntime) {
    let alloc = rt.alloc();
    let Ok(places) = begins(alloc) else {
        panic!(rt; "no memory")
    };
    let end = places.last().copied().unwrap_or(0);
    let Ok(Some(mut bytes)) = whole(alloc, end) else {
        panic!(rt; "no file")
    };
    bytes.truncate(end.saturating_add(1));
    let Ok(kept) = bytes.to_vec(alloc) else {
        panic!(rt; "no memory")
    };
    assert!(rt; reading(alloc, kept) == Some(Ok(BATCHES.len())));
    bytes.truncate(end);
    assert!(rt; reading(alloc, bytes) == Some(Err(end)));
}
