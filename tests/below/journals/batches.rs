//! Batches of lines with their replies, and what of them is found.

use journal_disk::{Disk, DiskError};
use journal_frames::{CommitFault, Journal, RecoverFault, find, is_plain};
use std::alloc::{AllocError, Global};

/// Some batches: long and short, an empty one, and one of what its own check may look like.
pub(crate) const BATCHES: [(&[u8], &[u8]); 5] = [
    (
        b"{\"op\":\"start\"}\n{\"op\":\"signal\"}\n",
        b"{\"line\":1}\n{\"line\":2}\n",
    ),
    (b"", b""),
    (b"{\"op\":\"history\"}\n", b"{\"line\":3}\n"),
    (b"aaaaaaaaaaaaaaaabaaaaaaaaaaaaaaa", b"{\"line\":4}\n"),
    (
        b"{\"input\":\"\xc3\xa9 \xf0\x9f\x98\x80\\u0000\"}\n",
        b"{\"line\":5}\n",
    ),
];

fn copied(alloc: Global, bodies: &[Vec<u8>]) -> Result<Vec<Vec<u8>>, AllocError> {
    let mut copies = Vec::new(alloc);
    for body in bodies {
        copies.push(body.to_vec(alloc)?)?;
    }
    Ok(copies)
}

/// Finds the batches of a file, and goes on from there.
pub(crate) fn open<D: Disk>(
    alloc: Global,
    disk: D,
) -> Result<(Journal<D>, Vec<Vec<u8>>), (RecoverFault, D)> {
    let found = match find(alloc, disk) {
        Ok(found) => found,
        Err(refused) => return Err(refused),
    };
    let Ok(bodies) = copied(alloc, found.bodies()) else {
        return Err((RecoverFault::Device(DiskError::Memory), found.into_disk()));
    };
    match found.resume(alloc) {
        Ok(journal) => Ok((journal, bodies)),
        Err((cause, disk)) => Err((RecoverFault::Device(cause), disk)),
    }
}

/// Commits a batch. Its text has to be plain.
pub(crate) fn commit<D: Disk>(
    alloc: Global,
    journal: &mut Journal<D>,
    batch: (&[u8], &[u8]),
) -> Option<Result<(), CommitFault>> {
    let (body, replies) = batch;
    if !is_plain(body) {
        return None;
    }
    Some(journal.commit(alloc, body, replies))
}

/// Commits these batches one after the other up to the first fault, and says how many it committed.
pub(crate) fn commit_each<D: Disk>(
    alloc: Global,
    journal: &mut Journal<D>,
    batches: &[(&[u8], &[u8])],
) -> usize {
    let mut done = 0usize;
    for batch in batches {
        let Some(Ok(())) = commit(alloc, journal, *batch) else {
            break;
        };
        done = done.saturating_add(1);
    }
    done
}

/// Whether these are the first batches, in order.
pub(crate) fn are_first(bodies: &[Vec<u8>]) -> bool {
    bodies.len() <= BATCHES.len()
        && bodies
            .iter()
            .zip(BATCHES.iter())
            .all(|(body, batch)| body.as_slice() == batch.0)
}

/// Whether these are just the replies to so many batches.
pub(crate) fn are_told(told: &[u8], count: usize) -> bool {
    let mut rest = told;
    for (_, replies) in BATCHES.iter().take(count) {
        let Some(after) = rest.strip_prefix(*replies) else {
            return false;
        };
        rest = after;
    }
    rest.is_empty()
}
