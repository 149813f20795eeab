//! A file whose machine crashes: between two syncs a byte that was written is on the disk or isn't.

use std::alloc::{AllocError, Global};
use std::cell::Cell;
use std::fs::{Metadata, OpenFile};
use std::io::{self, Error, ErrorKind, Read, Seek, SeekFrom, Write};

/// How many bytes a write takes at most.
const MOST: usize = 50_000;

/// Bytes that were written, and where.
#[derive(Drop)]
struct Range {
    at: usize,
    bytes: Vec<u8>,
}

/// A file on a machine that does so many calls and then none.
#[derive(Drop)]
pub(crate) struct CrashingFile {
    alloc: Global,
    /// What the disk has had from the beginning.
    old: Vec<u8>,
    /// What a read returns.
    current: Vec<u8>,
    /// All that was written, in order.
    ranges: Vec<Range>,
    /// How many of these are on the disk.
    synced: Cell<usize>,
    position: usize,
    /// How many calls are still done.
    calls: Cell<u64>,
}

fn out_of_memory(_error: AllocError) -> Error {
    Error::from(ErrorKind::OutOfMemory)
}

/// The next state of Knuth's generator of 64 bits.
fn next_state(state: u64) -> u64 {
    state
        .wrapping_mul(6_364_136_223_846_793_005)
        .wrapping_add(1_442_695_040_888_963_407)
}

/// Writes bytes over those that are there, and the rest of them after the end.
fn put(image: &mut Vec<u8>, at: usize, bytes: &[u8]) -> Result<(), AllocError> {
    let from = at.min(image.len());
    let there = &mut image[from..];
    let over = there.len().min(bytes.len());
    there[..over].copy_from_slice(&bytes[..over]);
    image.extend_from_slice(&bytes[over..])?;
    Ok(())
}

/// Writes of the bytes those that are drawn over those that are there, and after the end a beginning of
/// the rest. Returns the state of the draws.
fn put_some(image: &mut Vec<u8>, at: usize, bytes: &[u8], drawn: u64) -> Result<u64, AllocError> {
    let from = at.min(image.len());
    let there = &mut image[from..];
    let over = there.len().min(bytes.len());
    let mut state = drawn;
    for (byte, new) in there.iter_mut().zip(bytes.iter()) {
        state = next_state(state);
        if state >> 63 == 1 {
            *byte = *new;
        }
    }
    let rest = &bytes[over..];
    let state = next_state(state);
    let kept = ((state >> 20) as usize).min(rest.len());
    let kept = if state >> 63 == 1 {
        kept % rest.len().max(1)
    } else {
        kept
    };
    image.extend_from_slice(&rest[..kept])?;
    Ok(state)
}

impl CrashingFile {
    /// A file with these bytes, all on the disk.
    pub(crate) fn new(
        alloc: Global,
        bytes: Vec<u8>,
        calls: u64,
    ) -> Result<CrashingFile, AllocError> {
        let current = bytes.to_vec(alloc)?;
        Ok(CrashingFile {
            alloc,
            old: bytes,
            current,
            ranges: Vec::new(alloc),
            synced: Cell::new(0),
            position: 0,
            calls: Cell::new(calls),
        })
    }

    fn next_call(&self) -> io::Result<()> {
        let Some(left) = self.calls.get().checked_sub(1) else {
            return Err(Error::from(ErrorKind::Other));
        };
        self.calls.set(left);
        Ok(())
    }

    fn write_range(&mut self, bytes: &[u8]) -> Result<(), AllocError> {
        let range = Range {
            at: self.position,
            bytes: bytes.to_vec(self.alloc)?,
        };
        put(&mut self.current, self.position, bytes)?;
        self.ranges.push(range)?;
        Ok(())
    }

    /// What a crash leaves: all that was synced, and of what was written since the bytes that are drawn.
    pub(crate) fn crash(self, seed: u64) -> Result<Vec<u8>, AllocError> {
        let synced = self.synced.get();
        let mut image = self.old.to_vec(self.alloc)?;
        let mut state = seed.wrapping_mul(11_400_714_819_323_198_485);
        for (place, range) in self.ranges.iter().enumerate() {
            if place < synced {
                put(&mut image, range.at, &range.bytes)?;
            } else {
                state = put_some(&mut image, range.at, &range.bytes, state)?;
            }
        }
        Ok(image)
    }
}

impl Read for CrashingFile {
    fn read(&mut self, buf: &mut [u8]) -> io::Result<usize> {
        self.next_call()?;
        let from = self.position.min(self.current.len());
        let rest = &self.current[from..];
        let count = rest.len().min(buf.len());
        buf[..count].copy_from_slice(&rest[..count]);
        self.position = from.saturating_add(count);
        Ok(count)
    }
}

impl Write for CrashingFile {
    fn write(&mut self, buf: &[u8]) -> io::Result<usize> {
        self.next_call()?;
        let count = buf.len().min(MOST);
        self.write_range(&buf[..count]).map_err(out_of_memory)?;
        self.position = self.position.saturating_add(count);
        Ok(count)
    }

    fn flush(&mut self) -> io::Result<()> {
        self.next_call()
    }
}

impl Seek for CrashingFile {
    fn seek(&mut self, to: SeekFrom) -> io::Result<u64> {
        self.next_call()?;
        let SeekFrom::Start(at) = to else {
            return Err(Error::from(ErrorKind::Unsupported));
        };
        self.position = at as usize;
        Ok(at)
    }
}

impl OpenFile for CrashingFile {
    fn metadata(&self) -> io::Result<Metadata> {
        Err(Error::from(ErrorKind::Unsupported))
    }

    fn set_len(&self, _size: u64) -> io::Result<()> {
        Err(Error::from(ErrorKind::Unsupported))
    }

    fn sync_all(&self) -> io::Result<()> {
        self.sync_data()
    }

    fn sync_data(&self) -> io::Result<()> {
        self.next_call()?;
        self.synced.set(self.ranges.len());
        Ok(())
    }
}
