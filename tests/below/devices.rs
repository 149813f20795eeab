//! Readers and writers for tests: they fail where they are told to.

use std::io::{self, Error, ErrorKind, Read, Write};

/// Gives so many bytes of an input, and then fails.
#[derive(Drop)]
pub struct CutShort<'a> {
    pub input: &'a [u8],
    /// How many bytes are still given.
    pub left: usize,
}

impl Read for CutShort<'_> {
    fn read(&mut self, buf: &mut [u8]) -> io::Result<usize> {
        if self.left == 0 {
            return Err(Error::from(ErrorKind::Other));
        }
        let most = buf.len().min(self.left);
        let count = self.input.read(&mut buf[..most])?;
        self.left -= count;
        Ok(count)
    }
}

/// Has room for so many bytes, and then takes none. So many flushes are done, and then one fails.
#[derive(Drop)]
pub struct Full {
    pub held: Vec<u8>,
    /// How many bytes are still taken.
    pub room: usize,
    /// How many flushes are still done.
    pub flushes: u64,
}

impl Write for Full {
    fn write(&mut self, buf: &[u8]) -> io::Result<usize> {
        let most = buf.len().min(self.room);
        let count = self.held.write(&buf[..most])?;
        self.room -= count;
        Ok(count)
    }

    fn flush(&mut self) -> io::Result<()> {
        if self.flushes == 0 {
            return Err(Error::from(ErrorKind::Other));
        }
        self.flushes -= 1;
        Ok(())
    }
}

/// How many lines end in the bytes.
pub fn ended_lines(bytes: &[u8]) -> usize {
    bytes.iter().filter(|byte| **byte == b'\n').count()
}
