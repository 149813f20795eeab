//! Devices that fail in the middle of a text.

use std::io::{self, Error, ErrorKind, Read, Write};
use wire_counted::{Counted, read_some, write_whole};

/// Takes or gives three bytes a call at most; each second call is interrupted.
#[derive(Drop)]
struct Trickle<T> {
    inner: T,
    calls: u64,
}

impl<T> Trickle<T> {
    fn next_call(&mut self) -> io::Result<()> {
        self.calls = self.calls.saturating_add(1);
        if self.calls % 2 == 0 {
            return Err(Error::from(ErrorKind::Interrupted));
        }
        Ok(())
    }
}

impl<R: Read> Read for Trickle<R> {
    fn read(&mut self, buf: &mut [u8]) -> io::Result<usize> {
        self.next_call()?;
        let most = buf.len().min(3);
        self.inner.read(&mut buf[..most])
    }
}

impl<W: Write> Write for Trickle<W> {
    fn write(&mut self, buf: &[u8]) -> io::Result<usize> {
        self.next_call()?;
        let most = buf.len().min(3);
        self.inner.write(&buf[..most])
    }

    fn flush(&mut self) -> io::Result<()> {
        self.inner.flush()
    }
}

/// Has room for so many bytes, and then takes none.
#[derive(Drop)]
struct Full {
    room: usize,
}

impl Write for Full {
    fn write(&mut self, buf: &[u8]) -> io::Result<usize> {
        let taken = buf.len().min(self.room);
        self.room -= taken;
        Ok(taken)
    }

    fn flush(&mut self) -> io::Result<()> {
        Err(Error::from(ErrorKind::Other))
    }
}

/// Whether a text and then an empty one are written whole, past two interruptions.
fn is_written<W: Write>(writer: &mut Counted<W>) -> bool {
    write_whole(writer, b"seven+1").is_ok()
        && writer.failures == 2
        && write_whole(writer, b"").is_ok()
        && writer.failures == 2
}

/// Whether a text of which four bytes are taken is written with a failure, and so is the flush.
fn is_refused<W: Write>(writer: &mut Counted<W>) -> bool {
    let result = write_whole(writer, b"seven+1");
    matches!(result, Err(e) if e.kind() == ErrorKind::WriteZero)
        && writer.failures == 1
        && writer.flush().is_err()
        && writer.failures == 2
}

/// Whether three bytes are read, then one, and then none.
fn is_read<R: Read>(reader: &mut Counted<R>) -> bool {
    let mut buffer = [0u8; 8];
    matches!(read_some(reader, &mut buffer), Ok(3))
        && matches!(read_some(reader, &mut buffer), Ok(1))
        && matches!(read_some(reader, &mut buffer), Ok(0))
        && reader.failures == 2
}

#[test]
fn goes_past_interruptions_and_counts_failures(rt: HostRuntime) {
    assert!(rt; is_refused(&mut Counted::new(Full { room: 4 })));
    let mut reader = Counted::new(Trickle {
        inner: b"four".as_slice(),
        calls: 0,
    });
    assert!(rt; is_read(&mut reader));
    let mut writer = Counted::new(Trickle {
        inner: Vec::new(rt.alloc()),
        calls: 0,
    });
    assert!(rt; is_written(&mut writer));
    assert!(rt; writer.inner.inner.as_slice() == b"seven+1".as_slice());
}
