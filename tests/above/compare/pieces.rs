//! A snapshot's pieces: whether a line is that of the piece that it is read as, whether the pieces of two
//! lines are the same, and how many an input has.

use event_sameness::{is_same_content, is_same_dispatch, is_same_event};
use snapshot_pieces::{Ahead, Piece, PieceFault, add_piece_line, next_piece, read_piece};
use std::alloc::{AllocError, Global};
use std::io::{self, Read};
use wire_counted::Counted;

/// Whether two pieces are of one kind and what they carry is the same.
fn is_same(one: &Piece, other: &Piece) -> bool {
    match (one, other) {
        (Piece::Event(one), Piece::Event(other)) => is_same_event(one, other),
        (Piece::Dispatch(one), Piece::Dispatch(other)) => is_same_dispatch(one, other),
        (Piece::Transfer(one), Piece::Transfer(other)) => {
            is_same_content(&one.transfer.content, &other.transfer.content)
        }
        _ => false,
    }
}

/// How a line is read, and whether the copy of an event is the event.
pub(crate) fn read(alloc: Global, line: &str) -> Result<&'static str, AllocError> {
    let Some(piece) = read_piece(alloc, line.as_bytes())? else {
        return Ok("no piece");
    };
    if let Piece::Event(event) = &piece {
        let copy = event.clone()?;
        if !is_same_event(event, &copy) || !is_same_event(&copy, event) {
            return Ok("another copy");
        }
    }
    let mut text = String::new(alloc);
    add_piece_line(alloc, &mut text, &piece)?;
    if text.as_str().strip_suffix('\n') == Some(line) {
        Ok("again")
    } else {
        Ok("another line")
    }
}

/// Whether the pieces of two lines, with a tab between them, are the same, both ways round.
pub(crate) fn compared(alloc: Global, lines: &str) -> Result<&'static str, AllocError> {
    let (one, other) = lines.split_once('\t').unwrap_or((lines, ""));
    let (Some(one), Some(other)) = (
        read_piece(alloc, one.as_bytes())?,
        read_piece(alloc, other.as_bytes())?,
    ) else {
        return Ok("no piece");
    };
    match (is_same(&one, &other), is_same(&other, &one)) {
        (true, true) => Ok("same"),
        (false, false) => Ok("others"),
        _ => Ok("same one way"),
    }
}

/// Gives three bytes a call at most.
#[derive(Drop)]
struct Drops<'a> {
    bytes: &'a [u8],
}

impl<'a> Read for Drops<'a> {
    fn read(&mut self, buf: &mut [u8]) -> io::Result<usize> {
        let most = buf.len().min(3);
        self.bytes.read(&mut buf[..most])
    }
}

/// How many pieces lines that tabs end have before their end or a fault, and which of them comes.
pub(crate) fn count(alloc: Global, lines: &str) -> Result<String, AllocError> {
    let mut text = String::new(alloc);
    for (number, line) in lines.split('\t').enumerate() {
        if number > 0 {
            text.push('\n')?;
        }
        text.push_str(line)?;
    }
    let mut ahead = Ahead::new(alloc)?;
    let mut reader = Counted::new(Drops {
        bytes: text.as_bytes(),
    });
    for count in 0..u64::MAX {
        match next_piece(alloc, &mut reader, &mut ahead) {
            Ok(Some(_)) => {}
            Ok(None) => return format!(in alloc; "{count} end"),
            Err(PieceFault::NoPiece) => return format!(in alloc; "{count} no piece"),
            Err(PieceFault::Cut) => return format!(in alloc; "{count} cut"),
            Err(PieceFault::Memory | PieceFault::Read(_)) => return Err(AllocError),
        }
    }
    Err(AllocError)
}
