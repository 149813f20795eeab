//! A program that is given the lines of a log behind the one that serves them, and the log that they are read from.

use crate::call::body::for_replay;
use crate::call::fault::Fault;
use crate::log::fault::LogFault;
use crate::log::file::{Lines, Place};
use crate::os::program::Program;
use crate::os::system;
use std::io::Write;
use std::ops::Range;
use std::process::ChildStdin;

/// So many lines, and so many bytes of them, are read at once.
const MOST_LINES: u64 = 1_024;
const MOST_BYTES: usize = 1 << 20;

/// Reads the lines of a log in a file that is written meanwhile, as far as they are known to be whole.
pub struct Tail {
    path: String,
    place: Place,
}

impl Tail {
    /// Behind the header of a log.
    pub fn open(path: &str) -> Result<Tail, LogFault> {
        let mut lines = Lines::open(path)?.ok_or_else(|| gone(path))?;
        lines.next()?;
        Ok(Tail { path: path.to_string(), place: lines.place })
    }

    /// How many lines were read, without the header.
    pub fn count(&self) -> u64 {
        self.place.lines.saturating_sub(1)
    }

    /// The next lines, up to the one of this number: it was written, and won't be taken back. Only the first ones where
    /// they are many.
    pub fn next(&mut self, number: u64) -> Result<Vec<Vec<u8>>, LogFault> {
        let mut found = Vec::new();
        self.read(number, |line| found.push(line.to_vec()))?;
        Ok(found)
    }

    /// What a program is given for the next lines, likewise, in the place of a text.
    pub fn next_text(&mut self, number: u64, text: &mut Vec<u8>) -> Result<(), LogFault> {
        text.clear();
        self.read(number, |line| add_line(line, text))
    }

    fn read(&mut self, number: u64, mut take: impl FnMut(&[u8])) -> Result<(), LogFault> {
        // It is opened each time: what was read ahead may be taken back, and written anew.
        let mut lines = Lines::at(&self.path, self.place)?;
        let mut bytes = 0;
        for _ in 0..number.saturating_sub(self.count()).min(MOST_LINES) {
            let line = lines.next()?.ok_or_else(|| gone(&self.path))?;
            bytes += line.len();
            take(line);
            if bytes >= MOST_BYTES {
                break;
            }
        }
        self.place = lines.place;
        Ok(())
    }
}

fn gone(path: &str) -> LogFault {
    LogFault::Io(format!("{path}: a line of the log is gone"))
}

/// Gives a program lines, of which the first has this number, and hands on each with its reply.
pub fn serve<L: AsRef<[u8]>, E: From<Fault>>(
    program: &mut Program,
    lines: &[L],
    first: u64,
    mut observe: impl FnMut(&[u8], &[u8]) -> Result<(), E>,
) -> Result<(), E> {
    let mut left = lines.iter();
    serve_text(program, &text_of(lines), first..first + lines.len() as u64, |reply| match left.next() {
        Some(line) => observe(line.as_ref(), reply),
        None => Ok(()),
    })
}

/// Gives a program the text of lines with these numbers, and hands on each reply.
pub fn serve_text<E: From<Fault>>(
    program: &mut Program,
    text: &[u8],
    mut numbers: Range<u64>,
    mut observe: impl FnMut(&[u8]) -> Result<(), E>,
) -> Result<(), E> {
    let (mut input, mut reply) = (program.take_input(), Vec::new());
    let mut take = |program: &mut Program| {
        let result = numbers.try_for_each(|number| match program.output.reply(number, &mut reply) {
            Some(Ok(())) => observe(&reply),
            Some(Err(fault)) => Err(fault.into()),
            None => Err(program.ended(number).into()),
        });
        if result.is_err() {
            program.kill();
        }
        result
    };
    // That the program has ended shows where its replies are read.
    let give = |input: &mut Option<ChildStdin>| input.as_mut().map(|input| input.write_all(text));
    // All lines before these were answered, so its pipe is empty.
    let result = if input.as_ref().map_or(true, |input| text.len() <= system::pipe_size(input)) {
        give(&mut input);
        take(program)
    } else {
        std::thread::scope(|scope| {
            let given = &mut input;
            scope.spawn(move || give(given));
            take(program)
        })
    };
    program.give_input(input);
    result
}

/// What a program is given for these lines.
fn text_of<L: AsRef<[u8]>>(lines: &[L]) -> Vec<u8> {
    let mut text = Vec::with_capacity(lines.iter().map(|line| line.as_ref().len() + 1).sum());
    lines.iter().for_each(|line| add_line(line.as_ref(), &mut text));
    text
}

/// Adds what a program is given for a line.
fn add_line(line: &[u8], text: &mut Vec<u8>) {
    text.extend_from_slice(for_replay(line).as_deref().unwrap_or(line));
    text.push(b'\n');
}

#[cfg(test)]
mod tests {
    use super::*;
    use crate::log::file::LineLog;
    use crate::log::Log;
    use crate::testing::scratch::Scratch;

    #[test]
    fn a_tail_reads_what_was_written_since_and_nothing_that_was_taken_back() {
        let scratch = Scratch::new();
        let path = scratch.path("a.log");
        let mut log = LineLog::open(&path).unwrap();
        log.write(&mut [b"header".as_slice(), b"one", b"two"].into_iter()).unwrap();
        let mut tail = Tail::open(&path).unwrap();
        assert_eq!(tail.next(1).unwrap(), [b"one".to_vec()]);
        log.write(&mut [b"three".as_slice(), b"four"].into_iter()).unwrap();
        assert_eq!((tail.count(), tail.next(3).unwrap()), (1, vec![b"two".to_vec(), b"three".to_vec()]));
        let whole = std::fs::read(&path).unwrap();
        // Another line takes the place of the last one.
        std::fs::write(&path, &whole[..whole.len() - 16]).unwrap();
        let mut log = {
            drop(log);
            LineLog::open(&path).unwrap()
        };
        assert_eq!(log.lines(), 4);
        log.write(&mut [b"other".as_slice()].into_iter()).unwrap();
        assert_eq!((tail.next(4).unwrap(), tail.count()), (vec![b"other".to_vec()], 4));
        assert!(tail.next(4).unwrap().is_empty() && tail.next(5).is_err());
    }
}
