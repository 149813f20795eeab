//! The lines of a table's log, read behind the edge that adds them.

use crate::log::fault::LogFault;
use crate::log::kept::Origin;
use crate::log::table::{Batch, Table};
use std::collections::VecDeque;

/// So many bytes one reading brings, as far as the last one tells, and so many batches at least and at most. A batch has
/// up to a MiB.
const READ_BYTES: usize = 8 << 20;
const FEWEST: usize = 8;
const MOST: usize = 512;
/// So many lines, and so many bytes of them, are handed on at once.
const MOST_LINES: u64 = 1_024;
const MOST_BYTES: usize = 1 << 20;

/// How many batches are read at once.
pub struct AtOnce(usize);

impl Default for AtOnce {
    fn default() -> AtOnce {
        AtOnce(FEWEST)
    }
}

impl AtOnce {
    /// The next batches behind the one of this number.
    pub fn read(&mut self, table: &mut dyn Table, after: u64) -> Result<Vec<Batch>, LogFault> {
        let batches = table.read(after, self.0 as u32)?;
        let bytes: usize = batches.iter().map(|batch| batch.lines.len()).sum();
        self.0 = (READ_BYTES / (bytes / batches.len().max(1)).max(1)).clamp(FEWEST, MOST);
        Ok(batches)
    }
}

/// The fault where a batch is not there. An edge that is started again goes on from what is.
pub fn gone(number: u64) -> LogFault {
    LogFault::Damaged(format!("batch {number} of the table is gone: was it compacted meanwhile?"))
}

/// Reads the lines of one generation, by a connection of its own.
pub struct TableTail {
    table: Box<dyn Table>,
    unread: Unread,
}

/// What a tail has not handed on yet.
struct Unread {
    generation: u64,
    at_once: AtOnce,
    /// The number of the last batch that was read, what is left of what was read, and how many lines were handed on.
    last: u64,
    left: VecDeque<Vec<u8>>,
    count: u64,
}

impl TableTail {
    /// Before the first line of a log.
    pub fn new(origin: &Origin) -> Result<TableTail, LogFault> {
        let from = origin.table_source()?;
        let (table, last) = (from.connect.table()?, from.base);
        let (generation, at_once, left) = (origin.generation, AtOnce::default(), VecDeque::new());
        Ok(TableTail { table, unread: Unread { generation, at_once, last, left, count: 0 } })
    }

    /// How many lines were handed on.
    pub fn count(&self) -> u64 {
        self.unread.count
    }

    /// The next lines, up to the one of this number, which was added. Only the first ones where they are many.
    pub fn next(&mut self, number: u64) -> Result<Vec<Vec<u8>>, LogFault> {
        self.unread.next(self.table.as_mut(), number)
    }

    /// The same, by another connection.
    pub fn next_by(&mut self, table: &mut dyn Table, number: u64) -> Result<Vec<Vec<u8>>, LogFault> {
        self.unread.next(table, number)
    }
}

impl Unread {
    fn next(&mut self, table: &mut dyn Table, number: u64) -> Result<Vec<Vec<u8>>, LogFault> {
        let (mut found, mut bytes) = (Vec::new(), 0);
        let most = number.saturating_sub(self.count).min(MOST_LINES);
        while (found.len() as u64) < most && bytes < MOST_BYTES {
            match self.left.pop_front() {
                Some(line) => {
                    bytes += line.len();
                    found.push(line);
                }
                None => self.read(table)?,
            }
        }
        self.count += found.len() as u64;
        Ok(found)
    }

    /// Reads more lines, which are there.
    fn read(&mut self, table: &mut dyn Table) -> Result<(), LogFault> {
        let batches = self.at_once.read(table, self.last)?;
        if batches.is_empty() {
            return Err(gone(self.last + 1));
        }
        for batch in batches {
            let is_header = batch.generation == self.generation && batch.generation > 0;
            if batch.number != self.last + 1 || (batch.generation > 0 && !is_header) {
                return Err(gone(self.last + 1));
            }
            self.last = batch.number;
            if !is_header {
                self.left.extend(batch.lines.split(|byte| *byte == b'\n').map(<[u8]>::to_vec));
            }
        }
        Ok(())
    }
}

#[cfg(test)]
mod tests {
    use super::*;
    use crate::log::table::memory::{table_in, Shared};
    use crate::log::table::Start;
    use crate::settings::Settings;
    use std::sync::{Arc, Mutex};

    /// A table whose log goes on from batch 5, and has the lines behind batch 2.
    fn shared() -> Arc<Mutex<Shared>> {
        let texts = ["header", "one", "two\nthree", "four\nfive\nsix", "header of 1", "seven", "eight"];
        let batches = texts.map(|text| text.as_bytes().to_vec()).to_vec();
        let starts = vec![(Start { generation: 1, number: 5 }, Vec::new())];
        Arc::new(Mutex::new(Shared { batches, starts, ..Shared::default() }))
    }

    fn tail(shared: &Arc<Mutex<Shared>>, base: u64) -> TableTail {
        let start = Start { generation: 1, number: 5 };
        let mut origin = Origin::for_table("program", &table_in(shared), Settings::default(), start).unwrap();
        origin.table.as_mut().unwrap().base = base;
        TableTail::new(&origin).unwrap()
    }

    fn next(tail: &mut TableTail, number: u64) -> Vec<String> {
        let lines = tail.next(number).unwrap();
        lines.into_iter().map(|line| String::from_utf8(line).unwrap()).collect()
    }

    #[test]
    fn lines_follow_the_base_and_go_on_behind_the_header() {
        let shared = shared();
        let mut found = tail(&shared, 2);
        assert_eq!(next(&mut found, 3), ["two", "three", "four"]);
        assert_eq!((found.count(), next(&mut found, 3).len()), (3, 0));
        assert_eq!(next(&mut found, 7), ["five", "six", "seven", "eight"]);
        assert!(found.next(8).is_err());
        shared.lock().unwrap().batches.push(b"nine".to_vec());
        assert_eq!(next(&mut found, 8), ["nine"]);
        assert_eq!(next(&mut tail(&shared, 5), 3), ["seven", "eight", "nine"]);
    }

    #[test]
    fn another_connection_goes_on_where_its_own_one_was() {
        let (shared, other) = (shared(), shared());
        let mut found = tail(&shared, 2);
        assert_eq!(next(&mut found, 1), ["two"]);
        shared.lock().unwrap().batches.clear();
        let mut table = table_in(&other).table().unwrap();
        assert_eq!(found.next_by(table.as_mut(), 7).unwrap().concat(), b"threefourfivesixseveneight");
        assert!(found.count() == 7 && found.next(8).is_err());
    }

    #[test]
    fn batches_of_another_generation_and_those_that_are_gone_are_refused() {
        let shared = shared();
        shared.lock().unwrap().starts.push((Start { generation: 2, number: 7 }, Vec::new()));
        let fault = tail(&shared, 2).next(7).unwrap_err();
        assert!(fault.to_string().starts_with("batch 7 of the table is gone"), "{fault}");
        shared.lock().unwrap().batches.truncate(6);
        assert!(tail(&shared, 2).next(7).is_err());
    }
}
