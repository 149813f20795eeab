//! A log in a table: how a program follows it, takes it over, and is started again from it.

use crate::log::fault::LogFault;
use crate::log::following::serve;
use crate::log::generation::{remove_leftovers, Files};
use crate::log::kept::{check, Kept, NotServed, Observe, Origin};
use crate::log::successor::{other_log, Successor, Tail};
use crate::log::table::records::fetch;
use crate::log::table::tail::{gone, AtOnce, TableTail};
use crate::log::table::{Batch, Connect, Piece, Start, Table};
use crate::log::Log;
use crate::os::program::Program;
use crate::os::stderr::report;
use crate::settings::{Named, Settings};
use std::time::{Duration, Instant};

/// So often a follower reads, and so often it tells how far it is.
const READ: Duration = Duration::from_millis(20);
const TELL: Duration = Duration::from_secs(1);

/// An open log of a table that this edge leads.
pub struct TableLog {
    table: Box<dyn Table>,
    shown: String,
    place: Place,
    is_broken: bool,
}

/// How far a table was read or written: its batches, and the lines and the bytes of a generation, with its header's.
#[derive(Clone, Copy, Default)]
pub struct Place {
    pub batches: u64,
    pub lines: u64,
    pub bytes: u64,
}

impl Place {
    /// Before the first line that follows the base of a generation with this header.
    fn behind(header: &Batch, base: u64) -> Place {
        Place { batches: base, lines: 1, bytes: header.lines.len() as u64 }
    }

    /// Behind the header of a generation that begins with what was added since this base.
    fn since(self, base: Place, header: &Batch) -> Place {
        let (lines, bytes) = (self.lines - base.lines, self.bytes - base.bytes);
        Place { batches: header.number, lines: 1 + lines, bytes: header.lines.len() as u64 + bytes }
    }

    /// Goes on behind a batch of so many lines.
    fn pass(&mut self, batch: &Batch, lines: u64) {
        self.batches = batch.number;
        self.lines += lines;
        self.bytes += batch.lines.len() as u64;
    }
}

impl TableLog {
    /// Has the table go on from the pieces of a generation, of which this is the one of a number that was left for it, and
    /// from the lines since this base. NotCompacted where all is as it was.
    pub fn compact(
        &mut self,
        (header, generation): (Vec<u8>, u64),
        base: Place,
        (number, piece): (u64, &Piece),
    ) -> Result<(), LogFault> {
        let header = Batch { number: self.place.batches + 1, lines: header, generation };
        let mut not_done = None;
        self.ask(|table| match table.compact(&header, number, piece) {
            Err(fault @ LogFault::NotCompacted(_)) => {
                not_done = Some(fault);
                Ok(())
            }
            other => other,
        })?;
        match not_done {
            Some(fault) => Err(fault),
            None => {
                self.place = self.place.since(base, &header);
                Ok(())
            }
        }
    }

    /// Has the table delete meanwhile what is not needed any more.
    pub fn forget(&mut self) {
        self.table.forget();
    }

    /// Asks the table. Whatever it refuses, this edge may lead no more: then it ends, and follows when it is back.
    fn ask(&mut self, ask: impl FnOnce(&mut dyn Table) -> Result<(), LogFault>) -> Result<(), LogFault> {
        if self.is_broken {
            return Err(LogFault::Broken(format!("{}: this edge leads no more", self.shown)));
        }
        ask(self.table.as_mut()).map_err(|fault| {
            self.is_broken = true;
            LogFault::Broken(format!("{}: {fault}", self.shown))
        })
    }
}

impl Log for TableLog {
    fn lines(&self) -> u64 {
        self.place.lines
    }

    fn bytes(&self) -> u64 {
        self.place.bytes
    }

    fn batches(&self) -> u64 {
        self.place.batches
    }

    /// Whether it is not known what the table has, or another edge leads.
    fn is_broken(&self) -> bool {
        self.is_broken
    }

    /// Adds lines, as one batch. They are kept once this has returned.
    fn write(&mut self, lines: &mut dyn Iterator<Item = &[u8]>) -> Result<(), LogFault> {
        let (mut text, mut count) = (Vec::new(), 0);
        for line in lines {
            if count > 0 {
                text.push(b'\n');
            }
            text.extend_from_slice(line);
            count += 1;
        }
        let batch = Batch { number: self.place.batches + 1, lines: text, generation: 0 };
        self.ask(|table| table.append(&batch))?;
        self.place.pass(&batch, count);
        Ok(())
    }

    fn confirm(&mut self) -> Result<(), LogFault> {
        self.ask(|table| table.confirm())
    }

    /// By the connection of this log: while batches rest no other one has to answer.
    fn next_of(&mut self, tail: &mut Tail, number: u64) -> Result<Vec<Vec<u8>>, LogFault> {
        match tail {
            Tail::Table(tail) => tail.next_by(self.table.as_mut(), number),
            Tail::File(tail) => tail.next(number),
        }
    }

    fn give_way(&mut self, successor: Successor, next: &mut Origin, replies: &[u8]) -> Result<(), LogFault> {
        let upload = match successor {
            Successor::Table(upload) => upload,
            Successor::File(_) => return Err(other_log(next)),
        };
        let base = upload.take_over(self, next.settings.header(next.generation), replies)?;
        if let Some(from) = &mut next.table {
            from.base = base;
        }
        Ok(())
    }
}

/// Follows a table with a program, and returns once this edge leads and its program has served all that is there.
pub fn open<O: Observe>(
    program: &str,
    connect: &Connect,
    named: &Named,
    observer: impl FnOnce(&Settings) -> O,
) -> Result<(Kept, O), NotServed> {
    let mut table = connect.table()?;
    let header = header_of(program, table.as_mut(), named)?;
    let (settings, generation) = Settings::parse_header(&header.lines, &connect.shown)?;
    settings.check(&settings.clone().with(&Named { capacity: None, ..named.clone() }), &connect.shown)?;
    let start = Start { generation, number: header.number };
    let mut origin = Origin::for_table(program, connect, settings, start)?;
    let mut observer = observer(&origin.settings);
    if generation > 0 && !observer.beside(&fetch(table.as_mut(), &mut origin)?) {
        return Err(LogFault::Damaged(format!("{}: the replies by keys are damaged", connect.shown)).into());
    }
    let files = Files::find(&origin.base, generation)?;
    let last_moment = files.last_moment()?;
    observer.pairs(&files.pairs()?);
    let program = origin.start()?;
    let place = Place::behind(&header, origin.table_source()?.base);
    let mut follower = Follower { program, origin, place, observed: 0 };
    if let Err(fault) = follower.follow(table.as_mut(), &mut observer) {
        follower.program.kill();
        return Err(fault);
    }
    let Follower { program, mut origin, place, .. } = follower;
    report!("{}: this edge leads, from line {} on", connect.shown, place.lines);
    if let Some(from) = &mut origin.table {
        from.epoch = table.epoch();
    }
    table.forget();
    let log = TableLog { table, shown: connect.shown.clone(), place, is_broken: false };
    Ok((Kept { origin, log: Box::new(log), program, last_moment }, observer))
}

/// The batch that the log goes on from. A table that has none gets the settings that are wanted.
fn header_of(program: &str, table: &mut dyn Table, named: &Named) -> Result<Batch, NotServed> {
    loop {
        let start = table.start()?;
        let first = table.read(start.number - 1, 1)?.into_iter().next();
        match first.filter(|first| first.number == start.number) {
            Some(first) => return Ok(first),
            None if start.generation > 0 => return Err(gone(start.number).into()),
            None => {}
        }
        let settings = Settings::default().with(named);
        check(program, &settings)?;
        table.begin(&settings.header(0))?;
    }
}

/// A program that is given the batches of a table.
struct Follower {
    program: Program,
    origin: Origin,
    place: Place,
    /// The batch up to which the observer was told all lines: a program that is exchanged serves some again.
    observed: u64,
}

impl Follower {
    /// Serves what the table has, until this edge leads and all of it was served.
    fn follow(&mut self, table: &mut dyn Table, observer: &mut impl Observe) -> Result<(), NotServed> {
        let (mut told, mut is_first) = (None::<Instant>, true);
        loop {
            self.catch_up(table, observer)?;
            if table.try_lead()? {
                // Under this edge's epoch nobody else adds a batch.
                return self.catch_up(table, observer);
            }
            if told.map_or(true, |told| told.elapsed() >= TELL) {
                table.tell(self.place.batches)?;
                told = Some(Instant::now());
            }
            if std::mem::take(&mut is_first) {
                report!("this edge follows, from line {} on: another one leads", self.place.lines);
            }
            std::thread::sleep(READ);
        }
    }

    /// Serves all lines that the table has.
    fn catch_up(&mut self, table: &mut dyn Table, observer: &mut impl Observe) -> Result<(), NotServed> {
        let mut at_once = AtOnce::default();
        loop {
            let batches = at_once.read(table, self.place.batches)?;
            if batches.is_empty() {
                return Ok(());
            }
            let mut rest = batches.as_slice();
            while !rest.is_empty() {
                rest = self.pass(rest, table, observer)?;
            }
        }
    }

    /// Serves batches up to the next header, and goes on over it. Those that are left.
    fn pass<'a>(
        &mut self,
        batches: &'a [Batch],
        table: &mut dyn Table,
        observer: &mut impl Observe,
    ) -> Result<&'a [Batch], NotServed> {
        let count = batches.iter().take_while(|batch| batch.generation == 0).count();
        self.serve_all(&batches[..count], observer)?;
        let (header, behind) = match batches[count..].split_first() {
            Some(found) => found,
            None => return Ok(&[]),
        };
        if header.number != self.place.batches + 1 {
            return Err(gone(self.place.batches + 1).into());
        }
        if header.generation == self.origin.generation {
            self.place.batches = header.number;
            return Ok(behind);
        }
        self.take_up(header, table)?;
        // The lines since its base are read again.
        Ok(&[])
    }

    /// Has another program serve what follows a header and its base, one that is opened from the snapshots. All before the
    /// header was served.
    fn take_up(&mut self, header: &Batch, table: &mut dyn Table) -> Result<(), NotServed> {
        let (settings, generation) = Settings::parse_header(&header.lines, &self.origin.log)?;
        self.origin.settings = settings;
        self.origin.generation = generation;
        if let Some(from) = &mut self.origin.table {
            from.base = header.number;
        }
        // Who served all before it knows the replies.
        fetch(table, &mut self.origin)?;
        let next = self.origin.start()?;
        std::mem::replace(&mut self.program, next).kill();
        self.place = Place::behind(header, self.origin.table_source()?.base);
        self.observed = header.number;
        Ok(remove_leftovers(&self.origin.base, generation)?)
    }

    /// Serves batches.
    fn serve_all(&mut self, batches: &[Batch], observer: &mut impl Observe) -> Result<(), NotServed> {
        let (first, mut lines, mut known) = (self.place.lines, Vec::new(), 0);
        for batch in batches {
            if batch.number != self.place.batches + 1 {
                return Err(gone(self.place.batches + 1).into());
            }
            let before = lines.len();
            lines.extend(batch.lines.split(|byte| *byte == b'\n'));
            self.place.pass(batch, (lines.len() - before) as u64);
            if batch.number <= self.observed {
                known = lines.len();
            }
        }
        let mut left = known;
        serve(&mut self.program, &lines, first, |line, reply| {
            match left {
                0 => observer.line(line, reply),
                _ => left -= 1,
            }
            Ok(())
        })
    }
}

/// A program of this origin that has served so many lines of its table, without their header.
pub fn serve_again(origin: &Origin, count: u64) -> Result<Program, NotServed> {
    let mut tail = TableTail::new(origin)?;
    let mut program = origin.clone().start()?;
    while tail.count() < count {
        let first = tail.count() + 1;
        let served = tail
            .next(count)
            .map_err(NotServed::from)
            .and_then(|lines| serve(&mut program, &lines, first, |_, _| Ok::<(), NotServed>(())));
        if let Err(fault) = served {
            program.kill();
            return Err(fault);
        }
    }
    Ok(program)
}

#[cfg(test)]
mod tests {
    use super::*;
    use crate::log::table::memory::{table_in, Shared};
    use crate::testing::scratch::Scratch;
    use crate::testing::test_wait::{returned, wait_until};
    use std::sync::{Arc, Mutex};

    /// Answers each line with its number, and writes it into a file.
    const PROGRAM: &str = r#"#!/bin/sh
n=0
while read -r line; do n=$((n + 1)); echo "$line" >> "$0.lines"; echo "{\"line\":$n}"; done
"#;

    /// The lines that were served.
    #[derive(Default)]
    struct Seen(Vec<String>);

    impl Observe for Seen {
        fn line(&mut self, line: &[u8], reply: &[u8]) {
            self.0.push(format!("{} {}", String::from_utf8_lossy(line), String::from_utf8_lossy(reply)));
        }
    }

    struct Place {
        _folder: Scratch,
        program: String,
        shared: Arc<Mutex<Shared>>,
        connect: Connect,
    }

    impl Place {
        fn new() -> Place {
            let folder = Scratch::new();
            let (program, shared) = (folder.program(PROGRAM), Arc::new(Mutex::new(Shared::default())));
            let connect = table_in(&shared);
            Place { _folder: folder, program, shared, connect }
        }

        fn open(&self) -> (Kept, Seen) {
            let opened = open(&self.program, &self.connect, &Named::default(), |_| Seen::default());
            opened.map_err(|fault| fault.to_string()).unwrap()
        }
    }

    #[test]
    fn a_follower_serves_what_the_leader_adds_and_takes_over() {
        let place = Arc::new(Place::new());
        let (mut first, _) = place.open();
        first.log.write(&mut [b"one".as_slice(), b"two"].into_iter()).unwrap();
        let own = place.clone();
        let second = std::thread::spawn(move || own.open());
        wait_until("a follower", || place.shared.lock().unwrap().told >= 2);
        first.log.write(&mut [b"three".as_slice()].into_iter()).unwrap();
        place.shared.lock().unwrap().is_led = false;
        let (mut second, seen) = returned("a follower that leads", second);
        assert_eq!(seen.0, ["one {\"line\":1}", "two {\"line\":2}", "three {\"line\":3}"]);
        assert_eq!((second.log.lines(), second.log.bytes()), (4, first.log.bytes()));
        // What the one before adds now, or would answer, is refused from then on.
        assert!(first.log.confirm().unwrap_err().to_string().contains("another edge leads"));
        assert!(first.log.is_broken() && first.log.write(&mut [b"late".as_slice()].into_iter()).is_err());
        second.log.write(&mut [b"four".as_slice()].into_iter()).unwrap();
        assert_eq!(place.shared.lock().unwrap().batches.len(), 4);
        for kept in [first, second] {
            kept.program.end();
        }
    }

    #[test]
    fn a_program_is_started_again_with_just_the_lines_that_it_had_answered() {
        let place = Place::new();
        let (mut kept, _) = place.open();
        for lines in [[b"one".as_slice(), b"two"], [b"three", b"four"]] {
            kept.log.write(&mut lines.into_iter()).unwrap();
        }
        let given = format!("{}.lines", place.program);
        for count in 0..=4 {
            std::fs::write(&given, b"").unwrap();
            serve_again(&kept.origin, count).map_err(|fault| fault.to_string()).unwrap().end();
            let lines = std::fs::read_to_string(&given).unwrap();
            assert_eq!(lines.lines().collect::<Vec<_>>(), ["one", "two", "three", "four"][..count as usize]);
        }
        kept.program.end();
    }

    #[test]
    fn a_table_that_is_no_log_is_refused() {
        let place = Place::new();
        let (kept, _) = place.open();
        kept.program.end();
        place.shared.lock().unwrap().batches = vec![b"no header".to_vec()];
        let refused = open(&place.program, &place.connect, &Named::default(), |_| Seen::default());
        assert!(refused.map(drop).unwrap_err().to_string().contains("this is no log of format 1"));
    }
}
