//! Snapshots that are written line by line, and the shards that they restore: the first of two.

use crate::compare::both::{Fault, Standing, setup};
use mutable_state_keeper::{KeepsRun, TellsRun};
use shard_snapshot::{Damage, RestoreFault, Writing};
use shard_store::Store;
use snapshot_pieces::{CountedPiece, Piece, add_dispatch_line, read_piece};
use std::alloc::{AllocError, Global};
use wf_event_values::{Field, Moment, Span};

/// The lines of a snapshot so far, the shard of the one before it, and a shard that is asked.
pub(crate) struct Snapshots<T: KeepsRun> {
    pub(crate) writing: Option<Writing<T>>,
    pub(crate) latest: Option<Store<T>>,
    pub(crate) restored: Option<Standing<T>>,
}

impl<T: KeepsRun> Drop for Snapshots<T> {
    fn drop(self) {
        let Snapshots {
            writing: _,
            latest: _,
            restored: _,
        } = self;
    }
}

impl<T: TellsRun> Snapshots<T> {
    /// Writes a piece by its line: what was counted begins a snapshot, and the end ends it.
    pub(crate) fn write(&mut self, alloc: Global, line: &str) -> Result<String, Fault> {
        let Some(piece) = read_piece(alloc, line.as_bytes())? else {
            return Err(Fault::Unread);
        };
        let written = match piece {
            Piece::Counted(counted) => self.begin(alloc, counted),
            Piece::End(end) => self.end(alloc, end.last),
            piece => self.put(piece),
        };
        match written {
            Ok(word) => Ok(String::from_str(alloc, word)?),
            Err(fault) => Ok(said(alloc, fault)?),
        }
    }

    fn begin(
        &mut self,
        alloc: Global,
        counted: CountedPiece,
    ) -> Result<&'static str, RestoreFault> {
        let Ok(retention) = Span::new(Field::Retention, 86_400_000) else {
            return Err(RestoreFault::Memory);
        };
        let Ok(setup) = setup(alloc, 0, 2, retention) else {
            return Err(RestoreFault::Memory);
        };
        self.writing = Some(Writing::start(alloc, &setup, counted)?);
        Ok("begun")
    }

    /// A piece between the first ones and the last, an event by its own call.
    fn put(&mut self, piece: Piece) -> Result<&'static str, RestoreFault> {
        let Some(writing) = &mut self.writing else {
            return Err(RestoreFault::Damaged(1, Damage::Order));
        };
        match piece {
            Piece::Event(event) => writing.write_event(&event)?,
            piece => writing.write(piece)?,
        }
        Ok("written")
    }

    /// Ends the snapshot, and compares the first run of its shard with that of the snapshot before it.
    fn end(&mut self, alloc: Global, last: Moment) -> Result<&'static str, RestoreFault> {
        let Some(writing) = self.writing.take() else {
            return Err(RestoreFault::Damaged(1, Damage::Order));
        };
        let (_, store) = writing.finish(last)?;
        let compared = match &self.latest {
            Some(latest) => compared(alloc, latest, &store)?,
            None => "alone",
        };
        self.latest = Some(store);
        Ok(compared)
    }

    /// Has the shard of the lines so far be asked, whose last step was at this moment. The lines of all tasks
    /// that wait there.
    pub(crate) fn restore(&mut self, alloc: Global, last: &str) -> Result<String, Fault> {
        let (Some(writing), Ok(last)) = (self.writing.take(), last.parse()) else {
            return Err(Fault::Unread);
        };
        let Ok(last) = Moment::new(Field::At, last) else {
            return Err(Fault::Unread);
        };
        let Ok((_, store)) = writing.finish(last) else {
            return Err(Fault::Unread);
        };
        let waiting = waiting(alloc, &store)?;
        self.restored = Some(Standing::of(alloc, store)?);
        Ok(waiting)
    }

    /// What that shard says to the step of a line.
    pub(crate) fn asked(&mut self, alloc: Global, line: &str) -> Result<String, Fault> {
        match &mut self.restored {
            Some(shard) => shard.asked(alloc, line),
            None => Err(Fault::Unread),
        }
    }
}

/// Whether the first runs of two shards are the same beside their events.
fn compared<T: TellsRun>(
    alloc: Global,
    one: &Store<T>,
    other: &Store<T>,
) -> Result<&'static str, AllocError> {
    let (Some(place), Some(index)) = (one.place_of(1), other.place_of(1)) else {
        return Ok("no runs");
    };
    if one
        .run(place)
        .is_same_beside_events(alloc, other.run(index))?
    {
        Ok("same")
    } else {
        Ok("others")
    }
}

/// The lines of all tasks that wait in a shard.
fn waiting<T: KeepsRun>(alloc: Global, store: &Store<T>) -> Result<String, AllocError> {
    let mut text = String::new(alloc);
    let waiting = store.waiting_tasks(alloc)?;
    for dispatch in waiting.as_slice() {
        add_dispatch_line(alloc, &mut text, dispatch)?;
    }
    Ok(text)
}

/// Which line was refused, and why.
fn said(alloc: Global, fault: RestoreFault) -> Result<String, AllocError> {
    match fault {
        RestoreFault::Damaged(line, Damage::Order) => format!(in alloc; "{line} order"),
        RestoreFault::Damaged(line, Damage::Run) => format!(in alloc; "{line} run"),
        RestoreFault::Damaged(line, _) => format!(in alloc; "{line} another damage"),
        RestoreFault::Memory | RestoreFault::Read(_) => Err(AllocError),
    }
}
