//! A table in memory, for tests.

use crate::log::fault::LogFault;
use crate::log::table::{Batch, Connect, Piece, PiecePlace, Pieces, Start, Table};
use std::collections::BTreeMap;
use std::sync::{Arc, Mutex};
use std::time::Duration;

/// What all connections to a table have in common.
#[derive(Default)]
pub struct Shared {
    pub batches: Vec<Vec<u8>>,
    pub epoch: u64,
    pub is_led: bool,
    pub told: u64,
    /// Compactions: where the log goes on, and from which pieces.
    pub starts: Vec<(Start, Vec<Piece>)>,
    /// Pieces by their epoch, generation and number, which count for nothing yet.
    pub put: BTreeMap<(u64, u64, u64), Piece>,
    /// Says when only the leader's connection answers.
    pub cuts_off: Option<Arc<dyn Fn() -> bool + Send + Sync>>,
    /// Whether a connection that does not lead hangs where it reads.
    pub hangs: bool,
}

/// A table in memory.
struct InMemory {
    shared: Arc<Mutex<Shared>>,
    epoch: u64,
}

impl InMemory {
    /// Refuses where this connection is cut off.
    fn answer(&self) -> Result<(), LogFault> {
        let cuts_off = self.shared.lock().unwrap().cuts_off.clone();
        match self.epoch == 0 && cuts_off.map_or(false, |cuts_off| cuts_off()) {
            true => Err(LogFault::Io("the connection is cut off".to_string())),
            false => Ok(()),
        }
    }
}

impl Table for InMemory {
    fn begin(&mut self, header: &[u8]) -> Result<(), LogFault> {
        self.shared.lock().unwrap().batches.push(header.to_vec());
        Ok(())
    }

    fn read(&mut self, after: u64, most: u32) -> Result<Vec<Batch>, LogFault> {
        while self.epoch == 0 && self.shared.lock().unwrap().hangs {
            std::thread::sleep(Duration::from_millis(1));
        }
        self.answer()?;
        let shared = self.shared.lock().unwrap();
        let rest = (after + 1..).zip(shared.batches.iter().skip(after as usize));
        let generation = |number| {
            shared.starts.iter().find(|(start, _)| start.number == number).map_or(0, |(start, _)| start.generation)
        };
        let batch =
            |(number, lines): (u64, &Vec<u8>)| Batch { number, lines: lines.clone(), generation: generation(number) };
        Ok(rest.take(most.min(2) as usize).map(batch).collect())
    }

    fn tell(&mut self, number: u64) -> Result<(), LogFault> {
        self.shared.lock().unwrap().told = number;
        Ok(())
    }

    fn try_lead(&mut self) -> Result<bool, LogFault> {
        let mut shared = self.shared.lock().unwrap();
        if std::mem::replace(&mut shared.is_led, true) {
            return Ok(false);
        }
        shared.epoch += 1;
        self.epoch = shared.epoch;
        Ok(true)
    }

    fn append(&mut self, batch: &Batch) -> Result<(), LogFault> {
        self.confirm()?;
        let mut shared = self.shared.lock().unwrap();
        assert_eq!(batch.number, shared.batches.len() as u64 + 1);
        shared.batches.push(batch.lines.clone());
        Ok(())
    }

    fn confirm(&mut self) -> Result<(), LogFault> {
        match self.shared.lock().unwrap().epoch == self.epoch {
            true => Ok(()),
            false => Err(LogFault::Broken("another edge leads".to_string())),
        }
    }

    fn start(&mut self) -> Result<Start, LogFault> {
        Ok(self.shared.lock().unwrap().starts.last().map_or_else(Start::default, |(start, _)| *start))
    }

    fn piece(&mut self, generation: u64, number: u64) -> Result<Option<Piece>, LogFault> {
        let shared = self.shared.lock().unwrap();
        let found = shared.starts.iter().find(|(start, _)| start.generation == generation);
        Ok(found.and_then(|(_, pieces)| pieces.get(number as usize - 1)).cloned())
    }

    fn epoch(&self) -> u64 {
        self.epoch
    }

    fn put(&mut self, from: PiecePlace, pieces: Pieces<'_>) -> Result<u64, LogFault> {
        self.answer()?;
        let PiecePlace { epoch, generation, mut number } = from;
        if number == 1 {
            self.shared.lock().unwrap().put.retain(|place, _| (place.0, place.1) != (epoch, generation));
        }
        for piece in pieces {
            let former = self.shared.lock().unwrap().put.insert((epoch, generation, number), piece?);
            assert_eq!(former, None);
            number += 1;
        }
        Ok(number)
    }

    fn compact(&mut self, header: &Batch, number: u64, piece: &Piece) -> Result<(), LogFault> {
        self.append(header)?;
        let (epoch, generation) = (self.epoch, header.generation);
        let mut shared = self.shared.lock().unwrap();
        assert_eq!(shared.put.insert((epoch, generation, number), piece.clone()), None);
        let put = shared.put.range((epoch, generation, 0)..(epoch, generation + 1, 0));
        let pieces = put.map(|(_, piece)| piece.clone()).collect();
        shared.starts.push((Start { generation, number: header.number }, pieces));
        Ok(())
    }

    fn forget(&mut self) {}
}

/// Connects to a table.
pub fn table_in(shared: &Arc<Mutex<Shared>>) -> Connect {
    let own = shared.clone();
    Connect::by("a table".to_string(), move || {
        let table = InMemory { shared: own.clone(), epoch: 0 };
        table.answer()?;
        Ok(Box::new(table))
    })
}
