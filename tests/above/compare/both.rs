//! A shard that keeps its runs by tables beside one that keeps them by their journals.

use gate::Object;
use mutable_state_keeper::KeepsRun;
use record_text::{entry_line, read_entry};
use service_model_answer::answer;
use service_model_types::answer::{Answer, Reply};
use service_model_types::content::Setup;
use service_model_types::request::{Operation, Request};
use service_model_types::settings::main_queue;
use shard::Shard;
use shard_store::Store;
use std::alloc::{AllocError, Global};
use step_record::Entry;
use wf_event_values::{Moment, Span};
use wire_replies::reply_text;

/// Why no more lines are read.
#[derive(Clone, Copy)]
pub(crate) enum Fault {
    /// A line is no step, or opens no shard.
    Unread,
    Memory,
    Device,
    /// The two say other things.
    Differs,
}

impl Fault {
    pub(crate) fn name(&self) -> &'static str {
        match self {
            Fault::Unread => "a line is no step of a shard that is open",
            Fault::Memory => "out of memory",
            Fault::Device => "a device failed",
            Fault::Differs => "the tables and the journals say other things",
        }
    }
}

impl From<AllocError> for Fault {
    fn from(_error: AllocError) -> Fault {
        Fault::Memory
    }
}

/// Service 1's shard of that number, with the queue `main`.
pub(crate) fn setup(
    alloc: Global,
    shard: u16,
    shards: u16,
    retention: Span,
) -> Result<Setup, Fault> {
    if shards == 0 || shards > 64 || shard >= shards {
        return Err(Fault::Unread);
    }
    Ok(Setup {
        service: 1,
        shard,
        shards,
        queues: main_queue(alloc)?,
        retention,
    })
}

/// A shard that stands for what was asked of it.
#[derive(Drop)]
pub(crate) struct Standing<T: KeepsRun> {
    shard: Shard<T>,
}

impl<T: KeepsRun> Standing<T> {
    fn new(alloc: Global, setup: Setup) -> Result<Standing<T>, AllocError> {
        match Shard::new(alloc, setup) {
            Ok(shard) => Ok(Standing { shard }),
            Err(error) => Err(error),
        }
    }

    /// A shard that a snapshot restored.
    pub(crate) fn of(alloc: Global, store: Store<T>) -> Result<Standing<T>, AllocError> {
        match Shard::from_store(alloc, store) {
            Ok(shard) => Ok(Standing { shard }),
            Err(error) => Err(error),
        }
    }

    /// What it says to the step of a line.
    pub(crate) fn asked(&mut self, alloc: Global, line: &str) -> Result<String, Fault> {
        let Some(entry) = read_entry(alloc, line.as_bytes())? else {
            return Err(Fault::Unread);
        };
        Ok(said(alloc, self.serve(&entry.request)?)?)
    }

    /// Serves a request in the gate's two halves.
    fn serve(&mut self, request: &Request) -> Result<Reply, AllocError> {
        match Object::prepare(&mut self.shard, request) {
            Ok(plan) => Ok(Object::commit(&mut self.shard, plan)),
            Err(error) => Err(error),
        }
    }
}

/// A shard by tables, and by its record.
pub(crate) struct Both<T: KeepsRun> {
    number: u16,
    shards: u16,
    retention: Span,
    tables: Standing<T>,
    record: Vec<Entry<Request>>,
}

impl<T: KeepsRun> Drop for Both<T> {
    fn drop(self) {
        let Both {
            number: _,
            shards: _,
            retention: _,
            tables: _,
            record: _,
        } = self;
    }
}

impl<T: KeepsRun> Both<T> {
    /// A shard that has served nothing.
    pub(crate) fn new(
        alloc: Global,
        number: u16,
        shards: u16,
        retention: Span,
    ) -> Result<Both<T>, Fault> {
        let setup = setup(alloc, number, shards, retention)?;
        Ok(Both {
            number,
            shards,
            retention,
            tables: Standing::new(alloc, setup)?,
            record: Vec::new(alloc),
        })
    }

    /// What both say to the step of a line, after all earlier ones.
    pub(crate) fn asked(&mut self, alloc: Global, line: &str) -> Result<String, Fault> {
        let Some(entry) = read_entry(alloc, line.as_bytes())? else {
            return Err(Fault::Unread);
        };
        let tables = self.tables.serve(&entry.request)?;
        let setup = setup(alloc, self.number, self.shards, self.retention)?;
        let journals = answer(alloc, setup, &self.record, &entry.request)?;
        if self.record.push(entry).is_err() {
            return Err(Fault::Memory);
        }
        let said = said(alloc, tables)?;
        if said.as_str() != self::said(alloc, journals)?.as_str() {
            return Err(Fault::Differs);
        }
        Ok(said)
    }
}

/// The line of a reply, and that of the step that follows of it.
fn said(alloc: Global, reply: Reply) -> Result<String, AllocError> {
    let mut said = reply_text(alloc, 1, &reply)?;
    match following(reply) {
        Some(operation) => {
            let request = Request {
                at: Moment::zero(),
                operation,
            };
            said.push_str(entry_line(alloc, &Entry { pass: 0, request })?.as_str())?;
        }
        None => said.push('\n')?,
    }
    Ok(said)
}

/// What a transfer or a dispatch that was asked for leads to.
fn following(reply: Reply) -> Option<Operation> {
    let answer = reply.ok()?;
    if let Answer::Dispatch(next) = &answer {
        return Some(Operation::StartTask(next.dispatch.hint.task()));
    }
    match answer.into_transfer() {
        Ok(transfer) => Some(Operation::Deliver(transfer)),
        Err(_) => None,
    }
}
