//! A call on its way through the edge: its line, who waits for it, and how it is answered.
//!
//! Beside it lie what is read of a body, what a reply says, and what is remembered of both. Nothing here knows a socket, a
//! log or a program: the same call comes by HTTP and by lines, and is served again from a log.

pub mod attempts;
pub mod body;
pub mod changes;
pub mod facts;
pub mod fault;
pub mod operations;
pub mod replies;
pub mod reply;
pub mod sequence;
pub mod texts;

use crate::call::body::Moment;
use crate::call::facts::Facts;
use crate::call::fault::Fault;
use crate::call::operations::Op;
use crate::call::replies::{mark_of, Mark};
use crate::lines::mailbox::Ticket;
use crate::turns::ledger::Turn;
use hyper::body::Bytes;
use std::ops::{Deref, DerefMut};
use std::time::{Duration, Instant};
use tokio::sync::oneshot;

/// Who waits for a reply: it is told what becomes of its call.
pub enum Receiver {
    /// A task.
    Task(oneshot::Sender<Outcome>),
    /// A connection for lines.
    Line(Ticket),
}

impl Receiver {
    /// Whether nobody waits any longer.
    pub fn is_closed(&self) -> bool {
        match self {
            Receiver::Task(task) => task.is_closed(),
            Receiver::Line(ticket) => ticket.connection.is_gone(),
        }
    }
}

/// What becomes of a call: the reply's text, or why there is none. The call itself comes along where one waits for it, and is
/// dropped by the thread that made it, which has its memory at hand, or used again there.
pub struct Outcome {
    pub result: Result<Bytes, Fault>,
    pub call: Option<Call>,
}

impl Outcome {
    pub fn new(result: Result<Bytes, Fault>, call: Option<Call>) -> Outcome {
        Outcome { result, call }
    }
}

/// Who asked for a call.
pub enum Asker {
    /// A client without a key, or nobody where its receiver is gone.
    Client(Option<Receiver>),
    /// Clients with this key: those who wait are listed by it.
    Keyed(Box<str>, Mark),
    /// The edge itself.
    Edge(Turn),
}

/// A line that the log and the program get, or one that the program alone gets, as a read. Many lists have it one after the
/// other, so it lies in one place.
pub struct Call(Box<Content>);

/// What a call is.
pub struct Content {
    /// The line's text. Until it is made, and after its first bytes, its moment and key are not there.
    pub text: Vec<u8>,
    begin: usize,
    pub facts: Facts,
    pub asker: Asker,
    pub since: Instant,
    /// Until when a poll waits.
    pub late: Instant,
    pub was_woken: bool,
    /// Of a line its number in the log, and of a read that of the last line before it.
    pub number: u64,
    /// Of a line its moment.
    pub at: u64,
}

impl Content {
    fn new(begin: Vec<u8>, facts: Facts, wait: u64, asker: Asker) -> Content {
        let since = Instant::now();
        let late = since + Duration::from_millis(wait);
        let (begin, text) = (begin.len(), begin);
        Content { begin, text, facts, asker, since, late, was_woken: false, number: 0, at: 0 }
    }
}

impl Deref for Call {
    type Target = Content;

    fn deref(&self) -> &Content {
        &self.0
    }
}

impl DerefMut for Call {
    fn deref_mut(&mut self) -> &mut Content {
        &mut self.0
    }
}

impl Call {
    /// A client's call.
    pub fn new(begin: Vec<u8>, facts: Facts, wait: u64, asker: Asker) -> Call {
        Call(Box::new(Content::new(begin, facts, wait, asker)))
    }

    /// The same in the place of a call that was answered.
    pub fn again(mut self, begin: Vec<u8>, facts: Facts, wait: u64, asker: Asker) -> Call {
        *self.0 = Content::new(begin, facts, wait, asker);
        self
    }

    /// The call of a turn of the edge's own.
    pub fn own(turn: Turn) -> Call {
        let facts = Facts { op: turn.op(), ..Facts::unknown() };
        Call::new(turn.begin(), facts, 0, Asker::Edge(turn))
    }

    pub fn op(&self) -> Op {
        self.facts.op
    }

    /// Whether the log gets it.
    pub fn is_logged(&self) -> bool {
        !self.op().is_read()
    }

    /// The line's text without its last brace, its moment and its key.
    pub fn begin(&self) -> &[u8] {
        &self.text[..self.begin]
    }

    /// How many bytes wait while it does.
    pub fn size(&self) -> usize {
        self.begin
    }

    pub fn key(&self) -> Option<&str> {
        match &self.asker {
            Asker::Keyed(key, _) => Some(key),
            _ => None,
        }
    }

    pub fn turn(&self) -> Option<&Turn> {
        match &self.asker {
            Asker::Edge(turn) => Some(turn),
            _ => None,
        }
    }

    /// Who asked for it, which it has no more.
    pub fn take_asker(&mut self) -> Asker {
        std::mem::replace(&mut self.0.asker, Asker::Client(None))
    }

    /// Makes its line, at this moment.
    pub fn end(&mut self, moment: &Moment) {
        let is_logged = self.is_logged();
        let Content { text, begin, asker, at, .. } = &mut *self.0;
        *at = moment.at();
        text.truncate(*begin);
        match asker {
            _ if !is_logged => text.push(b'}'),
            Asker::Keyed(key, _) => moment.end_line(text, Some(key)),
            _ => moment.end_line(text, None),
        }
    }

    /// What is said of it on standard error: its operation and the beginning of its line.
    pub fn named(&self) -> String {
        let begin = String::from_utf8_lossy(self.begin());
        let key = self.key().map_or_else(String::new, |key| format!(", key {key}"));
        format!("{}: {}{key}", self.op().name(), begin.chars().take(200).collect::<String>())
    }
}

/// The asker of a client's call, by whether it has a key.
pub fn asker_of(key: Option<Box<str>>, begin: &[u8]) -> Asker {
    match key {
        Some(key) => Asker::Keyed(key, mark_of(begin)),
        None => Asker::Client(None),
    }
}

#[cfg(test)]
mod tests {
    use super::*;
    use crate::call::body::parse_call;
    use crate::turns::shards::shards;

    fn call(text: &str, key: Option<&str>) -> Call {
        let asked = parse_call(text.as_bytes(), shards(1)).unwrap();
        let asker = asker_of(key.map(Into::into), &asked.begin);
        Call::new(asked.begin, asked.facts, asked.wait, asker)
    }

    #[test]
    fn a_line_is_made_again_at_a_later_moment() {
        let mut poll = call(r#"{"op":"poll_workflow_task","task_queue":"main","wait":7}"#, Some("k"));
        for at in [17, 5_000_000] {
            poll.end(&Moment::new(at));
            let wanted = r#"{"op":"poll_workflow_task","task_queue":"main","wait":7,"call":"k","at":"#;
            assert_eq!(String::from_utf8_lossy(&poll.text), format!("{wanted}{at}}}"));
        }
        assert_eq!(poll.size(), r#"{"op":"poll_workflow_task","task_queue":"main","wait":7"#.len());
    }

    #[test]
    fn a_read_has_no_moment() {
        let mut read = call(r#"{"op":"describe","at":9,"workflow_id":"w"}"#, None);
        read.end(&Moment::new(17));
        assert_eq!((read.text.as_slice(), read.is_logged()), (&br#"{"op":"describe","workflow_id":"w"}"#[..], false));
    }
}
