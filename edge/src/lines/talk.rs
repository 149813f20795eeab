//! What goes on on a connection for lines: what was read of it, its calls on their way, and its answers.
//!
//! It knows no socket: `lines` reads and writes.

use crate::call::body::{parse_line, ParsedCall};
use crate::call::fault::Fault;
use crate::call::{asker_of, Call};
use crate::json::quoted;
use crate::json::scan::place_of_byte;
use crate::lines::mailbox::{Connection, Ticket};
use crate::turns::shards::ShardCount;
use hyper::body::Bytes;
use std::collections::VecDeque;
use std::sync::Arc;

const LINE_LIMIT: usize = 1_048_576;
/// So many calls of a connection are on their way at most: then its socket is not read.
const ON_THEIR_WAY: usize = 128;
/// So many bytes of answers wait to be written at most, and the next one.
const MOST_TEXT: usize = 1 << 16;
/// The memory of so many calls is kept at most, of so many bytes each.
const MOST_KEPT: usize = 1_024;
const MOST_KEPT_BYTES: usize = 1 << 10;

/// Calls that are to be asked, and some that were answered, whose memory the next ones have.
#[derive(Default)]
pub struct Asking {
    pub calls: Vec<(Call, Ticket)>,
    answered: Vec<Call>,
}

impl Asking {
    /// Keeps the memory of a call that was answered, where that is little.
    pub fn keep(&mut self, call: Call) {
        if self.answered.len() < MOST_KEPT && call.text.capacity() <= MOST_KEPT_BYTES {
            self.answered.push(call);
        }
    }

    /// Adds the call of a line. Why it isn't one, where it is none.
    fn add(&mut self, line: &[u8], shards: ShardCount, ticket: Ticket) -> Result<(), Fault> {
        let mut former = self.answered.pop();
        let memory = former.as_mut().map(|call| std::mem::take(&mut call.text)).unwrap_or_default();
        let (ParsedCall { begin, facts, wait }, key) = parse_line(line, shards, memory)?;
        let asker = asker_of(key.filter(|_| !facts.op.is_read()), &begin);
        let call = match former {
            Some(former) => former.again(begin, facts, wait, asker),
            None => Call::new(begin, facts, wait, asker),
        };
        self.calls.push((call, ticket));
        Ok(())
    }
}

/// What a connection's client sent and was not answered yet.
pub struct Talk {
    connection: Arc<Connection>,
    shards: ShardCount,
    /// Bytes that were read, of which those from `begin` on are no call yet.
    read: Vec<u8>,
    begin: usize,
    /// The calls on their way, in their order, with what became of those that are known. The first one has this number.
    asked: VecDeque<Option<Result<Bytes, Fault>>>,
    first: u64,
    /// Answers that were not written yet.
    text: Vec<u8>,
    /// Whether more calls are read, and whether they ended with a line that is too long, of which the rest is unread.
    reads: bool,
    is_unread: bool,
}

impl Drop for Talk {
    fn drop(&mut self) {
        self.connection.go();
    }
}

impl Talk {
    pub fn new(connection: Arc<Connection>, shards: ShardCount) -> Talk {
        let (read, text, asked) = (Vec::new(), Vec::new(), VecDeque::new());
        Talk { connection, shards, read, begin: 0, asked, first: 0, text, reads: true, is_unread: false }
    }

    /// Whether more calls are read at all, and whether they are read now.
    pub fn reads(&self) -> bool {
        self.reads
    }

    pub fn may_read(&self) -> bool {
        self.reads && self.asked.len() < ON_THEIR_WAY
    }

    /// Whether all is answered, and no more is asked.
    pub fn is_over(&self) -> bool {
        !self.reads && self.asked.is_empty() && self.text.is_empty()
    }

    /// Whether its client may still be sending a line that is too long.
    pub fn is_unread(&self) -> bool {
        self.is_unread
    }

    /// Reads no more calls. Those that were asked are answered.
    pub fn end_reading(&mut self) {
        self.reads = false;
    }

    // What is asked.

    /// Takes what was read, and asks its whole lines.
    pub fn take_read(&mut self, data: &[u8], asking: &mut Asking) {
        if self.read.is_empty() {
            let used = self.ask_lines(data, asking);
            self.read.extend_from_slice(&data[used..]);
            self.end_where_too_long();
        } else {
            self.read.extend_from_slice(data);
            self.ask_read(asking);
        }
    }

    /// Asks the whole lines of what was read before.
    fn ask_read(&mut self, asking: &mut Asking) {
        let read = std::mem::take(&mut self.read);
        self.begin += self.ask_lines(&read[self.begin..], asking);
        self.read = read;
        if self.asked.len() < ON_THEIR_WAY {
            self.read.drain(..self.begin);
            self.begin = 0;
            self.end_where_too_long();
        }
    }

    /// Asks the whole lines of a text, up to so many. How many bytes they have.
    fn ask_lines(&mut self, text: &[u8], asking: &mut Asking) -> usize {
        let mut used = 0;
        while self.asked.len() < ON_THEIR_WAY {
            let length = match place_of_byte(b'\n', &text[used..]) {
                Some(length) => length,
                None => break,
            };
            self.ask(&text[used..used + length], asking);
            used += length + 1;
        }
        used
    }

    fn ask(&mut self, line: &[u8], asking: &mut Asking) {
        let number = self.first + self.asked.len() as u64;
        let ticket = Ticket::new(&self.connection, number);
        self.asked.push_back(asking.add(line, self.shards, ticket).err().map(Err));
    }

    /// All whole lines that were read are asked, and what is left is part of one.
    fn end_where_too_long(&mut self) {
        if self.read.len() > LINE_LIMIT && self.asked.len() < ON_THEIR_WAY {
            let fault = Fault::BadCall(format!("a line has at most {LINE_LIMIT} bytes"));
            self.asked.push_back(Some(Err(fault)));
            self.reads = false;
            self.is_unread = true;
        }
    }

    // What is answered.

    /// Takes what became of a call.
    pub fn settle(&mut self, number: u64, outcome: Result<Bytes, Fault>) {
        if let Some(asked) = self.asked.get_mut((number - self.first) as usize) {
            *asked = Some(outcome);
        }
    }

    /// What is to be written by now. Where as many calls were on their way as may be, more of what was read is asked.
    pub fn text(&mut self, asking: &mut Asking) -> &[u8] {
        let was_full = self.asked.len() == ON_THEIR_WAY;
        while self.text.len() < MOST_TEXT && matches!(self.asked.front(), Some(Some(_))) {
            if let Some(Some(outcome)) = self.asked.pop_front() {
                put(&mut self.text, outcome);
            }
            self.first += 1;
        }
        if was_full && self.may_read() {
            self.ask_read(asking);
        }
        &self.text
    }

    /// So many bytes of it were written.
    pub fn was_written(&mut self, count: usize) {
        self.text.drain(..count);
    }
}

/// Adds an answer's line.
fn put(text: &mut Vec<u8>, outcome: Result<Bytes, Fault>) {
    match outcome {
        Ok(reply) => text.extend_from_slice(&reply),
        Err(fault) => {
            let (name, said) = (quoted(fault.name()), quoted(&fault.to_string()));
            let line = format!("{{\"error\":{name},\"said\":{said},\"status\":{}}}", fault.status());
            text.extend_from_slice(line.as_bytes());
        }
    }
    text.push(b'\n');
}

#[cfg(test)]
mod tests {
    use super::*;
    use crate::lines::mailbox::Mailbox;
    use mio::{Poll, Token, Waker};

    fn talk() -> Talk {
        let poll = Poll::new().unwrap();
        let mailbox = Mailbox::new(Waker::new(poll.registry(), Token(0)).unwrap());
        Talk::new(Connection::new(0, mailbox), ShardCount::ONE)
    }

    fn reply(number: usize) -> Result<Bytes, Fault> {
        Ok(Bytes::from(format!("{{\"line\":{number}}}")))
    }

    #[test]
    fn a_fault_has_a_status_and_a_reply_has_none() {
        let mut text = Vec::new();
        put(&mut text, Ok(Bytes::from_static(b"{\"line\":1}")));
        put(&mut text, Err(Fault::Draining));
        let wanted = "{\"line\":1}\n{\"error\":\"Draining\",\"said\":\"the server is told to stop\",\"status\":503}\n";
        assert_eq!(String::from_utf8(text).unwrap(), wanted);
    }

    #[test]
    fn answers_come_in_the_order_of_the_calls_however_these_are_cut() {
        let text = b"{\"op\":\"signal\"}\n[1]\n{\"op\":\"signal\",\"name\":\"b\"}\n";
        for cut in 0..text.len() {
            let (mut talk, mut asking) = (talk(), Asking::default());
            talk.take_read(&text[..cut], &mut asking);
            talk.take_read(&text[cut..], &mut asking);
            let numbers: Vec<u64> = asking.calls.iter().map(|(_, ticket)| ticket.number).collect();
            assert_eq!(numbers, [0, 2]);
            talk.settle(2, reply(2));
            assert!(talk.text(&mut asking).is_empty());
            talk.settle(0, reply(0));
            let told = String::from_utf8(talk.text(&mut asking).to_vec()).unwrap();
            assert!(told.starts_with("{\"line\":0}\n{\"error\":\"BadCall\"") && told.ends_with("400}\n{\"line\":2}\n"));
            talk.was_written(told.len());
            assert!(talk.text(&mut asking).is_empty() && !talk.is_over());
            talk.end_reading();
            assert!(talk.is_over());
        }
    }

    #[test]
    fn only_so_many_calls_are_on_their_way() {
        let (mut talk, mut asking) = (talk(), Asking::default());
        talk.take_read(&b"{\"op\":\"signal\"}\n".repeat(300), &mut asking);
        assert!(asking.calls.len() == ON_THEIR_WAY && !talk.may_read());
        for number in 0..300 {
            assert_eq!(asking.calls.len(), (ON_THEIR_WAY + number).min(300));
            talk.settle(number as u64, reply(number));
            assert!(!talk.text(&mut asking).is_empty());
            let length = talk.text.len();
            talk.was_written(length);
        }
        assert!(talk.may_read() && talk.asked.is_empty() && talk.read.is_empty());
    }

    #[test]
    fn a_line_that_is_too_long_is_the_last_one() {
        let (mut talk, mut asking) = (talk(), Asking::default());
        talk.take_read(&[b' '; LINE_LIMIT], &mut asking);
        assert!(talk.reads());
        talk.take_read(b"  ", &mut asking);
        assert!(!talk.reads() && talk.is_unread() && asking.calls.is_empty());
        assert!(talk.text(&mut asking).starts_with(b"{\"error\":\"BadCall\""));
    }

    #[test]
    fn answers_that_nobody_reads_are_not_gathered() {
        let (mut talk, mut asking) = (talk(), Asking::default());
        talk.take_read(&b"{\"op\":\"signal\"}\n".repeat(3), &mut asking);
        for number in 0..3 {
            talk.settle(number, Ok(Bytes::from(vec![b'x'; MOST_TEXT])));
        }
        assert_eq!(talk.text(&mut asking).len(), MOST_TEXT + 1);
        assert_eq!(talk.text(&mut asking).len(), MOST_TEXT + 1);
        talk.was_written(MOST_TEXT + 1);
        assert_eq!(talk.text(&mut asking).len(), MOST_TEXT + 1);
    }

    #[test]
    fn the_memory_of_a_call_that_was_answered_is_the_next_ones() {
        let (mut talk, mut asking) = (talk(), Asking::default());
        talk.take_read(b"{\"op\":\"signal\",\"name\":\"the first\"}\n", &mut asking);
        let (first, _) = asking.calls.pop().unwrap();
        let memory = first.text.as_ptr();
        asking.keep(first);
        let text = b"{\"op\":\"signal\",\"name\":\"next\"}\n".repeat(2);
        talk.take_read(&text, &mut asking);
        let texts: Vec<&[u8]> = asking.calls.iter().map(|(call, _)| call.text.as_slice()).collect();
        assert_eq!(texts, [&text[..text.len() / 2 - 2]; 2]);
        assert!(texts[0].as_ptr() == memory && texts[1].as_ptr() != memory);
        let long = format!("{{\"op\":\"signal\",\"input\":\"{}\"}}\n", "x".repeat(MOST_KEPT_BYTES));
        talk.take_read(long.as_bytes(), &mut asking);
        asking.calls.drain(..).map(|(call, _)| call).collect::<Vec<_>>().into_iter().for_each(|call| asking.keep(call));
        assert_eq!(asking.answered.len(), 2);
    }

    #[test]
    fn who_is_gone_is_known_to_be() {
        let talk = talk();
        let connection = talk.connection.clone();
        assert!(!connection.is_gone());
        drop(talk);
        assert!(connection.is_gone());
    }
}
