//! Replies that can be had again: the last ones of calls that bore a key.
//!
//! A client whose connection was lost makes its call again with the key that it had, and is given the reply of the
//! call that it made. The key stands in the line of the log, so an edge that opens the log knows these replies too.

use crate::call::body::keyed_begin;
use crate::call::fault::Fault;
use crate::call::operations::Op;
use crate::call::reply::Reply;
use hyper::body::Bytes;
use std::collections::{HashMap, VecDeque};
use std::sync::Arc;

const MOST_REPLIES: usize = 100_000;
const MOST_BYTES: usize = 128 << 20;

/// What two calls with one key have to have in common. A table's compaction keeps it, so it is the same in all versions.
#[derive(Clone, Copy, Debug, PartialEq, Eq)]
pub struct Mark(u64);

/// The mark of a line's beginning, by FNV-1a.
pub fn mark_of(begin: &[u8]) -> Mark {
    let next = |mark: u64, byte: &u8| (mark ^ u64::from(*byte)).wrapping_mul(0x0100_0000_01b3);
    Mark(begin.iter().fold(0xcbf2_9ce4_8422_2325, next))
}

struct Kept {
    mark: Mark,
    reply: Bytes,
    /// Which of the replies by this key it is: an older one is not there any more.
    number: u64,
}

/// A reply that is kept, with its key.
pub struct Outcome {
    mark: Mark,
    key: Arc<str>,
    reply: Bytes,
}

/// The last replies by their keys, at most so many and of so many bytes together.
pub struct Replies {
    most: usize,
    most_bytes: usize,
    bytes: usize,
    added: u64,
    found: HashMap<Arc<str>, Kept>,
    order: VecDeque<(u64, Arc<str>)>,
}

impl Default for Replies {
    fn default() -> Replies {
        Replies::with_limits(MOST_REPLIES, MOST_BYTES)
    }
}

impl Replies {
    fn with_limits(most: usize, most_bytes: usize) -> Replies {
        Replies { most, most_bytes, bytes: 0, added: 0, found: HashMap::new(), order: VecDeque::new() }
    }

    /// The reply to the call of this key. KeyReused where that was another call.
    pub fn get(&self, key: &str, mark: Mark) -> Result<Option<Bytes>, Fault> {
        match self.found.get(key) {
            None => Ok(None),
            Some(kept) if kept.mark == mark => Ok(Some(kept.reply.clone())),
            Some(_) => Err(Fault::KeyReused(format!("another call was made with the key {key}"))),
        }
    }

    /// Keeps a reply in the place of the oldest ones.
    pub fn add(&mut self, key: &str, mark: Mark, reply: Bytes) {
        self.added += 1;
        let key: Arc<str> = key.into();
        self.bytes += reply.len();
        let kept = Kept { mark, reply, number: self.added };
        if let Some(former) = self.found.insert(key.clone(), kept) {
            self.bytes -= former.reply.len();
        }
        self.order.push_back((self.added, key));
        while self.found.len() > self.most || self.bytes > self.most_bytes || self.order.len() > 2 * self.most {
            self.drop_oldest();
        }
    }

    fn drop_oldest(&mut self) {
        if let Some((number, key)) = self.order.pop_front() {
            if self.found.get(&key).map_or(false, |kept| kept.number == number) {
                self.bytes -= self.found.remove(&key).map_or(0, |kept| kept.reply.len());
            }
        }
    }

    /// How many were ever kept.
    pub fn added(&self) -> u64 {
        self.added
    }

    /// Those that were kept behind the first so many, the oldest first.
    pub fn after(&self, added: u64) -> Vec<Outcome> {
        let begin = self.order.partition_point(|(number, _)| *number <= added);
        let mut found = Vec::with_capacity(self.found.len().min(self.order.len() - begin));
        for (number, key) in self.order.range(begin..) {
            if let Some(kept) = self.found.get(key).filter(|kept| kept.number == *number) {
                found.push(Outcome { mark: kept.mark, key: key.clone(), reply: kept.reply.clone() });
            }
        }
        found
    }

    /// All of them as text.
    pub fn text(&self) -> Vec<u8> {
        text_of(&self.after(0))
    }

    /// Takes a text that has replies. None where it is no such text.
    pub fn take_text(&mut self, text: &[u8]) -> Option<()> {
        for line in text.split(|byte| *byte == b'\n').filter(|line| !line.is_empty()) {
            let mut parts = line.splitn(3, |byte| *byte == b' ');
            let mark = u64::from_str_radix(std::str::from_utf8(parts.next()?).ok()?, 16).ok()?;
            let key = std::str::from_utf8(parts.next()?).ok()?;
            self.add(key, Mark(mark), Bytes::copy_from_slice(parts.next()?));
        }
        Some(())
    }

    /// Takes a line of a log that is opened, and its reply.
    pub fn replayed(&mut self, op: Op, line: &[u8], said: &Reply<'_>, reply: &[u8]) {
        // A poll that took nothing is made anew.
        if op.is_poll() && !said.is("task") {
            return;
        }
        let (begin, key) = match keyed_begin(line) {
            Some(keyed) => keyed,
            None => return,
        };
        let mark = mark_of(begin);
        // One that a compaction kept has the number that its caller was told.
        if self.found.get(key).map_or(true, |kept| kept.mark != mark) {
            self.add(key, mark, Bytes::copy_from_slice(reply));
        }
    }
}

/// Replies as text: a line of the mark, the key and the reply for each.
pub fn text_of(replies: &[Outcome]) -> Vec<u8> {
    let mut text = Vec::new();
    for Outcome { mark, key, reply } in replies {
        text.extend_from_slice(format!("{:016x} {key} ", mark.0).as_bytes());
        text.extend_from_slice(reply);
        text.push(b'\n');
    }
    text
}

#[cfg(test)]
mod tests {
    use super::*;

    fn reply(text: &'static str) -> Bytes {
        Bytes::from_static(text.as_bytes())
    }

    #[test]
    fn the_last_replies_are_kept() {
        let mut replies = Replies::with_limits(2, 100);
        for (key, text) in [("a", "1"), ("b", "2"), ("a", "3"), ("c", "4")] {
            replies.add(key, mark_of(b"call"), reply(text));
        }
        assert_eq!(replies.get("a", mark_of(b"call")), Ok(Some(reply("3"))));
        assert_eq!(replies.get("b", mark_of(b"call")), Ok(None));
        assert!(matches!(replies.get("c", mark_of(b"other")), Err(Fault::KeyReused(_))));
        assert_eq!(replies.bytes, 2);
    }

    #[test]
    fn they_have_so_many_bytes_together() {
        let mut replies = Replies::with_limits(100, 10);
        for number in 0..50 {
            replies.add(&format!("{number}"), mark_of(b""), reply("four"));
        }
        assert_eq!((replies.found.len(), replies.bytes), (2, 8));
        for _ in 0..1_000 {
            replies.add("one", mark_of(b""), reply("four"));
        }
        assert!(replies.order.len() <= 200 && replies.found.len() == 1);
    }

    #[test]
    fn they_are_kept_as_text() {
        let mut replies = Replies::default();
        for (key, text) in [("a", "{\"said\":\"a b\"}"), ("b", "2"), ("a", "{\"said\":\"c\"}")] {
            replies.add(key, mark_of(key.as_bytes()), reply(text));
        }
        let mut again = Replies::default();
        assert_eq!(again.take_text(&replies.text()), Some(()));
        assert_eq!(again.get("a", mark_of(b"a")), Ok(Some(reply("{\"said\":\"c\"}"))));
        assert_eq!((again.get("b", mark_of(b"b")), again.text()), (Ok(Some(reply("2"))), replies.text()));
        assert!(again.get("b", mark_of(b"a")).is_err());
        for wrong in ["x k reply", "00", "0123456789abcdef key"] {
            assert_eq!(again.take_text(wrong.as_bytes()), None, "{wrong}");
        }
        // As other versions have it.
        assert_eq!(mark_of(b"foobar"), Mark(0x8594_4171_f739_67e8));
    }

    #[test]
    fn a_logs_lines_tell_them() {
        let mut replies = Replies::default();
        let task = Reply::parse(br#"{"ok":"task"}"#).unwrap();
        let empty = Reply::parse(br#"{"ok":"empty"}"#).unwrap();
        replies.replayed(Op::PollActivityTask, br#"{"op":"p","call":"k","at":7}"#, &task, b"the task");
        replies.replayed(Op::PollActivityTask, br#"{"op":"p","call":"l","at":7}"#, &empty, b"nothing");
        assert_eq!(replies.get("k", mark_of(br#"{"op":"p""#)), Ok(Some(reply("the task"))));
        assert_eq!(replies.get("l", mark_of(br#"{"op":"p""#)), Ok(None));
    }

    #[test]
    fn a_line_that_is_served_again_keeps_the_reply_that_its_caller_had() {
        let mut replies = Replies::default();
        let done = Reply::parse(br#"{"ok":"signaled"}"#).unwrap();
        replies.add("k", mark_of(br#"{"op":"s""#), reply("line 700"));
        for (line, text) in
            [(br#"{"op":"s","call":"k","at":7}"#, "line 3"), (br#"{"op":"t","call":"l","at":7}"#, "line 4")]
        {
            replies.replayed(Op::Signal, line, &done, text.as_bytes());
        }
        assert_eq!(replies.get("k", mark_of(br#"{"op":"s""#)), Ok(Some(reply("line 700"))));
        assert_eq!(replies.get("l", mark_of(br#"{"op":"t""#)), Ok(Some(reply("line 4"))));
        let later = replies.after(1);
        assert_eq!((replies.added(), text_of(&later)), (2, b"a351de7679526439 l line 4\n".to_vec()));
    }
}
