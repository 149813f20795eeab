//! What the page is told of activities' attempts: the history has none of it before an activity ends.
//!
//! Of each activity that is pending the last pairs are kept that say how its last attempt began and failed, and what a
//! heartbeat told. A page that is started anew is told all of them again. A compaction keeps them beside the snapshots.

use crate::call::facts::{Facts, Subject};
use crate::call::operations::Op;
use crate::call::reply::Reply;
use crate::call::sequence::Sequence;
use crate::json::{quoted, Object, Value};
use crate::turns::shards::{activity_of_token, Activity};
use serde::Deserialize;
use std::collections::{BTreeMap, HashMap};

/// So many activities are remembered, and so many bytes of what was told of them. The one of which nothing was heard for
/// the longest time is forgotten first.
const MOST_KEPT: usize = 10_000;
const MOST_BYTES: usize = 32 << 20;

/// What a pair tells of an activity: a later one of the same kind takes its place.
#[derive(Clone, Copy)]
enum Outcome {
    Taken,
    Failed,
    Beat,
}

/// What a pair's request and its reply say of an activity.
#[derive(Deserialize)]
struct Named {
    #[serde(default)]
    op: String,
    #[serde(default)]
    token: String,
}

/// Which activity a pair is of, and what it tells of it. None where it is no such pair.
fn told_in(pair: &[u8]) -> Option<(Activity, Outcome)> {
    let (asked, said): (Named, Named) = serde_json::from_slice(pair).ok()?;
    let (token, told) = match asked.op.as_str() {
        "poll_activity_task" => (said.token, Outcome::Taken),
        "fail_activity" => (asked.token, Outcome::Failed),
        "heartbeat" => (asked.token, Outcome::Beat),
        _ => return None,
    };
    Some((activity_of_token(&token)?, told))
}

/// The numbers of what was told of an activity, by `Outcome`. 0 is none.
type Numbers = [u64; 3];

/// Which of the kept pairs are of which activity.
#[derive(Default)]
pub struct Attempts {
    found: HashMap<Activity, Numbers>,
    /// The activities by the number of what was told of them last.
    heard: BTreeMap<u64, Activity>,
    bytes: usize,
}

impl Attempts {
    /// Notes a line and its reply, which is no refusal. What a list has to be told once, where an activity has ended.
    pub fn observe(
        &mut self,
        facts: &Facts,
        line: &[u8],
        at: u64,
        reply: &Reply<'_>,
        kept: &mut Sequence,
    ) -> Option<String> {
        let token = match (facts.op, &facts.subject) {
            (Op::PollActivityTask, _) if reply.is("task") => reply.token.as_deref()?,
            (Op::PollActivityTask, _) => return None,
            (_, Subject::Token(token)) => token,
            _ => return None,
        };
        let activity = activity_of_token(token)?;
        let (shown, attempt) = (quoted(token), reply.attempt.unwrap_or(0));
        match facts.op {
            Op::PollActivityTask => {
                let said = format!("{{\"ok\":\"task\",\"token\":{shown},\"attempt\":{attempt}}}");
                let pair = format!("[{{\"op\":\"poll_activity_task\",\"at\":{at}}},{said}]");
                self.note(activity, Outcome::Taken, pair, kept);
            }
            Op::FailActivity if reply.is("retrying") => {
                let asked = asked(facts.op, line, &shown, at, ["message", "error_type"]);
                let ready = reply.ready.unwrap_or(0);
                let pair = format!("[{asked},{{\"ok\":\"retrying\",\"attempt\":{attempt},\"ready\":{ready}}}]");
                self.note(activity, Outcome::Failed, pair, kept);
            }
            Op::Heartbeat => {
                let pair = format!("[{},{{\"ok\":\"heartbeat\"}}]", asked(facts.op, line, &shown, at, ["details"]));
                self.note(activity, Outcome::Beat, pair, kept);
            }
            Op::CompleteActivity | Op::CancelActivity | Op::FailActivity if self.forget(&activity, kept) => {
                return Some(format!("[{{\"op\":\"complete_activity\",\"token\":{shown}}},{{\"ok\":\"completed\"}}]"));
            }
            _ => {}
        }
        None
    }

    /// All pairs as text, a line for each, in the order in which they were told.
    pub fn text(&self, kept: &Sequence) -> Vec<u8> {
        let mut numbers: Vec<u64> = self.found.values().flatten().copied().filter(|number| *number > 0).collect();
        numbers.sort_unstable();
        let mut text = Vec::with_capacity(self.bytes + numbers.len());
        for pair in numbers.into_iter().filter_map(|number| kept.get(number)) {
            text.extend_from_slice(pair.as_bytes());
            text.push(b'\n');
        }
        text
    }

    /// Takes pairs from a text. What is none is left out: it decides nothing.
    pub fn take_text(&mut self, text: &[u8], kept: &mut Sequence) {
        for line in text.split(|byte| *byte == b'\n') {
            if let (Some((activity, told)), Ok(pair)) = (told_in(line), std::str::from_utf8(line)) {
                self.note(activity, told, pair.to_string(), kept);
            }
        }
    }

    fn note(&mut self, activity: Activity, told: Outcome, pair: String, kept: &mut Sequence) {
        let numbers = self.found.entry(activity).or_default();
        self.heard.remove(numbers.iter().max().unwrap_or(&0));
        self.bytes += pair.len();
        self.bytes -= kept.remove(numbers[told as usize]);
        let number = kept.add(pair);
        numbers[told as usize] = number;
        self.heard.insert(number, activity);
        while self.found.len() > MOST_KEPT || self.bytes > MOST_BYTES {
            match self.heard.values().next().copied() {
                Some(first) => self.forget(&first, kept),
                None => return,
            };
        }
    }

    /// Forgets an activity. Whether it was there.
    fn forget(&mut self, activity: &Activity, kept: &mut Sequence) -> bool {
        let numbers = match self.found.remove(activity) {
            Some(numbers) => numbers,
            None => return false,
        };
        self.heard.remove(numbers.iter().max().unwrap_or(&0));
        self.bytes -= numbers.iter().map(|number| kept.remove(*number)).sum::<usize>();
        true
    }
}

/// A report on a task, as far as the page needs it: these of its texts.
fn asked<const COUNT: usize>(op: Op, line: &[u8], token: &str, at: u64, names: [&str; COUNT]) -> String {
    let request = match Value::parse(line) {
        Ok(Value::Object(request)) => request,
        _ => Object::default(),
    };
    let mut asked = format!("{{\"op\":\"{}\",\"token\":{token},\"at\":{at}", op.name());
    for name in names {
        if let Some(text) = request.text(name) {
            asked += &format!(",\"{name}\":{}", quoted(text));
        }
    }
    asked + "}"
}

#[cfg(test)]
mod tests {
    use super::*;
    use crate::call::body::facts_of_line;
    use crate::turns::shards::ShardCount;

    // Tokens of two activities of one run, the first one's at two attempts, and of a workflow task.
    const FIRST: &str = "AQIAAAAAAAAAAAABAAAAAAAAAAUAAAAB";
    const AGAIN: &str = "AQIAAAAAAAAAAAABAAAAAAAAAAUAAAAC";
    const SECOND: &str = "AQIAAAAAAAAAAAABAAAAAAAAAAYAAAAB";
    const OTHER: &str = "AQEAAAAAAAAAAAABAAAAAAAAAAUAAAAB";

    #[derive(Default)]
    struct Seen {
        attempts: Attempts,
        kept: Sequence,
    }

    impl Seen {
        fn tell(&mut self, line: &str, reply: &str) -> Option<String> {
            let (facts, at) = facts_of_line(line.as_bytes(), ShardCount::ONE);
            let reply = Reply::parse(reply.as_bytes()).unwrap();
            self.attempts.observe(&facts, line.as_bytes(), at.unwrap_or(0), &reply, &mut self.kept)
        }

        fn taken(&mut self, token: &str, attempt: u64) {
            let reply = format!("{{\"ok\":\"task\",\"token\":\"{token}\",\"attempt\":{attempt}}}");
            self.tell(r#"{"op":"poll_activity_task","task_queue":"q","at":5}"#, &reply);
        }

        /// Another one that takes its text knows the same, and none of what is no pair.
        fn is_again_from_its_text(&self) {
            let (mut again, text) = (Seen::default(), self.attempts.text(&self.kept));
            again.attempts.take_text(b"[{},{}]\n{}\nno pair\n\n\xff", &mut again.kept);
            again.attempts.take_text(&text, &mut again.kept);
            assert_eq!((again.kept(), again.attempts.bytes), (self.kept(), self.attempts.bytes));
            assert_eq!(again.attempts.text(&again.kept), text);
            assert_eq!(again.attempts.found.len(), self.attempts.found.len());
        }

        fn kept(&self) -> String {
            self.kept.after(0).collect::<Vec<_>>().join("\n")
        }
    }

    #[test]
    fn the_last_of_each_kind_is_kept_until_the_activity_ends() {
        let mut seen = Seen::default();
        seen.taken(FIRST, 1);
        seen.tell(&format!(r#"{{"op":"heartbeat","token":"{FIRST}","details":"d","at":6}}"#), r#"{"ok":"heartbeat"}"#);
        seen.taken(SECOND, 1);
        let failed = format!(r#"{{"op":"fail_activity","token":"{FIRST}","message":"m","error_type":"E","at":7}}"#);
        seen.tell(&failed, r#"{"ok":"retrying","attempt":2,"ready":99}"#);
        seen.taken(AGAIN, 2);
        let wanted = [
            format!(r#"[{{"op":"heartbeat","token":"{FIRST}","at":6,"details":"d"}},{{"ok":"heartbeat"}}]"#),
            format!(r#"[{{"op":"poll_activity_task","at":5}},{{"ok":"task","token":"{SECOND}","attempt":1}}]"#),
            format!(
                r#"[{{"op":"fail_activity","token":"{FIRST}","at":7,"message":"m","error_type":"E"}},{{"ok":"retrying","attempt":2,"ready":99}}]"#
            ),
            format!(r#"[{{"op":"poll_activity_task","at":5}},{{"ok":"task","token":"{AGAIN}","attempt":2}}]"#),
        ];
        assert_eq!(seen.kept(), wanted.join("\n"));
        seen.is_again_from_its_text();
        let done = seen.tell(&format!(r#"{{"op":"complete_activity","token":"{AGAIN}"}}"#), r#"{"ok":"completed"}"#);
        assert!(done.unwrap().contains(AGAIN));
        assert_eq!((seen.kept(), seen.attempts.found.len()), (wanted[1].clone(), 1));
        let failed = format!(r#"{{"op":"fail_activity","token":"{SECOND}","message":"m"}}"#);
        assert!(seen.tell(&failed, r#"{"ok":"failed"}"#).is_some());
        assert_eq!((seen.kept().as_str(), seen.attempts.bytes, seen.attempts.heard.len()), ("", 0, 0));
    }

    #[test]
    fn what_is_no_activitys_says_nothing() {
        let mut seen = Seen::default();
        seen.taken("no token", 1);
        seen.taken(OTHER, 1);
        seen.tell(r#"{"op":"poll_activity_task","task_queue":"q","at":5}"#, r#"{"ok":"empty"}"#);
        let done = seen.tell(&format!(r#"{{"op":"complete_activity","token":"{FIRST}"}}"#), r#"{"ok":"completed"}"#);
        assert_eq!((seen.kept().as_str(), done), ("", None));
    }

    #[test]
    fn no_more_than_so_many_bytes_are_kept() {
        let mut seen = Seen::default();
        let long = "x".repeat(1_000_000);
        for event in 0..40_u8 {
            let token = format!("AQIAAAAAAAAAAAABAAAAAAAAA{}UAAAAB", char::from(b'A' + event % 26));
            let token = if event < 26 { token } else { token.replace("UAAAAB", "kAAAAB") };
            let line = format!(r#"{{"op":"heartbeat","token":"{token}","details":"{long}","at":6}}"#);
            seen.tell(&line, r#"{"ok":"heartbeat"}"#);
        }
        assert!(seen.attempts.bytes <= MOST_BYTES && seen.attempts.found.len() == 33);
    }
}
