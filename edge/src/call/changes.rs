//! What changed for the list of workflows: pairs of a request and a reply, as far as a list needs them.
//!
//! The page asks for them before it shows a list, and tells them its list as if they had just been made. Runs that
//! began are kept, as is what was seen of the attempts of activities; what changed since they were asked last is kept
//! once for each run, up to so many.

use crate::call::attempts::Attempts;
use crate::call::facts::{begins_run, commands_in, Facts, Subject};
use crate::call::operations::Op;
use crate::call::reply::Reply;
use crate::call::sequence::Sequence;
use crate::json::{quoted, Object, Value};
use std::collections::{BTreeMap, HashMap, HashSet};

/// Beyond so many changes all runs count as changed.
const MOST_CHANGED: usize = 100_000;
/// Of a token's letters those that say which run it is of.
const RUN_LETTERS: usize = 16;

/// What a list has to be told.
#[derive(Default)]
pub struct Changes {
    /// The pairs of runs that began and of attempts, and the number that each run's pair has.
    kept: Sequence,
    numbers: HashMap<Box<str>, u64>,
    attempts: Attempts,
    /// When each queue was polled last. The service has only so many queues, and no other one has a reply.
    polled: BTreeMap<Op, HashMap<Box<str>, u64>>,
    changed: Changed,
    has_transferred: bool,
}

/// What changed since this was asked last, once each. How it is told is written once it is asked.
#[derive(Default)]
struct Changed {
    runs: HashSet<Box<str>>,
    workflows: HashSet<Box<str>>,
    /// The letters of tokens that say which run they are of.
    tokens: HashSet<Box<str>>,
    /// Whole pairs.
    pairs: HashSet<Box<str>>,
    /// Whether there were more.
    is_all: bool,
}

impl Changed {
    fn add(&mut self, of: impl Fn(&mut Changed) -> &mut HashSet<Box<str>>, text: &str) {
        if of(self).contains(text) {
            return;
        }
        if self.len() < MOST_CHANGED {
            of(self).insert(text.into());
        } else {
            self.is_all = true;
        }
    }

    fn len(&self) -> usize {
        self.runs.len() + self.workflows.len() + self.tokens.len() + self.pairs.len()
    }

    /// The pairs that tell of it.
    fn told(&self) -> impl Iterator<Item = String> + '_ {
        let runs = self.runs.iter().map(|run| format!("[{{}},{{\"ok\":\"\",\"run\":{}}}]", quoted(run)));
        let workflows = self.workflows.iter().map(|workflow_id| {
            format!("[{{\"op\":\"signal\",\"workflow_id\":{}}},{{\"ok\":\"\"}}]", quoted(workflow_id))
        });
        let tokens = self.tokens.iter().map(|letters| {
            let token = quoted(&format!("{letters:A<32}"));
            format!("[{{\"token\":{token}}},{{\"ok\":\"\"}}]")
        });
        runs.chain(workflows).chain(tokens).chain(self.pairs.iter().map(|pair| pair.to_string()))
    }
}

/// The first letters of a token.
fn run_letters(token: &str) -> &str {
    token.char_indices().nth(RUN_LETTERS).map_or(token, |(end, _)| &token[..end])
}

impl Changes {
    /// Notes what a line and its reply changed.
    pub fn observe(&mut self, facts: &Facts, line: &[u8], at: u64, reply: &Reply<'_>) {
        if reply.error.is_some() || facts.op.is_read() {
            return;
        }
        if let (true, Some(queue)) = (facts.op.is_poll(), &facts.queue) {
            self.note_polled(facts.op, queue, at);
        }
        let run = reply.run.as_deref();
        match (facts.op, run) {
            (Op::Start | Op::SignalWithStart, Some(run)) if reply.is("started") => self.begin(facts, at, run),
            (Op::TransferTurn, _) if reply.is("accepted") => self.has_transferred = true,
            (Op::TimerTurn, Some(run)) if reply.class.as_deref() == Some("retention") => return self.remove(run),
            (Op::CompleteWorkflowTask, _) if facts.begins_runs => self.note_commands(line),
            _ => {}
        }
        if let Some(ended) = self.attempts.observe(facts, line, at, reply, &mut self.kept) {
            self.change(&ended);
        }
        if let Some(run) = run {
            self.changed.add(|changed| &mut changed.runs, run);
        }
        match &facts.subject {
            Subject::Workflow(workflow_id) => self.changed.add(|changed| &mut changed.workflows, workflow_id),
            Subject::Token(token) => self.changed.add(|changed| &mut changed.tokens, run_letters(token)),
            Subject::Nothing => {}
        }
    }

    fn note_polled(&mut self, op: Op, queue: &str, at: u64) {
        let queues = self.polled.entry(op).or_default();
        match queues.get_mut(queue) {
            Some(last) => *last = at,
            None => drop(queues.insert(queue.into(), at)),
        }
    }

    fn begin(&mut self, facts: &Facts, at: u64, run: &str) {
        let workflow_id = match &facts.subject {
            Subject::Workflow(workflow_id) => quoted(workflow_id),
            _ => quoted(""),
        };
        let kind = quoted(facts.workflow_type.as_deref().unwrap_or(""));
        let asked = format!("{{\"op\":\"start\",\"workflow_id\":{workflow_id},\"workflow_type\":{kind},\"at\":{at}}}");
        let pair = format!("[{asked},{{\"ok\":\"started\",\"run\":{}}}]", quoted(run));
        let number = self.kept.add(pair);
        self.numbers.insert(run.into(), number);
    }

    /// Forgets a run that was deleted.
    fn remove(&mut self, run: &str) {
        if let Some(number) = self.numbers.remove(run) {
            self.kept.remove(number);
        }
        let told = format!("{{\"ok\":\"fired\",\"class\":\"retention\",\"run\":{}}}", quoted(run));
        self.change(&format!("[{{\"op\":\"timer_turn\"}},{told}]"));
    }

    /// Notes the workflows of which the commands of a completion begin a run.
    fn note_commands(&mut self, line: &[u8]) {
        let request = match Value::parse(line) {
            Ok(Value::Object(request)) => request,
            _ => return,
        };
        let named: Vec<String> = commands_in(&request).filter_map(beginning).collect();
        if !named.is_empty() {
            let token = quoted(request.text("token").unwrap_or(""));
            let commands = named.join(",");
            let asked = format!("{{\"op\":\"complete_workflow_task\",\"token\":{token},\"commands\":[{commands}]}}");
            self.change(&format!("[{asked},{{\"ok\":\"completed\"}}]"));
        }
    }

    fn change(&mut self, pair: &str) {
        self.changed.add(|changed| &mut changed.pairs, pair);
    }

    /// What was told of attempts, as text.
    pub fn attempts_text(&self) -> Vec<u8> {
        self.attempts.text(&self.kept)
    }

    /// Takes a text that was told of attempts before.
    pub fn take_attempts(&mut self, text: &[u8]) {
        self.attempts.take_text(text, &mut self.kept);
    }

    /// What was kept after the pair of this number, what changed since this was asked last, and when queues were polled
    /// last, as members of an object in JSON.
    pub fn text(&mut self, from: u64) -> String {
        let polled =
            self.polled.iter().flat_map(|(op, queues)| queues.iter().map(|(queue, at)| polled(*op, queue, *at)));
        let changed: Vec<String> = polled.chain(self.changed.told()).collect();
        let mut pairs: Vec<&str> = self.kept.after(from).collect();
        pairs.extend(changed.iter().map(String::as_str));
        if self.has_transferred {
            pairs.push("[{\"op\":\"transfer_turn\"},{\"ok\":\"accepted\"}]");
        }
        let text =
            format!("\"next\":{},\"all\":{},\"pairs\":[{}]", self.kept.last(), self.changed.is_all, pairs.join(","));
        self.changed = Changed::default();
        self.has_transferred = false;
        text
    }
}

/// A poll's pair.
fn polled(op: Op, queue: &str, at: u64) -> String {
    format!("[{{\"op\":\"{}\",\"task_queue\":{},\"at\":{at}}},{{\"ok\":\"\"}}]", op.name(), quoted(queue))
}

/// A command that begins a run, as far as a list needs it.
fn beginning(command: &Object<'_>) -> Option<String> {
    let kind = command.text("type").filter(|kind| begins_run(kind))?;
    let named = command.text("workflow_id").map(|workflow_id| format!(",\"workflow_id\":{}", quoted(workflow_id)));
    Some(format!("{{\"type\":\"{kind}\"{}}}", named.unwrap_or_default()))
}

#[cfg(test)]
mod tests {
    use super::*;
    use crate::call::body::facts_of_line;
    use crate::turns::shards::ShardCount;

    fn observe(changes: &mut Changes, line: &str, reply: &str) {
        let (facts, at) = facts_of_line(line.as_bytes(), ShardCount::ONE);
        changes.observe(&facts, line.as_bytes(), at.unwrap_or(0), &Reply::parse(reply.as_bytes()).unwrap());
    }

    #[test]
    fn runs_that_began_are_told_by_their_numbers_and_changes_once() {
        let mut changes = Changes::default();
        let start = r#"{"op":"start","workflow_id":"w\"","workflow_type":"T","input":"long","at":5}"#;
        observe(&mut changes, start, r#"{"ok":"started","run":"r1"}"#);
        for _ in 0..3 {
            observe(&mut changes, r#"{"op":"signal","workflow_id":"w","at":6}"#, r#"{"ok":"signaled"}"#);
            observe(&mut changes, r#"{"op":"signal","workflow_id":"x","at":6}"#, r#"{"error":"NotFound"}"#);
        }
        let text = changes.text(0);
        assert!(text.starts_with(r#""next":1,"all":false,"pairs":[[{"op":"start","workflow_id":"w\"","workflow_type":"T","at":5},{"ok":"started","run":"r1"}],"#));
        assert_eq!(text.matches(r#""workflow_id":"w"}"#).count(), 1);
        assert!(!text.contains("\"x\""));
        assert_eq!(changes.text(1), r#""next":1,"all":false,"pairs":[]"#);
        assert!(changes.text(0).contains("started"));
    }

    #[test]
    fn what_is_deleted_is_told_and_forgotten() {
        let mut changes = Changes::default();
        observe(&mut changes, r#"{"op":"start","workflow_id":"w","at":5}"#, r#"{"ok":"started","run":"r1"}"#);
        let fired = r#"{"class":"retention","ok":"fired","run":"r1"}"#;
        observe(&mut changes, r#"{"op":"timer_turn","shard":0,"at":9}"#, fired);
        assert!(changes.text(0).contains("retention"));
        assert_eq!(changes.text(0), r#""next":1,"all":false,"pairs":[]"#);
    }

    #[test]
    fn commands_name_what_they_begin() {
        let mut changes = Changes::default();
        let line = r#"{"op":"complete_workflow_task","token":"t","at":1,"commands":[{"type":"StartTimer"},
            {"type":"StartChildWorkflowExecution","workflow_id":"c","input":"i"},{"type":"ContinueAsNewWorkflowExecution"}]}"#;
        observe(&mut changes, line, r#"{"ok":"completed"}"#);
        let wanted = r#""commands":[{"type":"StartChildWorkflowExecution","workflow_id":"c"},{"type":"ContinueAsNewWorkflowExecution"}]"#;
        assert!(changes.text(0).contains(wanted));
        observe(&mut changes, r#"{"op":"transfer_turn","from":0,"to":0,"at":1}"#, r#"{"ok":"accepted"}"#);
        assert_eq!(changes.text(0), r#""next":0,"all":false,"pairs":[[{"op":"transfer_turn"},{"ok":"accepted"}]]"#);
    }

    #[test]
    fn when_a_queue_was_polled_last_is_told_each_time() {
        let mut changes = Changes::default();
        for (at, reply) in [(5, r#"{"ok":"empty"}"#), (6, r#"{"ok":"empty"}"#), (7, r#"{"error":"UnknownTaskQueue"}"#)]
        {
            observe(&mut changes, &format!(r#"{{"op":"poll_activity_task","task_queue":"q","at":{at}}}"#), reply);
        }
        let wanted = r#""pairs":[[{"op":"poll_activity_task","task_queue":"q","at":6},{"ok":""}]]"#;
        for _ in 0..2 {
            assert!(changes.text(0).ends_with(wanted));
        }
    }
}
