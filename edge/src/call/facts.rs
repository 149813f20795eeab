//! What the edge has to know of a call beside its line: its shard, and what it may cause.

use crate::call::operations::Op;
use crate::json::{Object, Value};
use crate::turns::shards::{shard_of, shard_of_token, Shard, ShardCount};

/// These commands issue one task each.
const ISSUES: [&str; 2] = ["ScheduleActivityTask", "ContinueAsNewWorkflowExecution"];
/// These begin something on the shard of the workflow that they name.
const SENDS: [&str; 3] =
    ["StartChildWorkflowExecution", "SignalExternalWorkflowExecution", "RequestCancelExternalWorkflowExecution"];
/// These close their run.
const CLOSES: [&str; 4] =
    ["CompleteWorkflowExecution", "FailWorkflowExecution", "CancelWorkflowExecution", "ContinueAsNewWorkflowExecution"];
/// These begin a run, at once or by a transfer.
const BEGINS_RUNS: [&str; 2] = ["StartChildWorkflowExecution", "ContinueAsNewWorkflowExecution"];
/// Fields after whose milliseconds something is due.
const DURATIONS: [&str; 8] = [
    "duration",
    "schedule_to_start",
    "start_to_close",
    "schedule_to_close",
    "heartbeat",
    "run_timeout",
    "task_timeout",
    "execution_timeout",
];

/// Whose run a call may change.
#[derive(Clone, Debug, PartialEq, Eq)]
pub enum Subject {
    Workflow(Box<str>),
    Token(Box<str>),
    Nothing,
}

/// What is known of a call without its reply.
#[derive(Clone, Debug, PartialEq)]
pub struct Facts {
    pub op: Op,
    pub subject: Subject,
    /// The shard that it may change, by the workflow ID or the token that it bears.
    pub shard: Option<Shard>,
    /// How many tasks it issues for certain where it is accepted, and whether it may issue more.
    pub issues: u32,
    pub may_issue: bool,
    /// Whether a run may close by it.
    pub closes: bool,
    /// Whether a command of it begins a run.
    pub begins_runs: bool,
    /// The shards to which it sends something.
    pub sends: Vec<Shard>,
    /// After so many milliseconds something is due, as far as it says.
    pub durations: Vec<u64>,
    /// The task queue that a poll asks.
    pub queue: Option<Box<str>>,
    /// The type of the workflow that a start names.
    pub workflow_type: Option<Box<str>>,
    /// The shard of a dispatch turn or a timer turn, or the two of a transfer turn, where a client made it.
    pub turn: Option<(Shard, Shard)>,
}

impl Facts {
    /// What is known of a line that can't be read: it was refused when it was made.
    pub fn unknown() -> Facts {
        Facts::bare(Op::Unknown)
    }

    fn bare(op: Op) -> Facts {
        Facts {
            op,
            subject: Subject::Nothing,
            shard: None,
            issues: 0,
            may_issue: false,
            closes: false,
            begins_runs: false,
            sends: Vec::new(),
            durations: Vec::new(),
            queue: None,
            workflow_type: None,
            turn: None,
        }
    }

    /// What a request says, whose members are those of its operation.
    pub fn new(op: Op, request: &Object<'_>, shards: ShardCount) -> Facts {
        let mut facts = Facts::bare(op);
        if op.is_poll() {
            facts.queue = Some(request.text("task_queue").unwrap_or("").into());
            return facts;
        }
        if op.is_turn() {
            facts.turn = turn_in(request, shards);
            return facts;
        }
        facts.shard = shard_in(request, shards);
        facts.subject = match (request.text("workflow_id"), request.text("token")) {
            (Some(workflow_id), _) => Subject::Workflow(workflow_id.into()),
            (None, Some(token)) => Subject::Token(token.into()),
            (None, None) => Subject::Nothing,
        };
        if matches!(op, Op::Start | Op::SignalWithStart) {
            facts.workflow_type = request.text("workflow_type").map(Into::into);
        }
        facts.note_durations(request);
        if op.may_issue() {
            facts.note_issued(request, shards);
        }
        facts
    }

    fn note_issued(&mut self, request: &Object<'_>, shards: ShardCount) {
        let has_policy = request.get("conflict").is_some() || request.get("reuse").is_some();
        if self.op == Op::Start && !has_policy {
            self.issues = 1;
            return;
        }
        self.may_issue = true;
        self.closes = matches!(self.op, Op::Start | Op::SignalWithStart | Op::Terminate);
        for command in commands_in(request) {
            self.note_command(command, shards);
        }
    }

    fn note_command(&mut self, command: &Object<'_>, shards: ShardCount) {
        self.note_durations(command);
        let kind = match command.text("type") {
            Some(kind) => kind,
            None => return,
        };
        self.issues += u32::from(ISSUES.contains(&kind));
        self.closes |= CLOSES.contains(&kind);
        self.begins_runs |= begins_run(kind);
        if SENDS.contains(&kind) {
            self.sends.extend(command.text("workflow_id").map(|workflow_id| shard_of(workflow_id, shards)));
        }
    }

    fn note_durations(&mut self, members: &Object<'_>) {
        // Few members are numbers.
        let numbers = members.0.iter().filter_map(|member| Some((member.0.as_ref(), member.1.whole()?)));
        let named = numbers.filter(|(key, number)| *number > 0 && DURATIONS.contains(key));
        self.durations.extend(named.map(|(_, duration)| duration));
    }
}

/// Whether a command of this type begins a run.
pub fn begins_run(kind: &str) -> bool {
    BEGINS_RUNS.contains(&kind)
}

/// The commands of a completion.
pub fn commands_in<'b, 'a>(request: &'b Object<'a>) -> impl Iterator<Item = &'b Object<'a>> {
    let commands = match request.get("commands") {
        Some(Value::List(commands)) => commands.as_slice(),
        _ => &[],
    };
    commands.iter().filter_map(|command| match command {
        Value::Object(command) => Some(command),
        _ => None,
    })
}

/// The shard that a request may change.
fn shard_in(request: &Object<'_>, shards: ShardCount) -> Option<Shard> {
    if shards == ShardCount::ONE {
        return Some(0);
    }
    match (request.text("workflow_id"), request.text("token")) {
        (Some(workflow_id), _) => Some(shard_of(workflow_id, shards)),
        (None, Some(token)) => shard_of_token(token, shards),
        (None, None) => None,
    }
}

/// The shard of a turn, twice, or the two of a transfer turn.
fn turn_in(request: &Object<'_>, shards: ShardCount) -> Option<(Shard, Shard)> {
    let named = |key: &str| {
        let number = request.get(key)?.whole()?;
        Shard::try_from(number).ok().filter(|shard| shards.has(*shard))
    };
    match named("shard") {
        Some(shard) => Some((shard, shard)),
        None => Some((named("from")?, named("to")?)),
    }
}

#[cfg(test)]
mod tests {
    use super::*;
    use crate::turns::shards::shards;

    fn facts(text: &str, count: u16) -> Facts {
        match Value::parse(text.as_bytes()).unwrap() {
            Value::Object(request) => Facts::new(Op::parse(request.text("op").unwrap_or("")), &request, shards(count)),
            other => panic!("{other:?}"),
        }
    }

    #[test]
    fn a_start_issues_a_task_for_certain_unless_it_has_a_policy() {
        let plain = facts(r#"{"op":"start","workflow_id":"w","run_timeout":50}"#, 4);
        assert_eq!((plain.issues, plain.may_issue, plain.closes, plain.durations), (1, false, false, vec![50]));
        assert_eq!(plain.shard, Some(shard_of("w", shards(4))));
        let policy = facts(r#"{"op":"start","workflow_id":"w","conflict":"TerminateExisting"}"#, 4);
        assert_eq!((policy.issues, policy.may_issue, policy.closes), (0, true, true));
    }

    #[test]
    fn a_completion_says_what_its_commands_cause() {
        let text = r#"{"op":"complete_workflow_task","token":"AQEAAgAAAAAAAAABAAAAAAAAAAIAAAAB","commands":[
            {"type":"ScheduleActivityTask","start_to_close":7,"heartbeat":0},{"type":"StartTimer","duration":9},
            {"type":"StartChildWorkflowExecution","workflow_id":"c"},{"type":"CompleteWorkflowExecution"},{"type":[]},3]}"#;
        let found = facts(text, 4);
        assert_eq!((found.shard, found.issues, found.may_issue, found.closes), (Some(2), 1, true, true));
        assert_eq!((found.sends, found.durations), (vec![shard_of("c", shards(4))], vec![7, 9]));
    }

    #[test]
    fn what_is_no_call_that_issues_causes_nothing() {
        for text in [
            r#"{"op":"heartbeat","token":"AQEAAgAAAAAAAAABAAAAAAAAAAIAAAAB"}"#,
            r#"{"op":"describe","workflow_id":"w"}"#,
            r#"{"op":"nothing","workflow_id":"w"}"#,
        ] {
            let found = facts(text, 4);
            assert_eq!(
                (found.issues, found.may_issue, found.closes, found.sends.len()),
                (0, false, false, 0),
                "{text}"
            );
        }
    }

    #[test]
    fn a_clients_turn_names_its_shards() {
        assert_eq!(facts(r#"{"op":"timer_turn","shard":3}"#, 4).turn, Some((3, 3)));
        assert_eq!(facts(r#"{"op":"transfer_turn","from":1,"to":2}"#, 4).turn, Some((1, 2)));
        assert_eq!(facts(r#"{"op":"transfer_turn","from":1,"to":4}"#, 4).turn, None);
        assert_eq!(facts(r#"{"op":"poll_workflow_task","task_queue":"main"}"#, 4).queue.as_deref(), Some("main"));
    }
}
