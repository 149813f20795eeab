//! The operations that a line may ask for, and the keys that each of them has, as docs/PROFILE.md lists them.

/// What a call asks for.
#[derive(Clone, Copy, Debug, PartialEq, Eq, Hash, PartialOrd, Ord)]
pub enum Op {
    Start,
    Signal,
    SignalWithStart,
    RequestCancel,
    Terminate,
    CompleteWorkflowTask,
    FailWorkflowTask,
    CompleteActivity,
    FailActivity,
    CancelActivity,
    Heartbeat,
    History,
    Describe,
    TimerTurn,
    DispatchTurn,
    TransferTurn,
    PollWorkflowTask,
    PollActivityTask,
    /// None of these: the program says so.
    Unknown,
}

/// The keys of an operation.
pub struct Keys([&'static [&'static str]; 2]);

impl Keys {
    pub fn has(&self, key: &str) -> bool {
        self.0.iter().any(|keys| keys.contains(&key))
    }
}

const START: &[&str] = &[
    "workflow_id",
    "workflow_type",
    "task_queue",
    "input",
    "request_id",
    "reuse",
    "run_timeout",
    "task_timeout",
    "execution_timeout",
];

/// Each operation, its name in a line, and its keys beside `op`, `at`, `lane` and those of a start.
const TABLE: [(Op, &str, &[&str]); 18] = [
    (Op::Start, "start", &["conflict"]),
    (Op::Signal, "signal", &["workflow_id", "run", "name", "input", "request_id"]),
    (Op::SignalWithStart, "signal_with_start", &["name", "signal_input"]),
    (Op::RequestCancel, "request_cancel", &["workflow_id", "run", "request_id"]),
    (Op::Terminate, "terminate", &["workflow_id", "run", "reason"]),
    (Op::CompleteWorkflowTask, "complete_workflow_task", &["token", "commands"]),
    (Op::FailWorkflowTask, "fail_workflow_task", &["token", "message"]),
    (Op::CompleteActivity, "complete_activity", &["token", "result"]),
    (Op::FailActivity, "fail_activity", &["token", "message", "error_type", "non_retryable"]),
    (Op::CancelActivity, "cancel_activity", &["token", "details"]),
    (Op::Heartbeat, "heartbeat", &["token", "details"]),
    (Op::History, "history", &["workflow_id", "run"]),
    (Op::Describe, "describe", &["workflow_id", "run"]),
    (Op::TimerTurn, "timer_turn", &["shard"]),
    (Op::DispatchTurn, "dispatch_turn", &["shard", "stop"]),
    (Op::TransferTurn, "transfer_turn", &["from", "to", "stop"]),
    (Op::PollWorkflowTask, "poll_workflow_task", &["task_queue", "wait"]),
    (Op::PollActivityTask, "poll_activity_task", &["task_queue", "wait"]),
];

impl Op {
    /// The operation of this name.
    pub fn parse(name: &str) -> Op {
        TABLE.iter().find(|row| row.1 == name).map_or(Op::Unknown, |row| row.0)
    }

    /// Its name, by which it is counted.
    pub fn name(self) -> &'static str {
        TABLE.iter().find(|row| row.0 == self).map_or("unknown", |row| row.1)
    }

    /// The keys that a line of this operation may have, beside `op`.
    pub fn keys(self) -> Keys {
        let is_start = matches!(self, Op::Start | Op::SignalWithStart);
        let own = TABLE.iter().find(|row| row.0 == self).map_or(&[][..], |row| row.2);
        Keys([own, if is_start { START } else { &[] }])
    }

    /// Whether it changes nothing, so that it is no line of the log.
    pub fn is_read(self) -> bool {
        matches!(self, Op::History | Op::Describe)
    }

    /// Whether it asks for a task.
    pub fn is_poll(self) -> bool {
        matches!(self, Op::PollWorkflowTask | Op::PollActivityTask)
    }

    /// Whether it does what the service does by itself elsewhere.
    pub fn is_turn(self) -> bool {
        matches!(self, Op::TimerTurn | Op::DispatchTurn | Op::TransferTurn)
    }

    /// Whether it may issue a task, send something to another shard or close a run.
    pub fn may_issue(self) -> bool {
        !(self.is_read() || self.is_poll() || self.is_turn() || matches!(self, Op::Heartbeat | Op::Unknown))
    }
}

#[cfg(test)]
mod tests {
    use super::*;
    use std::collections::BTreeSet;

    /// The table of operations in docs/PROFILE.md: each one's name, and the words of its fields.
    fn profile() -> Vec<(String, BTreeSet<String>)> {
        let text = std::fs::read_to_string("../docs/PROFILE.md").expect("the profile");
        let table = text.split("| op | fields (default) | reply |").nth(1).expect("the table");
        let rows = table.lines().skip(2).take_while(|line| line.starts_with('|'));
        rows.map(|row| {
            let cells: Vec<&str> = row.trim_matches('|').splitn(3, '|').map(str::trim).collect();
            (cells[0].to_string(), words_of(cells[1]))
        })
        .collect()
    }

    fn words_of(cell: &str) -> BTreeSet<String> {
        let mut outside = String::new();
        let mut depth = 0;
        for letter in cell.chars() {
            depth += i32::from(letter == '(');
            outside.push(if depth == 0 { letter } else { ' ' });
            depth -= i32::from(letter == ')');
        }
        let words = outside.split(|letter: char| !(letter.is_ascii_lowercase() || letter == '_'));
        words.filter(|word| !word.is_empty()).map(str::to_string).collect()
    }

    #[test]
    fn the_operations_are_those_of_the_profile() {
        let rows = profile();
        assert_eq!(rows.len(), TABLE.len());
        for (name, fields) in rows {
            let op = Op::parse(&name);
            assert_eq!(op.name(), name);
            for field in fields.iter().filter(|_| op != Op::SignalWithStart) {
                assert!(op.keys().has(field), "{name}: {field}");
            }
        }
        assert!(Op::SignalWithStart.keys().has("signal_input") && Op::SignalWithStart.keys().has("run_timeout"));
        assert!(
            !Op::SignalWithStart.keys().has("conflict")
                && !Op::Signal.keys().has("at")
                && !Op::Unknown.keys().has("op")
        );
    }

    #[test]
    fn what_changes_nothing_issues_nothing() {
        for (op, _, _) in TABLE {
            assert!(!(op.may_issue() && (op.is_read() || op.is_poll() || op.is_turn())));
        }
        assert!(Op::Start.may_issue() && !Op::Heartbeat.may_issue());
    }
}
