//! What was answered, in a word.

use service_model_types::answer::{Answer, Reply};
use wf_event_values::Refusal;

fn name_of(answer: &Answer) -> &'static str {
    match answer {
        Answer::Started(_) => "started",
        Answer::Signaled => "signaled",
        Answer::CancelRequested => "cancel requested",
        Answer::Terminated => "terminated",
        Answer::History(_) => "history",
        Answer::Described(_) => "described",
        Answer::WorkflowTask(_) => "task",
        Answer::Completed => "completed",
        Answer::Failed => "failed",
        Answer::ActivityTask(_) => "activity task",
        Answer::Heartbeat(_) => "heartbeat",
        Answer::ActivityCompleted => "activity completed",
        Answer::Retrying(_) => "retrying",
        Answer::ActivityFailed(_) => "activity failed",
        Answer::ActivityCanceled => "activity canceled",
        Answer::Fired(_) => "fired",
        Answer::Dispatched(_) => "dispatched",
        Answer::Accepted(_) => "accepted",
        Answer::Empty => "empty",
        Answer::NothingDue | Answer::NoTransfer | Answer::NoDispatch => "none",
        _ => "another answer",
    }
}

/// The answer's name or the refusal's, and of an invalid argument its field's.
pub(crate) fn shown(reply: &Reply) -> &'static str {
    match reply {
        Ok(answer) => name_of(answer),
        Err(Refusal::InvalidArgument(field)) => field.name(),
        Err(refusal) => refusal.name(),
    }
}

/// The same of what came of a call.
pub(crate) fn came<E: Drop>(came: Result<Reply, E>) -> &'static str {
    match &came {
        Ok(reply) => shown(reply),
        Err(_) => "no answer",
    }
}
