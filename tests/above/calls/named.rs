//! Each call that is one step by its own name, in the form that may wait and in the one that never
//! does. What they answer is shown by `cases`, over the calls that serve any request.

use crate::calls::asked::{given, settings, value};
use crate::calls::passes::{open, take_pass};
use crate::calls::shown::{came, shown};
use serde_json::Value;
use service::{KeepsShard, Pass, Service};
use service_model_types::answer::Reply;
use service_model_types::call::Stop;
use service_model_types::request::{
    ActivityText, CompleteWorkflowTask, FailActivity, FailWorkflowTask, Hint, Read, RequestCancel,
    Signal, SignalWithStart, Start, TakenTask, Terminate,
};
use std::alloc::{AllocError, AllocGlobal};
use std::process::Abort;
use std::sync::Wait;
use task_token::TaskToken;
use wf_event::Boxed;
use wf_event_values::{Field, Id, Moment, Text};
use wire_fields::{array, required};
use wire_requests::{
    each_command, read, request_cancel, signal, signal_with_start, start, task_of_kind, terminate,
};
use wire_trees::Tree;

/// The form in which a call is made.
#[derive(Clone, Copy)]
enum Form {
    MayWait,
    NeverWaits,
}

/// What a call is given, by its name.
#[derive(Drop)]
enum Named {
    Start(Boxed<Start>),
    Signal(Signal),
    SignalWithStart(Boxed<SignalWithStart>),
    RequestCancel(RequestCancel),
    Terminate(Terminate),
    History(Read),
    Describe(Read),
    TimerTurn(u16),
    StartTask(Hint),
    FailTask(FailWorkflowTask),
    CompleteTask(CompleteWorkflowTask),
    Heartbeat(ActivityText),
    Complete(ActivityText),
    Fail(FailActivity),
    Cancel(ActivityText),
}

/// The task of a line's token.
fn token<R: Abort + AllocGlobal>(rt: &R, line: &Value) -> TaskToken {
    given(rt, required(rt.alloc(), line, Field::Token))
}

/// The same once it was taken.
fn task<R: Abort + AllocGlobal>(rt: &R, line: &Value) -> TakenTask {
    given(rt, task_of_kind(true, token(rt, line)))
}

fn message<R: Abort + AllocGlobal>(rt: &R, line: &Value) -> Text {
    given(rt, required(rt.alloc(), line, Field::Message))
}

fn report<R: Abort + AllocGlobal>(rt: &R, line: &Value) -> ActivityText {
    ActivityText {
        task: task(rt, line),
        text: message(rt, line),
    }
}

/// A workflow task with the commands that complete it.
fn completion<R: Abort + AllocGlobal>(rt: &R, line: &Value) -> CompleteWorkflowTask {
    let Some(commands) = line.member("commands") else {
        panic!(rt; "no commands")
    };
    let commands = given(rt, array(Field::Commands, commands));
    CompleteWorkflowTask {
        task: task(rt, line),
        commands: given(rt, each_command(rt.alloc(), commands)),
    }
}

/// The task of a line's token as one that waits.
fn hint<R: Abort + AllocGlobal>(rt: &R, line: &Value) -> Hint {
    let token = token(rt, line);
    Hint {
        kind: token.kind,
        shard: token.shard,
        run: token.run,
        event: token.event,
        attempt: token.attempt,
    }
}

/// What the call of this name is given by a line.
fn call_of<R: Abort + AllocGlobal>(rt: &R, name: &str, line: &Value) -> Named {
    let alloc = rt.alloc();
    match name {
        "start" => {
            let asked = given(rt, start(alloc, line));
            Named::Start(given(rt, Boxed::new(alloc, asked)))
        }
        "signal" => Named::Signal(given(rt, signal(alloc, line))),
        "signal with start" => {
            let asked = given(rt, signal_with_start(alloc, line));
            Named::SignalWithStart(given(rt, Boxed::new(alloc, asked)))
        }
        "request cancel" => Named::RequestCancel(given(rt, request_cancel(alloc, line))),
        "terminate" => Named::Terminate(given(rt, terminate(alloc, line))),
        "history" => Named::History(given(rt, read(alloc, line))),
        "describe" => Named::Describe(given(rt, read(alloc, line))),
        "take" => Named::StartTask(hint(rt, line)),
        "fail task" => Named::FailTask(FailWorkflowTask {
            task: task(rt, line),
            message: message(rt, line),
        }),
        "complete task" => Named::CompleteTask(completion(rt, line)),
        "heartbeat" => Named::Heartbeat(report(rt, line)),
        "complete" => Named::Complete(report(rt, line)),
        "fail" => Named::Fail(FailActivity {
            task: task(rt, line),
            message: message(rt, line),
            error_type: None,
            non_retryable: false,
        }),
        "cancel" => Named::Cancel(report(rt, line)),
        "timer turn of 0" => Named::TimerTurn(0),
        "timer turn of 1" => Named::TimerTurn(1),
        _ => panic!(rt; "{name} is no call"),
    }
}

/// What comes of the call, in the form that may wait.
fn may_wait<S: KeepsShard, R: Abort + AllocGlobal + Wait>(
    rt: &R,
    service: &Service<S>,
    pass: &mut Pass<S>,
    call: Named,
) -> &'static str {
    let at = Moment::zero();
    match call {
        Named::Start(asked) => came(service.start(rt, pass, asked, at)),
        Named::Signal(asked) => came(service.signal(rt, pass, asked, at)),
        Named::SignalWithStart(asked) => came(service.signal_with_start(rt, pass, asked, at)),
        Named::RequestCancel(asked) => came(service.request_cancel(rt, pass, asked, at)),
        Named::Terminate(asked) => came(service.terminate(rt, pass, asked, at)),
        Named::History(asked) => came(service.history(rt, pass, asked, at)),
        Named::Describe(asked) => came(service.describe(rt, pass, asked, at)),
        Named::TimerTurn(asked) => came(service.timer_turn(rt, pass, asked, at)),
        Named::StartTask(asked) => came(service.start_task(rt, pass, asked, at)),
        Named::FailTask(asked) => came(service.fail_workflow_task(rt, pass, asked, at)),
        Named::CompleteTask(asked) => came(service.complete_workflow_task(rt, pass, asked, at)),
        Named::Heartbeat(asked) => came(service.heartbeat(rt, pass, asked, at)),
        Named::Complete(asked) => came(service.complete_activity(rt, pass, asked, at)),
        Named::Fail(asked) => came(service.fail_activity(rt, pass, asked, at)),
        Named::Cancel(asked) => came(service.cancel_activity(rt, pass, asked, at)),
    }
}

/// What comes of the call, in the form that never waits.
fn never_waits<S: KeepsShard>(
    service: &Service<S>,
    pass: &mut Pass<S>,
    call: Named,
) -> &'static str {
    let at = Moment::zero();
    match call {
        Named::Start(asked) => came(service.try_start(pass, asked, at)),
        Named::Signal(asked) => came(service.try_signal(pass, asked, at)),
        Named::SignalWithStart(asked) => came(service.try_signal_with_start(pass, asked, at)),
        Named::RequestCancel(asked) => came(service.try_request_cancel(pass, asked, at)),
        Named::Terminate(asked) => came(service.try_terminate(pass, asked, at)),
        Named::History(asked) => came(service.try_history(pass, asked, at)),
        Named::Describe(asked) => came(service.try_describe(pass, asked, at)),
        Named::TimerTurn(asked) => came(service.try_timer_turn(pass, asked, at)),
        Named::StartTask(asked) => came(service.try_start_task(pass, asked, at)),
        Named::FailTask(asked) => came(service.try_fail_workflow_task(pass, asked, at)),
        Named::CompleteTask(asked) => came(service.try_complete_workflow_task(pass, asked, at)),
        Named::Heartbeat(asked) => came(service.try_heartbeat(pass, asked, at)),
        Named::Complete(asked) => came(service.try_complete_activity(pass, asked, at)),
        Named::Fail(asked) => came(service.try_fail_activity(pass, asked, at)),
        Named::Cancel(asked) => came(service.try_cancel_activity(pass, asked, at)),
    }
}

/// What comes of the call of a row, in one of the forms.
fn came_of<S: KeepsShard, R: Abort + AllocGlobal + Wait>(
    rt: &R,
    service: &Service<S>,
    pass: &mut Pass<S>,
    form: Form,
    asked: &str,
) -> &'static str {
    let (name, line) = asked.split_once('|').unwrap_or((asked, ""));
    let call = call_of(rt, name, &value(rt, line));
    match form {
        Form::MayWait => may_wait(rt, service, pass, call),
        Form::NeverWaits => never_waits(service, pass, call),
    }
}

/// A poll comes to this.
fn polled(came: Result<Option<Reply>, (AllocError, Hint)>) -> &'static str {
    match &came {
        Ok(Some(reply)) => shown(reply),
        Ok(None) => "empty",
        Err(_) => "no answer",
    }
}

/// Polls and turns where nothing waits.
fn assert_turns<S: KeepsShard, R: Abort + AllocGlobal + Wait>(
    rt: &R,
    service: &Service<S>,
    pass: &mut Pass<S>,
) {
    let at = Moment::zero();
    let queue = given(rt, Id::new(rt.alloc(), Field::TaskQueue, "main"));
    assert!(rt; polled(service.poll_workflow_task(rt, pass, &queue, at)) == "empty");
    assert!(rt; polled(service.poll_activity_task(rt, pass, &queue, at)) == "empty");
    assert!(rt; came(service.dispatch_turn(rt, pass, 1, Stop::AtEnd, at)) == "none");
    assert!(rt; came(service.transfer_turn(rt, pass, 1, 0, Stop::AtEnd, at)) == "none");
}

/// All calls on the workflow of the first shard, one after another: what is answered, the call's name, and what it
/// is given. After a task of which nothing comes an activity is completed, one fails, and one is canceled; then the
/// workflow ends, and its next run begins.
const OF_FIRST: &str = r#"started|start|{"workflow_id":"a","workflow_type":"w","task_queue":"main"}
task|take|{"token":"AQEAAAAAAAAAAAABAAAAAAAAAAIAAAAB"}
failed|fail task|{"token":"AQEAAAAAAAAAAAABAAAAAAAAAAIAAAAB","message":""}
task|take|{"token":"AQEAAAAAAAAAAAABAAAAAAAAAAUAAAAC"}
completed|complete task|{"token":"AQEAAAAAAAAAAAABAAAAAAAAAAUAAAAC","commands":[]}
signaled|signal|{"workflow_id":"a","name":"s"}
history|history|{"workflow_id":"a"}
described|describe|{"workflow_id":"a"}
none|timer turn of 0|{}
task|take|{"token":"AQEAAAAAAAAAAAABAAAAAAAAAAkAAAAB"}
completed|complete task|{"token":"AQEAAAAAAAAAAAABAAAAAAAAAAkAAAAB","commands":[{"type":"ScheduleActivityTask","activity_id":"x","activity_type":"t","task_queue":"main","start_to_close":10000,"retry":{"attempts":1}}]}
activity task|take|{"token":"AQIAAAAAAAAAAAABAAAAAAAAAAwAAAAB"}
heartbeat|heartbeat|{"token":"AQIAAAAAAAAAAAABAAAAAAAAAAwAAAAB","message":"x"}
activity completed|complete|{"token":"AQIAAAAAAAAAAAABAAAAAAAAAAwAAAAB","message":"x"}
task|take|{"token":"AQEAAAAAAAAAAAABAAAAAAAAAA8AAAAB"}
completed|complete task|{"token":"AQEAAAAAAAAAAAABAAAAAAAAAA8AAAAB","commands":[{"type":"ScheduleActivityTask","activity_id":"y","activity_type":"t","task_queue":"main","start_to_close":10000,"retry":{"attempts":1}}]}
activity task|take|{"token":"AQIAAAAAAAAAAAABAAAAAAAAABIAAAAB"}
activity failed|fail|{"token":"AQIAAAAAAAAAAAABAAAAAAAAABIAAAAB","message":"m"}
task|take|{"token":"AQEAAAAAAAAAAAABAAAAAAAAABUAAAAB"}
completed|complete task|{"token":"AQEAAAAAAAAAAAABAAAAAAAAABUAAAAB","commands":[{"type":"ScheduleActivityTask","activity_id":"z","activity_type":"t","task_queue":"main","start_to_close":10000,"retry":{"attempts":1}}]}
activity task|take|{"token":"AQIAAAAAAAAAAAABAAAAAAAAABgAAAAB"}
signaled|signal|{"workflow_id":"a","name":"s"}
task|take|{"token":"AQEAAAAAAAAAAAABAAAAAAAAABoAAAAB"}
completed|complete task|{"token":"AQEAAAAAAAAAAAABAAAAAAAAABoAAAAB","commands":[{"type":"RequestCancelActivityTask","scheduled":24}]}
activity canceled|cancel|{"token":"AQIAAAAAAAAAAAABAAAAAAAAABgAAAAB","message":"x"}
cancel requested|request cancel|{"workflow_id":"a"}
terminated|terminate|{"workflow_id":"a","reason":"m"}
started|signal with start|{"workflow_id":"a","workflow_type":"w","task_queue":"main","name":"s","signal_input":"i"}"#;

/// The same on the workflow of the second shard.
const OF_SECOND: &str = r#"started|start|{"workflow_id":"b","workflow_type":"w","task_queue":"main"}
task|take|{"token":"AQEAAQAAAAAAAAABAAAAAAAAAAIAAAAB"}
failed|fail task|{"token":"AQEAAQAAAAAAAAABAAAAAAAAAAIAAAAB","message":""}
task|take|{"token":"AQEAAQAAAAAAAAABAAAAAAAAAAUAAAAC"}
completed|complete task|{"token":"AQEAAQAAAAAAAAABAAAAAAAAAAUAAAAC","commands":[]}
signaled|signal|{"workflow_id":"b","name":"s"}
history|history|{"workflow_id":"b"}
described|describe|{"workflow_id":"b"}
none|timer turn of 1|{}
task|take|{"token":"AQEAAQAAAAAAAAABAAAAAAAAAAkAAAAB"}
completed|complete task|{"token":"AQEAAQAAAAAAAAABAAAAAAAAAAkAAAAB","commands":[{"type":"ScheduleActivityTask","activity_id":"x","activity_type":"t","task_queue":"main","start_to_close":10000,"retry":{"attempts":1}}]}
activity task|take|{"token":"AQIAAQAAAAAAAAABAAAAAAAAAAwAAAAB"}
heartbeat|heartbeat|{"token":"AQIAAQAAAAAAAAABAAAAAAAAAAwAAAAB","message":"x"}
activity completed|complete|{"token":"AQIAAQAAAAAAAAABAAAAAAAAAAwAAAAB","message":"x"}
task|take|{"token":"AQEAAQAAAAAAAAABAAAAAAAAAA8AAAAB"}
completed|complete task|{"token":"AQEAAQAAAAAAAAABAAAAAAAAAA8AAAAB","commands":[{"type":"ScheduleActivityTask","activity_id":"y","activity_type":"t","task_queue":"main","start_to_close":10000,"retry":{"attempts":1}}]}
activity task|take|{"token":"AQIAAQAAAAAAAAABAAAAAAAAABIAAAAB"}
activity failed|fail|{"token":"AQIAAQAAAAAAAAABAAAAAAAAABIAAAAB","message":"m"}
task|take|{"token":"AQEAAQAAAAAAAAABAAAAAAAAABUAAAAB"}
completed|complete task|{"token":"AQEAAQAAAAAAAAABAAAAAAAAABUAAAAB","commands":[{"type":"ScheduleActivityTask","activity_id":"z","activity_type":"t","task_queue":"main","start_to_close":10000,"retry":{"attempts":1}}]}
activity task|take|{"token":"AQIAAQAAAAAAAAABAAAAAAAAABgAAAAB"}
signaled|signal|{"workflow_id":"b","name":"s"}
task|take|{"token":"AQEAAQAAAAAAAAABAAAAAAAAABoAAAAB"}
completed|complete task|{"token":"AQEAAQAAAAAAAAABAAAAAAAAABoAAAAB","commands":[{"type":"RequestCancelActivityTask","scheduled":24}]}
activity canceled|cancel|{"token":"AQIAAQAAAAAAAAABAAAAAAAAABgAAAAB","message":"x"}
cancel requested|request cancel|{"workflow_id":"b"}
terminated|terminate|{"workflow_id":"b","reason":"m"}
started|signal with start|{"workflow_id":"b","workflow_type":"w","task_queue":"main","name":"s","signal_input":"i"}"#;

fn assert_calls<S: KeepsShard, R: Abort + AllocGlobal + Wait>(
    rt: &R,
    service: &Service<S>,
    pass: &mut Pass<S>,
    form: Form,
    rows: &str,
) {
    for row in rows.lines() {
        let (wanted, asked) = row.split_once('|').unwrap_or((row, ""));
        let came = came_of(rt, service, pass, form, asked);
        if came != wanted {
            panic!(rt; "{row}: {came}")
        }
    }
}

pub(crate) fn each_call_by_its_name<S: KeepsShard, R: Abort + AllocGlobal + Wait>(rt: &R) {
    let (service, mut passes) = open::<S, R>(rt, &settings(rt, 2, 2));
    let mut pass = take_pass(&service, &mut passes);
    assert_turns(rt, &service, &mut pass);
    assert_calls(rt, &service, &mut pass, Form::MayWait, OF_FIRST);
    assert_calls(rt, &service, &mut pass, Form::NeverWaits, OF_SECOND);
}
