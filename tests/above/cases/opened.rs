//! A service whose two passes make calls in turn.

use service::{KeepsShard, Pass, Service};
use service_model_types::answer::{Answer, Reply};
use service_model_types::call::{Call, Poll, StartTask, StepCall};
use service_model_types::client::{ClientRequest, is_clients};
use service_model_types::request::{Operation, Request};
use service_model_types::settings::Settings;
use std::alloc::Global;
use std::sync::Wait;
use step_record::Record;
use wf_event_values::{Refusal, TaskKind};

/// Which form of a call of one step is made. What is more than one step has no form that never waits.
#[derive(Clone, Copy)]
pub(crate) enum CallForm {
    MayWait,
    NeverWaits,
}

impl CallForm {
    pub(crate) const ALL: [CallForm; 2] = [CallForm::MayWait, CallForm::NeverWaits];

    pub(crate) fn name(&self) -> &'static str {
        match self {
            CallForm::MayWait => "by calls that may wait",
            CallForm::NeverWaits => "by calls that never wait",
        }
    }
}

/// A service with two passes of it.
pub(crate) struct Opened<S: KeepsShard> {
    service: Service<S>,
    first: Pass<S>,
    second: Pass<S>,
}

impl<S: KeepsShard> Drop for Opened<S> {
    fn drop(self) {
        let Opened {
            service: _,
            first: _,
            second: _,
        } = self;
    }
}

impl<S: KeepsShard> Opened<S> {
    /// Opens a service with two passes, which goes on from such records.
    pub(crate) fn open(
        alloc: Global,
        settings: &Settings,
        records: Vec<Record<Request>>,
    ) -> Result<Opened<S>, Refusal> {
        let mut settings = settings.copy(alloc)?;
        settings.passes = 2;
        let (service, mut passes) = Service::open(alloc, &settings, records)?;
        let second = take_pass(&service, &mut passes);
        let first = take_pass(&service, &mut passes);
        Ok(Opened {
            service,
            first,
            second,
        })
    }

    /// Serves a call by the pass whose turn it is. A call that is refused memory gives back what is
    /// asked in its place when it is made again, or nothing where it is to be asked as before. No pass
    /// is ever on a shard when the other one calls, so nothing but memory can be wanting.
    pub(crate) fn serve<R: Wait>(
        &mut self,
        rt: &R,
        form: CallForm,
        turn: usize,
        call: Call,
    ) -> Result<Reply, Option<Call>> {
        if turn % 2 == 0 {
            served(rt, &self.service, &mut self.first, form, call)
        } else {
            served(rt, &self.service, &mut self.second, form, call)
        }
    }

    /// Both passes learn what the other one has seen.
    pub(crate) fn meet(&mut self) {
        self.service.meet(&mut self.first, &mut self.second);
    }
}

/// Takes the last pass.
fn take_pass<S: KeepsShard>(service: &Service<S>, passes: &mut Vec<Pass<S>>) -> Pass<S> {
    let Some(pass) = passes.pop() else {
        unreachable!()
    };
    pass
}

/// Serves a call, whichever it is.
fn served<S: KeepsShard, R: Wait>(
    rt: &R,
    service: &Service<S>,
    pass: &mut Pass<S>,
    form: CallForm,
    call: Call,
) -> Result<Reply, Option<Call>> {
    match call {
        Call::Step(step) => step_served(rt, service, pass, form, step),
        Call::Poll(poll) => polled(rt, service, pass, &poll),
        turn => match service.serve_call(rt, pass, turn) {
            Ok(reply) => Ok(reply),
            // A turn keeps the parts that were done, and is asked again.
            Err(_) => Err(None),
        },
    }
}

/// Serves a call of one step. Where memory was refused it is made again with the same request.
fn step_served<S: KeepsShard, R: Wait>(
    rt: &R,
    service: &Service<S>,
    pass: &mut Pass<S>,
    form: CallForm,
    step: StepCall,
) -> Result<Reply, Option<Call>> {
    match form {
        CallForm::MayWait => match service.serve_step(rt, pass, step) {
            Ok(reply) => Ok(reply),
            Err((_, request)) => Err(same_request(request)),
        },
        CallForm::NeverWaits => match service.try_serve_step(pass, step) {
            Ok(reply) => Ok(reply),
            Err((_, request)) => Err(same_request(request)),
        },
    }
}

/// The call that makes a step of the request that came back, where a client may ask for it by itself.
fn same_request(request: Request) -> Option<Call> {
    let names_its_shard = !matches!(
        request.operation,
        Operation::StartTask(_) | Operation::TimerTurn
    );
    if names_its_shard && is_clients(&request.operation) {
        let request = ClientRequest::new(request);
        return Some(Call::Step(StepCall::Request(request)));
    }
    None
}

/// Serves a poll. Where memory was refused, the task of the hint that it popped is asked for.
fn polled<S: KeepsShard, R: Wait>(
    rt: &R,
    service: &Service<S>,
    pass: &mut Pass<S>,
    poll: &Poll,
) -> Result<Reply, Option<Call>> {
    let polled = match poll.kind {
        TaskKind::Workflow => service.poll_workflow_task(rt, pass, &poll.task_queue, poll.at),
        TaskKind::Activity => service.poll_activity_task(rt, pass, &poll.task_queue, poll.at),
    };
    match polled {
        Ok(Some(reply)) => Ok(reply),
        Ok(None) => Ok(Ok(Answer::Empty)),
        Err((_, hint)) => {
            let start = StartTask { hint, at: poll.at };
            Err(Some(Call::Step(StepCall::StartTask(start))))
        }
    }
}
