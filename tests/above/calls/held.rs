//! A pass that stays on a shard keeps others out of it, and of no other. Of two shards `a` lies on the
//! first and `b` on the second.

use crate::calls::asked::{START_A, START_B, settings, start};
use crate::calls::passes::{close, give_back, open, take_pass};
use service::{KeepsShard, Pass, Refused, Service};
use service_model_types::answer::{Answer, Reply};
use service_model_types::home::Home;
use service_model_types::request::Request;
use std::alloc::AllocGlobal;
use std::process::Abort;
use std::thread::{self, Threads};
use step_record::Record;
use wf_event_values::{Moment, Refusal, RunId};

/// What was answered, where the run that it names is the first of this shard.
fn began(reply: &Reply, shard: u16) -> &'static str {
    match reply {
        Ok(Answer::Started(run)) if is_first_run(*run, shard) => "started",
        Err(Refusal::AlreadyStarted(run)) if is_first_run(*run, shard) => "already started",
        _ => "another answer",
    }
}

/// Whether this is the first run of the shard, of service 1.
fn is_first_run(run: RunId, shard: u16) -> bool {
    run.service() == 1 && run.shard() == shard && run.ordinal() == 1
}

/// Whether a request names `a`.
fn names_a(request: &Request) -> bool {
    matches!(request.operation.home(), Home::Workflow(id) if id.as_str() == "a")
}

/// What comes of a start by the call that never waits.
fn tried<S: KeepsShard, R: Abort + AllocGlobal>(
    rt: &R,
    service: &Service<S>,
    pass: &mut Pass<S>,
    line: &str,
    shard: u16,
) -> &'static str {
    let asked = start(rt, line);
    match &service.try_start(pass, asked, Moment::zero()) {
        Ok(reply) => began(reply, shard),
        Err((Refused::Busy, request)) if names_a(request) => "busy",
        Err(_) => "no answer",
    }
}

/// While another pass stays on the shard of `a`, `b` can be started and `a` can't.
fn start_both<S: KeepsShard, R: Abort + AllocGlobal>(
    rt: &R,
    service: &Service<S>,
    mut pass: Pass<S>,
) -> Pass<S> {
    assert!(rt; tried(rt, service, &mut pass, START_B, 1) == "started");
    assert!(rt; tried(rt, service, &mut pass, START_A, 0) == "busy");
    pass
}

/// The other pass makes its calls on a thread of its own.
fn start_beside<S: KeepsShard + Send + Sync, R: Abort + AllocGlobal + Threads + Sync>(
    rt: &R,
    service: &Service<S>,
    pass: Pass<S>,
) -> Pass<S> {
    let (pass, ()) = thread::join(
        rt,
        move || -> Pass<S> { start_both(rt, service, pass) },
        || (),
    );
    pass
}

/// One pass stays on the shard of `a` while another makes its calls, and then leaves.
fn stay_and_leave<S: KeepsShard + Send + Sync, R: Abort + AllocGlobal + Threads + Sync>(
    rt: &R,
    service: &Service<S>,
    first: Pass<S>,
    second: Pass<S>,
) -> (Pass<S>, Pass<S>) {
    let asked = start(rt, START_A);
    let Ok(held) = service.try_enter_start(first, asked, Moment::zero()) else {
        panic!(rt; "the shard was free")
    };
    let second = start_beside(rt, service, second);
    let (first, reply) = held.leave();
    assert!(rt; began(&reply, 0) == "started");
    (first, second)
}

/// Whether the first pass's step and then one of the second stand in the record of the shard of `a`, and
/// one of the second in the other.
fn have_passes(records: &[Record<Request>]) -> bool {
    match records {
        [a, b] => match (a.as_slice(), b.as_slice()) {
            ([first, second], [third]) => first.pass == 0 && second.pass == 1 && third.pass == 1,
            _ => false,
        },
        _ => false,
    }
}

pub(crate) fn a_pass_on_a_shard_keeps_others_out<
    S: KeepsShard + Send + Sync,
    R: Abort + AllocGlobal + Threads + Sync,
>(rt: &R) {
    let (service, mut passes) = open::<S, R>(rt, &settings(rt, 2, 2));
    let second = take_pass(&service, &mut passes);
    let first = take_pass(&service, &mut passes);
    let (first, mut second) = stay_and_leave(rt, &service, first, second);
    assert!(rt; tried(rt, &service, &mut second, START_A, 0) == "already started");
    give_back(rt, &service, &mut passes, first);
    give_back(rt, &service, &mut passes, second);
    assert!(rt; have_passes(&close(service, passes)));
}
