//! The passes of a service.

use service::{KeepsShard, Pass, Service};
use service_model_types::request::Request;
use service_model_types::settings::Settings;
use std::alloc::AllocGlobal;
use std::process::Abort;
use step_record::Record;

/// A service, and its passes in the order of their numbers.
pub(crate) fn open<S: KeepsShard, R: Abort + AllocGlobal>(
    rt: &R,
    settings: &Settings,
) -> (Service<S>, Vec<Pass<S>>) {
    match Service::open(rt.alloc(), settings, Vec::new(rt.alloc())) {
        Ok(opened) => opened,
        Err(_) => panic!(rt; "the service was not opened"),
    }
}

/// Takes the last pass.
pub(crate) fn take_pass<S: KeepsShard>(service: &Service<S>, passes: &mut Vec<Pass<S>>) -> Pass<S> {
    let Some(pass) = passes.pop() else {
        unreachable!()
    };
    pass
}

/// Gives a pass back, after those with lower numbers.
pub(crate) fn give_back<S: KeepsShard, R: Abort>(
    rt: &R,
    service: &Service<S>,
    passes: &mut Vec<Pass<S>>,
    pass: Pass<S>,
) {
    match passes.push(pass) {
        Ok(()) => {}
        Err(_) => panic!(rt; "no memory"),
    }
}

/// The records of the service, where its passes lie in the order of their numbers.
pub(crate) fn close<S: KeepsShard>(
    service: Service<S>,
    passes: Vec<Pass<S>>,
) -> Vec<Record<Request>> {
    service.close(passes).records
}
