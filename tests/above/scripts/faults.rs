//! The texts of the faults that no case shows, and their exit status.

use script::ScriptFault;
use service::KeepsShard;
use std::alloc::AllocError;
use std::io::{Error, ErrorKind};
use std::process::Abort;
use wfserve_run::{Fault, Served, status};

/// Whether a fault has this text, and the program ends by it with status 2.
fn ends_with<S: KeepsShard, R: AllocGlobal>(rt: &R, fault: Fault, expected: &str) -> bool {
    let is_said = match fault.to_string(rt.alloc()) {
        Ok(text) => text.as_str() == expected,
        Err(_) => false,
    };
    let served: Result<Served<S>, Fault> = Err(fault);
    is_said && status(&served) == 2
}

pub(crate) fn each_fault<S: KeepsShard, R: Abort + AllocGlobal>(rt: &R) {
    let memory = "out of memory";
    assert!(rt; ends_with::<S, R>(rt, Fault::Memory(AllocError), memory));
    assert!(rt; ends_with::<S, R>(rt, Fault::Script(ScriptFault::Memory), memory));
    let records = "the records are neither none nor one of each shard";
    assert!(rt; ends_with::<S, R>(rt, Fault::Script(ScriptFault::Records), records));
    let words = Fault::Arguments(Error::from(ErrorKind::InvalidData));
    assert!(rt; ends_with::<S, R>(rt, words, "the command line: invalid data"));
    let output = Fault::Output(Error::from(ErrorKind::OutOfMemory));
    assert!(rt; ends_with::<S, R>(rt, output, "standard output: out of memory"));
}
