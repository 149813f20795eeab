//! Tests over the whole service, which no proof covers, as a program with modes:
//!
//! - `test NAME` runs a public function of `calls` or `scripts`, which ends the program where it fails;
//! - `cases FILE..` and `cases --tell=FILE` run cases by the calls of the service;
//! - `compare` asks a shard by tables and the plain program what lines of standard input say;
//! - `replies` prints the replies that no line is answered.
//!
//! The exit status is 0 where all of it passed, and 1 where something else came than what had to, or where there is
//! nothing of that name. It is 2 where a device failed or memory was refused outside of the service.
//!
//! The functions are no `#[test]`s: with these a second program would be compiled, which takes as long as this one.

mod calls;
mod cases;
mod compare;
mod replies;
mod scripts;

use std::alloc::AllocGlobal;
use std::io;
use std::process::{Abort, ExitCode};
use std::rt::{Env, Files};
use std::sync::Wait;
use std::thread::Threads;

/// Runs the function of this name. Whether there is one.
fn test<R: Abort + AllocGlobal + Threads + Wait + Sync>(rt: &R, name: &str) -> bool {
    match name {
        "calls_by_their_names" => calls::calls_by_their_names(rt),
        "a_pass_on_a_shard_keeps_others_out" => calls::a_pass_on_a_shard_keeps_others_out(rt),
        "what_takes_no_memory" => calls::what_takes_no_memory(rt),
        "devices_that_fail" => scripts::devices_that_fail(rt),
        "faults_by_their_texts" => scripts::faults_by_their_texts(rt),
        "devices_of_lanes_that_fail" => scripts::devices_of_lanes_that_fail(rt),
        "devices_that_fail_where_steps_are_printed" => {
            scripts::devices_that_fail_where_steps_are_printed(rt);
        }
        "lanes_at_the_same_time" => scripts::lanes_at_the_same_time(rt),
        "records_of_lanes_that_are_refused" => scripts::records_of_lanes_that_are_refused(rt),
        "a_reader_of_a_record_that_fails" => scripts::a_reader_of_a_record_that_fails(rt),
        "a_writer_of_a_record_that_fails" => scripts::a_writer_of_a_record_that_fails(rt),
        _ => return false,
    }
    true
}

/// Runs the mode that the first argument names. Whether all of it passed.
fn run<R: Abort + AllocGlobal + Env + Eprint + Files + Input + Print + Threads + Wait + Sync>(
    rt: &R,
) -> io::Result<bool> {
    let words: Vec<String> = std::env::args(rt)?.skip(1).collect(rt.alloc())?;
    let Some((mode, rest)) = words.split_first() else {
        return Ok(false);
    };
    match mode.as_str() {
        "test" => Ok(rest.first().is_some_and(|name| test(rt, name.as_str()))),
        "cases" => cases::run(rt, rest),
        "compare" => Ok(compare::run(rt)),
        "replies" => replies::print_all(rt).map(|()| true),
        _ => Ok(false),
    }
}

fn main(rt: HostRuntime) -> ExitCode {
    match run(&rt) {
        Ok(true) => ExitCode::SUCCESS,
        Ok(false) => ExitCode::from(1),
        Err(error) => {
            let _ = eprintln!(rt; "tests: {error}");
            ExitCode::from(2)
        }
    }
}
