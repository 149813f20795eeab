//! `wfedge`: an edge of a workflow service. Many clients over sockets, one program over its pipes, one synced log.
//!
//! A call comes by `http` or `lines`, is read in `call`, and is put by `core` into the one order, written to the `log` and to
//! the program, and answered. Each folder says at its head what lives there, and what never does.
#![deny(unsafe_code)]

mod access;
mod call;
mod core;
mod http;
mod json;
mod lines;
pub mod log;
mod net;
mod options;
pub mod os;
mod reload;
mod serving;
mod settings;
#[cfg(test)]
mod testing;
mod turns;

use crate::os::stderr::report;
use log::table::Client;
use options::{Options, HELP};
use std::process::ExitCode;

/// The status of an edge that could not serve, or not to its end.
const FAILED: u8 = 2;

/// Serves by the words of a command line until it is told to stop. The status with which the process ends. A log in a
/// database's table is opened by `client`, where this edge was built with one.
pub fn run(words: impl Iterator<Item = String>, client: Option<Client>) -> ExitCode {
    let words: Vec<String> = words.collect();
    if words.iter().any(|word| word == "--help" || word == "-h") {
        print!("{HELP}");
        return ExitCode::SUCCESS;
    }
    match Options::parse(words).and_then(|options| serving::run(options, client)) {
        Ok(()) => ExitCode::SUCCESS,
        Err(fault) => {
            report!("{fault}");
            ExitCode::from(FAILED)
        }
    }
}
