//! The compiled edge with a client of PostgreSQL: `--log postgres://..` keeps its lines in a table there.
#![deny(unsafe_code)]

mod blobs;
mod connection;
mod planted;
mod table;
mod tls;

use wfedge::log::table::Client;

/// Serves by the words of the command line. The status with which the process ends.
pub fn run() -> std::process::ExitCode {
    wfedge::run(std::env::args().skip(1), Some(Client { table: table::open, blobs: blobs::open }))
}
