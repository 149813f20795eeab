//! The compiled edge, without a client of a database: `postgres/` has the one with it.
#![deny(unsafe_code)]

fn main() -> std::process::ExitCode {
    wfedge::run(std::env::args().skip(1), None)
}
