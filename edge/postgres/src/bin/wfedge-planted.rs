//! An edge with a fault that the tests have to find: `planted` says which. Nothing but tests runs it.

fn main() -> std::process::ExitCode {
    wfedge_postgres::run()
}
