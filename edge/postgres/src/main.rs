//! `wfedge` with a client of PostgreSQL.

fn main() -> std::process::ExitCode {
    wfedge_postgres::run()
}
