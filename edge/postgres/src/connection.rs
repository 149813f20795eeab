//! A connection to PostgreSQL, each of whose questions has a limit on its time.

use crate::tls::TlsOptions;
use std::time::Duration;
use tokio::runtime::{Builder, Runtime};
use tokio_postgres::error::SqlState;
use tokio_postgres::types::ToSql;
use tokio_postgres::{Client, Config, Row, Statement};
use wfedge::log::fault::LogFault;

/// Beyond this what became of a question is not known, as where a network is cut.
const LONGEST: Duration = Duration::from_secs(10);
const KEEPALIVE: Duration = Duration::from_secs(1);

pub type Result<T> = std::result::Result<T, LogFault>;
pub type Values<'a> = &'a [&'a (dyn ToSql + Sync)];

/// A connection, and what drives it while it is asked.
pub struct Connection {
    runtime: Runtime,
    client: Client,
}

fn fault_of(fault: tokio_postgres::Error) -> LogFault {
    let said = fault.as_db_error().map_or_else(|| fault.to_string(), |told| told.message().to_string());
    match fault.code() {
        Some(&SqlState::DISK_FULL) => LogFault::Full(format!("the database: {said}")),
        _ => LogFault::Io(format!("the database: {said}")),
    }
}

impl Connection {
    /// Connects to the database of an address, by TLS as it asks. A password that it doesn't have is the one of PGPASSWORD.
    pub fn new(address: &str) -> Result<Connection> {
        let asked = TlsOptions::parse(address)?;
        let tls = asked.tls()?;
        let mut config: Config = asked.address.parse().map_err(fault_of)?;
        config.ssl_mode(asked.mode);
        config.keepalives(true).keepalives_idle(KEEPALIVE).connect_timeout(LONGEST).application_name("wfedge");
        if let (None, Ok(password)) = (config.get_password(), std::env::var("PGPASSWORD")) {
            config.password(password);
        }
        let runtime = Builder::new_current_thread().enable_all().build();
        let runtime = runtime.map_err(|fault| LogFault::Io(format!("the database: {fault}")))?;
        let client = runtime.block_on(async {
            let (client, connection) = config.connect(tls).await?;
            tokio::spawn(connection);
            Ok(client)
        });
        Ok(Connection { runtime, client: client.map_err(fault_of)? })
    }

    fn wait<T>(
        &self,
        asked: impl std::future::Future<Output = std::result::Result<T, tokio_postgres::Error>>,
    ) -> Result<T> {
        match self.runtime.block_on(async { tokio::time::timeout(LONGEST, asked).await }) {
            Ok(answer) => answer.map_err(fault_of),
            Err(_) => Err(LogFault::Io(format!("the database has not answered within {} s", LONGEST.as_secs()))),
        }
    }

    /// Runs statements without values.
    pub fn run(&self, statements: &str) -> Result<()> {
        self.wait(self.client.batch_execute(statements))
    }

    /// Has a statement ready to be asked often.
    pub fn prepare(&self, statement: &str) -> Result<Statement> {
        self.wait(self.client.prepare(statement))
    }

    /// The rows that a statement brings.
    pub fn rows(&self, statement: &Statement, values: Values<'_>) -> Result<Vec<Row>> {
        self.wait(self.client.query(statement, values))
    }

    /// How many rows a statement changes.
    pub fn change(&self, statement: &Statement, values: Values<'_>) -> Result<u64> {
        self.wait(self.client.execute(statement, values))
    }

    /// The one row that a statement brings, which is asked once.
    pub fn row(&self, statement: &str, values: Values<'_>) -> Result<Row> {
        self.wait(self.client.query_one(statement, values))
    }
}
