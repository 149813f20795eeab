//! Texts that are too long for a history, in a table beside the log's. A name is a text's own, so who leads says nothing here.

use crate::connection::{Connection, Result};
use std::sync::{Mutex, PoisonError};
use std::time::{Duration, UNIX_EPOCH};
use wfedge::log::blobs::{checked, Store};

const TABLE: &str = "
    begin;
    select pg_advisory_xact_lock(7232, hashtext(current_schema()));
    create table if not exists wfserve_blobs (name text primary key, data bytea not null, at timestamptz not null);
    commit";
const IS_THERE: &str = "select to_regclass('wfserve_blobs') is not null";
// Put again it counts as put now, and who deletes what is old sees that.
const PUT: &str = "
    insert into wfserve_blobs values ($1, $2, clock_timestamp()) on conflict (name) do update set at = excluded.at";
const GET: &str = "select data from wfserve_blobs where name = $1";
const ANY: &str = "select 1 from wfserve_blobs limit 1";
const TOUCH: &str = "update wfserve_blobs set at = $2 where name = any($1) and at < $2";
const DELETE: &str = "delete from wfserve_blobs where at < $1";

/// The blobs of a database, by a connection that is made once it is wanted, and anew after a fault.
struct Blobs {
    address: String,
    connection: Mutex<Option<Connection>>,
}

/// The blobs of the database of an address.
pub fn open(address: &str) -> Box<dyn Store> {
    Box::new(Blobs { address: address.to_string(), connection: Mutex::new(None) })
}

fn connected(address: &str) -> Result<Connection> {
    let connection = Connection::new(address)?;
    let is_there: bool = connection.row(IS_THERE, &[])?.get(0);
    if !is_there {
        connection.run(TABLE)?;
    }
    Ok(connection)
}

impl Blobs {
    /// Asks by the connection. One that a fault has ended is made anew, once: each question may be asked again.
    fn ask<T>(&self, ask: impl Fn(&Connection) -> Result<T>) -> Result<T> {
        let mut held = self.connection.lock().unwrap_or_else(PoisonError::into_inner);
        if let Some(Ok(found)) = held.as_ref().map(&ask) {
            return Ok(found);
        }
        *held = None;
        let connection = connected(&self.address)?;
        let found = ask(&connection);
        *held = Some(connection);
        found
    }
}

impl Store for Blobs {
    fn put(&self, name: &str, data: &[u8]) -> Result<()> {
        self.ask(|connection| connection.change(&connection.prepare(PUT)?, &[&name, &data]).map(drop))
    }

    fn get(&self, name: &str) -> Result<Option<Vec<u8>>> {
        let rows = self.ask(|connection| connection.rows(&connection.prepare(GET)?, &[&name]))?;
        rows.first().map(|row| checked(name, row.get(0))).transpose()
    }

    fn has_any(&self) -> Result<bool> {
        let rows = self.ask(|connection| connection.rows(&connection.prepare(ANY)?, &[]))?;
        Ok(!rows.is_empty())
    }

    fn touch(&self, names: &[String], moment: Duration) -> Result<()> {
        let at = UNIX_EPOCH + moment;
        self.ask(|connection| connection.change(&connection.prepare(TOUCH)?, &[&names, &at]).map(drop))
    }

    fn delete_before(&self, moment: Duration) -> Result<u64> {
        let at = UNIX_EPOCH + moment;
        self.ask(|connection| connection.change(&connection.prepare(DELETE)?, &[&at]))
    }
}
