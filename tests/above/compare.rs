//! The mode `compare`: a shard that keeps its runs by tables and the plain program, asked the same; and
//! what no line of a script asks of snapshots.
//!
//! A line of standard input that begins with `shard` opens both anew: it has the shard's number, how many
//! shards there are, and for how long closed runs are kept. One that begins with a brace is a step as a
//! record has it. For each step two lines are printed: the reply, and the step that follows of it. That is
//! the delivery of a transfer that was asked for, or the start of a task whose dispatch was; else the line
//! is empty. The program ends with status 1 at the first step to which the two say other things, or that is
//! none. `tools/drawn_requests.py` draws requests by what was answered to the earlier ones.
//!
//! Of snapshots, whose rows are in `tools/piece_rows.py`:
//!
//! - `piece` and a line of a snapshot of the first of two shards writes that line;
//! - `restored` and the moment of the last step restores a shard from what was written;
//! - `asked` and a step asks that shard, as steps alone ask the two;
//! - `read` and a line reads it and writes it again;
//! - `same` and two lines, with a tab between them, compares their pieces;
//! - `count` and lines, each with a tab after it, counts pieces that come by three bytes.

mod both;
mod pieces;
mod snapshots;

use crate::compare::both::{Both, Fault};
use crate::compare::snapshots::Snapshots;
use mutable_state::Run;
use mutable_state_keeper::{KeepsRun, TellsRun};
use std::alloc::Global;
use wf_event_values::{Field, Span};

/// The shard that a line opens, which has served nothing.
fn opened<T: KeepsRun>(alloc: Global, words: &str) -> Result<Both<T>, Fault> {
    let words: Vec<&str> = words.split(' ').collect(alloc)?;
    let [shard, shards, retention] = words.as_slice() else {
        return Err(Fault::Unread);
    };
    let (Ok(shard), Ok(shards), Ok(retention)) = (shard.parse(), shards.parse(), retention.parse())
    else {
        return Err(Fault::Unread);
    };
    match Span::new(Field::Retention, retention) {
        Ok(retention) => Both::new(alloc, shard, shards, retention),
        Err(_) => Err(Fault::Unread),
    }
}

/// What is printed to a line about snapshots.
fn told<T: TellsRun>(
    alloc: Global,
    snapshots: &mut Snapshots<T>,
    word: &str,
    rest: &str,
) -> Result<String, Fault> {
    let mut told = match word {
        "piece" => snapshots.write(alloc, rest)?,
        "restored" => return snapshots.restore(alloc, rest),
        "asked" => return snapshots.asked(alloc, rest),
        "read" => String::from_str(alloc, pieces::read(alloc, rest)?)?,
        "same" => String::from_str(alloc, pieces::compared(alloc, rest)?)?,
        "count" => pieces::count(alloc, rest)?,
        _ => return Err(Fault::Unread),
    };
    told.push('\n')?;
    Ok(told)
}

/// What is printed to a line.
fn said<T: TellsRun>(
    alloc: Global,
    both: &mut Option<Both<T>>,
    snapshots: &mut Snapshots<T>,
    line: &str,
) -> Result<String, Fault> {
    let (word, rest) = line.split_once(' ').unwrap_or((line, ""));
    if word == "shard" {
        *both = Some(opened(alloc, rest)?);
        return Ok(String::new(alloc));
    }
    if !line.starts_with('{') {
        return told(alloc, snapshots, word, rest);
    }
    match both {
        Some(both) => both.asked(alloc, line),
        None => Err(Fault::Unread),
    }
}

fn ask_all<R: Input + Print + AllocGlobal>(rt: &R) -> Result<(), Fault> {
    let mut both: Option<Both<Run>> = None;
    let mut snapshots = Snapshots {
        writing: None,
        latest: None,
        restored: None,
    };
    for line in rt.lines(rt.alloc()) {
        let Ok(line) = line else {
            return Err(Fault::Device);
        };
        let said = said(rt.alloc(), &mut both, &mut snapshots, line.as_str())?;
        if rt.print(said.as_str()).is_err() {
            return Err(Fault::Device);
        }
    }
    Ok(())
}

/// Asks the lines of standard input, and tells on standard error where that ends before them. Whether it didn't.
pub(crate) fn run<R: Input + Print + Eprint + AllocGlobal>(rt: &R) -> bool {
    match ask_all(rt) {
        Ok(()) => true,
        Err(fault) => {
            let _ = eprintln!(rt; "compare: {}", fault.name());
            false
        }
    }
}
