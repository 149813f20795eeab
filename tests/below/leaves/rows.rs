//! Rows of vectors, as they are written: cells with `|` between them.

use std::alloc::AllocGlobal;
use std::process::Abort;
use wf_event_values::{Field, Moment, Text};

pub(crate) fn cells<'a, R: Abort + AllocGlobal>(rt: &R, row: &'a str) -> Vec<&'a str> {
    match row.split('|').collect(rt.alloc()) {
        Ok(cells) => cells,
        Err(_) => panic!(rt; "no memory"),
    }
}

pub(crate) fn number<R: Abort>(rt: &R, cell: &str) -> u64 {
    match cell.parse() {
        Ok(number) => number,
        Err(_) => panic!(rt; "{cell} is no number"),
    }
}

pub(crate) fn attempt<R: Abort>(rt: &R, cell: &str) -> u32 {
    match cell.parse() {
        Ok(number) => number,
        Err(_) => panic!(rt; "{cell} is no attempt"),
    }
}

pub(crate) fn moment<R: Abort>(rt: &R, at: u64) -> Moment {
    match Moment::new(Field::At, at) {
        Ok(moment) => moment,
        Err(_) => panic!(rt; "no moment"),
    }
}

pub(crate) fn text<R: Abort + AllocGlobal>(rt: &R, cell: &str) -> Text {
    match Text::new(rt.alloc(), Field::ErrorType, cell) {
        Ok(text) => text,
        Err(_) => panic!(rt; "{cell} is no text"),
    }
}
