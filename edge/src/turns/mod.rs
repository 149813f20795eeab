//! What the edge does by itself: the turns that calls and time make necessary, and those who wait for their outcome.
//!
//! These are lists and clocks that are told what happened, and say what is due. Nothing here takes a lock, writes a line or
//! answers a client: `core` does, but for who waits until a run has closed, which asks it again and again.

pub mod clock;
pub mod close_waiters;
pub mod deadlines;
pub mod ledger;
pub mod polls;
pub mod shards;
