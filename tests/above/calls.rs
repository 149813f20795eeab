//! The service over its calls: what no contract says about them, that each succeeds by its name and that
//! a pass of another thread is kept out. What the calls answer is shown by `cases`, and that threads get
//! through by the built program (`tools/lane_plans.py`).
//!
//! The tests are of shards that keep their runs by tables. What they do is written for any shard.

mod asked;
mod held;
mod named;
mod passes;
mod shown;
mod without_memory;

use std::alloc::AllocGlobal;
use std::process::Abort;
use std::sync::Wait;
use std::thread::Threads;
use workflow_service::Shard;

pub(crate) fn calls_by_their_names<R: Abort + AllocGlobal + Wait>(rt: &R) {
    named::each_call_by_its_name::<Shard, R>(rt);
}

pub(crate) fn a_pass_on_a_shard_keeps_others_out<R: Abort + AllocGlobal + Threads + Sync>(rt: &R) {
    held::a_pass_on_a_shard_keeps_others_out::<Shard, R>(rt);
}

pub(crate) fn what_takes_no_memory<R: Abort + AllocGlobal + Wait>(rt: &R) {
    without_memory::what_takes_no_memory::<Shard, R>(rt);
}
