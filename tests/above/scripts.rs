//! Scripts and records over readers and writers that fail in the middle, and the texts of faults: what no
//! contract says about them. Scripts over lanes: that these run at the same time, what is printed where a
//! device fails, and which records are refused. What scripts print is shown by `cases`; records as texts, and
//! the steps and records of lanes, by `tools/record_rows.py`; and what the program does with its own files
//! and streams by `tools/program_tests.py`.
//!
//! The tests are over shards that keep their runs by tables. What they do is written for any shard.

mod devices;
mod faults;
mod lane_devices;
mod lane_holding;
mod lane_records;
mod lane_serving;
mod record_devices;
mod rows;
mod trace_devices;

use std::alloc::AllocGlobal;
use std::process::Abort;
use std::sync::Wait;
use std::thread::Threads;
use workflow_service::Shard;

pub(crate) fn devices_that_fail<R: Abort + AllocGlobal + Wait>(rt: &R) {
    devices::readers_fail_at_each_byte::<Shard, R>(rt);
    devices::writers_fail_at_each_byte::<Shard, R>(rt);
    devices::writers_whose_flush_fails::<Shard, R>(rt);
}

pub(crate) fn faults_by_their_texts<R: Abort + AllocGlobal>(rt: &R) {
    faults::each_fault::<Shard, R>(rt);
}

pub(crate) fn devices_of_lanes_that_fail<R: Abort + AllocGlobal + Threads + Wait + Sync>(rt: &R) {
    lane_devices::readers_fail_at_each_byte::<Shard, R>(rt);
    lane_devices::writers_fail_at_each_byte::<Shard, R>(rt);
    lane_devices::writers_whose_flush_fails::<Shard, R>(rt);
}

pub(crate) fn devices_that_fail_where_steps_are_printed<
    R: Abort + AllocGlobal + Threads + Wait + Sync,
>(rt: &R) {
    trace_devices::writers_fail_at_each_byte::<Shard, R>(rt);
    trace_devices::writers_whose_flush_fails::<Shard, R>(rt);
}

pub(crate) fn lanes_at_the_same_time<R: Abort + AllocGlobal + Threads + Wait + Sync>(rt: &R) {
    lane_holding::holds_one::<Shard, R>(rt, 1);
    lane_holding::holds_one::<Shard, R>(rt, 2);
}

pub(crate) fn records_of_lanes_that_are_refused<R: Abort + AllocGlobal + Threads + Wait + Sync>(
    rt: &R,
) {
    lane_records::records_of_too_few_shards::<Shard, R>(rt);
}

pub(crate) fn a_reader_of_a_record_that_fails<R: Abort + AllocGlobal>(rt: &R) {
    record_devices::a_reader_that_fails_at_each_byte(rt);
}

pub(crate) fn a_writer_of_a_record_that_fails<R: Abort + AllocGlobal>(rt: &R) {
    record_devices::a_writer_that_fails_at_each_byte(rt);
}
