//! What the edge counts, as text that Prometheus reads: GET /metrics.

use crate::call::operations::Op;
use std::collections::BTreeMap;
use std::fmt::Write;

/// Upper bounds in seconds, and of lines.
const LATENCIES: [f64; 14] = [0.0005, 0.001, 0.0025, 0.005, 0.01, 0.025, 0.05, 0.1, 0.25, 0.5, 1.0, 2.5, 10.0, 60.0];
const SYNCS: [f64; 11] = [0.0001, 0.00025, 0.0005, 0.001, 0.0025, 0.005, 0.01, 0.025, 0.1, 0.5, 2.5];
const BATCHES: [f64; 12] = [1.0, 2.0, 4.0, 8.0, 16.0, 32.0, 64.0, 128.0, 256.0, 512.0, 1_024.0, 4_096.0];

/// How many values were at most so much, for each bound, and their sum.
pub struct Histogram {
    bounds: &'static [f64],
    counts: Vec<u64>,
    sum: f64,
}

impl Histogram {
    fn new(bounds: &'static [f64]) -> Histogram {
        Histogram { bounds, counts: vec![0; bounds.len() + 1], sum: 0.0 }
    }

    pub fn add(&mut self, value: f64) {
        self.counts[self.bounds.partition_point(|bound| *bound < value)] += 1;
        self.sum += value;
    }

    fn write(&self, name: &str, out: &mut String) {
        let mut below = 0;
        for (place, count) in self.counts.iter().enumerate() {
            below += count;
            let bound = self.bounds.get(place).map_or_else(|| "+Inf".to_string(), f64::to_string);
            put(out, format_args!("{name}_bucket{{le=\"{bound}\"}} {below}\n"));
        }
        put(out, format_args!("{name}_sum {:.6}\n{name}_count {below}\n", self.sum));
    }
}

fn put(out: &mut String, text: std::fmt::Arguments<'_>) {
    // Writing to a text does not fail.
    let _ = out.write_fmt(text);
}

/// Counts since the edge was started.
pub struct Metrics {
    /// By operation, and by a refusal's name.
    ok: BTreeMap<Op, u64>,
    refusals: BTreeMap<(Op, String), u64>,
    /// By a turn's operation, and whether it found something.
    turns: BTreeMap<(Op, bool), u64>,
    /// Calls that were not taken, by reason.
    refused: BTreeMap<&'static str, u64>,
    /// Replies that were given again.
    pub again: u64,
    /// How often the program was started again.
    pub restarts: u64,
    /// How often the log was compacted.
    pub compactions: u64,
    pub latency: Histogram,
    pub syncs: Histogram,
    pub batches: Histogram,
}

impl Default for Metrics {
    fn default() -> Metrics {
        Metrics {
            ok: BTreeMap::new(),
            refusals: BTreeMap::new(),
            turns: BTreeMap::new(),
            refused: BTreeMap::new(),
            again: 0,
            restarts: 0,
            compactions: 0,
            latency: Histogram::new(&LATENCIES),
            syncs: Histogram::new(&SYNCS),
            batches: Histogram::new(&BATCHES),
        }
    }
}

/// A value of now: its name, what it is, and the value.
pub type Gauge = (&'static str, &'static str, f64);

impl Metrics {
    /// Counts a call that was answered, by the refusal's name where it was one.
    pub fn note_call(&mut self, op: Op, error: Option<&str>) {
        match error {
            None => *self.ok.entry(op).or_default() += 1,
            Some(name) => *self.refusals.entry((op, name.to_string())).or_default() += 1,
        }
    }

    pub fn note_turn(&mut self, op: Op, has_found: bool) {
        *self.turns.entry((op, has_found)).or_default() += 1;
    }

    pub fn note_refused(&mut self, name: &'static str) {
        *self.refused.entry(name).or_default() += 1;
    }

    /// All of it.
    pub fn text(&self, gauges: &[Gauge]) -> String {
        let mut out = String::new();
        let ok = self.ok.iter().map(|(op, count)| (format!("op=\"{}\",answer=\"ok\"", op.name()), *count));
        let refusals = self.refusals.iter();
        let refusals = refusals.map(|((op, name), count)| (format!("op=\"{}\",answer=\"{name}\"", op.name()), *count));
        counter(&mut out, "calls", "Calls that were answered, by operation and answer.", ok.chain(refusals));
        let found = |has_found: bool| if has_found { "something" } else { "nothing" };
        let turns = self.turns.iter();
        let turns = turns.map(|((op, has), count)| (format!("op=\"{}\",found=\"{}\"", op.name(), found(*has)), *count));
        counter(&mut out, "turns", "Turns of the server's own, by what they found.", turns);
        let refused = self.refused.iter().map(|(name, count)| (format!("reason=\"{name}\""), *count));
        counter(&mut out, "refused", "Calls that were not taken, by reason.", refused);
        let one = |count: u64| std::iter::once((String::new(), count));
        counter(&mut out, "replies_again", "Replies that were given again, by their keys.", one(self.again));
        counter(&mut out, "program_restarts", "How often the program was started again.", one(self.restarts));
        counter(&mut out, "compactions", "How often the log was compacted.", one(self.compactions));
        for (name, said, histogram) in [
            ("call_seconds", "From the arrival of a call that is no poll to its answer.", &self.latency),
            ("sync_seconds", "What a sync of the log took.", &self.syncs),
            ("batch_lines", "Lines of one write and one sync.", &self.batches),
        ] {
            put(&mut out, format_args!("# HELP wfserve_{name} {said}\n# TYPE wfserve_{name} histogram\n"));
            histogram.write(&format!("wfserve_{name}"), &mut out);
        }
        for (name, said, value) in gauges {
            let named = format!("wfserve_{name}");
            put(&mut out, format_args!("# HELP {named} {said}\n# TYPE {named} gauge\n{named} {value}\n"));
        }
        out
    }
}

fn counter(out: &mut String, name: &str, said: &str, counts: impl Iterator<Item = (String, u64)>) {
    put(out, format_args!("# HELP wfserve_{name}_total {said}\n# TYPE wfserve_{name}_total counter\n"));
    for (labels, count) in counts {
        let labels = if labels.is_empty() { labels } else { format!("{{{labels}}}") };
        put(out, format_args!("wfserve_{name}_total{labels} {count}\n"));
    }
}

/// The memory that a process has; 0 where it isn't there.
pub fn resident_bytes(pid: u32) -> u64 {
    let status = std::fs::read_to_string(format!("/proc/{pid}/status")).unwrap_or_default();
    let line = status.lines().find_map(|line| line.strip_prefix("VmRSS:"));
    let kibibytes = line.and_then(|line| line.trim().trim_end_matches(" kB").parse::<u64>().ok());
    kibibytes.unwrap_or(0) * 1_024
}

#[cfg(test)]
mod tests {
    use super::*;

    #[test]
    fn a_histogram_counts_up_to_each_bound() {
        let mut histogram = Histogram::new(&[1.0, 2.0]);
        for value in [0.5, 1.0, 1.5, 3.0] {
            histogram.add(value);
        }
        let mut out = String::new();
        histogram.write("x", &mut out);
        assert_eq!(
            out,
            "x_bucket{le=\"1\"} 2\nx_bucket{le=\"2\"} 3\nx_bucket{le=\"+Inf\"} 4\nx_sum 6.000000\nx_count 4\n"
        );
    }

    #[test]
    fn calls_are_counted_by_operation_and_answer() {
        let mut metrics = Metrics::default();
        metrics.note_call(Op::Signal, None);
        metrics.note_call(Op::Signal, Some("NotFound"));
        metrics.note_turn(Op::TimerTurn, false);
        metrics.note_refused("Busy");
        let text = metrics.text(&[("ready", "Whether calls are taken.", 1.0)]);
        for line in [
            "wfserve_calls_total{op=\"signal\",answer=\"ok\"} 1\n",
            "wfserve_calls_total{op=\"signal\",answer=\"NotFound\"} 1\n",
            "wfserve_turns_total{op=\"timer_turn\",found=\"nothing\"} 1\n",
            "wfserve_refused_total{reason=\"Busy\"} 1\n",
            "wfserve_replies_again_total 0\n",
            "wfserve_ready 1\n",
        ] {
            assert!(text.contains(line), "{line}");
        }
    }

    #[test]
    fn this_process_has_memory() {
        assert!(resident_bytes(std::process::id()) > 100_000 && resident_bytes(u32::MAX) == 0);
    }
}
