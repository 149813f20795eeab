//! A limit of calls a second: a bucket that has room for as many calls as one second may bring, and is filled by time.

use std::sync::{Mutex, PoisonError};
use std::time::Instant;

/// The calls that a caller may still make.
#[derive(Debug)]
pub struct Bucket {
    /// Calls a second, and at once.
    most: f64,
    level: Mutex<(f64, Instant)>,
}

impl Bucket {
    /// A full one, for so many calls a second.
    pub fn new(most: u32, now: Instant) -> Bucket {
        Bucket { most: f64::from(most), level: Mutex::new((f64::from(most), now)) }
    }

    /// How many calls a second it lets through.
    pub fn most(&self) -> f64 {
        self.most
    }

    /// Takes one call out. False where there is none.
    pub fn take(&self, now: Instant) -> bool {
        let mut level = self.level.lock().unwrap_or_else(PoisonError::into_inner);
        let passed = now.saturating_duration_since(level.1).as_secs_f64();
        let filled = self.most.min(level.0 + passed * self.most);
        let is_there = filled >= 1.0;
        *level = (if is_there { filled - 1.0 } else { filled }, now.max(level.1));
        is_there
    }
}
