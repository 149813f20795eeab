//! The moments at which lines are made: near the wall clock's, and never back or in a leap.
//!
//! A shard's moment never goes back. After a call that was made while the clock was ahead, as by a day, the wall
//! clock's moments would all count as that one, and no timer would fire until the clock is there again. And where a
//! clock is set ahead, all timers would fire early, for good. So time goes on by a steady clock from the moment at
//! which the edge was started, and is drawn to a wall clock that is ahead of it by a tenth of the time that passes.

use crate::os::stderr::report;
use std::time::{Instant, SystemTime, UNIX_EPOCH};

/// A jump of the wall clock by more milliseconds is told.
const TOLD_JUMP: i64 = 60_000;
const TOLD_AHEAD: i64 = 1_000;
/// Both clocks are read in whole milliseconds, one after the other.
const NOISE: i64 = 10;
/// Time is drawn to the wall clock by one part in so many of the time that passes.
const DRAWN: i64 = 10;

/// Two clocks, in milliseconds.
pub trait Clocks: Send {
    /// Since 1970, as somebody set it.
    fn wall(&self) -> i64;
    /// Of a clock that nobody sets.
    fn steady(&self) -> i64;
}

/// This machine's clocks.
pub struct MachineClocks(Instant);

impl MachineClocks {
    pub fn new() -> MachineClocks {
        MachineClocks(Instant::now())
    }
}

impl Clocks for MachineClocks {
    fn wall(&self) -> i64 {
        SystemTime::now().duration_since(UNIX_EPOCH).map_or(0, |passed| passed.as_millis() as i64)
    }

    fn steady(&self) -> i64 {
        self.0.elapsed().as_millis() as i64
    }
}

/// The edge's clock.
pub struct Clock {
    clocks: Box<dyn Clocks>,
    read_wall: i64,
    read_steady: i64,
    last: i64,
    /// What passed and is too short for a millisecond of its tenth.
    undrawn: i64,
}

impl Clock {
    /// Goes on from the last moment that the log has.
    pub fn new(last: u64, clocks: Box<dyn Clocks>) -> Clock {
        let (read_wall, read_steady) = (clocks.wall(), clocks.steady());
        let last = i64::try_from(last).unwrap_or(i64::MAX / 2).max(read_wall);
        let clock = Clock { clocks, read_wall, read_steady, last, undrawn: 0 };
        let ahead = clock.ahead();
        if ahead > TOLD_AHEAD {
            let by = ahead as f64 / 1_000.0;
            report!("the last moment of the log is {by:.1} s ahead of this machine's clock: time goes on from there");
        }
        clock
    }

    /// The moment of a line that is made now: no earlier than any before it.
    pub fn now(&mut self) -> u64 {
        let (wall, steady) = (self.clocks.wall(), self.clocks.steady());
        let passed = (steady - self.read_steady).max(0);
        tell_jump(wall - self.read_wall - passed);
        self.last += passed + self.drawn(wall - self.last - passed, passed);
        self.read_wall = wall;
        self.read_steady = steady;
        self.last as u64
    }

    /// By how much time is drawn to the wall clock, which is so far ahead of it.
    fn drawn(&mut self, behind: i64, passed: i64) -> i64 {
        self.undrawn += passed;
        let most = self.undrawn / DRAWN;
        self.undrawn %= DRAWN;
        if behind <= NOISE {
            behind.max(0)
        } else {
            behind.min(most)
        }
    }

    /// How many milliseconds the edge's moments are ahead of the wall clock; negative where that is ahead.
    pub fn ahead(&self) -> i64 {
        let ahead = self.last + self.clocks.steady() - self.read_steady - self.clocks.wall();
        if ahead.abs() > NOISE {
            ahead
        } else {
            0
        }
    }
}

fn tell_jump(jump: i64) {
    if jump.abs() > TOLD_JUMP {
        let (to, by) = (if jump > 0 { "ahead" } else { "back" }, jump.abs() as f64 / 1_000.0);
        report!(
            "this machine's clock was set {to} by {by:.1} s: time goes on, and a server that is started again \
             takes a clock that is ahead"
        );
    }
}

#[cfg(test)]
mod tests {
    use super::*;
    use std::sync::atomic::{AtomicI64, Ordering::SeqCst};
    use std::sync::Arc;

    const DAY: i64 = 86_400_000;

    #[derive(Clone)]
    struct SetClocks(Arc<(AtomicI64, AtomicI64)>);

    impl SetClocks {
        fn new() -> SetClocks {
            SetClocks(Arc::new((AtomicI64::new(1_000_000), AtomicI64::new(500))))
        }

        fn wait(&self, milliseconds: i64) {
            self.set(milliseconds);
            self.0 .1.fetch_add(milliseconds, SeqCst);
        }

        fn set(&self, by: i64) {
            self.0 .0.fetch_add(by, SeqCst);
        }

        fn moments(&self, last: i64) -> Clock {
            Clock::new(last as u64, Box::new(self.clone()))
        }
    }

    impl Clocks for SetClocks {
        fn wall(&self) -> i64 {
            self.0 .0.load(SeqCst)
        }

        fn steady(&self) -> i64 {
            self.0 .1.load(SeqCst)
        }
    }

    #[test]
    fn moments_are_the_wall_clocks() {
        let clocks = SetClocks::new();
        let mut clock = clocks.moments(0);
        assert_eq!(clock.now(), 1_000_000);
        clocks.wait(7);
        assert_eq!((clock.now(), clock.ahead()), (1_000_007, 0));
    }

    #[test]
    fn time_goes_on_from_a_last_moment_that_is_ahead() {
        let clocks = SetClocks::new();
        let mut clock = clocks.moments(1_000_000 + DAY);
        for _ in 0..3 {
            let before = clock.now();
            clocks.wait(1_000);
            assert_eq!(clock.now(), before + 1_000);
        }
        assert_eq!(clock.ahead(), DAY);
    }

    #[test]
    fn a_clock_that_is_set_ahead_is_followed_by_a_tenth() {
        let clocks = SetClocks::new();
        let mut clock = clocks.moments(0);
        clock.now();
        clocks.set(DAY);
        clocks.wait(1_000);
        assert_eq!(clock.now(), 1_000_000 + 1_100);
        for _ in 0..10 {
            clocks.wait(3);
            clock.now();
        }
        assert_eq!(clock.now(), 1_000_000 + 1_100 + 33);
    }

    #[test]
    fn time_goes_on_where_the_wall_clock_is_set_back() {
        let clocks = SetClocks::new();
        let mut clock = clocks.moments(0);
        clock.now();
        clocks.set(-3_600_000);
        assert_eq!(clock.now(), 1_000_000);
        clocks.wait(10);
        assert_eq!((clock.now(), clock.ahead()), (1_000_010, 3_600_000));
        clocks.set(3_600_005);
        assert_eq!((clock.now(), clock.ahead()), (1_000_015, 0));
    }

    #[test]
    fn moments_never_go_back() {
        let clocks = SetClocks::new();
        let (mut clock, mut last) = (clocks.moments(0), 0);
        for step in [5, -3, 0, -100, 40, 2] {
            clocks.set(step);
            clocks.0 .1.fetch_add(1, SeqCst);
            let now = clock.now();
            assert!(now >= last);
            last = now;
        }
    }
}
