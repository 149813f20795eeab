//! Who makes a call.

use super::rate::Bucket;
use super::rights::{Missing, Right, Rights};
use crate::call::fault::Fault;
use crate::call::operations::Op;
use std::time::Instant;

/// The name of who bears no token with a name.
pub const NOBODY: &str = "-";

impl PartialEq for Caller {
    /// A name is one caller's.
    fn eq(&self, other: &Caller) -> bool {
        self.name == other.name
    }
}

impl Eq for Caller {}

/// Who makes a call, as his token says.
#[derive(Debug)]
pub struct Caller {
    pub name: Box<str>,
    rights: Rights,
    bucket: Option<Bucket>,
}

impl Caller {
    /// Makes at most so many calls a second, where that is limited.
    pub fn new(name: &str, rights: Rights, limit: Option<u32>) -> Caller {
        let bucket = limit.map(|most| Bucket::new(most, Instant::now()));
        Caller { name: name.into(), rights, bucket }
    }

    /// Refuses one more call than may be made now.
    pub fn count(&self) -> Result<(), Fault> {
        match &self.bucket {
            Some(bucket) if !bucket.take(Instant::now()) => {
                Err(Fault::TooManyCalls(format!("{} may make {} calls a second", self.name, bucket.most())))
            }
            _ => Ok(()),
        }
    }

    /// Refuses what wants another right than the token has: one of these is enough.
    pub fn check(&self, rights: &[Right]) -> Result<(), Fault> {
        self.rights.check_any(rights).map_err(|missing| self.lacks(&missing))
    }

    /// The same of a call of this operation, which polls this queue, where it polls one.
    pub fn check_call(&self, op: Op, queue: Option<&str>) -> Result<(), Fault> {
        self.rights.check_call(op, queue).map_err(|missing| self.lacks(&missing))
    }

    fn lacks(&self, missing: &Missing) -> Fault {
        Fault::NotPermitted(format!("the token {} lacks the right {missing}", self.name))
    }
}
