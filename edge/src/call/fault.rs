//! Why a call has no reply of the service, and how that is answered.

use std::fmt;

/// Why a call is not served. A refusal of the service is a reply like any other, and none of these.
#[derive(Clone, Debug, PartialEq, Eq)]
pub enum Fault {
    /// The body is no call.
    BadCall(String),
    /// Another call was made with this key before.
    KeyReused(String),
    /// The caller's token has not the right to it.
    NotPermitted(String),
    /// The caller makes more calls a second than he may.
    TooManyCalls(String),
    /// More calls or polls wait than may.
    Busy(String),
    /// The edge was told to stop, and takes no more calls.
    Draining,
    /// There is no room for the lines. None of them was kept, and none took effect.
    LogFull(String),
    /// What lies on the disk is not known.
    LogBroken(String),
    /// The log could not be compacted. It is as it was.
    NotCompacted(String),
    /// The program has ended, for good.
    Ended(String),
}

impl Fault {
    /// Its name in an answer.
    pub fn name(&self) -> &'static str {
        match self {
            Fault::BadCall(_) => "BadCall",
            Fault::KeyReused(_) => "KeyReused",
            Fault::NotPermitted(_) => "NotPermitted",
            Fault::TooManyCalls(_) => "TooManyCalls",
            Fault::Busy(_) => "Busy",
            Fault::Draining => "Draining",
            Fault::LogFull(_) => "LogFull",
            Fault::LogBroken(_) => "LogBroken",
            Fault::NotCompacted(_) => "NotCompacted",
            Fault::Ended(_) => "Ended",
        }
    }

    /// The status with which HTTP answers it.
    pub fn status(&self) -> u16 {
        match self {
            Fault::BadCall(_) => 400,
            Fault::NotPermitted(_) => 403,
            Fault::KeyReused(_) => 422,
            Fault::TooManyCalls(_) => 429,
            Fault::Busy(_) | Fault::Draining => 503,
            Fault::LogFull(_) => 507,
            Fault::LogBroken(_) | Fault::NotCompacted(_) | Fault::Ended(_) => 500,
        }
    }
}

impl fmt::Display for Fault {
    fn fmt(&self, out: &mut fmt::Formatter<'_>) -> fmt::Result {
        match self {
            Fault::Draining => out.write_str("the server is told to stop"),
            Fault::BadCall(said)
            | Fault::KeyReused(said)
            | Fault::NotPermitted(said)
            | Fault::TooManyCalls(said)
            | Fault::Busy(said)
            | Fault::LogFull(said)
            | Fault::LogBroken(said)
            | Fault::NotCompacted(said)
            | Fault::Ended(said) => out.write_str(said),
        }
    }
}

impl std::error::Error for Fault {}
