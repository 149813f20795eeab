//! What a log refuses.

use std::fmt;

/// Why a log is not opened, or not written.
#[derive(Clone, Debug, PartialEq, Eq)]
pub enum LogFault {
    /// The log is not as it was written. It was left as it is.
    Damaged(String),
    /// Another program has the log open.
    InUse(String),
    /// There is no room for the lines. None of them was kept.
    Full(String),
    /// What lies on the disk is not known. Nothing more is written.
    Broken(String),
    /// The system's fault while it was opened or read.
    Io(String),
    /// The log is of a service with other settings, or the program serves none of its settings.
    Other(String),
    /// The program refuses the records that the log goes on from.
    NotOpened(String),
    /// The log could not be compacted. It is as it was.
    NotCompacted(String),
}

impl fmt::Display for LogFault {
    fn fmt(&self, out: &mut fmt::Formatter<'_>) -> fmt::Result {
        match self {
            LogFault::Damaged(said)
            | LogFault::InUse(said)
            | LogFault::Full(said)
            | LogFault::Broken(said)
            | LogFault::Io(said)
            | LogFault::Other(said)
            | LogFault::NotOpened(said)
            | LogFault::NotCompacted(said) => out.write_str(said),
        }
    }
}

impl std::error::Error for LogFault {}

impl LogFault {
    /// The system's fault for a path.
    pub fn io(path: &str, fault: &std::io::Error) -> LogFault {
        LogFault::Io(format!("{path}: {}", said_of(fault)))
    }
}

/// The system's text for a fault, without its number.
pub fn said_of(fault: &std::io::Error) -> String {
    let text = fault.to_string();
    text.split(" (os error").next().unwrap_or_default().to_string()
}
