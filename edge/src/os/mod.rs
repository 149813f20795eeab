//! What the system gives: the program's process and its pipes, folders, locks, signals, standard error.
//!
//! `system` has all code that isn't safe. Nothing here knows the service.

pub(crate) mod local;
pub(crate) mod program;
pub mod stderr;
pub(crate) mod system;
