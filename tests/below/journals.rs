//! A journal over files that fail, that are damaged, and whose machine crashes.
//!
//! What is proved of a journal is proved of every disk that says what a crash may leave. That a file by
//! its calls is such a disk is shown here, by one that crashes after each of them.

mod batches;
mod checks;
mod crashes;
mod crashing_file;
mod damage;
mod files;
