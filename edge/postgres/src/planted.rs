//! A fault that the tests have to find, in an edge that is built with the feature `planted` alone: answers are given 20 ms
//! before their lines are kept.

#[cfg(feature = "planted")]
pub use late::Planted;

#[cfg(not(feature = "planted"))]
pub use nothing::Planted;

#[cfg(not(feature = "planted"))]
mod nothing {
    use crate::connection::Result;
    use wfedge::log::table::Batch;

    /// No fault.
    pub struct Planted;

    impl Planted {
        pub fn new(_: &str) -> Result<Planted> {
            Ok(Planted)
        }

        /// Whether a batch is kept later.
        pub fn take(&self, _: i64, _: &Batch) -> bool {
            false
        }
    }
}

#[cfg(feature = "planted")]
mod late {
    use crate::connection::{Connection, Result};
    use crate::table::APPEND;
    use std::sync::mpsc::{channel, Sender};
    use std::time::Duration;
    use wfedge::log::table::Batch;

    /// Batches on their way to the database.
    pub struct Planted(Sender<(i64, Batch)>);

    impl Planted {
        pub fn new(address: &str) -> Result<Planted> {
            let connection = Connection::new(address)?;
            let append = connection.prepare(APPEND)?;
            let (sender, batches) = channel::<(i64, Batch)>();
            std::thread::spawn(move || {
                for (epoch, batch) in batches {
                    std::thread::sleep(Duration::from_millis(20));
                    let _ = connection.change(&append, &[&epoch, &(batch.number as i64), &batch.lines]);
                }
            });
            Ok(Planted(sender))
        }

        /// Whether a batch is kept later.
        pub fn take(&self, epoch: i64, batch: &Batch) -> bool {
            self.0.send((epoch, batch.clone())).is_ok()
        }
    }
}
