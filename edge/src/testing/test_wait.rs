//! What tests wait for. It has to come in time: a test that waits for ever has all others wait.

use std::thread::JoinHandle;
use std::time::{Duration, Instant};
use tokio::sync::oneshot::Receiver;

/// For so long what is waited for is not given up: on a machine that does much else all of this takes a thousand times as
/// long as on a quiet one.
pub const SECONDS: Duration = Duration::from_secs(120);

/// Returns once this is so.
pub fn wait_until(what: &str, is_so: impl Fn() -> bool) {
    let late = Instant::now() + SECONDS;
    while !is_so() {
        assert!(Instant::now() < late, "waited for {what}");
        std::thread::sleep(Duration::from_millis(1));
    }
}

/// What a thread returns.
pub fn returned<T>(what: &str, thread: JoinHandle<T>) -> T {
    wait_until(what, || thread.is_finished());
    thread.join().unwrap()
}

/// What is sent.
pub fn received<T>(what: &str, outcome: Receiver<T>) -> T {
    let runtime = tokio::runtime::Builder::new_current_thread().enable_all().build().unwrap();
    let waited = runtime.block_on(async { tokio::time::timeout(SECONDS, outcome).await });
    waited.unwrap_or_else(|_| panic!("waited for {what}")).unwrap()
}
