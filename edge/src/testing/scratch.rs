//! A folder for a test, which goes with it.

use std::path::PathBuf;
use std::process::Command;
use std::sync::atomic::{AtomicU64, Ordering};

static MADE: AtomicU64 = AtomicU64::new(0);

/// A folder of its own.
pub struct Scratch(PathBuf);

impl Scratch {
    pub fn new() -> Scratch {
        let number = MADE.fetch_add(1, Ordering::Relaxed);
        let folder = std::env::temp_dir().join(format!("wfedge-{}-{number}", std::process::id()));
        std::fs::create_dir_all(&folder).expect("a folder");
        Scratch(folder)
    }

    /// The path of a file in it.
    pub fn path(&self, name: &str) -> String {
        self.0.join(name).to_string_lossy().into_owned()
    }

    /// The path of a program of this text. Another process writes it: what a thread of this one just starts would hold it
    /// open for a moment, and a file that is written is not started.
    pub fn program(&self, text: &str) -> String {
        let (written, program) = (self.path("program.text"), self.path("program"));
        std::fs::write(&written, text).expect("a text");
        let made = Command::new("install").args(["-m", "755", &written, &program]).status();
        assert!(made.expect("install").success());
        program
    }
}

impl Drop for Scratch {
    fn drop(&mut self) {
        let _ = std::fs::remove_dir_all(&self.0);
    }
}
