//! A folder of this process for the records of a table's log. It goes with the process; one that a killed process left is
//! removed by the next one here.

use crate::log::fault::LogFault;
use crate::os::system;
use std::fs::{self, DirBuilder, File};
use std::os::unix::fs::DirBuilderExt;
use std::path::{Path, PathBuf};

const PREFIX: &str = "wfedge-records-";
/// The file that a living process has locked.
const LOCK: &str = "lock";

/// A folder that its owner alone can enter.
#[derive(Debug)]
pub struct Local {
    path: PathBuf,
    _lock: File,
}

impl Local {
    /// A new one, among the system's temporary files.
    pub fn new() -> Result<Local, LogFault> {
        Local::within(&std::env::temp_dir())
    }

    fn within(place: &Path) -> Result<Local, LogFault> {
        remove_left(place);
        let path = place.join(format!("{PREFIX}{}-{:x}", std::process::id(), system::drawn()));
        let made = || -> std::io::Result<File> {
            DirBuilder::new().mode(0o700).create(&path)?;
            // It has its name once it is locked: so nobody takes it for one that was left.
            let lock = File::create(path.join("new"))?;
            system::lock(&lock)?;
            fs::rename(path.join("new"), path.join(LOCK))?;
            Ok(lock)
        };
        let lock = made().map_err(|fault| LogFault::io(&path.to_string_lossy(), &fault))?;
        Ok(Local { path, _lock: lock })
    }

    /// The path of a file in it.
    pub fn path(&self, name: &str) -> String {
        self.path.join(name).to_string_lossy().into_owned()
    }
}

impl Drop for Local {
    fn drop(&mut self) {
        let _ = fs::remove_dir_all(&self.path);
    }
}

/// Removes the folders of processes that are gone. What is another user's stays.
fn remove_left(place: &Path) {
    for found in fs::read_dir(place).into_iter().flatten().flatten() {
        if !found.file_name().to_string_lossy().starts_with(PREFIX) {
            continue;
        }
        let lock = File::open(found.path().join(LOCK));
        if lock.map_or(false, |lock| system::lock(&lock).unwrap_or(false)) {
            let _ = fs::remove_dir_all(found.path());
        }
    }
}

#[cfg(test)]
mod tests {
    use super::*;
    use crate::testing::scratch::Scratch;

    #[test]
    fn it_goes_with_its_process_and_one_that_was_left_is_removed() {
        let scratch = Scratch::new();
        let place = PathBuf::from(scratch.path("place"));
        fs::create_dir(&place).unwrap();
        let first = Local::within(&place).unwrap();
        let left = place.join(format!("{PREFIX}left"));
        for folder in [left.clone(), place.join("another"), place.join(format!("{PREFIX}begun"))] {
            fs::create_dir(&folder).unwrap();
            if !folder.ends_with(format!("{PREFIX}begun")) {
                fs::write(folder.join(LOCK), b"").unwrap();
            }
        }
        fs::write(left.join("table.records-1"), b"").unwrap();
        let second = Local::within(&place).unwrap();
        assert!(first.path.exists() && second.path.exists() && !left.exists());
        assert!(place.join("another").exists() && place.join(format!("{PREFIX}begun")).exists());
        drop(first);
        drop(second);
        assert_eq!(fs::read_dir(&place).unwrap().count(), 2);
    }
}
