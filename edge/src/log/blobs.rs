//! Texts that are too long for a history: each is kept by its SHA-256, in a table beside the log's, or as a file in a folder
//! beside the log, as the Python package keeps them (clients/python/src/wfserve/blobs.py). It is synced before its client
//! is told so, and only then the client makes the call that names it.

use crate::log::fault::{said_of, LogFault};
use crate::log::file::sync_folder;
use crate::os::system;
use sha2::{Digest, Sha256};
use std::fs::{self, DirBuilder, File, OpenOptions};
use std::io::{self, ErrorKind, Write};
use std::os::unix::fs::{DirBuilderExt, OpenOptionsExt};
use std::path::{Path, PathBuf};
use std::sync::{Mutex, PoisonError};
use std::time::{Duration, SystemTime};

/// A blob has at most so many bytes.
pub const MOST_BYTES: usize = 2 << 20;
/// So many letters the name of a blob has.
const LETTERS: usize = 64;

/// Keeps blobs by their names. Many threads may ask it at a time.
pub trait Store: Send + Sync {
    /// Keeps these bytes, whose name this is. They are synced once this has returned. Full where there is no room for them.
    fn put(&self, name: &str, data: &[u8]) -> Result<(), LogFault>;

    /// The bytes of this name. None where there are none, Damaged where they aren't those that the name says.
    fn get(&self, name: &str) -> Result<Option<Vec<u8>>, LogFault>;

    /// Whether there is any.
    fn has_any(&self) -> Result<bool, LogFault>;

    /// Histories named these at a moment, since 1970. What is gone stays gone.
    fn touch(&self, names: &[String], moment: Duration) -> Result<(), LogFault>;

    /// Deletes what was put and named last before a moment, since 1970. How many these were.
    fn delete_before(&self, moment: Duration) -> Result<u64, LogFault>;
}

/// The hash by which a store knows these bytes, in small hexadecimal digits.
pub fn name_of(data: &[u8]) -> String {
    Sha256::digest(data).iter().map(|byte| format!("{byte:02x}")).collect()
}

/// Whether a text may be a blob's name.
pub fn is_name(text: &str) -> bool {
    text.len() == LETTERS && text.bytes().all(|byte| byte.is_ascii_digit() || (b'a'..=b'f').contains(&byte))
}

/// The blobs of a folder, which its owner alone can read.
pub struct Folder {
    path: PathBuf,
    /// What is put again must not be deleted meanwhile.
    lock: Mutex<()>,
}

impl Folder {
    /// The blobs of the folder of this path, which is made with the first one.
    pub fn new(path: &str) -> Folder {
        Folder { path: PathBuf::from(path), lock: Mutex::new(()) }
    }

    fn path_of(&self, name: &str) -> PathBuf {
        self.path.join(name.get(..2).unwrap_or_default()).join(name)
    }

    fn put_file(&self, name: &str, data: &[u8]) -> io::Result<()> {
        let path = self.path_of(name);
        if self.is_there_again(&path, data.len())? {
            return Ok(());
        }
        let folder = path.parent().unwrap_or(&self.path);
        for made in [self.path.as_path(), folder] {
            make_folder(made)?;
        }
        let drawn = folder.join(format!("{name}.{}-{:x}.new", std::process::id(), system::drawn()));
        let written = write(&drawn, data).and_then(|()| fs::rename(&drawn, &path));
        if written.is_err() {
            let _ = fs::remove_file(&drawn);
        }
        written.and_then(|()| sync_folder(&path.to_string_lossy()))
    }

    /// Whether it was put before: then it counts as put now. One of another length is put again: its disk has lost some of
    /// it.
    fn is_there_again(&self, path: &Path, length: usize) -> io::Result<bool> {
        let _held = self.lock.lock().unwrap_or_else(PoisonError::into_inner);
        match fs::metadata(path) {
            Ok(found) if found.len() == length as u64 => system::touch(path, None).map(|()| true),
            Ok(_) => Ok(false),
            Err(fault) if fault.kind() == ErrorKind::NotFound => Ok(false),
            Err(fault) => Err(fault),
        }
    }

    fn delete_files_before(&self, moment: SystemTime) -> io::Result<u64> {
        let folders = match fs::read_dir(&self.path) {
            Ok(folders) => folders,
            Err(fault) if fault.kind() == ErrorKind::NotFound => return Ok(0),
            Err(fault) => return Err(fault),
        };
        let mut count = 0;
        for folder in folders.flatten() {
            for file in fs::read_dir(folder.path())?.flatten() {
                let _held = self.lock.lock().unwrap_or_else(PoisonError::into_inner);
                let put = file.metadata().and_then(|found| found.modified());
                if put.map_or(false, |put| put < moment) {
                    fs::remove_file(file.path())?;
                    count += 1;
                }
            }
        }
        Ok(count)
    }

    fn fault_of(&self, fault: &io::Error) -> LogFault {
        match fault.raw_os_error() {
            Some(libc::ENOSPC | libc::EDQUOT | libc::EFBIG) => LogFault::Full(said_of(fault)),
            _ => LogFault::io(&self.path.to_string_lossy(), fault),
        }
    }
}

impl Store for Folder {
    /// A blob is written to another name and synced, and then given its name.
    fn put(&self, name: &str, data: &[u8]) -> Result<(), LogFault> {
        self.put_file(name, data).map_err(|fault| self.fault_of(&fault))
    }

    fn get(&self, name: &str) -> Result<Option<Vec<u8>>, LogFault> {
        match fs::read(self.path_of(name)) {
            Ok(data) => checked(name, data).map(Some),
            Err(fault) if fault.kind() == ErrorKind::NotFound => Ok(None),
            Err(fault) => Err(self.fault_of(&fault)),
        }
    }

    fn has_any(&self) -> Result<bool, LogFault> {
        Ok(fs::read_dir(&self.path).map_or(false, |mut found| found.next().is_some()))
    }

    fn touch(&self, names: &[String], moment: Duration) -> Result<(), LogFault> {
        for name in names {
            match system::touch(&self.path_of(name), Some(moment)) {
                Err(fault) if fault.kind() != ErrorKind::NotFound => return Err(self.fault_of(&fault)),
                _ => {}
            }
        }
        Ok(())
    }

    fn delete_before(&self, moment: Duration) -> Result<u64, LogFault> {
        self.delete_files_before(SystemTime::UNIX_EPOCH + moment).map_err(|fault| self.fault_of(&fault))
    }
}

/// These bytes, where they are those that the name says.
pub fn checked(name: &str, data: Vec<u8>) -> Result<Vec<u8>, LogFault> {
    match name_of(&data) == name {
        true => Ok(data),
        false => Err(LogFault::Damaged(format!("the blob {name} is damaged"))),
    }
}

fn write(path: &Path, data: &[u8]) -> io::Result<()> {
    let mut file: File = OpenOptions::new().write(true).create(true).truncate(true).mode(0o600).open(path)?;
    file.write_all(data)?;
    file.sync_all()
}

/// Makes a folder where it isn't there, and syncs the one that it lies in.
fn make_folder(path: &Path) -> io::Result<()> {
    match DirBuilder::new().mode(0o700).create(path) {
        Ok(()) => sync_folder(&path.to_string_lossy()),
        Err(fault) if fault.kind() == ErrorKind::AlreadyExists => Ok(()),
        Err(fault) => Err(fault),
    }
}

#[cfg(test)]
mod tests {
    use super::*;
    use crate::testing::scratch::Scratch;
    use std::os::unix::fs::PermissionsExt;
    use std::time::Duration;

    fn files(blobs: &Folder) -> Vec<PathBuf> {
        let folders = fs::read_dir(&blobs.path).into_iter().flatten().flatten();
        folders.flat_map(|folder| fs::read_dir(folder.path()).unwrap().flatten().map(|file| file.path())).collect()
    }

    #[test]
    fn what_is_put_is_there_for_its_owner_alone() {
        let scratch = Scratch::new();
        let blobs = Folder::new(&scratch.path("a.log.blobs"));
        assert_eq!(blobs.has_any(), Ok(false));
        let name = name_of(b"a text");
        assert!(is_name(&name) && !is_name(&name.to_uppercase()) && !is_name("../x") && !is_name(&name[1..]));
        for _ in 0..2 {
            blobs.put(&name, b"a text").unwrap();
            assert_eq!((blobs.get(&name), files(&blobs).len()), (Ok(Some(b"a text".to_vec())), 1));
        }
        let mode = |path: &Path| fs::metadata(path).unwrap().permissions().mode() & 0o777;
        assert_eq!((mode(&files(&blobs)[0]), mode(&blobs.path)), (0o600, 0o700));
        assert_eq!((blobs.get(&name_of(b"another")), blobs.has_any()), (Ok(None), Ok(true)));
    }

    #[test]
    fn one_that_was_cut_off_is_put_again() {
        let scratch = Scratch::new();
        let blobs = Folder::new(&scratch.path("a.log.blobs"));
        let name = name_of(b"a text");
        blobs.put(&name, b"a text").unwrap();
        for (wrong, is_mended) in [("a tex", true), ("b text", false)] {
            fs::write(blobs.path_of(&name), wrong).unwrap();
            assert!(matches!(blobs.get(&name), Err(LogFault::Damaged(_))));
            blobs.put(&name, b"a text").unwrap();
            assert_eq!(blobs.get(&name).is_ok(), is_mended);
        }
    }

    #[test]
    fn what_was_neither_put_nor_named_for_long_goes() {
        let scratch = Scratch::new();
        let blobs = Folder::new(&scratch.path("a.log.blobs"));
        let (day, texts) = (Duration::from_secs(86_400), [b"named".as_slice(), b"old", b"young"]);
        let names: Vec<String> = texts.iter().map(|text| name_of(text)).collect();
        assert_eq!(blobs.delete_before(day), Ok(0));
        for (name, text) in names.iter().zip(texts) {
            blobs.put(name, text).unwrap();
        }
        blobs.touch(&names[..2], day).unwrap();
        blobs.touch(&[names[0].clone(), name_of(b"gone")], 3 * day).unwrap();
        assert_eq!((blobs.delete_before(2 * day), blobs.get(&names[1])), (Ok(1), Ok(None)));
        assert!(blobs.get(&names[0]).unwrap().is_some() && blobs.get(&names[2]).unwrap().is_some());
    }
}
