//! What the standard library of Rust 1.63 doesn't have: a lock on a file, its moment, the size of a pipe, a private
//! socket, a program that ends with who started it, one that nobody waited for.
#![allow(unsafe_code)]

use std::ffi::CString;
use std::fs::File;
use std::io;
use std::os::unix::ffi::OsStrExt;
use std::os::unix::io::AsRawFd;
use std::os::unix::process::CommandExt;
use std::path::Path;
use std::process::Command;
use std::time::Duration;

/// A number that nobody else draws, for the name of a folder.
pub fn drawn() -> u64 {
    use std::collections::hash_map::RandomState;
    use std::hash::{BuildHasher, Hasher};
    RandomState::new().build_hasher().finish()
}

/// Takes a file for this process alone. False where another one has it.
pub fn lock(file: &File) -> io::Result<bool> {
    // SAFETY: the file is open while it is borrowed, and the call has no other condition.
    let result = unsafe { libc::flock(file.as_raw_fd(), libc::LOCK_EX | libc::LOCK_NB) };
    if result == 0 {
        return Ok(true);
    }
    let fault = io::Error::last_os_error();
    if fault.raw_os_error() == Some(libc::EWOULDBLOCK) {
        return Ok(false);
    }
    Err(fault)
}

/// Sets a file's moments to this one, since 1970; to now where none is given.
pub fn touch(path: &Path, moment: Option<Duration>) -> io::Result<()> {
    let name = CString::new(path.as_os_str().as_bytes())?;
    let at = moment.map_or(libc::timespec { tv_sec: 0, tv_nsec: libc::UTIME_NOW }, |moment| libc::timespec {
        tv_sec: moment.as_secs() as libc::time_t,
        tv_nsec: moment.subsec_nanos() as _,
    });
    let both = [at, at];
    // SAFETY: the name ends with a zero, and it and the two moments lie here during the call.
    match unsafe { libc::utimensat(libc::AT_FDCWD, name.as_ptr(), both.as_ptr(), 0) } {
        0 => Ok(()),
        _ => Err(io::Error::last_os_error()),
    }
}

/// Has a pipe hold so many bytes. A user may have only so many in pipes: then it keeps what it has.
pub fn widen_pipe(pipe: &impl AsRawFd, bytes: i32) {
    // SAFETY: the pipe is open while it is borrowed, and its size is all that is changed.
    let _ = unsafe { libc::fcntl(pipe.as_raw_fd(), libc::F_SETPIPE_SZ, bytes) };
}

/// How many bytes a pipe takes while it is empty; 0 where that isn't known.
pub fn pipe_size(pipe: &impl AsRawFd) -> usize {
    // SAFETY: the pipe is open while it is borrowed, and is only asked for its size.
    usize::try_from(unsafe { libc::fcntl(pipe.as_raw_fd(), libc::F_GETPIPE_SZ) }).unwrap_or(0)
}

/// Has a write beyond a limit on the sizes of files fail, as on a full disk, in the place of ending the process.
pub fn outlive_file_limits() {
    // SAFETY: no handler of ours is run: the signal is ignored.
    unsafe { libc::signal(libc::SIGXFSZ, libc::SIG_IGN) };
}

/// Has SIGHUP end nothing until it is waited for.
pub fn ignore_hangups() {
    // SAFETY: no handler of ours is run: the signal is ignored.
    unsafe { libc::signal(libc::SIGHUP, libc::SIG_IGN) };
}

/// Has this process open as many files as it may: each connection is one.
pub fn raise_open_files() {
    let mut limit = libc::rlimit { rlim_cur: 0, rlim_max: 0 };
    // SAFETY: the limit lies here while it is read and written.
    unsafe {
        if libc::getrlimit(libc::RLIMIT_NOFILE, &mut limit) == 0 {
            limit.rlim_cur = limit.rlim_max;
            libc::setrlimit(libc::RLIMIT_NOFILE, &limit);
        }
    }
}

/// Kills a child of this process, which nobody has waited for: so its number is no other's.
pub fn kill(child: u32) {
    // SAFETY: a signal is all that is sent.
    unsafe { libc::kill(child as libc::pid_t, libc::SIGKILL) };
}

/// Whether a child of this process has ended, and nobody has waited for it.
pub fn has_ended(child: u32) -> bool {
    // SAFETY: all of it may be zero.
    let mut found: libc::siginfo_t = unsafe { std::mem::zeroed() };
    let how = libc::WEXITED | libc::WNOHANG | libc::WNOWAIT;
    // SAFETY: what is found lies here during the call, which leaves the child as it is.
    let result = unsafe { libc::waitid(libc::P_PID, child as libc::id_t, &mut found, how) };
    result == 0 && found.si_signo == libc::SIGCHLD
}

/// Has a program that is started end at once where the thread that starts it ends first, as by the end of this process.
pub fn end_with_this_thread(command: &mut Command) {
    let own = std::process::id();
    let ask = move || {
        // SAFETY: the call has the signal alone, and asks nothing of memory.
        if unsafe { libc::prctl(libc::PR_SET_PDEATHSIG, libc::SIGKILL) } != 0 {
            return Err(io::Error::last_os_error());
        }
        // SAFETY: it cannot fail. This process may have ended before the signal was asked for.
        match unsafe { libc::getppid() } as u32 == own {
            true => Ok(()),
            false => Err(io::Error::from_raw_os_error(libc::ESRCH)),
        }
    };
    // SAFETY: what runs between fork and exec makes two calls of the system, and touches no memory that others hold.
    unsafe { command.pre_exec(ask) };
}

/// Runs `make` while files and sockets that are made can be read and written by their owner alone.
///
/// The mask is the whole process's: no other thread may make files meanwhile that others should read.
pub fn privately<T>(make: impl FnOnce() -> T) -> T {
    // SAFETY: umask takes any mask, and cannot fail.
    let former = unsafe { libc::umask(0o177) };
    let made = make();
    // SAFETY: as above.
    unsafe { libc::umask(former) };
    made
}
