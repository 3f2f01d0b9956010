//! What Linux has and Rust's library does not call. All unsafe code of the command is here, in a crate of its own, so
//! that the other can forbid it.
#![cfg_attr(
    not(test),
    deny(
        clippy::unwrap_used,
        clippy::expect_used,
        clippy::panic,
        clippy::indexing_slicing,
        clippy::string_slice,
        clippy::print_stdout,
        clippy::print_stderr
    )
)]

mod child;
mod memory;

pub use child::ends_with_us;
pub use memory::Memory;

use std::ffi::{c_char, c_int, c_uint, CString};
use std::fs::File;
use std::io;
use std::os::fd::AsRawFd;
use std::os::unix::ffi::OsStrExt;
use std::path::{Path, PathBuf};

/// Flags of open(2), as x86-64 has them, the one processor that the library is for.
pub const O_NONBLOCK: i32 = 0o4000;
pub const O_NOFOLLOW: i32 = 0o400_000;
pub const O_TMPFILE: i32 = 0o20_200_000;

/// What a call answers that the file system or the kernel does not have, and `EPERM` what is not allowed.
pub const EPERM: i32 = 1;
pub const EISDIR: i32 = 21;
pub const EINVAL: i32 = 22;
pub const EOPNOTSUPP: i32 = 95;

const AT_FDCWD: c_int = -100;
const AT_SYMLINK_FOLLOW: c_int = 0x400;

/// A set of signals, as the C library of Linux has it: a bit for each of 1024.
#[repr(C)]
struct Signals([u64; 16]);

const SIGXFSZ: c_int = 25;
const SIG_IGN: usize = 1;
const SIG_BLOCK: c_int = 0;
const SIG_SETMASK: c_int = 2;

/// SIGILL, SIGTRAP, SIGABRT, SIGBUS, SIGFPE, SIGSEGV and SIGSYS: faults of this process itself, which cannot wait.
const FAULTS: [u32; 7] = [4, 5, 6, 7, 8, 11, 31];

extern "C" {
    fn linkat(old_folder: c_int, old: *const c_char, folder: c_int, new: *const c_char, flags: c_int) -> c_int;
    fn pthread_sigmask(how: c_int, set: *const Signals, old: *mut Signals) -> c_int;
    fn signal(number: c_int, action: usize) -> usize;
    #[link_name = "umask"]
    fn set_umask(mask: c_uint) -> c_uint;
}

/// Does the work; a signal that comes to this thread meanwhile, and would end the process, ends it afterwards. SIGKILL
/// does not wait. Another thread would take the signal, so none may be running.
pub fn held<T>(work: impl FnOnce() -> T) -> T {
    let faults = FAULTS.iter().fold(0, |set, fault| set | 1 << (fault - 1));
    let set = Signals([!faults; 16]);
    let mut old = Signals([0; 16]);
    // SAFETY: both sets have the size of the C library's, and are borrowed apart.
    unsafe { pthread_sigmask(SIG_BLOCK, &set, &mut old) };
    let done = work();
    // SAFETY: the set is the one that the call above filled.
    unsafe { pthread_sigmask(SIG_SETMASK, &old, std::ptr::null_mut()) };
    done
}

/// From now on a write past the largest size that a file may get (ulimit -f) fails, and does not end the process.
pub fn outlive_size_limit() {
    // SAFETY: to ignore a signal runs no code of ours.
    unsafe { signal(SIGXFSZ, SIG_IGN) };
}

/// The mode bits that new files do not get. No call only asks for them, so no other thread may make a file meanwhile.
pub fn umask() -> u32 {
    // SAFETY: the call only exchanges a number.
    let mask = unsafe { set_umask(0o077) };
    // SAFETY: as above.
    unsafe { set_umask(mask) };
    mask
}

/// The name that an open file has as long as it is open.
pub fn open_name(file: &File) -> PathBuf {
    PathBuf::from(format!("/proc/self/fd/{}", file.as_raw_fd()))
}

/// Gives an open file a name. Fails where the name is taken, whatever it names.
pub fn link(file: &File, name: &Path) -> io::Result<()> {
    let old = CString::new(open_name(file).as_os_str().as_bytes())?;
    let new = CString::new(name.as_os_str().as_bytes())?;
    // SAFETY: both names end with a zero byte, and outlive the call.
    match unsafe { linkat(AT_FDCWD, old.as_ptr(), AT_FDCWD, new.as_ptr(), AT_SYMLINK_FOLLOW) } {
        0 => Ok(()),
        _ => Err(io::Error::last_os_error()),
    }
}
