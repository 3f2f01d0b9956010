//! A program that ends with this one.
use std::ffi::{c_int, c_ulong};
use std::io;
use std::os::unix::process::{parent_id, CommandExt};
use std::process::Command;

const PR_SET_PDEATHSIG: c_int = 1;
const SIGKILL: c_ulong = 9;

extern "C" {
    fn prctl(option: c_int, ...) -> c_int;
}

/// The program is killed when the thread that starts it ends, whatever ends it, a SIGKILL too: pipes that close say
/// nothing to a program that hangs. It has to be started by the main thread.
pub fn ends_with_us(command: &mut Command) -> &mut Command {
    let us = std::process::id();
    let ask = move || {
        // SAFETY: the option takes one number and touches no memory of ours.
        if unsafe { prctl(PR_SET_PDEATHSIG, SIGKILL) } != 0 {
            return Err(io::Error::last_os_error());
        }
        // Whoever ended before the call sent nothing.
        match parent_id() == us {
            true => Ok(()),
            false => Err(io::ErrorKind::BrokenPipe.into()),
        }
    };
    // SAFETY: between fork and exec this makes two system calls; it neither allocates nor locks.
    unsafe { command.pre_exec(ask) }
}
