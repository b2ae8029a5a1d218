// The calls of Unix that std doesn't have.
use std::ffi::c_int;
use std::fs::File;
use std::io;
use std::os::fd::{AsFd, AsRawFd};
use std::os::unix::process::ExitStatusExt;
use std::process::ExitStatus;

const SIGUSR1: c_int = 10;

extern "C" {
    fn fork() -> c_int;
    fn waitpid(child: c_int, status: *mut c_int, options: c_int) -> c_int;
    fn pause() -> c_int;
    fn signal(number: c_int, handler: extern "C" fn(c_int)) -> usize;
    fn siginterrupt(number: c_int, interrupts: c_int) -> c_int;
    fn dup2(from: c_int, to: c_int) -> c_int;
}

/// Returns the child's number, and 0 in the child.
pub fn fork_child() -> i32 {
    // SAFETY: this process has one thread.
    unsafe { fork() }
}

pub fn wait_for(child: i32) -> ExitStatus {
    let mut status = 0;
    // SAFETY: there is room for the status.
    unsafe { waitpid(child, &mut status, 0) };
    ExitStatus::from_raw(status)
}

/// The status, or below zero the signal.
pub fn number_of(status: ExitStatus) -> i32 {
    let by_signal = || status.signal().map_or(0, |it| -it);
    status.code().unwrap_or_else(by_signal)
}

pub fn wait_for_signals() -> ! {
    loop {
        // SAFETY: the call has no pointers.
        unsafe { pause() };
    }
}

extern "C" fn note(_: c_int) {}

/// Has SIGUSR1 do nothing but interrupt what waits.
pub fn interrupt_by_sigusr1() {
    // SAFETY: the handler does nothing.
    unsafe {
        signal(SIGUSR1, note);
        siginterrupt(SIGUSR1, 1);
    }
}

/// Calls a function while this is standard output.
pub fn with_output<T>(output: &File, call: impl FnOnce() -> T) -> io::Result<T> {
    let before = io::stdout().as_fd().try_clone_to_owned()?;
    // SAFETY: the call has no pointers.
    unsafe { dup2(output.as_raw_fd(), 1) };
    let answer = call();
    // SAFETY: the call has no pointers.
    unsafe { dup2(before.as_raw_fd(), 1) };
    Ok(answer)
}
