//! A child on a pseudo-terminal of its own.
use crate::unix::{checked, end_of, Settings, WindowSize};
use std::ffi::{c_char, c_int, c_ulong, OsString};
use std::fs::File;
use std::io;
use std::os::fd::{AsRawFd, FromRawFd, OwnedFd, RawFd};
use std::os::unix::process::CommandExt;
use std::process::{Child, Command, ExitStatus};

const O_NONBLOCK: c_int = 0o4000;
const F_SETFD: c_int = 2;
const F_SETFL: c_int = 4;
const FD_CLOEXEC: c_int = 1;
const TIOCSCTTY: c_ulong = 0x540e;
const TIOCSWINSZ: c_ulong = 0x5414;
const SIGWINCH: c_int = 28;

extern "C" {
    fn openpty(
        ours: *mut c_int,
        theirs: *mut c_int,
        name: *mut c_char,
        settings: *const Settings,
        size: *const WindowSize,
    ) -> c_int;
    fn fcntl(descriptor: c_int, command: c_int, ...) -> c_int;
    fn ioctl(descriptor: c_int, request: c_ulong, ...) -> c_int;
    fn setsid() -> c_int;
    fn kill(process: c_int, signal: c_int) -> c_int;
    fn tcgetpgrp(terminal: c_int) -> c_int;
}

/// A child that has a pseudo-terminal. When this is dropped, the system hangs up that terminal.
pub struct PtyChild {
    process: Child,
    /// Can be read once the child has ended.
    pub end: OwnedFd,
    /// Our side of it. Reads and writes don't wait.
    pub terminal: File,
    /// The child's side, kept open so that a child which closes it for a while ends no read.
    _theirs: OwnedFd,
}

/// Begins a session whose terminal is that of the standard input.
fn take_terminal() -> io::Result<()> {
    // SAFETY: both are calls of the system that touch no memory of ours.
    unsafe {
        checked(setsid())?;
        checked(ioctl(0, TIOCSCTTY, 0)).map(|_| ())
    }
}

impl PtyChild {
    /// Starts a program. Its terminal has these settings and this size.
    pub fn start(
        words: &[OsString],
        settings: &Settings,
        size: WindowSize,
    ) -> io::Result<PtyChild> {
        let (mut ours, mut theirs) = (-1, -1);
        let no_name = std::ptr::null_mut();
        // SAFETY: the call writes two descriptors, which nobody else has.
        let (ours, theirs) = unsafe {
            checked(openpty(&mut ours, &mut theirs, no_name, settings, &size))?;
            (File::from_raw_fd(ours), OwnedFd::from_raw_fd(theirs))
        };
        set_flag(ours.as_raw_fd(), F_SETFL, O_NONBLOCK)?;
        set_flag(ours.as_raw_fd(), F_SETFD, FD_CLOEXEC)?;
        set_flag(theirs.as_raw_fd(), F_SETFD, FD_CLOEXEC)?;
        let mut command = Command::new(&words[0]);
        command.args(&words[1..]).stdin(theirs.try_clone()?);
        command
            .stdout(theirs.try_clone()?)
            .stderr(theirs.try_clone()?);
        // SAFETY: what runs between fork and exec only calls the system.
        unsafe { command.pre_exec(take_terminal) };
        let process = command.spawn()?;
        Ok(PtyChild {
            end: end_of(process.id())?,
            process,
            terminal: ours,
            _theirs: theirs,
        })
    }

    /// Returns how the child ended, if it did.
    pub fn status(&mut self) -> io::Result<Option<ExitStatus>> {
        self.process.try_wait()
    }

    pub fn resize(&self, size: WindowSize) -> io::Result<()> {
        // SAFETY: the request reads a `struct winsize`.
        checked(unsafe { ioctl(self.terminal.as_raw_fd(), TIOCSWINSZ, &size) }).map(|_| ())
    }

    /// Has the program in the foreground draw anew, whatever its size.
    pub fn redraw(&self) {
        // SAFETY: both are calls of the system that touch no memory of ours.
        unsafe {
            let group = tcgetpgrp(self.terminal.as_raw_fd());
            if group > 0 {
                kill(-group, SIGWINCH);
            }
        }
    }

    /// Sends a signal to the child's group of processes.
    pub fn signal(&self, number: c_int) {
        // SAFETY: the call touches no memory of ours. The child hasn't been waited for while this
        // has it, so the number is its own.
        unsafe { kill(-(self.process.id() as c_int), number) };
    }
}

fn set_flag(descriptor: RawFd, command: c_int, flag: c_int) -> io::Result<()> {
    // SAFETY: the call sets a flag of an open descriptor.
    checked(unsafe { fcntl(descriptor, command, flag) }).map(|_| ())
}
