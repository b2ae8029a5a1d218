// The calls of Unix that this module needs and std doesn't have, with the numbers of Linux. This
// package depends on no other crate.
use crate::{EraseByte, NewlineByte, Size};
use std::ffi::{c_int, c_short, c_uint, c_ulong, c_void};
use std::io;
use std::os::fd::RawFd;
use std::ptr;
use std::time::Duration;

#[cfg(not(all(
    target_os = "linux",
    any(target_arch = "x86_64", target_arch = "aarch64")
)))]
compile_error!("the numbers of this file are those of Linux on x86-64 and 64-bit ARM");

pub const SIGHUP: c_int = 1;
pub const SIGINT: c_int = 2;
pub const SIGQUIT: c_int = 3;
pub const SIGALRM: c_int = 14;
pub const SIGTERM: c_int = 15;
pub const SIGCONT: c_int = 18;
pub const SIGTSTP: c_int = 20;
pub const SIGWINCH: c_int = 28;
pub const EIO: c_int = 5;

const POLLIN: c_short = 1;
const POLLOUT: c_short = 4;
const TCSANOW: c_int = 0;
const TCSADRAIN: c_int = 1;
const TCSAFLUSH: c_int = 2;
const TCIFLUSH: c_int = 0;
const ICRNL: c_uint = 0o400;
const VERASE: usize = 2;
const TIOCGWINSZ: c_ulong = 0x5413;
const SIG_DFL: usize = 0;
const SIG_IGN: usize = 1;
const SA_RESTART: c_int = 0x1000_0000;
const SA_NODEFER: c_int = 0x4000_0000;

#[repr(C)]
struct PollFd {
    descriptor: RawFd,
    events: c_short,
    ready: c_short,
}

#[repr(C)]
#[derive(Default)]
struct WindowSize {
    rows: u16,
    columns: u16,
    width: u16,
    height: u16,
}

/// A `struct sigaction`: what a signal does.
#[repr(C)]
#[derive(Clone, Copy)]
pub struct Action {
    handler: usize,
    mask: [u64; 16],
    flags: c_int,
    restorer: usize,
}

impl PartialEq for Action {
    // The system has 64 signals. What glibc tells of a mask behind them is anything.
    fn eq(&self, other: &Action) -> bool {
        let told = |it: &Action| (it.handler, it.mask[0], it.flags);
        told(self) == told(other)
    }
}

extern "C" {
    fn poll(descriptors: *mut PollFd, count: c_ulong, ms: c_int) -> c_int;
    fn ioctl(descriptor: c_int, request: c_ulong, ...) -> c_int;
    fn tcgetattr(descriptor: c_int, settings: *mut Settings) -> c_int;
    fn tcsetattr(descriptor: c_int, when: c_int, settings: *const Settings) -> c_int;
    fn tcflush(descriptor: c_int, what: c_int) -> c_int;
    fn cfmakeraw(settings: *mut Settings);
    fn sigaction(number: c_int, new: *const Action, old: *mut Action) -> c_int;
    fn raise(number: c_int) -> c_int;
    fn alarm(seconds: c_uint) -> c_uint;
    fn write(descriptor: c_int, bytes: *const c_void, len: usize) -> isize;
    fn __errno_location() -> *mut c_int;
}

fn checked(answer: c_int) -> io::Result<c_int> {
    if answer < 0 {
        Err(io::Error::last_os_error())
    } else {
        Ok(answer)
    }
}

/// The settings of a terminal, a `struct termios`: its flags, its characters, and what only the C
/// library looks into. Its own has 60 bytes.
#[repr(C)]
#[derive(Clone, Copy, PartialEq)]
pub struct Settings {
    input: c_uint,
    output: c_uint,
    control: c_uint,
    local: c_uint,
    discipline: u8,
    characters: [u8; 32],
    rest: [c_uint; 51],
}

impl Settings {
    pub fn of(terminal: RawFd) -> io::Result<Settings> {
        let mut settings = Settings {
            input: 0,
            output: 0,
            control: 0,
            local: 0,
            discipline: 0,
            characters: [0; 32],
            rest: [0; 51],
        };
        // SAFETY: there is room for a `struct termios`.
        checked(unsafe { tcgetattr(terminal, &mut settings) })?;
        Ok(settings)
    }

    /// The same settings in raw mode: each byte arrives at once and as it is, ^C and ^Z too. How
    /// output is written stays as it was.
    pub fn to_raw(mut self) -> Settings {
        let output = self.output;
        // SAFETY: there is a `struct termios`.
        unsafe { cfmakeraw(&mut self) }
        self.output = output;
        self
    }

    /// Whether these are settings in raw mode.
    pub fn is_raw(&self) -> bool {
        self.to_raw() == *self
    }

    /// Which byte the Backspace key sends.
    pub fn erase(&self) -> EraseByte {
        match self.characters[VERASE] {
            8 => EraseByte::Backspace,
            _ => EraseByte::Delete,
        }
    }

    /// What byte 10 is.
    pub fn newline(&self) -> NewlineByte {
        if self.input & ICRNL != 0 {
            NewlineByte::Enter
        } else {
            NewlineByte::CtrlJ
        }
    }

    /// Sets the terminal once its output is written.
    pub fn apply(&self, terminal: RawFd) -> io::Result<()> {
        self.set(terminal, TCSADRAIN)
    }

    /// Does the same, and discards the input that nobody has read.
    pub fn apply_and_discard(&self, terminal: RawFd) -> io::Result<()> {
        self.set(terminal, TCSAFLUSH)
    }

    /// Sets the terminal without a wait. A handler of a signal may call it.
    pub fn apply_at_once(&self, terminal: RawFd) -> io::Result<()> {
        self.set(terminal, TCSANOW)
    }

    fn set(&self, terminal: RawFd, when: c_int) -> io::Result<()> {
        loop {
            // SAFETY: there is a `struct termios`.
            match checked(unsafe { tcsetattr(terminal, when, self) }) {
                Err(error) if error.kind() == io::ErrorKind::Interrupted => {}
                answer => return answer.map(|_| ()),
            }
        }
    }
}

/// Discards the input that nobody has read. A handler of a signal may call it.
pub fn discard(terminal: RawFd) {
    // SAFETY: the call has no pointers.
    unsafe { tcflush(terminal, TCIFLUSH) };
}

/// Returns the size of a terminal.
pub fn size(terminal: RawFd) -> io::Result<Size> {
    let mut size = WindowSize::default();
    // SAFETY: the request writes a `struct winsize`.
    checked(unsafe { ioctl(terminal, TIOCGWINSZ, &mut size as *mut WindowSize) })?;
    Ok(Size {
        columns: size.columns,
        rows: size.rows,
        width: size.width,
        height: size.height,
    })
}

/// Waits until a descriptor can be read or is at its end, or until the time is over. Returns which
/// of them are ready.
pub fn poll_all<const N: usize>(
    descriptors: [RawFd; N],
    time: Option<Duration>,
) -> io::Result<[bool; N]> {
    // A part of a millisecond counts as a whole one, or the loop would turn until it is over.
    let ms = |time: Duration| c_int::try_from(time.as_micros().div_ceil(1000));
    let ms = time.map_or(-1, |time| ms(time).unwrap_or(c_int::MAX));
    let mut polled = descriptors.map(|descriptor| PollFd {
        descriptor,
        events: POLLIN,
        ready: 0,
    });
    // SAFETY: there are N of them.
    checked(unsafe { poll(polled.as_mut_ptr(), N as c_ulong, ms) })?;
    Ok(polled.map(|it| it.ready != 0))
}

// Waits until a byte can be written, at most for so many milliseconds, below zero for ever. Returns
// whether one can, or the terminal is gone.
fn has_room(descriptor: RawFd, ms: c_int) -> bool {
    let mut polled = PollFd {
        descriptor,
        events: POLLOUT,
        ready: 0,
    };
    // SAFETY: there is one.
    unsafe { poll(&mut polled, 1, ms) > 0 }
}

fn write_some(descriptor: RawFd, bytes: &[u8]) -> io::Result<usize> {
    // SAFETY: there are so many bytes.
    let count = unsafe { write(descriptor, bytes.as_ptr().cast(), bytes.len()) };
    usize::try_from(count).map_err(|_| io::Error::last_os_error())
}

/// Writes some bytes once there is room, also to a descriptor that doesn't block.
pub fn write_waiting(descriptor: RawFd, bytes: &[u8]) -> io::Result<usize> {
    loop {
        match write_some(descriptor, bytes) {
            Err(error) if error.kind() == io::ErrorKind::Interrupted => {}
            Err(error) if error.kind() == io::ErrorKind::WouldBlock => {
                has_room(descriptor, -1);
            }
            answer => return answer,
        }
    }
}

/// Writes all bytes so. A handler of a signal may call it.
pub fn write_all(descriptor: RawFd, mut bytes: &[u8]) -> io::Result<()> {
    while !bytes.is_empty() {
        let count = write_waiting(descriptor, bytes)?;
        bytes = &bytes[count..];
    }
    Ok(())
}

/// Writes what can be written without a wait: where there is room, a write of one byte doesn't
/// block. A handler of a signal may call it.
pub fn write_at_once(descriptor: RawFd, bytes: &[u8]) -> io::Result<()> {
    for byte in bytes.chunks(1) {
        if !has_room(descriptor, 0) {
            return Err(io::ErrorKind::WouldBlock.into());
        }
        write_some(descriptor, byte)?;
    }
    Ok(())
}

impl Action {
    /// What a signal does by default.
    pub const DEFAULT: Action = Action {
        handler: SIG_DFL,
        mask: [0; 16],
        flags: 0,
        restorer: 0,
    };

    /// A handler. Calls of the system go on after it. Other signals may interrupt it, and its own if
    /// it is nested.
    pub fn handled_by(handler: extern "C" fn(c_int), is_nested: bool) -> Action {
        Action {
            handler: handler as *const () as usize,
            flags: SA_RESTART | if is_nested { SA_NODEFER } else { 0 },
            ..Action::DEFAULT
        }
    }

    pub fn is_ignored(&self) -> bool {
        self.handler == SIG_IGN
    }

    /// Whether both call the same function. The system adds flags of its own.
    pub fn has_handler_of(&self, other: &Action) -> bool {
        self.handler == other.handler
    }

    /// Returns what the signal does.
    pub fn of(number: c_int) -> io::Result<Action> {
        let mut action = Action::DEFAULT;
        // SAFETY: there is room for a `struct sigaction`.
        checked(unsafe { sigaction(number, ptr::null(), &mut action) })?;
        Ok(action)
    }

    /// Has the signal do this. A handler of a signal may call it.
    pub fn set(&self, number: c_int) -> io::Result<()> {
        // SAFETY: it is a `struct sigaction`, and the handlers of this module do only what a handler
        // may.
        checked(unsafe { sigaction(number, self, ptr::null_mut()) }).map(|_| ())
    }
}

/// Sends this thread a signal.
pub fn send(number: c_int) {
    // SAFETY: the call has no pointers.
    unsafe { raise(number) };
}

/// Has the system send SIGALRM so many seconds later, or not at all for 0.
pub fn set_alarm(seconds: c_uint) {
    // SAFETY: the call has no pointers.
    unsafe { alarm(seconds) };
}

/// Calls a function, and keeps `errno` as it was.
pub fn keep_errno(call: impl FnOnce()) {
    // SAFETY: the pointer leads to this thread's number.
    unsafe {
        let errno = *__errno_location();
        call();
        *__errno_location() = errno;
    }
}
