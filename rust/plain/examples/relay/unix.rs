//! The calls of Unix that the program needs and std doesn't have, with the numbers of Linux. This
//! package depends on no other crate; a program of your own has all this from `libc`, or from a crate
//! that is safe to call.
use std::ffi::{c_int, c_long, c_short, c_ulong};
use std::io;
use std::os::fd::{FromRawFd, OwnedFd, RawFd};
use std::time::Duration;

/// What [`poll_all`] waits for: bytes to read, or room for some.
pub const POLLIN: c_short = 1;
pub const POLLOUT: c_short = 4;

const TCSANOW: c_int = 0;
const TIOCGWINSZ: c_ulong = 0x5413;
const SYS_PIDFD_OPEN: c_long = 434;

#[repr(C)]
struct PollFd {
    descriptor: RawFd,
    events: c_short,
    ready: c_short,
}

/// The size of a terminal, a `struct winsize`.
#[repr(C)]
#[derive(Clone, Copy, Default)]
pub struct WindowSize {
    pub rows: u16,
    pub columns: u16,
    pixels: [u16; 2],
}

extern "C" {
    fn poll(descriptors: *mut PollFd, count: c_ulong, ms: c_int) -> c_int;
    fn ioctl(descriptor: c_int, request: c_ulong, ...) -> c_int;
    fn syscall(number: c_long, ...) -> c_long;
    fn tcgetattr(descriptor: c_int, settings: *mut Settings) -> c_int;
    fn tcsetattr(descriptor: c_int, when: c_int, settings: *const Settings) -> c_int;
    fn cfmakeraw(settings: *mut Settings);
}

/// Returns what a call answered, or the error that it left.
pub fn checked(answer: c_int) -> io::Result<c_int> {
    if answer < 0 {
        Err(io::Error::last_os_error())
    } else {
        Ok(answer)
    }
}

/// The settings of a terminal, a `struct termios`. Only the C library looks into it; its own has 60
/// bytes.
#[repr(C, align(8))]
#[derive(Clone, Copy)]
pub struct Settings([u8; 256]);

impl Settings {
    pub fn of(terminal: RawFd) -> io::Result<Settings> {
        let mut settings = Settings([0; 256]);
        // SAFETY: there is room for a `struct termios`.
        checked(unsafe { tcgetattr(terminal, &mut settings) })?;
        Ok(settings)
    }

    /// The same settings in raw mode, also for what is written.
    pub fn to_raw(mut self) -> Settings {
        // SAFETY: there is a `struct termios`.
        unsafe { cfmakeraw(&mut self) }
        self
    }

    pub fn apply(&self, terminal: RawFd) -> io::Result<()> {
        // SAFETY: there is a `struct termios`.
        checked(unsafe { tcsetattr(terminal, TCSANOW, self) }).map(|_| ())
    }
}

/// Returns the size of a terminal.
pub fn size(terminal: RawFd) -> io::Result<WindowSize> {
    let mut size = WindowSize::default();
    // SAFETY: the request writes a `struct winsize`.
    checked(unsafe { ioctl(terminal, TIOCGWINSZ, &mut size as *mut WindowSize) })?;
    Ok(size)
}

/// Returns what can be read once a child has ended that wasn't waited for yet.
pub fn end_of(child: u32) -> io::Result<OwnedFd> {
    // SAFETY: the call has no pointers.
    let descriptor = checked(unsafe { syscall(SYS_PIDFD_OPEN, child, 0) } as c_int)?;
    // SAFETY: nobody else has it.
    Ok(unsafe { OwnedFd::from_raw_fd(descriptor) })
}

/// Waits until what is asked of a descriptor is there, until one is at its end, or until the time is
/// over. Returns what each of them is ready for. Nothing is waited for where nothing is asked.
pub fn poll_all<const N: usize>(
    descriptors: [(RawFd, c_short); N],
    time: Option<Duration>,
) -> io::Result<[c_short; N]> {
    // A part of a millisecond counts as a whole one, or the loop would turn until it is over.
    let ms = time.map_or(-1, |time| time.as_micros().div_ceil(1000) as c_int);
    let mut polled = descriptors.map(|(descriptor, events)| PollFd {
        // The call passes over a number below zero.
        descriptor: if events == 0 { -1 } else { descriptor },
        events,
        ready: 0,
    });
    // SAFETY: there are N of them.
    checked(unsafe { poll(polled.as_mut_ptr(), N as c_ulong, ms) })?;
    Ok(polled.map(|it| it.ready))
}
