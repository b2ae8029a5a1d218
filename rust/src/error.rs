// What a call that asks for memory may answer.
use crate::raw;
use std::{error, fmt, io};

// What is said if the library answers otherwise than its header says.
pub(crate) const FAULT: &str = "the library answers as c/hedrugal.h says";

// The numbers that the library has for the variants of an enum.
macro_rules! numbered {
    ($name:ident $number:ty: $($variant:ident $raw:ident,)*) => {
        impl $name {
            // The number of the library.
            #[inline]
            pub(crate) fn number(self) -> $number {
                match self {
                    $($name::$variant => crate::raw::$raw,)*
                }
            }

            // What the library's number stands for, if it has such a number.
            #[inline]
            pub(crate) fn of(number: $number) -> Option<$name> {
                match number {
                    $(crate::raw::$raw => Some($name::$variant),)*
                    _ => None,
                }
            }
        }
    };
}
pub(crate) use numbered;

/// Memory was refused. Nothing is lost: the call may be made again.
///
/// ```
/// assert_eq!(hedrugal::AllocError.to_string(), "out of memory");
/// ```
#[derive(Debug, Clone, Copy, PartialEq, Eq)]
pub struct AllocError;

impl fmt::Display for AllocError {
    fn fmt(&self, f: &mut fmt::Formatter<'_>) -> fmt::Result {
        f.write_str("out of memory")
    }
}

impl error::Error for AllocError {}

impl From<AllocError> for io::Error {
    fn from(error: AllocError) -> io::Error {
        io::Error::new(io::ErrorKind::OutOfMemory, error)
    }
}

/// Why a [`Parser`](crate::Parser) took no bytes. It is as it was before the call.
///
/// ```
/// use hedrugal::{Dialect, FeedError, Parser};
/// use std::time::Instant;
///
/// let mut parser = Parser::new(Dialect::Extended);
/// parser.feed(Instant::now(), b"\x1b[1");
/// parser.flush();
/// assert_eq!(parser.try_feed(Instant::now(), b"q"), Err(FeedError::Busy));
/// assert_eq!(parser.by_ref().count(), 2);
/// assert_eq!(parser.try_feed(Instant::now(), b"q"), Ok(()));
/// ```
#[derive(Debug, Clone, Copy, PartialEq, Eq)]
pub enum FeedError {
    /// Memory was refused. The call may be made again.
    Memory,
    /// Events are left that come first. Take them until there is none, and make the call again.
    Busy,
}

impl fmt::Display for FeedError {
    fn fmt(&self, f: &mut fmt::Formatter<'_>) -> fmt::Result {
        match self {
            FeedError::Memory => AllocError.fmt(f),
            FeedError::Busy => f.write_str("events are left to be taken"),
        }
    }
}

impl error::Error for FeedError {}

impl From<AllocError> for FeedError {
    fn from(_: AllocError) -> FeedError {
        FeedError::Memory
    }
}

impl From<FeedError> for io::Error {
    fn from(error: FeedError) -> io::Error {
        match error {
            FeedError::Memory => AllocError.into(),
            FeedError::Busy => io::Error::other(error),
        }
    }
}

// Whether the library did what a call says, or was refused memory.
pub(crate) fn granted(status: u32) -> Result<(), AllocError> {
    match status {
        raw::STATUS_OK => Ok(()),
        raw::STATUS_NO_MEMORY => Err(AllocError),
        _ => unreachable!("{FAULT}"),
    }
}
