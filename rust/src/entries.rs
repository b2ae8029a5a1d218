// The entries of the sequence table, as the parser shows them.
use crate::raw;
use std::fmt;
use std::ops::{Deref, Range};

/// The bytes of an entry of the sequence table, as
/// [`Parser::entry`](crate::Parser::entry) returns them. It owns no memory.
///
/// ```
/// use hedrugal::{Dialect, Parser};
///
/// let (bytes, _) = Parser::new(Dialect::Extended).entry(0).unwrap();
/// assert_eq!(*bytes, [1]);
/// assert_eq!(format!("{bytes:?}"), r#"b"\x01""#);
/// ```
#[derive(Clone, Copy, PartialEq, Eq, Hash)]
pub struct EntryBytes {
    // What follows the first `len` bytes is 0.
    bytes: [u8; raw::ENTRY_MOST],
    len: usize,
}

impl EntryBytes {
    // The first `len` bytes, of which there are as many.
    pub(crate) fn of(bytes: [u8; raw::ENTRY_MOST], len: usize) -> EntryBytes {
        EntryBytes { bytes, len }
    }
}

impl Deref for EntryBytes {
    type Target = [u8];

    fn deref(&self) -> &[u8] {
        &self.bytes[..self.len]
    }
}

impl AsRef<[u8]> for EntryBytes {
    fn as_ref(&self) -> &[u8] {
        self
    }
}

impl fmt::Debug for EntryBytes {
    fn fmt(&self, f: &mut fmt::Formatter<'_>) -> fmt::Result {
        write!(f, "b\"{}\"", self.escape_ascii())
    }
}

/// What would complete the bytes that stay buffered, as
/// [`Parser::completions`](crate::Parser::completions) returns it.
#[derive(Debug, Clone, PartialEq, Eq, Hash)]
pub struct Completions {
    /// The places of the entries, as [`Parser::entry`](crate::Parser::entry) has them.
    pub entries: Range<usize>,
    /// Whether these entries begin with what follows a first ESC, so that their keys get ALT.
    pub with_alt: bool,
}
