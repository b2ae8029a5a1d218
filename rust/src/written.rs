// Events to the bytes that a parser reads as them, and what a terminal replies.
use crate::error::FAULT;
use crate::sending::sent;
use crate::{raw, AllocError, ColourScheme, Event, Modifiers, MouseReport, Parser};
use std::{error, fmt};

/// Why [`Event::try_encode`] made no bytes.
#[derive(Debug, Clone, Copy, PartialEq, Eq)]
pub enum EncodeEventError {
    /// No bytes are read as the event.
    NoText,
    /// The bytes would be more than a sequence or a string may have.
    TooLong,
    /// The modifiers have a bit that no flag has.
    UnnamedBits,
    /// Memory was refused. The call may be made again.
    Memory,
}

impl fmt::Display for EncodeEventError {
    fn fmt(&self, f: &mut fmt::Formatter<'_>) -> fmt::Result {
        f.write_str(match self {
            EncodeEventError::NoText => "no bytes are read as the event",
            EncodeEventError::TooLong => "the event is too long",
            EncodeEventError::UnnamedBits => "a bit has no name",
            EncodeEventError::Memory => "out of memory",
        })
    }
}

impl error::Error for EncodeEventError {}

impl From<AllocError> for EncodeEventError {
    fn from(_: AllocError) -> EncodeEventError {
        EncodeEventError::Memory
    }
}

impl Event {
    /// Returns bytes that the parser reads as the event, whatever the terminal sent. A multiplexer
    /// passes replies on by it, and a test writes what it feeds to a parser. The parser says how
    /// they are read, by its reading and its sequence table. What it has buffered doesn't matter,
    /// and stays.
    ///
    /// With no more to come the bytes are that event alone, and nothing stays buffered. That is so
    /// with more to come too, but for seven short texts, such as ESC, which may begin a sequence.
    ///
    /// A key is written by the first of these that is read as that very event: what
    /// [`KeyCode::encode`](crate::input::KeyCode::encode) gives with every mode off, its character,
    /// a row of the sequence table, ESC and such bytes, and the form of Kitty's protocol. A mouse
    /// report is written in SGR's form, and a release that names no button in urxvt's. What a
    /// terminal sends by Kitty's protocol is [`KeyReport::encode`](crate::KeyReport::encode).
    ///
    /// ```
    /// use hedrugal::{Dialect, Event, Parser};
    ///
    /// let parser = Parser::new(Dialect::Extended);
    /// assert_eq!(Event::FocusGained.encode(&parser).as_deref(), Ok(&b"\x1b[I"[..]));
    /// let pasted = Event::Paste("a".to_string());
    /// assert_eq!(pasted.encode(&parser).as_deref(), Ok(&b"\x1b[200~a\x1b[201~"[..]));
    /// ```
    ///
    /// # Errors
    ///
    /// `NoText` if no bytes are read as the event: of `StringPart`, of `StringCut`, of a paste that
    /// has ESC `[201~` in it, and of an event that this reading doesn't make, such as a position with
    /// a 0. `TooLong` for a sequence of more than 256 bytes, or a string of 65535 before its end.
    /// `UnnamedBits` for modifiers or flags with a bit that has no name.
    ///
    /// # Panics
    ///
    /// If memory is refused.
    pub fn encode(&self, parser: &Parser) -> Result<Vec<u8>, EncodeEventError> {
        let written = self.try_encode(parser);
        assert!(written != Err(EncodeEventError::Memory), "out of memory");
        written
    }

    /// Returns what [`Event::encode`] returns.
    ///
    /// # Errors
    ///
    /// The same, and `Memory` if memory is refused.
    pub fn try_encode(&self, parser: &Parser) -> Result<Vec<u8>, EncodeEventError> {
        self.check()?;
        let (event, text) = (self.raw(), self.bytes());
        let parser = parser.locked();
        let call = |out: &mut [u8], len: &mut usize| {
            // SAFETY: the pointers lead to values of their types that live through the call, with as
            // many bytes as the lengths say. The parser is one that this thread alone has.
            unsafe {
                raw::hed_encode_event(
                    &event,
                    text.as_ptr(),
                    text.len(),
                    &*parser,
                    out.as_mut_ptr(),
                    out.len(),
                    len,
                )
            }
        };
        match sent(call)? {
            (raw::STATUS_OK, bytes) => Ok(bytes),
            (raw::STATUS_NO_TEXT, _) => Err(EncodeEventError::NoText),
            (raw::STATUS_TOO_LONG, _) => Err(EncodeEventError::TooLong),
            (raw::STATUS_NO_MEMORY, _) => Err(EncodeEventError::Memory),
            _ => unreachable!("{FAULT}"),
        }
    }
}

impl Event {
    // Whether the library has a number for each part of the event. No terminal sends a part of a
    // paste by itself, and none sends what its program tells.
    fn check(&self) -> Result<(), EncodeEventError> {
        match self {
            Event::PastePart(_) | Event::Resumed => Err(EncodeEventError::NoText),
            Event::Mouse(report) => report.check(),
            Event::KeyboardFlags(flags) if flags.bits() > u8::MAX.into() => {
                Err(EncodeEventError::UnnamedBits)
            }
            _ => Ok(()),
        }
    }
}

impl MouseReport {
    // No parser makes a report of a button 0, nor of modifiers that Kitty's protocol hasn't.
    fn check(&self) -> Result<(), EncodeEventError> {
        let (_, is_whole) = self.modifiers.kitty();
        if !Modifiers::all().contains(self.modifiers) {
            Err(EncodeEventError::UnnamedBits)
        } else if self.button == Some(0) || !is_whole {
            Err(EncodeEventError::NoText)
        } else {
            Ok(())
        }
    }
}

/// Returns what a terminal replies to a question for the position of its cursor. `private` says
/// that the question was ESC `[?6n`, and not ESC `[6n`. The first row and the first column are 1.
///
/// Not private, a reply for row 1 and the columns 1 to 256 has the bytes of F3 with modifiers. A
/// program reads it as the position if it expects one.
///
/// ```
/// use hedrugal::encode_cursor_position;
///
/// assert_eq!(encode_cursor_position(24, 80, false), b"\x1b[24;80R");
/// assert_eq!(encode_cursor_position(1, 5, true), b"\x1b[?1;5R");
/// ```
///
/// # Panics
///
/// If memory is refused.
#[must_use]
pub fn encode_cursor_position(row: u16, column: u16, private: bool) -> Vec<u8> {
    let call = |out: &mut [u8], len: &mut usize| {
        // SAFETY: `out` has as many bytes as it says, and `len` is a number.
        unsafe {
            raw::hed_encode_cursor_position(row, column, private, out.as_mut_ptr(), out.len(), len)
        }
    };
    written(call).expect("out of memory")
}

/// Returns what a terminal sends when its colours change, and replies to ESC `[?996n`.
///
/// ```
/// use hedrugal::{encode_colour_scheme, ColourScheme};
///
/// assert_eq!(encode_colour_scheme(ColourScheme::Dark), b"\x1b[?997;1n");
/// ```
///
/// # Panics
///
/// If memory is refused.
#[must_use]
pub fn encode_colour_scheme(scheme: ColourScheme) -> Vec<u8> {
    let dark = scheme == ColourScheme::Dark;
    let call = |out: &mut [u8], len: &mut usize| {
        // SAFETY: `out` has as many bytes as it says, and `len` is a number.
        unsafe { raw::hed_encode_colour_scheme(dark, out.as_mut_ptr(), out.len(), len) }
    };
    written(call).expect("out of memory")
}

/// Returns what a terminal replies to the question for its attributes, ESC `[c`. The first number is
/// its class, such as 62.
///
/// ```
/// use hedrugal::encode_device_attributes;
///
/// assert_eq!(encode_device_attributes(&[62, 22]).as_deref(), Ok(&b"\x1b[?62;22c"[..]));
/// ```
///
/// # Errors
///
/// `TooLong` for a reply of more than 256 bytes.
///
/// # Panics
///
/// If memory is refused.
pub fn encode_device_attributes(numbers: &[u16]) -> Result<Vec<u8>, EncodeEventError> {
    let call = |out: &mut [u8], len: &mut usize| {
        // SAFETY: the pointers lead to as many numbers and bytes as the lengths say.
        unsafe {
            raw::hed_encode_device_attributes(
                numbers.as_ptr(),
                numbers.len(),
                out.as_mut_ptr(),
                out.len(),
                len,
            )
        }
    };
    let written = written(call);
    assert!(written != Err(EncodeEventError::Memory), "out of memory");
    written
}

// The bytes of a call that gives a reply.
fn written(call: impl Fn(&mut [u8], &mut usize) -> u32) -> Result<Vec<u8>, EncodeEventError> {
    match sent(call)? {
        (raw::STATUS_OK, bytes) => Ok(bytes),
        (raw::STATUS_TOO_LONG, _) => Err(EncodeEventError::TooLong),
        (raw::STATUS_NO_MEMORY, _) => Err(EncodeEventError::Memory),
        _ => unreachable!("{FAULT}"),
    }
}
