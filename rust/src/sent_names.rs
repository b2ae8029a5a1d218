// What a terminal sends for named keys.
use crate::error::FAULT;
use crate::input::{EncodeError, KeyCodeEncodeModes};
use crate::sending::sent;
use crate::{raw, KeyNameError, KeyNameErrorKind};
use std::{error, fmt};

/// Why [`try_send_names`] made no bytes.
#[derive(Debug, Clone, Copy, PartialEq, Eq)]
pub enum SendNamesError {
    /// The text names no chord.
    Name(KeyNameError),
    /// Nothing is sent for a key in these modes.
    RefusedKey {
        /// The byte of the text where the name of the first such key starts.
        at: usize,
    },
    /// Kitty's flags have a bit that no flag has.
    UnnamedBits,
    /// Memory was refused. The call may be made again.
    Memory,
}

impl fmt::Display for SendNamesError {
    fn fmt(&self, f: &mut fmt::Formatter<'_>) -> fmt::Result {
        match self {
            SendNamesError::Name(wrong) => wrong.fmt(f),
            SendNamesError::RefusedKey { at } => {
                write!(f, "nothing is sent for the key at byte {at}")
            }
            SendNamesError::UnnamedBits => f.write_str("a bit has no name"),
            SendNamesError::Memory => f.write_str("out of memory"),
        }
    }
}

impl error::Error for SendNamesError {}

/// Returns what a terminal in these modes sends for named keys, one after another, so that a
/// program's keys are tested without a terminal. The text is the name of a
/// [`Chord`](crate::Chord).
///
/// ```
/// use hedrugal::input::{KeyCodeEncodeModes, KeyboardEncoding};
/// use hedrugal::{send_names, KittyKeyboardFlags};
///
/// let mut modes = KeyCodeEncodeModes {
///     encoding: KeyboardEncoding::Xterm,
///     application_cursor_keys: false,
///     newline_mode: false,
///     modify_other_keys: None,
/// };
/// assert_eq!(send_names("ctrl+x ctrl+s up", modes).as_deref(), Ok("\x18\x13\x1b[A"));
/// modes.encoding = KeyboardEncoding::Kitty(KittyKeyboardFlags::DISAMBIGUATE_ESCAPE_CODES);
/// assert_eq!(send_names("ctrl+i A", modes).as_deref(), Ok("\x1b[105;5uA"));
/// ```
///
/// With Kitty's encoding a key is sent as [`KeyReport::encode`](crate::KeyReport::encode) does,
/// with the text that it types. A capital is its letter with Shift, as a keyboard has it, and a
/// sign is a key of its own. Otherwise a key is sent as
/// [`KeyCode::encode`](crate::input::KeyCode::encode) does.
///
/// Many keys send the bytes of another one: `ctrl+i` those of `tab`. What follows an ESC may go on
/// with it: the bytes of `escape x` are those of `alt+x`. So pass what comes after `escape` in a
/// call of its own, and feed it later.
///
/// # Errors
///
/// `Name` for a text that names no chord. `RefusedKey` for a key or a modifier that has no bytes in
/// these modes, as `hyper+x` without Kitty's protocol. `UnnamedBits` for flags with a bit that no
/// flag has.
///
/// # Panics
///
/// If memory is refused.
pub fn send_names(text: &str, modes: KeyCodeEncodeModes) -> Result<String, SendNamesError> {
    let sent = try_send_names(text, modes);
    assert!(sent != Err(SendNamesError::Memory), "out of memory");
    sent
}

/// Returns what [`send_names`] returns.
///
/// # Errors
///
/// The same, and `Memory` if memory is refused.
pub fn try_send_names(text: &str, modes: KeyCodeEncodeModes) -> Result<String, SendNamesError> {
    let modes = modes
        .raw()
        .map_err(|_: EncodeError| SendNamesError::UnnamedBits)?;
    let at = std::cell::Cell::new(0);
    let call = |out: &mut [u8], len: &mut usize| {
        // SAFETY: the pointers lead to values of their types that live through the call, with as
        // many bytes as the lengths say.
        unsafe {
            raw::hed_send_names(
                text.as_ptr(),
                text.len(),
                &modes,
                out.as_mut_ptr(),
                out.len(),
                len,
                at.as_ptr(),
            )
        }
    };
    let (answer, bytes) = sent(call).map_err(|_| SendNamesError::Memory)?;
    let at = at.get();
    match answer {
        raw::STATUS_OK => Ok(String::from_utf8(bytes).expect(FAULT)),
        raw::STATUS_NO_MEMORY => Err(SendNamesError::Memory),
        // The only number of modes that may name nothing is that of the flags.
        raw::STATUS_BAD_NUMBER => Err(SendNamesError::UnnamedBits),
        raw::STATUS_REFUSED_KEY => Err(SendNamesError::RefusedKey { at }),
        wrong => {
            let kind = KeyNameErrorKind::of(wrong);
            Err(SendNamesError::Name(KeyNameError { kind, at }))
        }
    }
}
