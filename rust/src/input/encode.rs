// Keys to the text that a terminal sends for them.
use super::{KeyCode, KittyKeyboardFlags, Modifiers};
use crate::error::FAULT;
use crate::raw;
use std::{error, fmt, str};

/// What a control sequence begins with: ESC `[`, the control sequence introducer.
///
/// ```
/// use hedrugal::input::CSI;
///
/// assert_eq!(format!("{CSI}A"), "\x1b[A");
/// ```
pub const CSI: &str = "\x1b[";

/// What the sequence of an application key begins with: ESC `O`, single shift three.
///
/// ```
/// use hedrugal::input::SS3;
///
/// assert_eq!(format!("{SS3}A"), "\x1bOA");
/// ```
pub const SS3: &str = "\x1bO";

/// How a terminal encodes the keys that it sends.
///
/// ```
/// use hedrugal::input::{KeyboardEncoding, KittyKeyboardFlags};
///
/// assert_ne!(KeyboardEncoding::Xterm, KeyboardEncoding::Kitty(KittyKeyboardFlags::NONE));
/// ```
#[derive(Debug, Clone, Copy, PartialEq, Eq)]
pub enum KeyboardEncoding {
    /// The characters themselves, and xterm's control sequences.
    Xterm,
    /// The same, but a character with modifiers that it can't show is sent as ESC `[` c `;` m `u`
    /// (fixterms).
    CsiU,
    /// Records of the Windows console. [`KeyCode::encode`] treats it as `Xterm`.
    Win32,
    /// kitty's keyboard protocol, with the flags that the program asked for. [`KeyCode::encode`]
    /// treats it as `Xterm`.
    Kitty(KittyKeyboardFlags),
}

/// The modes of a terminal that change the text of a key.
///
/// ```
/// use hedrugal::input::{KeyCode, KeyCodeEncodeModes, KeyboardEncoding, Modifiers};
///
/// let modes = KeyCodeEncodeModes {
///     encoding: KeyboardEncoding::Xterm,
///     application_cursor_keys: true,
///     newline_mode: false,
///     modify_other_keys: None,
/// };
/// assert_eq!(KeyCode::UpArrow.encode(Modifiers::NONE, modes, true).as_deref(), Ok("\x1bOA"));
/// ```
#[derive(Debug, Clone, Copy)]
pub struct KeyCodeEncodeModes {
    /// The encoding of keys.
    pub encoding: KeyboardEncoding,
    /// Whether the arrows, Home and End send ESC `O` in place of ESC `[` (application cursor mode,
    /// DECCKM).
    pub application_cursor_keys: bool,
    /// Whether Enter sends a line feed after the carriage return (newline mode, LNM).
    pub newline_mode: bool,
    /// The level of xterm's modifyOtherKeys, or `None` if it is off.
    pub modify_other_keys: Option<i64>,
}

impl KeyCodeEncodeModes {
    pub(crate) fn raw(self) -> Result<raw::Modes, EncodeError> {
        let (encoding, kitty) = match self.encoding {
            KeyboardEncoding::Xterm => (raw::ENCODING_XTERM, KittyKeyboardFlags::NONE),
            KeyboardEncoding::CsiU => (raw::ENCODING_CSI_U, KittyKeyboardFlags::NONE),
            KeyboardEncoding::Win32 => (raw::ENCODING_WIN32, KittyKeyboardFlags::NONE),
            KeyboardEncoding::Kitty(flags) => (raw::ENCODING_KITTY, flags),
        };
        Ok(raw::Modes {
            modify_other_keys: self.modify_other_keys.unwrap_or(0),
            encoding,
            kitty_flags: u8::try_from(kitty.bits()).map_err(|_| EncodeError::UnnamedBits)?,
            application_cursor_keys: self.application_cursor_keys,
            newline_mode: self.newline_mode,
            has_modify_other_keys: self.modify_other_keys.is_some(),
        })
    }
}

/// Why [`KeyCode::try_encode`] made no text.
///
/// ```
/// use hedrugal::input::EncodeError;
///
/// assert_eq!(EncodeError::UnhandledFunctionKey(25).to_string(), "unhandled fkey number 25");
/// ```
#[derive(Debug, Clone, Copy, PartialEq, Eq)]
pub enum EncodeError {
    /// The function key with this number isn't one of F1 to F24.
    UnhandledFunctionKey(u8),
    /// The modifiers or Kitty's flags have a bit that no flag has.
    UnnamedBits,
    /// Memory was refused. The call may be made again.
    Memory,
}

impl fmt::Display for EncodeError {
    fn fmt(&self, f: &mut fmt::Formatter<'_>) -> fmt::Result {
        match self {
            EncodeError::UnhandledFunctionKey(number) => {
                write!(f, "unhandled fkey number {number}")
            }
            EncodeError::UnnamedBits => f.write_str("a bit has no name"),
            EncodeError::Memory => f.write_str("out of memory"),
        }
    }
}

impl error::Error for EncodeError {}

// More bytes than any key's text has.
const ROOM: usize = 64;

impl KeyCode {
    /// Returns the text that a terminal in these modes sends for the key, with the modifiers that
    /// are held. It is empty for a key that sends nothing, and for every key that is up (`is_down`
    /// is false).
    ///
    /// ```
    /// use hedrugal::input::{KeyCode, KeyCodeEncodeModes, KeyboardEncoding, Modifiers};
    ///
    /// let modes = KeyCodeEncodeModes {
    ///     encoding: KeyboardEncoding::Xterm,
    ///     application_cursor_keys: false,
    ///     newline_mode: false,
    ///     modify_other_keys: None,
    /// };
    /// let sent = |is_down| KeyCode::UpArrow.encode(Modifiers::CTRL, modes, is_down).unwrap();
    /// assert_eq!((sent(true), sent(false)), ("\x1b[1;5A".to_string(), String::new()));
    /// assert!(KeyCode::Function(25).encode(Modifiers::NONE, modes, true).is_err());
    /// ```
    ///
    /// # Errors
    ///
    /// `UnhandledFunctionKey` for `Function(0)` and the function keys above F24 while they are
    /// down. `UnnamedBits` for modifiers or Kitty's flags with a bit that no flag has.
    ///
    /// # Panics
    ///
    /// If memory is refused.
    pub fn encode(
        &self,
        mods: Modifiers,
        modes: KeyCodeEncodeModes,
        is_down: bool,
    ) -> Result<String, EncodeError> {
        let text = self.try_encode(mods, modes, is_down);
        assert!(text != Err(EncodeError::Memory), "out of memory");
        text
    }

    /// Returns what [`KeyCode::encode`] returns.
    ///
    /// ```
    /// use hedrugal::input::{KeyCode, KeyCodeEncodeModes, KeyboardEncoding, Modifiers};
    ///
    /// let modes = KeyCodeEncodeModes {
    ///     encoding: KeyboardEncoding::Xterm,
    ///     application_cursor_keys: false,
    ///     newline_mode: false,
    ///     modify_other_keys: None,
    /// };
    /// assert_eq!(KeyCode::Enter.try_encode(Modifiers::NONE, modes, true).as_deref(), Ok("\r"));
    /// ```
    ///
    /// # Errors
    ///
    /// The same, and `Memory` if memory is refused.
    pub fn try_encode(
        &self,
        mods: Modifiers,
        modes: KeyCodeEncodeModes,
        is_down: bool,
    ) -> Result<String, EncodeError> {
        let modes = modes.raw()?;
        let mut room = [0; ROOM];
        let mut len = 0;
        // SAFETY: the pointers lead to values of their types that live through the call, and `room`
        // has as many bytes as it says.
        let answer = unsafe {
            raw::hed_encode(
                self.number(),
                self.detail(),
                mods.bits(),
                is_down,
                &modes,
                room.as_mut_ptr(),
                room.len(),
                &mut len,
            )
        };
        match (answer, self) {
            (raw::STATUS_OK, _) => {
                let bytes = room.get(..len).expect(FAULT);
                copied(str::from_utf8(bytes).expect(FAULT))
            }
            (raw::STATUS_REFUSED_KEY, KeyCode::Function(number)) => {
                Err(EncodeError::UnhandledFunctionKey(*number))
            }
            // The only number here that may name nothing is that of a set.
            (raw::STATUS_BAD_NUMBER, _) => Err(EncodeError::UnnamedBits),
            (raw::STATUS_NO_MEMORY, _) => Err(EncodeError::Memory),
            _ => unreachable!("{FAULT}"),
        }
    }

    /// Returns whether the key is one of the modifier keys: Hyper, Super, Meta, and each Shift,
    /// Ctrl, Alt and Windows key.
    ///
    /// ```
    /// use hedrugal::input::KeyCode;
    ///
    /// assert!(KeyCode::LeftAlt.is_modifier() && !KeyCode::Menu.is_modifier());
    /// ```
    #[must_use]
    pub fn is_modifier(self) -> bool {
        use KeyCode::*;
        matches!(
            self,
            Hyper
                | Super
                | Meta
                | Shift
                | LeftShift
                | RightShift
                | Control
                | LeftControl
                | RightControl
                | Alt
                | LeftAlt
                | RightAlt
                | LeftWindows
                | RightWindows
        )
    }

    /// Returns the upper case letter if the key is a lower case letter of ASCII and SHIFT is held,
    /// and else the key itself.
    ///
    /// ```
    /// use hedrugal::input::{KeyCode, Modifiers};
    ///
    /// let key = KeyCode::Char('a');
    /// assert_eq!(key.normalize_shift_to_upper_case(Modifiers::SHIFT), KeyCode::Char('A'));
    /// assert_eq!(key.normalize_shift_to_upper_case(Modifiers::CTRL), key);
    /// ```
    #[must_use]
    pub fn normalize_shift_to_upper_case(self, modifiers: Modifiers) -> KeyCode {
        match self {
            KeyCode::Char(c) if modifiers.contains(Modifiers::SHIFT) => {
                KeyCode::Char(c.to_ascii_uppercase())
            }
            _ => self,
        }
    }
}

// The text as a string of its own.
fn copied(text: &str) -> Result<String, EncodeError> {
    let mut copy = String::new();
    copy.try_reserve_exact(text.len())
        .map_err(|_| EncodeError::Memory)?;
    copy.push_str(text);
    Ok(copy)
}
