// The names of keys: read and printed by the library.
use crate::error::FAULT;
use crate::input::{KeyEvent, Modifiers};
use crate::{raw, Chord, KeyCode, KeyPress, KittyModifiers, ReportedKey};
use std::str::FromStr;
use std::{error, fmt, str};

/// What is wrong with a text that should name keys.
///
/// ```
/// use hedrugal::{Chord, KeyNameErrorKind};
///
/// let wrong = |text: &str| text.parse::<Chord>().unwrap_err().kind;
/// assert_eq!(wrong("ctlr+x"), KeyNameErrorKind::UnknownModifier);
/// assert_eq!(wrong("shift+!"), KeyNameErrorKind::ShiftedCharacter);
/// ```
#[derive(Debug, Clone, Copy, PartialEq, Eq, Hash)]
pub enum KeyNameErrorKind {
    /// A control character but the tab is in the text.
    ControlCharacter,
    /// A modifier is there twice, as in `M-A-x`.
    ModifierTwice,
    /// A word before `+` or `-` is no modifier, as in `foo+x`.
    UnknownModifier,
    /// No key stands behind the modifiers, as in `ctrl+`.
    MissingKey,
    /// A number names no key, as in `f256`, `f01`, `kitty1` or `U+D800`.
    BadNumber,
    /// No key has this name.
    UnknownName,
    /// `DEL` in capitals is Backspace to Emacs, and Delete to others. Write `backspace` or `delete`.
    Ambiguous,
    /// The key makes no press by itself, as a modifier or a lock. Of a [`KeyEvent`] or a
    /// [`KeyCode`] it is also a key or a modifier that these can't have.
    NotAKey,
    /// Shift with a sign that shows it, as in `shift+!`. Write the sign alone.
    ShiftedCharacter,
    /// The text has more keys than a [`Chord`] may have, or more than the one of a
    /// [`KeyPress`].
    TooLong,
    /// No key is in the text.
    Empty,
}

impl fmt::Display for KeyNameErrorKind {
    fn fmt(&self, f: &mut fmt::Formatter<'_>) -> fmt::Result {
        f.pad(match self {
            KeyNameErrorKind::ControlCharacter => "a control character is in the text",
            KeyNameErrorKind::ModifierTwice => "a modifier is there twice",
            KeyNameErrorKind::UnknownModifier => "no modifier has this name",
            KeyNameErrorKind::MissingKey => "no key is behind the modifiers",
            KeyNameErrorKind::BadNumber => "no key has this number",
            KeyNameErrorKind::UnknownName => "no key has this name",
            KeyNameErrorKind::Ambiguous => "DEL is either backspace or delete",
            KeyNameErrorKind::NotAKey => "the key makes no press by itself",
            KeyNameErrorKind::ShiftedCharacter => "shift with a sign that shows it",
            KeyNameErrorKind::TooLong => "there are too many keys",
            KeyNameErrorKind::Empty => "there is no key",
        })
    }
}

/// Why a text names no keys, and where.
///
/// ```
/// use hedrugal::{Chord, KeyNameError, KeyNameErrorKind};
///
/// let error = "ctrl+x ctlr+s".parse::<Chord>().unwrap_err();
/// assert_eq!(error.to_string(), "no modifier has this name, at byte 7");
/// assert_eq!(error, KeyNameError { kind: KeyNameErrorKind::UnknownModifier, at: 7 });
/// ```
#[derive(Debug, Clone, Copy, PartialEq, Eq, Hash)]
pub struct KeyNameError {
    /// What is wrong.
    pub kind: KeyNameErrorKind,
    /// The byte of the text where the part that is wrong starts.
    pub at: usize,
}

impl fmt::Display for KeyNameError {
    fn fmt(&self, f: &mut fmt::Formatter<'_>) -> fmt::Result {
        write!(f, "{}, at byte {}", self.kind, self.at)
    }
}

impl error::Error for KeyNameError {}

impl KeyNameErrorKind {
    // What is wrong, by the number of the library.
    pub(crate) fn of(number: u32) -> KeyNameErrorKind {
        match number {
            raw::STATUS_NAME_CONTROL_CHARACTER => KeyNameErrorKind::ControlCharacter,
            raw::STATUS_NAME_MODIFIER_TWICE => KeyNameErrorKind::ModifierTwice,
            raw::STATUS_NAME_UNKNOWN_MODIFIER => KeyNameErrorKind::UnknownModifier,
            raw::STATUS_NAME_MISSING_KEY => KeyNameErrorKind::MissingKey,
            raw::STATUS_NAME_BAD_NUMBER => KeyNameErrorKind::BadNumber,
            raw::STATUS_NAME_UNKNOWN_NAME => KeyNameErrorKind::UnknownName,
            raw::STATUS_NAME_AMBIGUOUS => KeyNameErrorKind::Ambiguous,
            raw::STATUS_NAME_NOT_A_KEY => KeyNameErrorKind::NotAKey,
            raw::STATUS_NAME_SHIFTED_CHARACTER => KeyNameErrorKind::ShiftedCharacter,
            raw::STATUS_NAME_TOO_LONG => KeyNameErrorKind::TooLong,
            raw::STATUS_NAME_EMPTY => KeyNameErrorKind::Empty,
            _ => unreachable!("{FAULT}"),
        }
    }
}

// The presses of a text, and how many they are.
pub(crate) fn read(text: &str) -> Result<([raw::KeyPress; Chord::MAX_KEYS], usize), KeyNameError> {
    let mut keys = [raw::KeyPress::default(); Chord::MAX_KEYS];
    let (mut count, mut at) = (0, 0);
    // SAFETY: the pointers lead to values of their types that live through the call, with as many
    // bytes and presses as the lengths say.
    let answer = unsafe {
        raw::hed_key_read(
            text.as_ptr(),
            text.len(),
            keys.as_mut_ptr(),
            keys.len(),
            &mut count,
            &mut at,
        )
    };
    match answer {
        raw::STATUS_OK => Ok((keys, count)),
        wrong => Err(KeyNameError {
            kind: KeyNameErrorKind::of(wrong),
            at,
        }),
    }
}

// More bytes than the name of a press has: six modifiers, and the longest name of a key.
const PRESS_ROOM: usize = 64;

// Writes the name of some presses, of which there are 1 to 32.
pub(crate) fn print(keys: &[raw::KeyPress], f: &mut fmt::Formatter<'_>) -> fmt::Result {
    let mut room = [0; PRESS_ROOM * Chord::MAX_KEYS];
    let mut len = 0;
    // SAFETY: as above.
    let answer = unsafe {
        raw::hed_key_print(
            keys.as_ptr(),
            keys.len(),
            room.as_mut_ptr(),
            room.len(),
            &mut len,
        )
    };
    match answer {
        raw::STATUS_OK => {
            let name = room.get(..len).expect(FAULT);
            f.pad(str::from_utf8(name).expect(FAULT))
        }
        raw::STATUS_NO_MEMORY => Err(fmt::Error),
        _ => unreachable!("{FAULT}"),
    }
}

// Whether a character parts the keys of a text.
pub(crate) fn is_blank(c: char) -> bool {
    c == ' ' || c == '\t'
}

// What has no name here is the key that a text names.
fn not_a_key(text: &str) -> KeyNameError {
    KeyNameError {
        kind: KeyNameErrorKind::NotAKey,
        at: text.len() - text.trim_start_matches(is_blank).len(),
    }
}

// Prints the name of a press. A key that makes none is printed by its name in lower case.
fn print_or_name(press: Option<KeyPress>, key: KeyCode, f: &mut fmt::Formatter<'_>) -> fmt::Result {
    match press {
        Some(press) => fmt::Display::fmt(&press, f),
        None => f.pad(&format!("{key:?}").to_ascii_lowercase()),
    }
}

/// Prints the name of the key's press, as `up` or `A`. A key that makes no press by itself is
/// printed by its name in lower case, as `leftshift`.
impl fmt::Display for KeyCode {
    fn fmt(&self, f: &mut fmt::Formatter<'_>) -> fmt::Result {
        let press = KeyPress::new(ReportedKey::Named(*self), KittyModifiers::NONE);
        print_or_name(press, *self, f)
    }
}

/// Reads the name of a key without modifiers, and returns the key of its press: `up` is `UpArrow`,
/// and `numpad5` is `Char('5')`. It is `NotAKey` if modifiers are held with the press, or the key has
/// no [`KeyCode`].
impl FromStr for KeyCode {
    type Err = KeyNameError;

    fn from_str(text: &str) -> Result<KeyCode, KeyNameError> {
        match text.parse::<KeyEvent>()? {
            KeyEvent { key, modifiers } if modifiers == Modifiers::NONE => Ok(key),
            _ => Err(not_a_key(text)),
        }
    }
}

/// Prints the name of the event's press, as `ctrl+shift+up`. Events that are one press have one
/// name. A key that makes no press by itself is printed by its name in lower case, as `leftshift`.
impl fmt::Display for KeyEvent {
    fn fmt(&self, f: &mut fmt::Formatter<'_>) -> fmt::Result {
        print_or_name(KeyPress::of_event(self), self.key, f)
    }
}

/// Reads the name of one press, and returns the event that has its key and its modifiers. It is
/// `NotAKey` if Hyper or Meta is held with it, or the key has no [`KeyCode`].
impl FromStr for KeyEvent {
    type Err = KeyNameError;

    fn from_str(text: &str) -> Result<KeyEvent, KeyNameError> {
        const MODIFIERS: [(KittyModifiers, Modifiers); 4] = [
            (KittyModifiers::SHIFT, Modifiers::SHIFT),
            (KittyModifiers::ALT, Modifiers::ALT),
            (KittyModifiers::CTRL, Modifiers::CTRL),
            (KittyModifiers::SUPER, Modifiers::SUPER),
        ];
        let press: KeyPress = text.parse()?;
        let ReportedKey::Named(key) = press.key() else {
            return Err(not_a_key(text));
        };
        let (mut left, mut modifiers) = (press.held(), Modifiers::NONE);
        for (held, modifier) in MODIFIERS {
            if left.contains(held) {
                left = left.difference(held);
                modifiers = modifiers.union(modifier);
            }
        }
        if left != KittyModifiers::NONE {
            return Err(not_a_key(text));
        }
        Ok(KeyEvent { key, modifiers })
    }
}
