// The keys of "Events", by their letters and numbers. The names of functional keys are those of
// Kitty's table.
use crate::port::lines::Keys;
use crate::port::plain::rows::{EDIT_KEYS, FUNCTION_KEYS};
use hedrugal::input::KeyCode;
use hedrugal::ReportedKey;

static LETTERS: Keys = Keys::new(
    "A: UpArrow DownArrow RightArrow LeftArrow H: Home F: End E: KeyPadBegin P: F1 F2 S: F4",
);

// The functional keys for which `KeyCode` has a name.
static FUNCTIONAL_KEYS: Keys = Keys::new(
    "57358: CapsLock ScrollLock NumLock PrintScreen Pause Applications \
     57376: F13 F14 F15 F16 F17 F18 F19 F20 F21 F22 F23 F24 F25 F26 F27 F28 F29 F30 F31 F32 F33 F34 \
     F35 Numpad0 Numpad1 Numpad2 Numpad3 Numpad4 Numpad5 Numpad6 Numpad7 Numpad8 Numpad9 Decimal \
     Divide Multiply Subtract Add 57416: Separator \
     57421: KeyPadPageUp KeyPadPageDown KeyPadHome KeyPadEnd 57427: KeyPadBegin \
     57430: MediaPlayPause 57432: MediaStop 57435: MediaNextTrack MediaPrevTrack \
     57438: VolumeDown VolumeUp VolumeMute LeftShift LeftControl LeftAlt LeftWindows \
     57447: RightShift RightControl RightAlt RightWindows",
);

// The key that a table has for a code.
pub fn listed(table: &Keys, code: impl ToString) -> Option<KeyCode> {
    let code = code.to_string();
    let row = table.rows().iter().find(|(it, _)| *it == code)?;
    Some(row.1)
}

// The key of a number from 57344 to 63743.
pub fn functional_key(number: u32) -> ReportedKey {
    let named = listed(&FUNCTIONAL_KEYS, number).map(ReportedKey::Named);
    named.unwrap_or(ReportedKey::Functional(number))
}

// The key of c.
pub fn key_of(c: char) -> ReportedKey {
    match u32::from(c) {
        number @ 57344..=63743 => functional_key(number),
        _ => other_key_of(c),
    }
}

// The key of the rule `modify_other_keys`, none for 0, and `Char` of c from 128 on.
pub fn other_key_of(c: char) -> ReportedKey {
    let key = match u32::from(c) {
        0 => return ReportedKey::Functional(0),
        8 | 127 => KeyCode::Backspace,
        27 => KeyCode::Escape,
        9 => KeyCode::Tab,
        10 | 13 => KeyCode::Enter,
        _ => KeyCode::Char(c),
    };
    ReportedKey::Named(key)
}

// The key of a letter.
pub fn key_of_letter(letter: u8) -> Option<ReportedKey> {
    listed(&LETTERS, char::from(letter)).map(ReportedKey::Named)
}

// The key of a letter, and F3 of `R`.
pub fn key_of_short_letter(letter: u8) -> Option<ReportedKey> {
    match letter {
        b'R' => Some(ReportedKey::Named(KeyCode::Function(3))),
        _ => key_of_letter(letter),
    }
}

// F21 to F24 by rxvt-unicode's numbers.
static RXVT_KEYS: Keys = Keys::new("35: F21 F22 F23 F24");

// The numbers before `^`, `@` and `$`.
const RXVT_NUMBERS: &[&str] = &[
    "2", "3", "5", "6", "7", "8", "11", "12", "13", "14", "15", "17", "18", "19", "20", "21", "23",
    "24", "25", "26", "28", "29", "31", "32", "33", "34", "35", "36", "37", "38",
];

// The key of such a number.
pub fn rxvt_key_of(number: &[u8]) -> Option<ReportedKey> {
    let known = RXVT_NUMBERS
        .iter()
        .find(|known| known.as_bytes() == number)?;
    key_of_number(known.parse().ok()?)
}

// The key of n before `~`.
pub fn key_of_number(number: u32) -> Option<ReportedKey> {
    let tables = [&EDIT_KEYS, &FUNCTION_KEYS, &RXVT_KEYS].into_iter();
    let key = tables.flat_map(|table| listed(table, number)).next();
    let is_functional = (57344..=63743).contains(&number);
    key.map(ReportedKey::Named)
        .or_else(|| is_functional.then(|| functional_key(number)))
}

// The key of a letter of the Linux console.
pub fn console_key_of(letter: u8) -> Option<ReportedKey> {
    static KEYS: Keys = Keys::new("A: F1 F2 F3 F4 F5");
    listed(&KEYS, char::from(letter)).map(ReportedKey::Named)
}

// The key of a letter behind ESC `O` and a number.
pub fn modified_keypad_key_of(letter: u8) -> Option<ReportedKey> {
    match letter {
        b'P'..=b'S' => Some(ReportedKey::Named(KeyCode::Function(letter - b'P' + 1))),
        b'E' | b'G' => None,
        _ => keypad_key_of(letter),
    }
}

// The key of a letter of the keypad.
pub fn keypad_key_of(letter: u8) -> Option<ReportedKey> {
    static KEYS: Keys = Keys::new(
        "E: KeyPadBegin G: KeyPadBegin j: Multiply Add Separator Subtract Decimal Divide \
         Numpad0 Numpad1 Numpad2 Numpad3 Numpad4 Numpad5 Numpad6 Numpad7 Numpad8 Numpad9",
    );
    match letter {
        b'M' => Some(ReportedKey::Functional(57414)),
        b'X' => Some(ReportedKey::Functional(57415)),
        _ => listed(&KEYS, char::from(letter)).map(ReportedKey::Named),
    }
}
