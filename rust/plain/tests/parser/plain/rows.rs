// The rows of the sequence table, rule by rule, as docs/GRAMMAR.md gives them under "The sequence
// table". A new row of the page is added here, to the list or the loop of its rule.
use super::super::lines::Keys;
use super::modifiers_of;
use hedrugal::input::{KeyCode, KeyEvent, Modifiers};
use std::collections::{BTreeMap, BTreeSet};
use std::ops::Range;

// The modifiers of a suffix by its number; 0 stands for the empty suffix. One less than the number
// has the bits 1 for SHIFT, 2 for ALT, 4 for CTRL and 8 for Meta.
fn modifiers_of_suffix(number: u8) -> Modifiers {
    let bits = number.saturating_sub(1);
    modifiers_of(bits & 1 != 0, bits & (2 | 8) != 0, bits & 4 != 0)
}

// The key of c in the rule `modify_other_keys`.
fn key_of_code(code: u8) -> KeyCode {
    match code {
        8 | 127 => KeyCode::Backspace,
        27 => KeyCode::Escape,
        9 => KeyCode::Tab,
        10 | 13 => KeyCode::Enter,
        _ => KeyCode::Char(char::from(code)),
    }
}

// The rules `numbered_function_keys` and `high_function_keys`.
pub static FUNCTION_KEYS: Keys = Keys::new(
    "11: F1 F2 F3 F4 F5 17: F6 F7 F8 F9 F10 23: F11 F12 F13 F14 28: F15 F16 31: F17 F18 F19 F20 \
     42: F21 F22 F23 F24",
);

static CURSOR_KEYS: Keys = Keys::new("A: UpArrow DownArrow RightArrow LeftArrow H: Home F: End");

static SMALL_ARROWS: Keys = Keys::new("a: UpArrow DownArrow RightArrow LeftArrow");

static APPLICATION_ARROWS: Keys = Keys::new(
    "A: ApplicationUpArrow ApplicationDownArrow ApplicationRightArrow ApplicationLeftArrow",
);

static FIRST_FUNCTIONS: Keys = Keys::new("P: F1 F2 F3 F4");

// The rule `edit_keys`.
pub static EDIT_KEYS: Keys =
    Keys::new("2: Insert Delete 1: Home 7: Home 4: End 8: End 5: PageUp PageDown");

static MODIFIED_EDIT_KEYS: Keys = Keys::new("2: Insert Delete 5: PageUp PageDown");

static HOME_AND_END: Keys = Keys::new("H: Home F: End");

// The rows by their bytes, and each text that properly begins one.
pub struct Table {
    by_bytes: BTreeMap<Vec<u8>, KeyEvent>,
    prefixes: BTreeSet<Vec<u8>>,
    // How many rows the rules gave.
    given: usize,
}

impl Table {
    pub fn new() -> Table {
        let mut table = Table {
            by_bytes: BTreeMap::new(),
            prefixes: BTreeSet::new(),
            given: 0,
        };
        table.add_bytes();
        table.add_alt();
        table.add_characters();
        table.add_functions();
        table.add_modified_edit_keys();
        table.add_lists();
        table
    }

    // How many rows the rules gave, also where two have the same bytes.
    pub fn given(&self) -> usize {
        self.given
    }

    pub fn by_bytes(&self) -> &BTreeMap<Vec<u8>, KeyEvent> {
        &self.by_bytes
    }

    // Whether some row is longer than the text and begins with it.
    pub fn extend(&self, text: &[u8]) -> bool {
        self.prefixes.contains(text)
    }

    fn add(&mut self, text: &str, key: KeyCode, modifiers: Modifiers) {
        let bytes = text.as_bytes();
        for len in 1..bytes.len() {
            self.prefixes.insert(bytes[..len].to_vec());
        }
        self.by_bytes
            .insert(bytes.to_vec(), KeyEvent { key, modifiers });
        self.given += 1;
    }

    // A row for each key of a list, by its last character.
    fn add_each(&mut self, front: &str, keys: &Keys, end: &str, modifiers: Modifiers) {
        for (last, key) in keys.rows() {
            self.add(&format!("{front}{last}{end}"), *key, modifiers);
        }
    }

    // A row for each of these suffixes.
    fn add_suffixed(&mut self, front: &str, numbers: Range<u8>, end: &str, key: KeyCode) {
        for number in numbers {
            let bytes = if number == 0 {
                format!("{front}{end}")
            } else {
                format!("{front};{number}{end}")
            };
            self.add(&bytes, key, modifiers_of_suffix(number));
        }
    }

    // Each key of a list with each suffix up to a number.
    fn add_each_suffixed(&mut self, front: &str, limit: u8, keys: &Keys) {
        for (last, key) in keys.rows() {
            self.add_suffixed(front, 0..limit, last, *key);
        }
    }

    // The rules `control_letters`, `backspace_bytes`, `tab_byte`, `enter_bytes` and `escape_byte`.
    fn add_bytes(&mut self) {
        for byte in 1..128u8 {
            let (key, modifiers) = match byte {
                8 | 127 => (KeyCode::Backspace, Modifiers::NONE),
                9 => (KeyCode::Tab, Modifiers::NONE),
                10 | 13 => (KeyCode::Enter, Modifiers::NONE),
                27 => (KeyCode::Escape, Modifiers::NONE),
                1..=26 => (KeyCode::Char(char::from(byte + 96)), Modifiers::CTRL),
                _ => continue,
            };
            self.add(&char::from(byte).to_string(), key, modifiers);
        }
    }

    // The rules `alt_letters` and `alt_bracket`: in ASCII the bracket follows `Z`.
    fn add_alt(&mut self) {
        for letter in 'A'..='[' {
            self.add(
                &format!("\x1b{letter}"),
                KeyCode::Char(letter),
                Modifiers::ALT,
            );
        }
    }

    // The rules `csi_u` and `modify_other_keys`.
    fn add_characters(&mut self) {
        for code in 0..128u8 {
            self.add_suffixed(
                &format!("\x1b[{code}"),
                0..9,
                "u",
                KeyCode::Char(char::from(code)),
            );
            self.add_suffixed("\x1b[27", 1..9, &format!(";{code}~"), key_of_code(code));
        }
    }

    // The rules `numbered_function_keys` and `high_function_keys`.
    fn add_functions(&mut self) {
        for (code, key) in FUNCTION_KEYS.rows() {
            self.add_suffixed(&format!("\x1b[{code}"), 0..17, "~", *key);
        }
    }

    // The rule `modified_edit_keys`.
    fn add_modified_edit_keys(&mut self) {
        for (digit, key) in MODIFIED_EDIT_KEYS.rows() {
            self.add_suffixed(&format!("\x1b[{digit}"), 1..9, "~", *key);
        }
    }

    // All other rules.
    fn add_lists(&mut self) {
        let none = Modifiers::NONE;
        let shift = Modifiers::SHIFT;
        let ctrl = Modifiers::CTRL;
        self.add_each("\x1b[", &Keys::new("Z: Tab"), "", shift);
        self.add_each("\x1b[", &CURSOR_KEYS, "", none);
        self.add_each_suffixed("\x1b[1", 17, &CURSOR_KEYS);
        self.add_each("\x1b[", &SMALL_ARROWS, "", shift);
        self.add_each("\x1bO", &SMALL_ARROWS, "", ctrl);
        self.add_each("\x1bO", &APPLICATION_ARROWS, "", none);
        self.add_each_suffixed("\x1bO1", 9, &APPLICATION_ARROWS);
        self.add_each("\x1bO", &FIRST_FUNCTIONS, "", none);
        self.add_each_suffixed("\x1b[1", 17, &FIRST_FUNCTIONS);
        self.add_each("\x1b[", &EDIT_KEYS, "~", none);
        self.add_each("\x1b[", &EDIT_KEYS, "$", shift);
        self.add_each("\x1b[", &EDIT_KEYS, "^", ctrl);
        self.add_each("\x1b[", &EDIT_KEYS, "@", shift | ctrl);
        self.add_each("\x1b[20", &Keys::new("0: InternalPasteStart"), "~", none);
        self.add_each("\x1b[20", &Keys::new("1: InternalPasteEnd"), "~", none);
        self.add_each("\x1bO", &HOME_AND_END, "", none);
        self.add_each("\x1b[1;5", &Keys::new("Z: Tab"), "", shift | ctrl);
    }
}
