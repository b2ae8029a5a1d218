// A slow reader of twins: what is read in place of a key. It follows the tables of the page of the crate
// termwiz_binding_laws line by line.
use super::keys::listed;
use super::presses::{is_control, main_key, said_of, Press, Said};
use super::{pressed, ALT, CTRL, NONE, SHIFT};
use crate::port::lines::Keys;
use hedrugal::input::KeyCode::{self, Char, Function};
use hedrugal::input::KittyKeyboardFlags as Flags;
use hedrugal::{KeyEventKind, KeyReport, KittyModifiers as Held, ReportedKey};

const SUPER: Held = Held::SUPER;

// A key, and the modifiers held with it.
pub type Key = (KeyCode, Held);

// The modes that tell keys apart.
#[derive(Debug, Clone, Copy)]
pub struct Modes {
    pub is_csi_u: bool,
    pub level: Option<i64>,
}

impl Modes {
    fn tell_codes(self) -> bool {
        self.is_csi_u || self.level.is_some()
    }

    fn tell_escape(self) -> bool {
        self.is_csi_u || self.level.is_some_and(|level| level != 1)
    }
}

// What is read in place of Ctrl and one of these characters.
type Row = (&'static str, KeyCode, Held);

const CONTROL: &[Row] = &[
    ("8?", KeyCode::Backspace, NONE),
    ("i", KeyCode::Tab, NONE),
    ("m", KeyCode::Enter, NONE),
    ("[3{", KeyCode::Escape, NONE),
    ("@2`", Char(' '), CTRL),
    ("4|", Char('\\'), CTRL),
    ("5}", Char(']'), CTRL),
    ("6~", Char('^'), CTRL),
    ("7/", Char('_'), CTRL),
];

// To the port the bytes 8 and 10 are keys too.
const PORT_CONTROL: &[Row] = &[("h", KeyCode::Backspace, NONE), ("j", KeyCode::Enter, NONE)];

const TOLD_IN_CSI_U: &str = "im[@{";

const HAS_CONTROL: &str = " \\]^_abcdefghijklmnopqrstuvwxyz";

static EDIT_KEYS: Keys = Keys::new(
    "Numpad0: Insert Numpad1: End Numpad2: DownArrow Numpad3: PageDown Numpad4: LeftArrow \
     Numpad5: KeyPadBegin Numpad6: RightArrow Numpad7: Home Numpad8: UpArrow Numpad9: PageDown \
     Decimal: Delete",
);

// The key that a table has for Ctrl and a character, with ALT too if that is held.
fn controlled(tables: &[&[Row]], c: char, held: Held) -> Option<Key> {
    let mut rows = tables.iter().copied().flatten();
    let (_, key, control) = rows.find(|row| row.0.contains(c))?;
    Some((*key, control.union(held.intersection(ALT))))
}

// Of Ctrl and a character of ASCII.
fn twin_of_control(tables: &[&[Row]], c: char, held: Held, modes: Modes) -> Key {
    let is_capital = c.is_ascii_uppercase() || c.is_ascii_lowercase() && held.contains(SHIFT);
    if modes.level == Some(2) || is_capital && modes.tell_codes() {
        return (Char(c), held);
    }
    let (c, held) = match is_capital {
        true => (c.to_ascii_lowercase(), held.difference(SHIFT)),
        false => (c, held),
    };
    if c == ' ' {
        return (Char(c), held.difference(SHIFT));
    }
    if modes.is_csi_u && TOLD_IN_CSI_U.contains(c) {
        return (Char(c), held);
    }
    if let Some(key) = controlled(tables, c, held) {
        return key;
    }
    if HAS_CONTROL.contains(c) || modes.tell_codes() && !held.contains(ALT) {
        return (Char(c), held);
    }
    (Char(c), held.intersection(ALT))
}

fn twin_of_character(tables: &[&[Row]], c: char, held: Held, modes: Modes) -> Key {
    if !c.is_ascii() {
        let told = match is_control(c) {
            true => held,
            false => held.difference(SHIFT),
        };
        let is_on = modes.level.is_some();
        return (Char(c), if is_on { told } else { held.intersection(ALT) });
    }
    let held = match c.is_ascii_punctuation() {
        true => held.difference(SHIFT),
        false => held,
    };
    if held.contains(CTRL) {
        return twin_of_control(tables, c, held, modes);
    }
    let is_coded = modes.tell_codes() && (c == ' ' || !held.contains(ALT));
    match c.is_ascii_alphabetic() || is_coded {
        true => (Char(c), held),
        false => (Char(c), held.difference(SHIFT)),
    }
}

// Of a key that has a name, but for Backspace with a modifier.
fn twin_of_name(key: KeyCode, held: Held, modes: Modes) -> Key {
    let is_on = modes.level.is_some();
    let is_told = match key {
        KeyCode::Tab => !held.contains(SUPER) || is_on,
        KeyCode::Enter => modes.tell_codes(),
        KeyCode::Escape | KeyCode::Backspace => modes.tell_escape(),
        _ => true,
    };
    if !is_told {
        return (key, held.intersection(ALT));
    }
    let edit = listed(&EDIT_KEYS, format!("{key:?}"));
    (edit.unwrap_or(key), held.difference(SUPER))
}

// What the extended dialect reads of a key that `KeyCode::encode` sends.
pub fn twin(key: KeyCode, held: Held, modes: Modes) -> Key {
    let without_super = held.difference(SUPER);
    match key {
        Char('\x08') | KeyCode::Backspace => {
            if held.contains(CTRL) && !modes.tell_escape() {
                return (Char('h'), CTRL.union(held.intersection(ALT)));
            }
            twin_of_name(KeyCode::Backspace, held, modes)
        }
        Char('\x7f') => (KeyCode::Delete, without_super),
        Char(c) if c < ' ' => {
            let is_told = match c {
                '\x1b' => modes.tell_escape(),
                _ => modes.tell_codes(),
            };
            match (is_told, c) {
                (false, _) => (key, held.intersection(ALT)),
                (true, '\n') if held != NONE => (KeyCode::Enter, without_super),
                _ => (key, without_super),
            }
        }
        Char(c) if c.is_ascii_digit() && !modes.is_csi_u => {
            twin_of_character(&[CONTROL], c, without_super.difference(SHIFT), modes)
        }
        Char(c) => twin_of_character(&[CONTROL], c, without_super, modes),
        _ => twin_of_name(key, held, modes),
    }
}

// What termwiz's dialect reads of it.
pub fn port_twin(key: KeyCode, held: Held, modes: Modes) -> Key {
    let without_super = held.difference(SUPER);
    match key {
        // By its code this is a character: U+0008 with Ctrl, and U+007F without.
        KeyCode::Backspace if modes.is_csi_u && held.contains(CTRL) => {
            (Char('\x08'), without_super)
        }
        KeyCode::Backspace if modes.is_csi_u && held.contains(SHIFT) => {
            (Char('\x7f'), without_super)
        }
        Char(c) => twin_of_character(&[CONTROL, PORT_CONTROL], c, without_super, modes),
        _ => twin_of_name(key, held, modes),
    }
}

// The press of a key with modifiers, and what it types with Shift.
fn press_of(key: ReportedKey, held: Held, shifted: Option<char>, text: &str) -> Option<Press> {
    let said = said_of(&KeyReport {
        shifted,
        text: text.to_string(),
        ..pressed(key, held)
    });
    match said {
        Said::Press(press) => Some(press),
        _ => None,
    }
}

pub fn press_of_key((key, held): Key) -> Option<Press> {
    press_of(ReportedKey::Named(key), held, None, "")
}

// The sets of modifiers in the columns of Kitty's tables, and which of them text keys have.
const OF_TEXT_KEYS: &[Held] = &[ALT, CTRL, CTRL.union(ALT), SHIFT.union(ALT)];

fn is_column(held: Held) -> bool {
    [NONE, SHIFT, SHIFT.union(CTRL)].contains(&held) || OF_TEXT_KEYS.contains(&held)
}

fn is_text_key(c: char) -> bool {
    c.is_ascii_graphic() && !c.is_ascii_uppercase()
}

// The characters with a row that Ctrl leaves as they are.
const UNCHANGED_BY_CTRL: &str = "`{|}";

fn is_of_tables(key: ReportedKey, held: Held, shifted: Option<char>) -> bool {
    let ReportedKey::Named(key) = key else {
        return false;
    };
    match key {
        Char(' ') | KeyCode::Escape | KeyCode::Enter | KeyCode::Tab | KeyCode::Backspace => {
            is_column(held)
        }
        Char(c) if is_text_key(c) && held == SHIFT.union(ALT) => {
            c.is_ascii_lowercase() || shifted.is_some_and(|c| !is_control(c))
        }
        Char(c) => is_text_key(c) && OF_TEXT_KEYS.contains(&held),
        _ => key == KeyCode::Applications,
    }
}

// What is read of Kitty's tables: the key, the modifiers, and what it types with Shift.
fn legacy_twin(key: KeyCode, held: Held, shifted: Option<char>) -> (Key, Option<char>) {
    let alt = held.intersection(ALT);
    let twin = match key {
        KeyCode::Backspace if held.contains(CTRL) => (Char('h'), CTRL.union(alt)),
        KeyCode::Enter | KeyCode::Escape | KeyCode::Backspace => (key, alt),
        KeyCode::Tab => (key, held.difference(CTRL)),
        KeyCode::Applications => (Function(16), held),
        Char(' ') => (key, held.difference(SHIFT)),
        Char(c) if held.contains(CTRL) => match controlled(&[CONTROL], c, held) {
            Some(twin) if !UNCHANGED_BY_CTRL.contains(c) => twin,
            _ if HAS_CONTROL.contains(c) => (key, held),
            _ => (key, alt),
        },
        _ => return ((key, held), shifted),
    };
    (twin, None)
}

// What a key that is sent as its text tells: the character, or Enter, Tab or Backspace.
fn shown(key: ReportedKey, report: &KeyReport) -> ReportedKey {
    let shifted = report.shifted.filter(|c| !is_control(*c));
    let c = match (report.text.chars().next(), key) {
        (Some(c), _) => c,
        (None, ReportedKey::Named(Char(c))) if report.modifiers.contains(SHIFT) => {
            shifted.unwrap_or(c.to_ascii_uppercase())
        }
        _ => return key,
    };
    ReportedKey::Named(Char(c))
}

// The press that is read of a report that `encode_kitty` sends.
pub fn kitty_twin(report: &KeyReport, flags: Flags) -> Option<Press> {
    let all_keys = flags.contains(Flags::REPORT_ALL_KEYS_AS_ESCAPE_CODES);
    let is_protocol = all_keys || flags.contains(Flags::DISAMBIGUATE_ESCAPE_CODES);
    let held = report
        .modifiers
        .difference(Held::CAPS_LOCK.union(Held::NUM_LOCK));
    let told = match is_protocol {
        true => report.key,
        false => main_key(report.key),
    };
    let types = matches!(told, ReportedKey::Named(Char(c)) if !is_control(c));
    let is_text = (types || !report.text.is_empty()) && held.difference(SHIFT) == NONE;
    let has_text = [KeyCode::Enter, KeyCode::Tab, KeyCode::Backspace].map(ReportedKey::Named);
    if (is_text || has_text.contains(&told) && held == NONE) && !all_keys {
        return press_of(shown(told, report), NONE, None, "");
    }
    let tells_repeats = flags.contains(Flags::REPORT_EVENT_TYPES);
    let is_press = report.kind == KeyEventKind::Press || !tells_repeats;
    if let (false, true, ReportedKey::Named(key)) = (is_protocol, is_press, told) {
        if is_of_tables(told, held, report.shifted) {
            let ((key, held), shifted) = legacy_twin(key, held, report.shifted);
            return press_of(ReportedKey::Named(key), held, shifted, "");
        }
    }
    let tells_shifted = flags.contains(Flags::REPORT_ALTERNATE_KEYS);
    let tells_text = all_keys && flags.contains(Flags::REPORT_ASSOCIATED_TEXT);
    press_of(
        report.key,
        held,
        report.shifted.filter(|_| tells_shifted),
        if tells_text { &report.text } else { "" },
    )
}
