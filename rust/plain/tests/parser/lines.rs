// Events as keyshow's lines, and what is read back from such lines.
use super::names::{BUTTONS, MODIFIERS, PLAIN_KEYS};
use hedrugal::input::{InputEvent, KeyCode, KeyEvent, Modifiers, MouseButtons};
use std::sync::OnceLock;

// The names of a table whose flags are in a set, joined by +.
fn joined<Flag: Copy>(table: &[(&str, Flag)], has: impl Fn(Flag) -> bool) -> String {
    let names = table.iter().filter(|(_, flag)| has(*flag));
    let names: Vec<&str> = names.map(|(name, _)| *name).collect();
    match names[..] {
        [] => "NONE".to_string(),
        _ => names.join("+"),
    }
}

fn modifiers(held: Modifiers) -> String {
    joined(MODIFIERS, |flag| held.contains(flag))
}

fn buttons(down: MouseButtons) -> String {
    joined(BUTTONS, |flag| down.contains(flag))
}

// The name of a key.
pub fn key_name(key: KeyCode) -> String {
    match key {
        KeyCode::Char(character) => format!("U+{:04X}", u32::from(character)),
        KeyCode::Function(number) => format!("F{number}"),
        key => format!("{key:?}"),
    }
}

fn key(event: &KeyEvent) -> String {
    format!("key {} {}", key_name(event.key), modifiers(event.modifiers))
}

// The bytes as hexadecimal digits.
pub fn hex(bytes: &[u8]) -> String {
    bytes.iter().map(|byte| format!("{byte:02x}")).collect()
}

// The bytes of hexadecimal digits.
pub fn bytes(hex: &str) -> Vec<u8> {
    assert_eq!(hex.len() % 2, 0, "{hex}");
    (0..hex.len())
        .step_by(2)
        .map(|at| u8::from_str_radix(&hex[at..at + 2], 16).expect(hex))
        .collect()
}

// The line of an event, without its end.
pub fn line(event: &InputEvent) -> String {
    match event {
        InputEvent::Key(event) => key(event),
        InputEvent::Mouse(event) => {
            let (buttons, modifiers) = (buttons(event.mouse_buttons), modifiers(event.modifiers));
            format!("mouse {} {} {buttons} {modifiers}", event.x, event.y)
        }
        InputEvent::Paste(text) => format!("paste {}:{}", text.len(), hex(text.as_bytes())),
        event => panic!("the parser never makes {event:?}"),
    }
}

// The lines of events, parted by commas.
pub fn lines(events: &[InputEvent]) -> String {
    let lines: Vec<String> = events.iter().map(line).collect();
    lines.join(",")
}

// The modifiers of names joined by +.
pub fn modifiers_named(names: &str) -> Modifiers {
    let mut held = Modifiers::NONE;
    for name in names.split('+').filter(|name| *name != "NONE") {
        let named = MODIFIERS.iter().find(|(other, _)| *other == name);
        held |= named.unwrap_or_else(|| panic!("no modifier {name}")).1;
    }
    held
}

// The key of a name as keyshow prints it.
pub fn key_named(name: &str) -> KeyCode {
    if let Some(code) = name.strip_prefix("U+") {
        let code = u32::from_str_radix(code, 16).expect(name);
        return KeyCode::Char(char::from_u32(code).expect(name));
    }
    if let Some(Ok(number)) = name.strip_prefix('F').map(str::parse) {
        return KeyCode::Function(number);
    }
    let named = PLAIN_KEYS.iter().find(|key| format!("{key:?}") == name);
    *named.unwrap_or_else(|| panic!("no key {name}"))
}

// A table of keys by their codes. In its text `A:` is the code of the key behind it, and those behind
// that have the next codes. A word of one character is the key of that.
pub struct Keys {
    text: &'static str,
    rows: OnceLock<Vec<(String, KeyCode)>>,
}

impl Keys {
    pub const fn new(text: &'static str) -> Keys {
        let rows = OnceLock::new();
        Keys { text, rows }
    }

    pub fn rows(&self) -> &[(String, KeyCode)] {
        self.rows.get_or_init(|| {
            let (mut code, mut rows) = (String::new(), Vec::new());
            for word in self.text.split_whitespace() {
                if let Some(told) = word.strip_suffix(':') {
                    code = told.to_string();
                    continue;
                }
                let character = word.parse().map(KeyCode::Char);
                rows.push((code.clone(), character.unwrap_or_else(|_| key_named(word))));
                code = match code.parse::<u32>() {
                    Ok(number) => (number + 1).to_string(),
                    Err(_) => code.bytes().map(|it| char::from(it + 1)).collect(),
                };
            }
            rows
        })
    }
}

// The bytes that stand behind a backslash, and their letters.
pub const ESCAPED: &[(u8, u8)] = &[
    (0x1b, b'e'),
    (b'\r', b'r'),
    (b'\n', b'n'),
    (b'\t', b't'),
    (b'"', b'"'),
    (b'\\', b'\\'),
    (b' ', b's'),
];

// The bytes of a word in quotes.
pub fn unquoted(word: &str) -> Vec<u8> {
    let inner = word.strip_prefix('"').and_then(|it| it.strip_suffix('"'));
    let mut rest = inner.expect(word).as_bytes();
    let mut bytes = Vec::new();
    while let [byte, after @ ..] = rest {
        rest = after;
        bytes.push(match (byte, after) {
            (b'\\', [b'x', digits @ ..]) if digits.len() >= 2 => {
                rest = &digits[2..];
                let digits = std::str::from_utf8(&digits[..2]).expect(word);
                u8::from_str_radix(digits, 16).expect(word)
            }
            (b'\\', [letter, after @ ..]) => {
                rest = after;
                let escaped = ESCAPED.iter().find(|(_, it)| it == letter);
                escaped.expect(word).0
            }
            (b'!'..=b'~', _) if *byte != b'"' => *byte,
            _ => panic!("{word} has a byte that is to be escaped"),
        });
    }
    bytes
}
