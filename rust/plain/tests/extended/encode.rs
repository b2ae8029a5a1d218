// Key reports to bytes, and back.
use crate::calls::Calls;
use crate::plain::keys::functional_key;
use crate::plain::presses::main_key;
use crate::plain::{pressed, ALT, CTRL, NONE, SHIFT};
use crate::port::names::keys;
use crate::presses::functional;
use hedrugal::input::{KeyCode, KittyKeyboardFlags as Flags};
use hedrugal::{
    Dialect, Event, KeyEventKind, KeyReport, KittyEncodeError, KittyModifiers, Parser, ReportedKey,
};

const KINDS: [KeyEventKind; 3] = [
    KeyEventKind::Press,
    KeyEventKind::Repeat,
    KeyEventKind::Release,
];

const SUPER: KittyModifiers = KittyModifiers::SUPER;

const CAPS_LOCK: KittyModifiers = KittyModifiers::CAPS_LOCK;

const NUM_LOCK: KittyModifiers = KittyModifiers::NUM_LOCK;

const DISAMBIGUATE: Flags = Flags::DISAMBIGUATE_ESCAPE_CODES;

const EVENT_TYPES: Flags = Flags::REPORT_EVENT_TYPES;

const ALL_KEYS: Flags = Flags::REPORT_ALL_KEYS_AS_ESCAPE_CODES;

// A key, to which this happened while these modifiers were held.
fn report(key: KeyCode, modifiers: KittyModifiers, kind: KeyEventKind) -> KeyReport {
    KeyReport {
        kind,
        ..pressed(ReportedKey::Named(key), modifiers)
    }
}

fn press(key: KeyCode, modifiers: KittyModifiers) -> KeyReport {
    report(key, modifiers, KeyEventKind::Press)
}

// Shift and a, which types A.
fn shift_a(text: &str) -> KeyReport {
    KeyReport {
        shifted: Some('A'),
        base: Some('b'),
        text: text.to_string(),
        ..press(KeyCode::Char('a'), SHIFT)
    }
}

fn check(report: &KeyReport, flags: Flags, wanted: &str) {
    for sent in [report.encode(flags), report.try_encode(flags)] {
        assert_eq!(sent.as_deref(), Ok(wanted), "{report:?} {flags}");
    }
}

// Locks, repeats and the flag for releases change nothing of what the keys of C0 controls send.
#[test]
fn legacy_keys() {
    let named = keys![Enter Escape Backspace Tab];
    for key in named.into_iter().chain([KeyCode::Char(' ')]) {
        for bits in 0..7 {
            let modifiers = KittyModifiers::from_bits_retain(bits);
            let text = press(key, modifiers).encode(Flags::NONE).unwrap();
            for locks in [NONE, CAPS_LOCK, NUM_LOCK] {
                let held = modifiers | locks;
                check(&press(key, held), Flags::NONE, &text);
                check(&report(key, held, KeyEventKind::Repeat), Flags::NONE, &text);
                check(&press(key, held), EVENT_TYPES, &text);
            }
        }
    }
    // These are no keys that are read.
    let escape = press(KeyCode::Char('\u{1b}'), NONE);
    check(&escape, Flags::NONE, "\x1b[27u");
    check(&functional(57363, NONE), Flags::NONE, "\x1b[29~");
}

// A key of the keypad, by its number and by its name, is its main key where neither
// DISAMBIGUATE_ESCAPE_CODES nor REPORT_ALL_KEYS_AS_ESCAPE_CODES is on.
#[test]
fn keypad() {
    for number in 57399..=57427 {
        let numbered = ReportedKey::Functional(number);
        for modifiers in [NONE, CTRL, SHIFT | ALT, SUPER, NUM_LOCK, CTRL | NUM_LOCK] {
            for kind in KINDS {
                let of = |key| KeyReport {
                    kind,
                    ..pressed(key, modifiers)
                };
                let more = EVENT_TYPES | Flags::REPORT_ALTERNATE_KEYS;
                for flags in [Flags::NONE, EVENT_TYPES, more] {
                    let wanted = of(main_key(numbered)).encode(flags).unwrap();
                    check(&of(functional_key(number)), flags, &wanted);
                    check(&of(numbered), flags, &wanted);
                }
            }
            let text = match modifiers.bits() {
                0 => format!("\x1b[{number}u"),
                bits => format!("\x1b[{number};{}u", 1 + u32::from(bits)),
            };
            check(&pressed(numbered, modifiers), DISAMBIGUATE, &text);
            check(&pressed(numbered, modifiers), ALL_KEYS, &text);
        }
    }
}

// A bit that no flag has is refused.
#[test]
fn unnamed_flags() {
    let escape = press(KeyCode::Escape, NONE);
    for place in 5..16 {
        for flags in [Flags::NONE, DISAMBIGUATE, Flags::all()] {
            let sent = escape.encode(flags | Flags::from_bits_retain(1 << place));
            let refusal = Err(KittyEncodeError::UnnamedBits);
            assert_eq!(sent, refusal, "{flags} and bit {place}");
        }
    }
}

#[test]
fn keys_without_bytes() {
    let (none, all) = (Flags::NONE, Flags::all());
    let key = |key| press(key, NONE);
    let number = |number| functional(number, NONE);
    for (report, flags) in [
        (key(KeyCode::Copy), &[none, all][..]),
        (key(KeyCode::Function(36)), &[none, all, ALL_KEYS]),
        (key(KeyCode::Function(0)), &[none, all]),
        (key(KeyCode::ApplicationUpArrow), &[none]),
        (key(KeyCode::BrowserHome), &[ALL_KEYS]),
        (number(1), &[all]),
        (number(57343), &[all, ALL_KEYS]),
        (number(63744), &[all]),
        (number(u32::MAX), &[all]),
    ] {
        for flags in flags {
            for sent in [report.encode(*flags), report.try_encode(*flags)] {
                let refusal = Err(KittyEncodeError::UnknownKey);
                assert_eq!(sent, refusal, "{report:?} {flags}");
            }
        }
    }
}

#[test]
fn long_texts() {
    for len in [50, 256, 257, 5000, 2 << 20] {
        let text = "x".repeat(len);
        check(&shift_a(&text), Flags::NONE, &text);
        let sent = shift_a(&text).encode(Flags::all());
        let wanted = match len {
            50 => Ok("\x1b[97:65:98;2;u".len() + "120:".len() * 50 - 1),
            _ => Err(KittyEncodeError::TooLong),
        };
        assert_eq!(sent.map(|it| it.len()), wanted);
    }
    // Nothing is known of the standard layout.
    for (len, wanted) in [(60, Ok(190)), (200, Err(KittyEncodeError::TooLong))] {
        let mut alone = shift_a(&"A".repeat(len));
        alone.base = None;
        assert_eq!(alone.encode(Flags::all()).map(|it| it.len()), wanted);
    }
}

#[test]
fn read_back() {
    let mut parser = Parser::new(Dialect::Extended);
    let named = keys![Escape Tab UpArrow Delete Numpad0 RightAlt KeyPadBegin];
    let others = [1, 3, 35].map(KeyCode::Function).into_iter();
    let others = others.chain(['a', '\u{10ffff}'].map(KeyCode::Char));
    let keys: Vec<KeyCode> = named.into_iter().chain(others).collect();
    let mut read = |report: KeyReport| {
        let sent = report.encode(Flags::all()).unwrap();
        let events = parser.read(sent.as_bytes(), true);
        assert_eq!(events, [Event::Key(report)], "{sent:?}");
    };
    for bits in 0..=255 {
        for kind in KINDS {
            let modifiers = KittyModifiers::from_bits_retain(bits);
            for &key in &keys {
                read(report(key, modifiers, kind));
            }
            read(KeyReport {
                kind,
                ..functional(57428, modifiers)
            });
        }
    }
    read(shift_a("A€"));
    read(shift_a(""));
}

// What is sent without flags is one key, that of the report, with all its modifiers. By the text a
// key can be another: 29 is F16, and what Ctrl makes of i is Tab.
#[test]
fn legacy_read_back() {
    let mut parser = Parser::new(Dialect::Extended);
    let mut read = |sent: &KeyReport, key: KeyCode, modifiers: KittyModifiers| {
        let text = sent.encode(Flags::NONE).unwrap();
        let events = parser.read(text.as_bytes(), false);
        let [event] = events.as_slice() else {
            panic!("{sent:?}: {events:?}");
        };
        assert_eq!(event.key(), Some(&press(key, modifiers)), "{sent:?}");
    };
    for bits in 0..64 {
        let modifiers = KittyModifiers::from_bits_retain(bits);
        for key in keys![UpArrow Home Delete PageUp PrintScreen KeyPadBegin] {
            read(&press(key, modifiers), key, modifiers);
        }
        for key in (1..=35).map(KeyCode::Function) {
            read(&press(key, modifiers | NUM_LOCK), key, modifiers);
        }
        if bits & 0x3f > 7 {
            let named = keys![Enter Escape Tab];
            for key in named.into_iter().chain([KeyCode::Char('q')]) {
                read(&press(key, modifiers), key, modifiers);
            }
        }
        read(&functional(57426, modifiers), KeyCode::Delete, modifiers);
    }
    for c in (' '..='@').chain('['..='~') {
        read(&press(KeyCode::Char(c), ALT), KeyCode::Char(c), ALT);
        let mut shifted = press(KeyCode::Char(c), ALT | SHIFT);
        shifted.shifted = Some('Ω');
        let told = if c == ' ' { ' ' } else { 'Ω' };
        read(&shifted, KeyCode::Char(told), ALT);
    }
    for c in ('a'..='z').filter(|c| !"hijm".contains(*c)) {
        for modifiers in [CTRL, CTRL | ALT] {
            let key = KeyCode::Char(c);
            read(&press(key, modifiers), key, modifiers);
        }
    }
    for (key, modifiers) in [
        (KeyCode::Escape, NONE),
        (KeyCode::Escape, ALT),
        (KeyCode::Enter, ALT),
        (KeyCode::Backspace, ALT),
        (KeyCode::Tab, ALT),
        (KeyCode::Tab, SHIFT),
        (KeyCode::Tab, ALT | SHIFT),
    ] {
        read(&press(key, modifiers), key, modifiers);
    }
    let menu = press(KeyCode::Applications, SHIFT);
    read(&menu, KeyCode::Function(16), SHIFT);
    read(&press(KeyCode::Char('i'), CTRL), KeyCode::Tab, NONE);
}

#[test]
fn errors_as_texts() {
    for (error, text) in [
        (
            KittyEncodeError::UnknownKey,
            "the protocol has no number for the key",
        ),
        (KittyEncodeError::TooLong, "the text of the key is too long"),
        (KittyEncodeError::UnnamedBits, "a bit has no name"),
        (KittyEncodeError::Memory, "out of memory"),
    ] {
        assert_eq!(error.to_string(), text);
    }
}
