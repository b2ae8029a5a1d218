// The texts of keys, on worked examples.
use crate::names::PLAIN_KEYS;
use hedrugal::input::{
    EncodeError, KeyCode, KeyCodeEncodeModes, KeyboardEncoding, Modifiers, CSI, SS3,
};

pub const NONE: Modifiers = Modifiers::NONE;

pub const SHIFT: Modifiers = Modifiers::SHIFT;

pub const ALT: Modifiers = Modifiers::ALT;

pub const CTRL: Modifiers = Modifiers::CTRL;

pub const SUPER: Modifiers = Modifiers::SUPER;

// xterm's encoding, with every other mode off.
pub const XTERM: KeyCodeEncodeModes = KeyCodeEncodeModes {
    encoding: KeyboardEncoding::Xterm,
    application_cursor_keys: false,
    newline_mode: false,
    modify_other_keys: None,
};

// The same in application cursor mode.
pub const APPLICATION: KeyCodeEncodeModes = KeyCodeEncodeModes {
    application_cursor_keys: true,
    ..XTERM
};

// Only a function key outside F1 to F24 is refused, and only while it is down.
#[test]
fn refuses_unknown_function_keys() {
    for number in [0, 25, 255] {
        let encode = |is_down| KeyCode::Function(number).encode(NONE, XTERM, is_down);
        let refusal = EncodeError::UnhandledFunctionKey(number);
        assert_eq!(
            (encode(true), encode(false)),
            (Err(refusal), Ok(String::new()))
        );
    }
    let released = KeyCode::Char('a').encode(NONE, XTERM, false);
    assert_eq!(released, Ok(String::new()));
}

// A key that is up has the empty text, and every key but a function key has a text.
#[test]
fn encodes_every_key() {
    let keys = PLAIN_KEYS.iter().copied().chain([KeyCode::Char('a')]);
    for key in keys.chain((1..=24).map(KeyCode::Function)) {
        assert!(key.encode(SHIFT, XTERM, true).is_ok(), "{key:?}");
        let released = key.encode(SHIFT, XTERM, false);
        assert_eq!(released, Ok(String::new()), "{key:?}");
    }
}

#[test]
fn tells_errors() {
    let errors = [
        EncodeError::UnhandledFunctionKey(25),
        EncodeError::UnnamedBits,
        EncodeError::Memory,
    ];
    let texts = [
        "unhandled fkey number 25",
        "a bit has no name",
        "out of memory",
    ];
    assert_eq!(errors.map(|it| it.to_string()), texts);
}

#[test]
fn names_introducers() {
    assert_eq!((CSI, SS3), ("\x1b[", "\x1bO"));
}

#[test]
fn knows_modifier_keys() {
    let modifiers = PLAIN_KEYS.iter().filter(|key| key.is_modifier());
    let names: Vec<String> = modifiers.map(|key| format!("{key:?}")).collect();
    let wanted =
        "Hyper Super Meta Shift LeftShift RightShift Control LeftControl RightControl Alt LeftAlt RightAlt LeftWindows RightWindows";
    assert_eq!(names.join(" "), wanted);
    assert!(!KeyCode::Char('a').is_modifier() && !KeyCode::Function(1).is_modifier());
}

#[test]
fn shifts_letters() {
    for (key, modifiers, wanted) in [
        (KeyCode::Char('a'), SHIFT, KeyCode::Char('A')),
        (KeyCode::Char('z'), SHIFT | CTRL, KeyCode::Char('Z')),
        (KeyCode::Char('a'), CTRL, KeyCode::Char('a')),
        (KeyCode::Char('1'), SHIFT, KeyCode::Char('1')),
        (KeyCode::Char('é'), SHIFT, KeyCode::Char('é')),
        (KeyCode::Tab, SHIFT, KeyCode::Tab),
    ] {
        let capital = key.normalize_shift_to_upper_case(modifiers);
        assert_eq!(capital, wanted, "{key:?}");
    }
}
