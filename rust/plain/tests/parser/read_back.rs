// Keys that are encoded and read back, as docs/GRAMMAR.md lists them under "Keys that read back", and
// instances of the laws of `termwiz_laws` on keys that it doesn't list.
use crate::calls::Buffer;
use crate::encode::{ALT, APPLICATION, CTRL, NONE, SHIFT, SUPER, XTERM};
use crate::names::keys;
use crate::plain::key_event;
use hedrugal::input::{InputParser, KeyCode, KeyCodeEncodeModes, KeyboardEncoding, Modifiers};

// xterm's encoding with modifyOtherKeys at this level.
const fn level(level: i64) -> KeyCodeEncodeModes {
    KeyCodeEncodeModes {
        modify_other_keys: Some(level),
        ..XTERM
    }
}

const LEVEL_1: KeyCodeEncodeModes = level(1);

const LEVEL_2: KeyCodeEncodeModes = level(2);

// The encoding CSI u.
const CSI_U: KeyCodeEncodeModes = KeyCodeEncodeModes {
    encoding: KeyboardEncoding::CsiU,
    ..XTERM
};

// Modes, which but for one are levels of modifyOtherKeys.
type Modes = &'static [KeyCodeEncodeModes];

const ALL: Modes = &[XTERM, LEVEL_1, LEVEL_2];

const OFF: Modes = &[XTERM];

const NOT_TWO: Modes = &[XTERM, LEVEL_1];

const ON: Modes = &[LEVEL_1, LEVEL_2];

const TWO: Modes = &[LEVEL_2];

// Sets of Shift, Alt and Ctrl.
fn none_or_alt() -> Vec<Modifiers> {
    vec![NONE, ALT]
}

fn with_ctrl() -> Vec<Modifiers> {
    vec![CTRL, ALT | CTRL]
}

fn ctrl_and_shift() -> Vec<Modifiers> {
    vec![SHIFT | CTRL, SHIFT | ALT | CTRL]
}

fn any() -> Vec<Modifiers> {
    let all = [NONE, ALT, CTRL, ALT | CTRL];
    all.iter().flat_map(|held| [*held, *held | SHIFT]).collect()
}

// The function keys of these numbers.
fn functions(numbers: std::ops::RangeInclusive<u8>) -> impl Iterator<Item = KeyCode> {
    numbers.map(KeyCode::Function)
}

// Keys other than characters, with the modifiers and modes at which they are listed.
fn listed_keys() -> Vec<(Vec<KeyCode>, Vec<Modifiers>, Modes)> {
    let cursor = keys![LeftArrow RightArrow UpArrow DownArrow Home End];
    let application = keys![
        ApplicationLeftArrow ApplicationRightArrow ApplicationUpArrow ApplicationDownArrow
    ];
    let editing = keys![PageUp PageDown Insert Delete];
    let typed = keys![Enter Escape Backspace];
    vec![
        (cursor.to_vec(), any(), ALL),
        (functions(1..=20).collect(), any(), ALL),
        (application.to_vec(), vec![NONE], ALL),
        (editing.to_vec(), vec![NONE], ALL),
        (typed.to_vec(), none_or_alt(), ALL),
        (vec![KeyCode::Tab], vec![NONE, ALT, SHIFT, SHIFT | ALT], OFF),
        (vec![KeyCode::Tab], ctrl_and_shift(), OFF),
        (editing.to_vec(), any(), OFF),
        (functions(21..=24).collect(), any(), OFF),
        (keys![Tab Enter].to_vec(), any(), ON),
        (keys![Escape Backspace].to_vec(), any(), TWO),
        (keys![Home End].to_vec(), any(), &[APPLICATION]),
    ]
}

const LETTERS_BUT_HIJM: &str = "abcdefgklnopqrstuvwxyz";

const ALPHANUMERIC: &str = "0123456789ABCDEFGHIJKLMNOPQRSTUVWXYZabcdefghijklmnopqrstuvwxyz";

const PUNCTUATION: &str = "!\"#$%&'()*+,-./:;<=>?@[\\]^_`{|}~";

// The first and the last character of each length in UTF-8 beyond ASCII, and U+FFFD.
const BEYOND_ASCII: &str = "\u{80}\u{7ff}\u{800}\u{fffd}\u{10000}\u{10ffff}";

// Characters, with the modifiers and modes at which they are listed.
fn listed_characters() -> [(&'static str, Vec<Modifiers>, Modes); 9] {
    [
        (" ", vec![NONE], ALL),
        (ALPHANUMERIC, none_or_alt(), ALL),
        (PUNCTUATION, none_or_alt(), ALL),
        (BEYOND_ASCII, vec![NONE], ALL),
        (LETTERS_BUT_HIJM, with_ctrl(), NOT_TWO),
        (" ", with_ctrl(), TWO),
        (ALPHANUMERIC, with_ctrl(), TWO),
        (PUNCTUATION, with_ctrl(), TWO),
        (" 0123456789", ctrl_and_shift(), TWO),
    ]
}

// A key with the modifiers that are held.
type Press = (KeyCode, Modifiers);

// A key that is pressed is read as a key, and nothing is left.
fn check_read_as(parser: &mut InputParser, press: Press, modes: KeyCodeEncodeModes, wanted: Press) {
    let text = press.0.encode(press.1, modes, true);
    let text = text.expect("a key with a text");
    let events = parser.parse_as_vec(text.as_bytes(), false);
    let wanted = key_event(wanted.0, wanted.1);
    assert_eq!(events, [wanted], "{press:?} {modes:?}");
    assert_eq!(parser.waiting_len(), 0, "{press:?} {modes:?}");
}

// A key is read back with each of the modifiers in each of the modes.
fn check_read_back(parser: &mut InputParser, key: KeyCode, held: &[Modifiers], modes: Modes) {
    for held in held {
        for modes in modes {
            check_read_as(parser, (key, *held), *modes, (key, *held));
        }
    }
}

#[test]
fn reads_listed_keys_back() {
    let mut parser = InputParser::new();
    for (keys, held, modes) in listed_keys() {
        for key in keys {
            check_read_back(&mut parser, key, &held, modes);
        }
    }
}

#[test]
fn reads_listed_characters_back() {
    let mut parser = InputParser::new();
    for (characters, held, modes) in listed_characters() {
        for character in characters.chars() {
            check_read_back(&mut parser, KeyCode::Char(character), &held, modes);
        }
    }
}

// The law is `further_keys_read_back`.
#[test]
fn reads_some_unlisted_keys_back() {
    let mut parser = InputParser::new();
    for (press, modes) in [
        ((KeyCode::Char('A'), CTRL), LEVEL_1),
        ((KeyCode::Char('a'), CTRL | ALT), CSI_U),
        ((KeyCode::Char('\u{1c}'), NONE), XTERM),
        ((KeyCode::Char('\u{1c}'), ALT), XTERM),
        ((KeyCode::Char('\u{e9}'), ALT), XTERM),
        ((KeyCode::Char('i'), CTRL), CSI_U),
        ((KeyCode::Char('\u{1b}'), CTRL), CSI_U),
        ((KeyCode::UpArrow, CTRL), APPLICATION),
        ((KeyCode::PageUp, CTRL | SHIFT), LEVEL_2),
        ((KeyCode::Function(24), CTRL), LEVEL_1),
    ] {
        check_read_as(&mut parser, press, modes, press);
    }
}

// Any other key is read as another (`only_these_read_back`), as a listed one if that sends the same
// text (`unlisted_twins_read_as_listed`).
#[test]
fn reads_other_keys_as_those_that_send_the_same() {
    let mut parser = InputParser::new();
    for (key, held, modes, wanted) in [
        (KeyCode::Char('i'), CTRL, XTERM, KeyCode::Tab),
        (KeyCode::Char('m'), CTRL, XTERM, KeyCode::Enter),
        (KeyCode::Char('\u{7f}'), NONE, XTERM, KeyCode::Delete),
        (KeyCode::Char('a'), SHIFT, XTERM, KeyCode::Char('A')),
        (
            KeyCode::UpArrow,
            NONE,
            APPLICATION,
            KeyCode::ApplicationUpArrow,
        ),
        (KeyCode::UpArrow, SUPER, XTERM, KeyCode::UpArrow),
        (KeyCode::Escape, SHIFT, LEVEL_1, KeyCode::Escape),
    ] {
        check_read_as(&mut parser, (key, held), modes, (wanted, NONE));
    }
}
