// Which press is read of what is sent for a key: of what `KeyCode::encode` writes, for every key and every set of
// four modifiers, and of what `KeyReport::encode` writes under any flags. Most keys are read as themselves, and the
// others as their twins.
use crate::calls::{parser_by, Calls};
use crate::plain::keys::key_of;
use crate::plain::pressed;
use crate::plain::presses::{said_of, Press, Said};
use crate::plain::twins::{kitty_twin, port_twin, press_of_key, twin, Modes};
use crate::port::names::keys;
use hedrugal::input::KeyCode::{self, Char, Function};
use hedrugal::input::{KeyCodeEncodeModes, KeyboardEncoding, KittyKeyboardFlags, Modifiers};
use hedrugal::{
    Dialect, Event, KeyEventKind, KeyPress, KeyReport, KittyModifiers, Parser, Reading, ReportedKey,
};

const SHIFT_AND_CTRL: KittyModifiers = KittyModifiers::SHIFT.union(KittyModifiers::CTRL);

const BEYOND_ASCII: &str = "\u{80}\u{9f}\u{a0}éÉсСß\u{e000}\u{fffd}\u{1f600}\u{10ffff}";

const NAMED: [KeyCode; 15] = keys![
    Backspace Tab Enter Escape PageUp PageDown End Home Insert Delete KeyPadBegin
    LeftArrow RightArrow UpArrow DownArrow
];

const FURTHER_NAMED: [KeyCode; 8] = keys![
    KeyPadHome KeyPadEnd KeyPadPageUp KeyPadPageDown
    ApplicationLeftArrow ApplicationRightArrow ApplicationUpArrow ApplicationDownArrow
];

// Those that only the law of the extended dialect speaks of.
const EDIT_KEYS: [KeyCode; 11] = keys![
    Numpad0 Numpad1 Numpad2 Numpad3 Numpad4 Numpad5 Numpad6 Numpad7 Numpad8 Numpad9 Decimal
];

pub fn keys() -> Vec<KeyCode> {
    let characters = ('\x01'..='\u{ff}').chain(BEYOND_ASCII.chars()).map(Char);
    characters
        .chain(NAMED)
        .chain(FURTHER_NAMED)
        .chain(EDIT_KEYS)
        .chain((1..=24).map(Function))
        .collect()
}

// The law of termwiz's dialect doesn't speak of the key, or its table has no text of it.
fn is_left_out_of_port(key: KeyCode, held: KittyModifiers, modes: Modes) -> bool {
    match key {
        Char(c) if c.is_ascii() => c.is_ascii_control(),
        Char(_) => modes.level.is_some() && held != KittyModifiers::NONE,
        _ => EDIT_KEYS.contains(&key) || key == KeyCode::KeyPadBegin,
    }
}

// The presses of keys.
fn presses(events: &[Event]) -> Vec<Option<Press>> {
    let report = |event: &Event| event.key().and_then(KeyPress::of_report);
    let pair = |press: KeyPress| (press.key(), press.held());
    events.iter().map(|event| report(event).map(pair)).collect()
}

pub const USUAL: Reading = Reading::new(Dialect::Extended);

const X10: Reading = Reading {
    x10_mouse: true,
    ..USUAL
};

// What is sent for a key with modifiers, and the presses of its twin: of the extended dialect and of termwiz's. Newline
// mode is on if the mode of the cursor keys is.
pub fn port_texts(
    key: KeyCode,
    held: u8,
    modes: Modes,
    is_other: bool,
) -> (String, [Vec<Option<Press>>; 2]) {
    let encodings = [KeyboardEncoding::Xterm, KeyboardEncoding::CsiU];
    let sent = KeyCodeEncodeModes {
        encoding: encodings[usize::from(modes.is_csi_u)],
        application_cursor_keys: is_other,
        newline_mode: is_other,
        modify_other_keys: modes.level,
    };
    // termwiz's bits have one before SHIFT.
    let modifiers = Modifiers::from_bits_retain(u16::from(held) << 1);
    let text = key.encode(modifiers, sent, true).unwrap();
    let held = KittyModifiers::from_bits_retain(held);
    let mut wanted = [
        vec![press_of_key(twin(key, held, modes))],
        vec![press_of_key(port_twin(key, held, modes))],
    ];
    if is_other && key == KeyCode::Enter && held.intersection(SHIFT_AND_CTRL).is_empty() {
        let enter = (key, held.intersection(KittyModifiers::ALT));
        let line_feeds = [
            (Char('j'), KittyModifiers::CTRL),
            (KeyCode::Enter, KittyModifiers::NONE),
        ];
        wanted = line_feeds.map(|line_feed| [enter, line_feed].map(press_of_key).to_vec());
    }
    (text, wanted)
}

// A key with modifiers is read as the press of its twin, by all parsers.
fn check_key(parsers: &mut [Parser; 3], key: KeyCode, held: u8, modes: Modes, is_other: bool) {
    let (text, [extended, port]) = port_texts(key, held, modes, is_other);
    let held = KittyModifiers::from_bits_retain(held);
    for (place, parser) in parsers.iter_mut().enumerate() {
        let wanted = [&extended, &extended, &port][place];
        if place < 2 || !is_left_out_of_port(key, held, modes) {
            let found = presses(&parser.read(text.as_bytes(), false));
            let case = format!("{key:?} {held} {modes:?} {is_other}: {text:?}");
            assert_eq!(&found, wanted, "{case}");
        }
    }
}

// The levels of modifyOtherKeys.
pub const LEVELS: [Option<i64>; 6] = [None, Some(-1), Some(0), Some(1), Some(2), Some(3)];

fn check_encoding(is_csi_u: bool) {
    let mut parsers = [USUAL, X10, Reading::new(Dialect::Termwiz)].map(parser_by);
    for level in LEVELS {
        let modes = Modes { is_csi_u, level };
        for key in keys() {
            for held in 0..16 {
                check_key(&mut parsers, key, held, modes, false);
                check_key(&mut parsers, key, held, modes, true);
            }
        }
    }
}

#[test]
fn keys_of_xterm_are_read_as_their_twins() {
    check_encoding(false);
}

#[test]
fn keys_of_csi_u_are_read_as_their_twins() {
    check_encoding(true);
}

// Every character, with all modifiers that the page names, at no level and at one.
#[test]
fn characters_beyond_ascii_are_read_as_their_twins() {
    let mut parsers = [USUAL, X10, Reading::new(Dialect::Termwiz)].map(parser_by);
    let is_csi_u = false;
    for c in '\u{80}'..=char::MAX {
        for level in [None, Some(1)] {
            let modes = Modes { is_csi_u, level };
            check_key(&mut parsers, Char(c), 7, modes, false);
        }
    }
}

// The keys of Kitty's protocol. U+E000 is a number of its table, and so are some control characters.
pub fn kitty_keys() -> Vec<ReportedKey> {
    let characters = (' '..='~').chain(BEYOND_ASCII.chars().filter(|c| *c != '\u{e000}'));
    let keys = characters.chain("\x01\x0b\x1c".chars()).map(Char);
    let keys = keys.chain(NAMED).chain((1..=12).map(Function));
    let numbers = (57344..57500).filter_map(char::from_u32).map(key_of);
    keys.map(ReportedKey::Named).chain(numbers).collect()
}

// The reports of a key with each set of modifiers, and what the key of a character may have.
pub fn kitty_reports(key: ReportedKey, kind: KeyEventKind) -> Vec<KeyReport> {
    let is_character = matches!(key, ReportedKey::Named(Char(_)));
    let mut reports = Vec::new();
    for held in 0..64 {
        // The locks too.
        let modifiers = KittyModifiers::from_bits_retain(held | held << 6);
        let report = KeyReport {
            kind,
            ..pressed(key, modifiers)
        };
        if is_character {
            let mut typing = report.clone();
            typing.text = "я".to_string();
            reports.push(typing);
        }
        if is_character && modifiers.contains(KittyModifiers::SHIFT) {
            reports.extend(['!', 'Я', '\u{9f}'].map(Some).map(|shifted| KeyReport {
                shifted,
                ..report.clone()
            }));
        }
        reports.push(report);
    }
    reports
}

// The presses whose texts wait for more.
fn waits(press: Option<Press>) -> bool {
    let Some((ReportedKey::Named(key), held)) = press else {
        return false;
    };
    match key {
        KeyCode::Escape => held.difference(KittyModifiers::ALT).is_empty(),
        Char('[' | 'O' | 'P' | ']' | '_') => held == KittyModifiers::ALT,
        _ => false,
    }
}

fn check_report(parsers: &mut [Parser; 2], report: &KeyReport, flags: KittyKeyboardFlags) {
    let sent = report.encode(flags).unwrap();
    let all_keys = KittyKeyboardFlags::REPORT_ALL_KEYS_AS_ESCAPE_CODES;
    if !flags.contains(all_keys) && said_of(report) == Said::Nothing {
        assert_eq!(sent, "", "{report:?} {flags}");
        return;
    }
    let press = kitty_twin(report, flags);
    for parser in parsers {
        let events = parser.read(sent.as_bytes(), !waits(press));
        assert_eq!(presses(&events), [press], "{report:?} {flags}: {sent:?}");
        assert_eq!(parser.waiting_len(), 0);
    }
}

#[test]
fn keys_of_kitty_are_read_as_their_twins() {
    let asked = Reading {
        questions: 255,
        ..X10
    };
    let mut parsers = [USUAL, asked].map(parser_by);
    for flags in (0..32).map(KittyKeyboardFlags::from_bits_retain) {
        for key in kitty_keys() {
            for kind in [KeyEventKind::Press, KeyEventKind::Repeat] {
                for report in kitty_reports(key, kind) {
                    check_report(&mut parsers, &report, flags);
                }
            }
        }
    }
    assert_eq!(parsers[1].reading(), asked);
}

// The text of F3 with a modifier is the position that was asked for, and the next one is the key.
#[test]
fn f3_while_a_question_is_open() {
    let (is_csi_u, level) = (false, None);
    for held in 1..8 {
        let mut parser = parser_by(USUAL);
        parser.expect_position();
        let (text, _) = port_texts(Function(3), held, Modes { is_csi_u, level }, false);
        let (row, column) = (1, u16::from(held) + 1);
        let position = Event::CursorPosition { row, column };
        assert_eq!(parser.read(text.as_bytes(), true), [position]);
        let modifiers = KittyModifiers::from_bits_retain(held);
        let f3 = (ReportedKey::Named(Function(3)), modifiers);
        assert_eq!(presses(&parser.read(text.as_bytes(), true)), [Some(f3)]);
    }
}
