// Events that are written as bytes, and read back.
use crate::calls::{parser_by, read_one, Calls};
use crate::plain::pressed;
use hedrugal::input::{KeyCode, Modifiers, MouseButtons};
use hedrugal::{
    encode_colour_scheme, encode_cursor_position, encode_device_attributes, ColourScheme, Dialect,
    EncodeEventError, Event, KeyEventKind, KeyReport, KittyModifiers, MouseKind, MouseReport,
    Reading, ReportedKey, SequenceBytes, StringKind,
};

const USUAL: Reading = Reading::new(Dialect::Extended);
const TERMWIZ: Reading = Reading::new(Dialect::Termwiz);
const ASKED: Reading = Reading {
    questions: 1,
    ..USUAL
};

// The texts of keys that may begin a sequence.
const WAITING: [&str; 7] = [
    "\x1b", "\x1b\x1b", "\x1b[", "\x1bO", "\x1bP", "\x1b]", "\x1b_",
];

// The event is written as the bytes, and they are read as it, also with more to come, unless they
// wait.
pub fn is_written(event: &Event, reading: Reading, bytes: &[u8]) {
    let more = !WAITING.iter().any(|it| it.as_bytes() == bytes);
    let by = parser_by(reading);
    assert_eq!(event.encode(&by).as_deref(), Ok(bytes), "{event:?}");
    assert_eq!(event.try_encode(&by).as_deref(), Ok(bytes));
    assert_eq!(read_one(bytes, reading, more), *event);
    if more {
        let mut parser = parser_by(reading);
        let pieces = bytes.chunks(1);
        let events: Vec<_> = pieces.flat_map(|it| parser.read(it, true)).collect();
        assert_eq!(events, std::slice::from_ref(event));
    }
}

fn paste(text: &str) -> Event {
    Event::Paste(text.to_string())
}

// A string with its opening, of so many bytes.
fn text(opening: &str, len: usize) -> Vec<u8> {
    let mut text = opening.as_bytes().to_vec();
    text.resize(len, b'x');
    text
}

#[test]
fn long_texts_are_written() {
    let long = "line\r\u{e9}".repeat(300_000);
    assert_eq!(long.len(), 2_100_000);
    let wanted = format!("\x1b[200~{long}\x1b[201~");
    let event = paste(&long);
    let written = event.encode(&parser_by(USUAL));
    assert_eq!(written.as_deref(), Ok(wanted.as_bytes()));
    assert_eq!(read_one(wanted.as_bytes(), USUAL, true), event);
    for (introducer, opening, event) in [
        ("\x1b]", "52;c;", Event::Osc as fn(SequenceBytes) -> _),
        ("\x1bP", ">|", Event::Dcs),
        ("\x1b_", "Gi=", Event::Apc),
    ] {
        // The last length is the longest that is no part: two bytes introduce it.
        for len in [65_000, 65_532] {
            let text = text(opening, len);
            let wanted = [introducer.as_bytes(), &text, b"\x1b\\"].concat();
            is_written(&event(text.into()), USUAL, &wanted);
        }
        let long = event(text(opening, 65_533).into());
        refuses(&long, USUAL, EncodeEventError::TooLong);
    }
}

fn key(key: KeyCode, modifiers: KittyModifiers) -> Event {
    Event::Key(pressed(ReportedKey::Named(key), modifiers))
}

fn mouse(button: Option<u8>, buttons: MouseButtons, modifiers: Modifiers) -> Event {
    Event::Mouse(MouseReport {
        x: 1,
        y: 1,
        modifiers,
        buttons,
        kind: MouseKind::Press,
        button,
    })
}

fn report(key: ReportedKey, kind: KeyEventKind, text: &str) -> Event {
    Event::Key(KeyReport {
        kind,
        text: text.to_string(),
        ..pressed(key, KittyModifiers::NONE)
    })
}

// A press of a character that has the number of a functional key.
fn shifted(modifiers: KittyModifiers, shifted: Option<char>) -> Event {
    Event::Key(KeyReport {
        shifted,
        ..pressed(ReportedKey::Named(KeyCode::Char('\u{e000}')), modifiers)
    })
}

pub fn refuses(event: &Event, reading: Reading, error: EncodeEventError) {
    let by = parser_by(reading);
    assert_eq!(event.try_encode(&by), Err(error), "{event:?}");
    assert_eq!(event.encode(&by), Err(error));
}

#[test]
fn what_no_bytes_are_read_as() {
    use KeyEventKind::{Press, Release};
    let named = ReportedKey::Named;
    let private = named(KeyCode::Char('\u{e000}'));
    let (kind, bytes) = (StringKind::Osc, SequenceBytes::from(b"11;a"));
    let both = MouseButtons::LEFT | MouseButtons::RIGHT;
    for event in [
        key(KeyCode::Copy, KittyModifiers::NONE),
        mouse(Some(1), both, Modifiers::NONE),
        mouse(Some(1), MouseButtons::LEFT, Modifiers::SUPER),
        mouse(Some(2), MouseButtons::LEFT, Modifiers::NONE),
        mouse(None, MouseButtons::LEFT, Modifiers::NONE),
        mouse(Some(0), MouseButtons::NONE, Modifiers::NONE),
        mouse(Some(7), MouseButtons::NONE, Modifiers::NONE),
        mouse(Some(8), MouseButtons::NONE, Modifiers::SUPER),
        mouse(Some(12), MouseButtons::NONE, Modifiers::NONE),
        paste("a\x1b[201~b"),
        report(named(KeyCode::Copy), Press, ""),
        report(named(KeyCode::UpArrow), Press, "a"),
        report(private, Release, ""),
        report(private, Press, "a"),
        shifted(KittyModifiers::NONE, Some('\u{e000}')),
        shifted(KittyModifiers::SHIFT, None),
        shifted(KittyModifiers::SHIFT, Some('a')),
        report(ReportedKey::Functional(57358), Press, ""),
        report(ReportedKey::Functional(u32::MAX), Press, ""),
        Event::CursorPosition { row: 0, column: 5 },
        Event::CursorPosition { row: 5, column: 0 },
        Event::Csi(b"I".into()),
        Event::Csi(SequenceBytes::default()),
        Event::Osc(b"ab".into()),
        Event::Osc(b"11;a\x07b".into()),
        Event::Dcs(b"1$r0m\x1b".into()),
        Event::Apc(SequenceBytes::default()),
        Event::StringPart {
            kind,
            bytes: bytes.clone(),
        },
        Event::StringCut { kind, bytes },
        Event::PastePart("a".to_string()),
        Event::Resumed,
    ] {
        refuses(&event, USUAL, EncodeEventError::NoText);
        refuses(&event, TERMWIZ, EncodeEventError::NoText);
    }
    let enter = key(KeyCode::Char('\r'), KittyModifiers::NONE);
    refuses(&enter, USUAL, EncodeEventError::NoText);
    for event in [
        Event::FocusGained,
        Event::Csi(b"?62;22c".into()),
        key(KeyCode::Char('a'), KittyModifiers::SUPER),
    ] {
        refuses(&event, TERMWIZ, EncodeEventError::NoText);
    }
}

#[test]
fn what_is_too_long() {
    let sequence = |len: usize| format!("\x1b[?{}c", "1".repeat(len)).into_bytes();
    let event = |len| Event::Csi(SequenceBytes::from(&sequence(len)[2..]));
    is_written(&event(252), USUAL, &sequence(252));
    refuses(&event(253), USUAL, EncodeEventError::TooLong);
    let key = ReportedKey::Named(KeyCode::Char('a'));
    let typed = report(key, KeyEventKind::Press, &"a".repeat(100));
    refuses(&typed, USUAL, EncodeEventError::TooLong);
}

#[test]
fn backspace_has_a_shorter_number() {
    let key = ReportedKey::Named(KeyCode::Backspace);
    for (first, number) in [('a', 127), ('\u{e9}', 8)] {
        let text = format!("{first}{}", "a".repeat(82));
        let numbers: Vec<_> = text.chars().map(|it| u32::from(it).to_string()).collect();
        let sent = format!("\x1b[{number};;{}u", numbers.join(":"));
        let report = report(key, KeyEventKind::Press, &text);
        is_written(&report, USUAL, sent.as_bytes());
    }
}

#[test]
fn what_has_bits_without_a_name() {
    let unnamed = Modifiers::from_bits_retain(1);
    for event in [
        mouse(Some(1), MouseButtons::LEFT, unnamed),
        mouse(Some(8), MouseButtons::NONE, unnamed),
    ] {
        refuses(&event, USUAL, EncodeEventError::UnnamedBits);
    }
}

#[test]
fn what_is_buffered_stays() {
    let mut buffered = parser_by(USUAL);
    assert_eq!(buffered.read(b"\x1b[1;", true), []);
    for _ in 0..2 {
        let character = key(KeyCode::Char('a'), KittyModifiers::NONE);
        assert_eq!(character.encode(&buffered).as_deref(), Ok(&b"a"[..]));
    }
    let up = key(KeyCode::UpArrow, KittyModifiers::CTRL);
    assert_eq!(buffered.read(b"5A", true), [up]);
}

#[test]
fn a_position_that_is_expected_is_no_key() {
    let f3 = key(KeyCode::Function(3), KittyModifiers::CTRL);
    is_written(&f3, USUAL, b"\x1b[1;5R");
    is_written(&f3, ASKED, b"\x1b[13;5~");
}

#[test]
fn replies_are_read_back() {
    let at = |row, column| Event::CursorPosition { row, column };
    let in_first = [1, 16, 17, 256, 257].map(|column| (1, column));
    for (row, column) in in_first.into_iter().chain([(24, 80), (2, 65535)]) {
        let private = encode_cursor_position(row, column, true);
        let plain = encode_cursor_position(row, column, false);
        assert_eq!(private, format!("\x1b[?{row};{column}R").as_bytes());
        assert_eq!(plain, format!("\x1b[{row};{column}R").as_bytes());
        for (bytes, reading) in [(&private, USUAL), (&plain, ASKED)] {
            assert_eq!(read_one(bytes, reading, true), at(row, column));
        }
        let is_key = row == 1 && column <= 256;
        assert_eq!(read_one(&plain, USUAL, true) != at(row, column), is_key);
    }
    // Rows and columns count from 1.
    for bytes in [
        encode_cursor_position(0, 5, true),
        encode_cursor_position(5, 0, false),
    ] {
        let event = read_one(&bytes, USUAL, true);
        assert_eq!(event, Event::Csi(SequenceBytes::from(&bytes[2..])));
    }
    for (scheme, text) in [
        (ColourScheme::Dark, &b"?997;1n"[..]),
        (ColourScheme::Light, b"?997;2n"),
    ] {
        let event = read_one(&encode_colour_scheme(scheme), USUAL, true);
        assert_eq!(event, Event::Csi(text.into()));
    }
    for (numbers, text) in [(&[62, 4, 22][..], &b"?62;4;22c"[..]), (&[], b"?c")] {
        let bytes = encode_device_attributes(numbers).unwrap();
        let event = read_one(&bytes, USUAL, true);
        assert_eq!(event, Event::Csi(text.into()));
    }
    let longest = encode_device_attributes(&[65535; 42]);
    assert_eq!(longest.map(|it| it.len()), Ok(255));
    let longer = encode_device_attributes(&[65535; 43]);
    assert_eq!(longer, Err(EncodeEventError::TooLong));
}
