// The names of keys, and what keys are sent as.
use super::{reading, reading_and_text, sides, status};
use crate::calls::{begin, read_one, Calls};
use crate::lines::{quoted, unquoted};
use crate::plain::names::{print, read};
use crate::port::lines::{key_named, modifiers_named};
use crate::presses::check_presses;
use hedrugal::input::{
    InputEvent, InputParser, KeyCodeEncodeModes, KeyboardEncoding, KittyKeyboardFlags,
};
use hedrugal::{send_names, try_send_names, SendNamesError};
use hedrugal::{Chord, Dialect, Event, KeyPress, KittyModifiers, Parser, ReportedKey};

// The key of a press, and what is held with it.
fn parts(press: KeyPress) -> (ReportedKey, KittyModifiers) {
    (press.key(), press.held())
}

// The press of an event and its second one, as the plain reader has them too.
fn press_of(event: &Event) -> String {
    let (press, second) = (event.press(), event.second());
    match event.key() {
        Some(report) => {
            check_presses(report);
            let wanted = (KeyPress::of_report(report), KeyPress::second(report));
            assert_eq!((press, second), wanted);
        }
        None => assert_eq!((press, second), (None, None)),
    }
    let name = press.map_or("none".to_string(), |it| it.to_string());
    match second {
        Some(second) => format!("{name} or {second}"),
        None => name,
    }
}

// The first presses of the keys that the port reads.
fn port_presses(bytes: &[u8]) -> Vec<Option<KeyPress>> {
    let events = InputParser::new().parse_as_vec(bytes, false);
    let press = |event: &InputEvent| match event {
        InputEvent::Key(key) => KeyPress::of_event(key),
        _ => None,
    };
    events.iter().map(press).collect()
}

// `READING "BYTES" = PRESS PRESS ..`.
pub fn check_press() -> impl FnMut(&str) {
    let mut parser = Parser::new(Dialect::Extended);
    move |line| {
        let (given, wanted) = sides(line);
        let (by, bytes) = reading_and_text(given);
        begin(&mut parser, by);
        let events = parser.read(&bytes, false);
        let presses: Vec<String> = events.iter().map(press_of).collect();
        assert_eq!(presses.join(" "), wanted);
        if by.dialect == Dialect::Termwiz {
            let presses: Vec<_> = events.iter().map(Event::press).collect();
            assert_eq!(port_presses(&bytes), presses);
        }
    }
}

// A text. One that isn't UTF-8 is BAD_TEXT, and no text in Rust.
fn utf8(text: &str, wanted: &str) -> Option<String> {
    let text = String::from_utf8(unquoted(text));
    assert_eq!(text.is_err(), wanted.starts_with("BAD_TEXT"));
    text.ok()
}

// `"TEXT" = "NAMES"` or `"TEXT" = STATUS PLACE`.
pub fn check_name(line: &str) {
    let (given, wanted) = sides(line);
    let Some(text) = utf8(given, wanted) else {
        return;
    };
    let chord = text.parse::<Chord>();
    let said = chord.map(|it| it.iter().map(parts).collect::<Vec<_>>());
    assert_eq!(said.clone().map_err(|it| (it.kind, it.at)), read(&text));
    match (chord, said) {
        (Ok(chord), Ok(said)) => {
            let name = chord.to_string();
            assert_eq!(quoted(name.as_bytes()), wanted);
            let names: Vec<String> = said.into_iter().map(print).collect();
            assert_eq!(names.join(" "), name);
            assert_eq!(name.parse(), Ok(chord));
            let press = (chord.len() == 1).then(|| chord.get(0)).flatten();
            assert_eq!(text.parse().ok(), press);
        }
        (Err(error), _) => {
            assert_eq!(format!("NAME_{} {}", status(error.kind), error.at), wanted);
            let refusal = text.parse::<KeyPress>().expect_err("a refusal");
            assert_eq!(refusal.at, error.at);
        }
        _ => unreachable!(),
    }
}

// `FLAGS "EVENT" = "BYTES"`, `FLAGS "EVENT" "TEXT" = "BYTES"` or `.. = STATUS`.
pub fn check_report(line: &str) {
    let (given, wanted) = sides(line);
    let (flags, event, text) = match given.split(' ').collect::<Vec<_>>()[..] {
        [flags, event] => (flags, event, None),
        [flags, event, text] => (flags, event, Some(text)),
        _ => panic!("flags and an event"),
    };
    let flags = KittyKeyboardFlags::from_bits_retain(flags.parse().expect("flags"));
    let event = read_one(&unquoted(event), reading("extended+x10"), false);
    let mut report = event.key().expect("a key").clone();
    if let Some(text) = text {
        let Some(text) = utf8(text, wanted) else {
            return;
        };
        report.text = text;
    }
    for sent in [report.encode(flags), report.try_encode(flags)] {
        assert_eq!(sent.map_or_else(status, |it| quoted(it.as_bytes())), wanted);
    }
}

// The modes of the port's encoder that are on.
fn modes(words: &str) -> KeyCodeEncodeModes {
    let mut modes = KeyCodeEncodeModes {
        encoding: KeyboardEncoding::Xterm,
        application_cursor_keys: false,
        newline_mode: false,
        modify_other_keys: None,
    };
    for word in words.split('+') {
        match word {
            "plain" => (),
            "cursor" => modes.application_cursor_keys = true,
            "newline" => modes.newline_mode = true,
            "csi-u" => modes.encoding = KeyboardEncoding::CsiU,
            "win32" => modes.encoding = KeyboardEncoding::Win32,
            _ => match word.split_at(5) {
                ("level", level) => modes.modify_other_keys = Some(level.parse().expect(word)),
                ("kitty", flags) => {
                    let flags = KittyKeyboardFlags::from_bits_retain(flags.parse().expect(word));
                    modes.encoding = KeyboardEncoding::Kitty(flags);
                }
                _ => panic!("{word} is no mode"),
            },
        }
    }
    modes
}

// `KEY MODIFIERS MODES = "BYTES"` or `.. = STATUS`. A key that is up sends nothing.
pub fn check_encoding(line: &str) {
    let (given, wanted) = sides(line);
    let [key, held, words] = given.split(' ').collect::<Vec<_>>()[..] else {
        panic!("a key, its modifiers and modes");
    };
    let (key, held, modes) = (key_named(key), modifiers_named(held), modes(words));
    for sent in [
        key.encode(held, modes, true),
        key.try_encode(held, modes, true),
    ] {
        assert_eq!(sent.map_or_else(status, |it| quoted(it.as_bytes())), wanted);
    }
    assert_eq!(key.encode(held, modes, false), Ok(String::new()));
}

// `MODES "TEXT" = "BYTES"` or `.. = STATUS PLACE`.
pub fn check_sent_names(line: &str) {
    let (given, wanted) = sides(line);
    let (words, text) = given.split_once(' ').expect("modes and a text");
    let text = String::from_utf8(unquoted(text)).expect("a text is UTF-8");
    for sent in [
        send_names(&text, modes(words)),
        try_send_names(&text, modes(words)),
    ] {
        let told = match sent {
            Ok(bytes) => quoted(bytes.as_bytes()),
            Err(SendNamesError::Name(error)) => format!("NAME_{} {}", status(error.kind), error.at),
            Err(SendNamesError::RefusedKey { at }) => format!("REFUSED_KEY {at}"),
            Err(error) => panic!("{error}"),
        };
        assert_eq!(told, wanted);
    }
}
