// What is sent for events, pastes and mouse reports, and what replies say.
use super::{reading, reading_and_text, sides, status};
use crate::calls::{parser_by, read_one, Calls};
use crate::lines::{lines, quoted, unquoted};
use crate::plain::replies::{reply, snake, words};
use crate::plain::sending;
use crate::port::lines::modifiers_named;
use crate::port::names::MODIFIERS;
use crate::written::{is_written, refuses};
use hedrugal::input::{InputEvent, InputParser};
use hedrugal::{encode_paste, paste_lines, Event, SentMouse};

// `READING "BYTES" = "WRITTEN"` or `.. = STATUS`. What is written is read as the event.
pub fn check_written(line: &str) {
    let (given, wanted) = sides(line);
    let (by, bytes) = reading_and_text(given);
    let event = read_one(&bytes, by, false);
    match event.encode(&parser_by(by)) {
        Ok(written) => {
            assert_eq!(quoted(&written), wanted);
            is_written(&event, by, &written);
        }
        Err(error) => {
            assert_eq!(status(error), wanted);
            refuses(&event, by, error);
        }
    }
}

// `"TEXT" = "SAFE"`. In brackets that is one paste.
pub fn check_paste(line: &str) {
    let (given, wanted) = sides(line);
    is_one_paste(&unquoted(given), &unquoted(wanted));
}

pub fn is_one_paste(text: &[u8], safe: &[u8]) {
    let safe = std::str::from_utf8(safe).expect("a safe text is UTF-8");
    let sent = encode_paste(text, true);
    assert_eq!(sent, format!("\x1b[200~{safe}\x1b[201~"));
    assert_eq!(encode_paste(text, false), safe);
    let mut port = InputParser::new();
    let events = port.parse_as_vec(sent.as_bytes(), true);
    assert_eq!(events, [InputEvent::Paste(safe.to_string())]);
    assert_eq!(port.parser().waiting_len(), 0);
    let event = read_one(sent.as_bytes(), reading("extended"), true);
    assert_eq!(event, Event::Paste(safe.to_string()));
}

// `"TEXT" = "LINES"`.
pub fn check_lines(line: &str) {
    let (given, wanted) = sides(line);
    let text = String::from_utf8(unquoted(given)).expect("a text is UTF-8");
    assert_eq!(paste_lines(&text).as_bytes(), unquoted(wanted));
}

// `TRACKING ENCODING BUTTON X Y MODIFIERS = "BYTES" = EVENTS` or `.. = STATUS`.
pub fn check_mouse(line: &str) {
    let (given, wanted) = sides(line);
    let [tracking, encoding, button, x, y, held] = given.split(' ').collect::<Vec<_>>()[..] else {
        panic!("tracking, an encoding, a button, a place and modifiers");
    };
    if wanted == "BAD_NUMBER" {
        let is_named = |it: &str| MODIFIERS.iter().any(|(name, _)| *name == it);
        return assert!(!held.split('+').all(is_named));
    }
    let report = SentMouse {
        x: x.parse().expect("a column"),
        y: y.parse().expect("a row"),
        button: named(sending::BUTTONS, button),
        modifiers: modifiers_named(held),
    };
    let tracking = named(sending::TRACKINGS, tracking);
    let encoding = named(sending::ENCODINGS, encoding);
    let told = match report.encode(tracking, encoding) {
        Ok(bytes) => {
            let mut parser = parser_by(reading("extended+x10"));
            let events = parser.read(&bytes, true);
            assert_eq!(parser.waiting_len(), 0);
            format!("{} = {}", quoted(&bytes), lines(&events))
        }
        Err(error) => status(error),
    };
    assert_eq!(told, wanted);
    let plain = sending::mouse(report, tracking, encoding);
    assert_eq!(report.try_encode(tracking, encoding), plain);
}

// What has this name, in the capitals of the C header.
fn named<T: Copy>(table: &[(&str, T)], name: &str) -> T {
    let row = table
        .iter()
        .find(|(it, _)| snake(it).to_uppercase() == name);
    row.unwrap_or_else(|| panic!("{name} is no name")).1
}

// `"BYTES" = REPLY`, as the plain reader reads it too.
pub fn check_reply(line: &str) {
    let (given, wanted) = sides(line);
    let event = read_one(&unquoted(given), reading("extended"), false);
    let told = event.reply();
    let line = match told.as_ref().map(words) {
        None => "none".to_string(),
        Some((words, [])) => words,
        Some((words, bytes)) => format!("{words} {}", quoted(bytes)),
    };
    assert_eq!(line, wanted);
    let plain = match &event {
        Event::Csi(bytes) => reply(b'[', bytes),
        Event::Osc(bytes) => reply(b']', bytes),
        Event::Dcs(bytes) => reply(b'P', bytes),
        Event::Apc(bytes) => reply(b'_', bytes),
        _ => None,
    };
    assert_eq!(told, plain);
}
