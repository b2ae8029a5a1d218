// What is buffered as a sequence or a character isn't decided: each beginning of a row, of a mouse
// report or of a character, alone and after one ESC, stays buffered whole, and a flush before the
// rest of it changes the events.
use crate::calls::{Buffer, Call, MOST};
use crate::lines::hex;
use crate::plain::PlainReader;
use hedrugal::input::{InputEvent, InputParser};

const HELD: [&[u8]; 2] = [b"", b"\x1b"];

// The events of the text, after which nothing is buffered but a paste that the text begins.
fn flushed_events(parser: &mut InputParser, text: &[u8]) -> Vec<InputEvent> {
    let events = Call::List.events(parser, text, false);
    if parser.is_paste_open() {
        Call::List.events(parser, b"\x1b[201~", false);
    }
    assert_eq!(parser.waiting_len(), 0, "{}", hex(text));
    events
}

// The whole text stays buffered, and it is short.
fn check_waits(parser: &mut InputParser, text: &[u8]) {
    assert_eq!(Call::List.events(parser, text, true), [], "{}", hex(text));
    assert_eq!(parser.waiting_len(), text.len());
    assert!(text.len() <= MOST, "{}", hex(text));
}

// The events of what is buffered, flushed, and then those of the end.
fn events_with_flush(parser: &mut InputParser, end: &[u8]) -> Vec<InputEvent> {
    let mut events = flushed_events(parser, b"");
    events.extend(flushed_events(parser, end));
    events
}

// Parts a sequence or a character in two, behind what is held. The first part is buffered whole,
// and the events of both parts at once aren't those of the first, flushed, and of the second.
fn check_parted(parser: &mut InputParser, held: &[u8], (beginning, end): (&[u8], &[u8])) {
    check_waits(parser, &[held, beginning].concat());
    let with_flush = events_with_flush(parser, end);
    let text = [held, beginning, end].concat();
    assert_ne!(flushed_events(parser, &text), with_flush, "{}", hex(&text));
}

// Every proper beginning of the text but the empty one, alone and after one ESC.
fn check_beginnings(parser: &mut InputParser, text: &[u8]) {
    for len in 1..text.len() {
        for held in HELD {
            check_parted(parser, held, text.split_at(len));
        }
    }
}

#[test]
fn beginnings_of_rows() {
    let mut parser = InputParser::new();
    for bytes in PlainReader::new().rows().keys() {
        check_beginnings(&mut parser, bytes);
    }
}

// The numbers of a mouse report, each with one to five digits.
const CODES: [&str; 5] = ["0", "64", "095", "0002", "00035"];

const PLACES: [&str; 5] = ["7", "80", "655", "6553", "65535"];

#[test]
fn beginnings_of_mouse_reports() {
    let mut parser = InputParser::new();
    for code in CODES {
        for x in PLACES {
            for y in PLACES {
                check_beginnings(&mut parser, format!("\x1b[<{code};{x};{y}M").as_bytes());
            }
        }
    }
}

// The first and the last character of each length, those around the surrogates, and others.
const CHARACTERS: &str = "\u{80}\u{e9}\u{7ff}\u{800}\u{20ac}\u{d7ff}\u{e000}\u{fffd}\u{ffff}\u{10000}\u{1f600}\u{10ffff}";

#[test]
fn beginnings_of_characters() {
    let mut parser = InputParser::new();
    for character in CHARACTERS.chars() {
        check_beginnings(&mut parser, character.to_string().as_bytes());
    }
}
