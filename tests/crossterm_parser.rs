//! What crossterm's own tests of its parser call, over the package in crossterm's place. It is no
//! program by itself: tests/crossterm_assertions.py puts those tests behind it.
use crossterm::event::{self, *};
use hedrugal::crossterm::Converter;
use hedrugal::{Dialect, Parser, Reading};
use std::time::Instant;

#[derive(Debug, PartialEq)]
pub enum InternalEvent {
    Event(Event),
    CursorPosition(u16, u16),
}

/// An event as crossterm has it, or one that it doesn't have.
#[derive(Debug)]
pub enum Told {
    Said(InternalEvent),
    Other(hedrugal::Event),
}

fn told(event: hedrugal::Event) -> Told {
    if let hedrugal::Event::CursorPosition { row, column } = event {
        return Told::Said(InternalEvent::CursorPosition(column - 1, row - 1));
    }
    match Converter::default().convert(event) {
        Ok(event) => Told::Said(InternalEvent::Event(event)),
        Err(event) => Told::Other(event),
    }
}

/// All events of some bytes, in the place of a result of crossterm's.
#[derive(Debug)]
pub struct Parsed(Vec<Told>);

impl Parsed {
    fn unwrap(self) -> Parsed {
        self
    }
}

impl PartialEq<Option<InternalEvent>> for Parsed {
    fn eq(&self, other: &Option<InternalEvent>) -> bool {
        match (&self.0[..], other) {
            ([], None) => true,
            ([Told::Said(event)], Some(other)) => event == other,
            _ => false,
        }
    }
}

/// Those of a text.
#[derive(Debug)]
pub struct ParsedText(Vec<Told>);

impl ParsedText {
    fn unwrap(self) -> ParsedText {
        self
    }

    /// Whether the bytes begin with none that is UTF-8.
    fn is_err(&self) -> bool {
        self.first_char() == Some(char::REPLACEMENT_CHARACTER)
    }

    fn first_char(&self) -> Option<char> {
        match self.0.first()? {
            Told::Said(InternalEvent::Event(Event::Key(KeyEvent {
                code: KeyCode::Char(c),
                ..
            }))) => Some(*c),
            _ => None,
        }
    }
}

impl PartialEq<Option<char>> for ParsedText {
    fn eq(&self, other: &Option<char>) -> bool {
        self.0.len() == 1 && self.first_char() == *other
    }
}

pub fn parse_event(bytes: &[u8], more_may_come: bool) -> Parsed {
    let mut parser = Parser::new(Dialect::Extended);
    let x10_mouse = true;
    parser.set_reading(Reading {
        x10_mouse,
        ..parser.reading()
    });
    parser.feed(Instant::now(), bytes);
    let mut events: Vec<_> = parser.by_ref().map(told).collect();
    if !more_may_come {
        parser.flush();
        events.extend(parser.map(told));
    }
    Parsed(events)
}

macro_rules! parsers {
    ($($name:ident),*) => {
        $(pub fn $name(bytes: &[u8]) -> Parsed {
            parse_event(bytes, false)
        })*
    };
}

parsers!(
    parse_csi,
    parse_csi_cursor_position,
    parse_csi_modifier_key_code,
    parse_csi_normal_mouse,
    parse_csi_rxvt_mouse,
    parse_csi_sgr_mouse,
    parse_csi_special_key_code,
    parse_csi_u_encoded_key_code
);

pub fn parse_utf8_char(bytes: &[u8]) -> ParsedText {
    ParsedText(parse_event(bytes, false).0)
}

macro_rules! assert_eq {
    ($parsed:expr, $wanted:expr $(, $why:literal)? $(,)?) => {{
        let parsed = $parsed;
        eprintln!("{} {} {parsed:?}", line!(), parsed == $wanted);
    }};
}

macro_rules! assert {
    ($parsed:ident($bytes:expr).is_err()) => {{
        let parsed = $parsed($bytes);
        eprintln!("{} {} {parsed:?}", line!(), parsed.is_err());
    }};
}
