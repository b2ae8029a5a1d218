// A slow reader. It follows docs/EXTENDED.md sentence by sentence and by trying everything, and
// shares nothing with `Parser` but the types of events. What the port knows it asks the
// port's plain reader. A number in a comment is that of the page's sentence.
pub mod chords;
mod forms;
pub mod keys;
mod meanings;
pub mod names;
pub mod presses;
pub mod replies;
pub mod sending;
mod strings;
pub mod timed;
pub mod twins;

use crate::port::plain::{begins_character, report_of, PlainReader as PortReader, ESC, START};
use forms::{is_form, is_keypad_key};
use hedrugal::input::{InputEvent, KeyCode, KeyEvent, Modifiers};
use hedrugal::{
    Dialect, EraseByte, Event, KeyReport, KittyModifiers, NewlineByte, Reading, ReportedKey,
    Waiting,
};
use meanings::{event_of, sgr_report};
use std::sync::OnceLock;
use strings::{begins_opening, opening_of, string_at};

pub use meanings::pressed;

pub const NONE: KittyModifiers = KittyModifiers::NONE;

pub const SHIFT: KittyModifiers = KittyModifiers::SHIFT;

pub const ALT: KittyModifiers = KittyModifiers::ALT;

pub const CTRL: KittyModifiers = KittyModifiers::CTRL;

// 8: ends of forms. With one of these each text that properly begins a form is a whole one, and it
// is no sequence of the port, since no row ends with `x`.
const ENDS_OF_FORMS: &[&[u8]] = &[
    b"[x", b"x", b"   ", b"  ", b" ", b"A", b"M", b"l\x07", b"\x07", b"\\", b";2x", b"2x", b";2P",
    b"2P", b"P",
];

// 11: the key Escape.
fn escape_key() -> Event {
    let key = ReportedKey::Named(KeyCode::Escape);
    Event::Key(pressed(key, NONE))
}

// 3: whether the event of a row isn't left to the port.
fn overrides(reading: Reading, event: &Event) -> bool {
    match event {
        Event::Key(_) => true,
        Event::CursorPosition { .. } => reading.questions > 0,
        _ => false,
    }
}

// A key of the port as a report: SHIFT, ALT and CTRL, and nothing else is told.
fn key_of_port(event: &KeyEvent) -> KeyReport {
    let mut modifiers = NONE;
    modifiers.set(SHIFT, event.modifiers.contains(Modifiers::SHIFT));
    modifiers.set(ALT, event.modifiers.contains(Modifiers::ALT));
    modifiers.set(CTRL, event.modifiers.contains(Modifiers::CTRL));
    pressed(ReportedKey::Named(event.key), modifiers)
}

// An event of the port, of these bytes. A mouse report tells more.
fn event_of_port(event: InputEvent, bytes: &[u8]) -> Event {
    match event {
        InputEvent::Key(event) => Event::Key(key_of_port(&event)),
        InputEvent::Mouse(_) => sgr_report(bytes).expect("a report of mode 1006"),
        InputEvent::Paste(text) => Event::Paste(text),
        event => panic!("the port never makes {event:?}"),
    }
}

// The key of the bytes 8, 10 and 127, by the terminal's settings. Other bytes are the port's.
fn key_of_byte(byte: u8, reading: Reading) -> Option<KeyCode> {
    Some(match (byte, reading.erase, reading.newline) {
        (8, EraseByte::Delete, _) => KeyCode::Char('\x08'),
        (127, EraseByte::Backspace, _) => KeyCode::Char('\x7f'),
        (8 | 127, _, _) => KeyCode::Backspace,
        (10, _, NewlineByte::CtrlJ) => KeyCode::Char('\n'),
        (10, _, NewlineByte::Enter) => KeyCode::Enter,
        _ => return None,
    })
}

// 11: the event of a bare key after ESC.
fn with_alt(event: Event) -> Event {
    match event {
        Event::Key(mut report) => {
            report.modifiers |= KittyModifiers::ALT;
            Event::Key(report)
        }
        event => event,
    }
}

// The reader, and how it reads.
pub struct PlainReader {
    reading: Reading,
    port: &'static PortReader,
}

// The port's reader, whose rows are made once.
static PORT: OnceLock<PortReader> = OnceLock::new();

// An event, and what its item leaves: what follows its bytes, after an opening that it put back.
type Item = (Event, Vec<u8>);

impl PlainReader {
    pub fn new(reading: Reading) -> PlainReader {
        PlainReader {
            reading,
            port: PORT.get_or_init(PortReader::new),
        }
    }

    pub fn reading(&self) -> Reading {
        self.reading
    }

    pub fn set_reading(&mut self, reading: Reading) {
        self.reading = reading;
    }

    // One more question is open, of 255 at most.
    pub fn expect_position(&mut self) {
        self.reading.questions = self.reading.questions.saturating_add(1);
    }

    // No question is open any more.
    pub fn forget_positions(&mut self) {
        self.reading.questions = 0;
    }

    // A position answers one question, if any is open.
    fn note(&mut self, event: &Event) {
        if let Event::CursorPosition { .. } = event {
            self.reading.questions = self.reading.questions.saturating_sub(1);
        }
    }

    // Whether the text is a row.
    fn is_row(&self, text: &[u8]) -> bool {
        self.port.rows().contains_key(text)
    }

    // 3: the event of a text that is an extra sequence.
    fn extra_event(&self, text: &[u8]) -> Option<Event> {
        if !is_form(text, self.reading.x10_mouse) || report_of(text).is_some() {
            return None;
        }
        let event = event_of(text, self.reading.questions > 0)?;
        if self.is_row(text) && !overrides(self.reading, &event) {
            return None;
        }
        Some(event)
    }

    // The extra sequence that begins the text: it, its event, and what follows it.
    fn extra_parts<'a>(&self, text: &'a [u8]) -> Option<(&'a [u8], Event, &'a [u8])> {
        (0..=text.len().min(256)).find_map(|len| {
            let (bytes, rest) = text.split_at(len);
            Some((bytes, self.extra_event(bytes)?, rest))
        })
    }

    // 9: the item of that sequence.
    fn extra_at(&self, text: &[u8]) -> Option<Item> {
        let (_, event, rest) = self.extra_parts(text)?;
        Some((event, rest.to_vec()))
    }

    // 11: whether an extra sequence is a bare key.
    fn is_bare(&self, text: &[u8], event: &Event) -> bool {
        let is_key = matches!(event, Event::Key(_));
        let is_control = matches!(
            text,
            [0x1b, b'[', .., b'^' | b'@' | b'$' | b'Z']
                | [0x1b, b'[', b'3', b'5'..=b'8', b'~']
                | [0x1b, b'[', b'E' | b'G']
                | [0x1b, b'[', b'2'..=b'8', b'A'..=b'F' | b'H' | b'P'..=b'S']
        );
        is_key && (self.is_row(text) || is_keypad_key(text) || is_control)
    }

    // 11: the item of a bare key after ESC.
    fn alt_key_at(&self, after: &[u8]) -> Option<Item> {
        let (bytes, event, rest) = self.extra_parts(after)?;
        self.is_bare(bytes, &event)
            .then(|| (with_alt(event), rest.to_vec()))
    }

    // 8: whether some extra sequence or some opening is longer than the text and begins with it.
    fn begins_more(&self, text: &[u8]) -> bool {
        let begins_extra = ENDS_OF_FORMS
            .iter()
            .any(|end| self.extra_event(&[text, end].concat()).is_some());
        begins_extra || begins_opening(text)
    }

    // 8: whether the text is open. The port knows whether a sequence of its own or a character
    // begins with it.
    fn is_open(&self, text: &[u8], more: bool) -> bool {
        more && !text.is_empty() && (self.begins_more(text) || self.port.is_open(text, more))
    }

    // The port's item at a text: its event, and what follows it.
    fn item_of_port(&self, text: &[u8], more: bool) -> Option<Item> {
        let (event, rest) = self.port.item_at(text, more)?;
        let bytes = &text[..text.len() - rest.len()];
        Some((event_of_port(event, bytes), rest.to_vec()))
    }

    // 12: the same at a text that isn't open. Some bytes are keys by the terminal's settings, also
    // after ESC.
    fn usual_item(&self, text: &[u8], more: bool) -> Option<Item> {
        let (mut event, rest) = self.item_of_port(text, more)?;
        let bytes = &text[..text.len() - rest.len()];
        if let (Event::Key(report), [byte] | [0x1b, byte]) = (&mut event, bytes) {
            if let Some(key) = key_of_byte(*byte, self.reading) {
                report.key = ReportedKey::Named(key);
            }
        }
        Some((event, rest))
    }

    // Whether an opening begins the text.
    pub fn is_string(&self, text: &[u8]) -> bool {
        opening_of(text).is_some()
    }

    // Whether an extra sequence or an opening begins the text.
    fn is_extra_at(&self, text: &[u8]) -> bool {
        self.extra_at(text).is_some() || self.is_string(text)
    }

    // 9 to 12: the item at a text: its event, and what it leaves. Of termwiz's dialect that is the
    // port's.
    fn item_at(&self, text: &[u8], more: bool) -> Option<Item> {
        if self.reading.dialect == Dialect::Termwiz {
            return self.item_of_port(text, more);
        }
        let extra = self.extra_at(text);
        if extra.is_some() {
            return extra;
        }
        if let Some(opening) = opening_of(text) {
            return string_at(opening, text, more);
        }
        if let Some(after) = text.strip_prefix(ESC) {
            let alt_key = self.alt_key_at(after);
            if alt_key.is_some() {
                return alt_key;
            }
            if self.is_extra_at(after) {
                return Some((escape_key(), after.to_vec()));
            }
            if self.is_open(after, more) {
                return None;
            }
        }
        if self.is_open(text, more) {
            return None;
        }
        self.usual_item(text, more)
    }

    // Whether an extra sequence or an opening begins an item of a text under a flag, after at most
    // one ESC. The reading stays.
    pub fn has_extra(&mut self, text: &[u8], more: bool) -> bool {
        let reading = self.reading;
        let (mut rest, mut has_extra) = (text.to_vec(), false);
        while let Some((event, left)) = self.item_at(&rest, more) {
            let after = rest.strip_prefix(ESC).unwrap_or(&rest);
            has_extra |= self.is_extra_at(&rest) || self.is_extra_at(after);
            self.note(&event);
            rest = left;
        }
        self.reading = reading;
        has_extra
    }

    // Whether a rest has or begins an extra sequence or an opening, after at most one ESC.
    pub fn begins_extra(&self, rest: &[u8]) -> bool {
        [Some(rest), rest.strip_prefix(ESC)]
            .into_iter()
            .flatten()
            .any(|text| self.is_extra_at(text) || self.begins_more(text))
    }

    // The first event of a text under a flag, which is noted, and what is left.
    pub fn next(&mut self, text: &[u8], more: bool) -> Option<(Event, Vec<u8>)> {
        let (event, left) = self.item_at(text, more)?;
        self.note(&event);
        Some((event, left))
    }

    // 13: the events of a text under a flag, and the rest that stays buffered. Each event is noted
    // before the next item is matched.
    pub fn read(&mut self, text: &[u8], more: bool) -> (Vec<Event>, Vec<u8>) {
        let (mut events, mut rest) = (Vec::new(), text.to_vec());
        while let Some((event, left)) = self.next(&rest, more) {
            events.push(event);
            rest = left;
        }
        (events, rest)
    }

    // The kind of what stays buffered with more to come.
    pub fn kind_of(&self, rest: &[u8]) -> Waiting {
        let is_extended = self.reading.dialect == Dialect::Extended;
        match rest {
            [] => Waiting::Nothing,
            _ if rest.starts_with(START) => Waiting::Paste,
            _ if is_extended && self.is_string(rest) => Waiting::String,
            b"\x1b" | b"\x1b\x1b" => Waiting::Escape,
            _ if begins_character(rest.strip_prefix(ESC).unwrap_or(rest)) => Waiting::Character,
            _ => Waiting::Sequence,
        }
    }
}
