// A slow reader. It follows docs/GRAMMAR.md sentence by sentence and by trying everything, and
// shares nothing with the parser but the types of events and of what stays buffered. A number in a
// comment is that of the page's sentence.
pub mod rows;

use hedrugal::input::{InputEvent, KeyCode, KeyEvent, Modifiers, MouseButtons, MouseEvent};
use hedrugal::Waiting;
use rows::Table;
use std::collections::BTreeMap;
use std::str;

pub const ESC: &[u8] = b"\x1b";

pub const START: &[u8] = b"\x1b[200~";

pub const END: &[u8] = b"\x1b[201~";

const TWO_ESCAPES: &[u8] = b"\x1b\x1b";

// The event of a key.
pub fn key_event(key: KeyCode, modifiers: Modifiers) -> InputEvent {
    InputEvent::Key(KeyEvent { key, modifiers })
}

// The modifiers, by which of the three are held.
fn modifiers_of(shift: bool, alt: bool, ctrl: bool) -> Modifiers {
    let mut modifiers = Modifiers::NONE;
    modifiers.set(Modifiers::SHIFT, shift);
    modifiers.set(Modifiers::ALT, alt);
    modifiers.set(Modifiers::CTRL, ctrl);
    modifiers
}

// "Mouse events": the modifiers of a code.
pub fn modifiers_of_code(code: u16) -> Modifiers {
    modifiers_of(code & 4 != 0, code & 8 != 0, code & 16 != 0)
}

// "Mouse events": the buttons of a base at `M`.
pub fn buttons_of(base: u16) -> MouseButtons {
    match base {
        0 | 32 => MouseButtons::LEFT,
        1 | 33 => MouseButtons::MIDDLE,
        2 | 34 => MouseButtons::RIGHT,
        64 => MouseButtons::VERT_WHEEL | MouseButtons::WHEEL_POSITIVE,
        65 => MouseButtons::VERT_WHEEL,
        66 => MouseButtons::HORZ_WHEEL | MouseButtons::WHEEL_POSITIVE,
        67 => MouseButtons::HORZ_WHEEL,
        _ => MouseButtons::NONE,
    }
}

// 2: a number of one to five digits, up to a limit.
fn number_of(text: &[u8], limit: u16) -> Option<u16> {
    if text.len() > 5 || !text.iter().all(u8::is_ascii_digit) {
        return None;
    }
    let number = str::from_utf8(text).ok()?.parse().ok()?;
    (number <= limit).then_some(number)
}

// 2 and 3: the mouse event of a text that is a mouse report.
pub fn report_of(text: &[u8]) -> Option<MouseEvent> {
    let (last, front) = text.split_last()?;
    let mut numbers = front.strip_prefix(b"\x1b[<")?.split(|byte| *byte == b';');
    let code = number_of(numbers.next()?, 95)?;
    let x = number_of(numbers.next()?, 65535)?;
    let y = number_of(numbers.next()?, 65535)?;
    let mouse_buttons = match *last {
        b'M' => buttons_of(code & !(4 | 8 | 16)),
        b'm' => MouseButtons::NONE,
        _ => return None,
    };
    if numbers.next().is_some() {
        return None;
    }
    Some(MouseEvent {
        x,
        y,
        mouse_buttons,
        modifiers: modifiers_of_code(code),
    })
}

// 3 and 4: what a head is.
enum Kind {
    Row(KeyEvent),
    Report(MouseEvent),
    Character(char),
}

// 4: the head of a text: its bytes, and what follows them.
struct Head<'a> {
    kind: Kind,
    bytes: &'a [u8],
    rest: &'a [u8],
}

// 4: the character whose encoding begins the text.
fn character_at(text: &[u8]) -> Option<Head<'_>> {
    for len in 1..=text.len().min(4) {
        let (bytes, rest) = text.split_at(len);
        if let Ok(encoding) = str::from_utf8(bytes) {
            let kind = Kind::Character(encoding.chars().next()?);
            return Some(Head { kind, bytes, rest });
        }
    }
    None
}

// 4: the first byte of the text, as the character U+FFFD.
fn first_byte_of(text: &[u8]) -> Option<Head<'_>> {
    let kind = Kind::Character('\u{fffd}');
    let (bytes, rest) = text.split_at(text.len().min(1));
    (!bytes.is_empty()).then_some(Head { kind, bytes, rest })
}

// Whether the bytes are the encoding of one character.
fn is_character(bytes: &[u8]) -> bool {
    character_at(bytes).is_some_and(|head| head.rest.is_empty())
}

// 5: whether the text, this byte and at most two more bytes are a character. These two may be any
// of 0x80 to 0xbf, so that 0x80 stands for them.
fn goes_on_with(text: &[u8], byte: u8) -> bool {
    let mut whole = text.to_vec();
    whole.push(byte);
    for _ in 0..2 {
        if is_character(&whole) {
            return true;
        }
        whole.push(0x80);
    }
    is_character(&whole)
}

// 5: whether the encoding of some character is longer than the text and begins with it. It has at
// most four bytes.
pub fn begins_character(text: &[u8]) -> bool {
    text.len() <= 3 && (0x80..0xc0).any(|byte| goes_on_with(text, byte))
}

// 5: whether some mouse report is longer than the text and begins with it. A number that has begun
// may end where it is, and a 0 stands for each number that is missing, so that one of these ends
// makes a mouse report of each text that begins one.
fn begins_report(text: &[u8]) -> bool {
    let ends = [
        "[<0;0;0M", "<0;0;0M", "0;0;0M", ";0;0M", "0;0M", ";0M", "0M", "M",
    ];
    ends.iter()
        .any(|end| report_of(&[text, end.as_bytes()].concat()).is_some())
}

// 6: the paste that begins the text, and what follows it.
fn paste_at(text: &[u8]) -> Option<(InputEvent, &[u8])> {
    let body = text.strip_prefix(START)?;
    for len in 0..=body.len() {
        let (pasted, rest) = body.split_at(len);
        if let Some(rest) = rest.strip_prefix(END) {
            let pasted = String::from_utf8_lossy(pasted).into_owned();
            return Some((InputEvent::Paste(pasted), rest));
        }
    }
    None
}

// The reader, by the rows of the sequence table.
pub struct PlainReader {
    table: Table,
}

impl PlainReader {
    // 1: the rows, rule by rule.
    pub fn new() -> PlainReader {
        PlainReader {
            table: Table::new(),
        }
    }

    // How many rows the rules gave, also where two have the same bytes.
    pub fn row_count(&self) -> usize {
        self.table.given()
    }

    pub fn rows(&self) -> &BTreeMap<Vec<u8>, KeyEvent> {
        self.table.by_bytes()
    }

    // 3: what a sequence stands for.
    fn known(&self, text: &[u8]) -> Option<Kind> {
        if let Some(row) = self.table.by_bytes().get(text) {
            return Some(Kind::Row(row.clone()));
        }
        report_of(text).map(Kind::Report)
    }

    // 4: the head of a text. The longest sequence is the last one that is found.
    fn head_of<'a>(&self, text: &'a [u8]) -> Option<Head<'a>> {
        let mut longest = None;
        for len in 0..=text.len() {
            let (bytes, rest) = text.split_at(len);
            if let Some(kind) = self.known(bytes) {
                longest = Some(Head { kind, bytes, rest });
            }
        }
        longest
            .or_else(|| character_at(text))
            .or_else(|| first_byte_of(text))
    }

    // 5: whether the text is open.
    pub fn is_open(&self, text: &[u8], more: bool) -> bool {
        more && !text.is_empty()
            && (self.table.extend(text) || begins_report(text) || begins_character(text))
    }

    // 6: the item at an ESC that is a head, by what follows the ESC: a lone escape or an alt.
    fn escape_before<'a>(&self, rest: &'a [u8], more: bool) -> Option<(InputEvent, &'a [u8])> {
        if self.is_open(rest, more) {
            return None;
        }
        let head = self.head_of(rest)?;
        let (key, modifiers) = match head.kind {
            Kind::Row(row) if head.bytes != START => (row.key, row.modifiers),
            Kind::Character(character) => (KeyCode::Char(character), Modifiers::NONE),
            Kind::Row(_) | Kind::Report(_) => {
                return Some((key_event(KeyCode::Escape, Modifiers::NONE), rest))
            }
        };
        Some((key_event(key, modifiers | Modifiers::ALT), head.rest))
    }

    // 6: the item at a text, by its event and what follows its bytes.
    pub fn item_at<'a>(&self, text: &'a [u8], more: bool) -> Option<(InputEvent, &'a [u8])> {
        if self.is_open(text, more) {
            return None;
        }
        let head = self.head_of(text)?;
        if head.bytes == START {
            return paste_at(text);
        }
        if head.bytes == ESC && text != ESC {
            return self.escape_before(head.rest, more);
        }
        let event = match head.kind {
            Kind::Row(row) => InputEvent::Key(row),
            Kind::Report(event) => InputEvent::Mouse(event),
            Kind::Character(character) => key_event(KeyCode::Char(character), Modifiers::NONE),
        };
        Some((event, head.rest))
    }

    // 7: the events of a text under a flag, and the rest that stays buffered.
    pub fn read<'a>(&self, text: &'a [u8], more: bool) -> (Vec<InputEvent>, &'a [u8]) {
        let mut events = Vec::new();
        let mut rest = text;
        while let Some((event, after)) = self.item_at(rest, more) {
            events.push(event);
            rest = after;
        }
        (events, rest)
    }

    // The places in a text at which an item ends.
    pub fn ends_of(&self, text: &[u8], more: bool) -> Vec<usize> {
        let mut ends = Vec::new();
        let mut rest = text;
        while let Some((_, after)) = self.item_at(rest, more) {
            ends.push(text.len() - after.len());
            rest = after;
        }
        ends
    }

    // "What stays buffered": the kind of bytes that are undecided as they stand there, or after one
    // ESC.
    fn kind_of_undecided(&self, bytes: &[u8], more: bool) -> Option<Waiting> {
        let kinds = [Waiting::Sequence, Waiting::Character];
        let is_undecided = bytes.len() <= 20 && self.is_open(bytes, more);
        is_undecided.then(|| kinds[usize::from(begins_character(bytes))])
    }

    // "What stays buffered": the kind of a rest, and `None` if it is of none.
    pub fn kind_of(&self, rest: &[u8], more: bool) -> Option<Waiting> {
        if rest.is_empty() {
            return Some(Waiting::Nothing);
        }
        if rest.starts_with(START) && paste_at(rest).is_none() {
            return Some(Waiting::Paste);
        }
        if more && (rest == ESC || rest == TWO_ESCAPES) {
            return Some(Waiting::Escape);
        }
        self.kind_of_undecided(rest, more)
            .or_else(|| self.kind_of_undecided(rest.strip_prefix(ESC)?, more))
    }
}
