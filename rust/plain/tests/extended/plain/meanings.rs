// "Events": the event of a text of a form. `t` is what follows ESC `[`.
use super::keys::{
    console_key_of, key_of, key_of_letter, key_of_number, key_of_short_letter, keypad_key_of,
    modified_keypad_key_of, other_key_of, rxvt_key_of,
};
use super::strings::event_of_string;
use super::NONE;
use crate::port::plain::{buttons_of, modifiers_of_code};
use hedrugal::input::{KeyCode, MouseButtons};
use hedrugal::{
    Event, KeyEventKind, KeyReport, KittyKeyboardFlags, KittyModifiers, MouseKind, MouseReport,
    ReportedKey, Size,
};
use std::str;

// A number of at most so many digits.
fn number_of(text: &[u8], most_digits: usize) -> Option<u32> {
    if text.len() > most_digits || !text.iter().all(u8::is_ascii_digit) {
        return None;
    }
    str::from_utf8(text).ok()?.parse().ok()
}

// The fields of a text that are parted by semicolons, if there are so many.
fn fields<const N: usize>(text: &[u8]) -> Option<[&[u8]; N]> {
    let fields: Vec<_> = text.split(|byte| *byte == b';').collect();
    fields.try_into().ok()
}

// A number of at most seven digits, from 1 to a limit.
fn number_up_to(text: &[u8], limit: u32) -> Option<u32> {
    number_of(text, 7).filter(|number| (1..=limit).contains(number))
}

// A number of at most five digits, up to 65535.
fn short_number(text: &[u8]) -> Option<u16> {
    u16::try_from(number_of(text, 5)?).ok()
}

fn scalar_of(text: &[u8]) -> Option<char> {
    char::from_u32(number_of(text, 7)?)
}

// The modifiers and the type: [mods] [`:` type].
#[derive(Clone, Copy)]
struct Manner {
    modifiers: KittyModifiers,
    kind: KeyEventKind,
}

const PRESSED: Manner = Manner {
    modifiers: NONE,
    kind: KeyEventKind::Press,
};

// The bits of a number that is one more than they are.
fn modifiers_before(number: u32) -> Option<KittyModifiers> {
    let bits = u8::try_from(number - 1).ok()?;
    Some(KittyModifiers::from_bits_retain(bits))
}

// mods: one more than the bits. Missing, it is 1.
fn modifiers_of(text: &[u8]) -> Option<KittyModifiers> {
    if text.is_empty() {
        return Some(KittyModifiers::NONE);
    }
    modifiers_before(number_up_to(text, 256)?)
}

fn kind_of(text: &[u8]) -> Option<KeyEventKind> {
    match number_up_to(text, 3)? {
        1 => Some(KeyEventKind::Press),
        2 => Some(KeyEventKind::Repeat),
        _ => Some(KeyEventKind::Release),
    }
}

fn manner_of(field: &[u8]) -> Option<Manner> {
    let mut parts = field.split(|byte| *byte == b':');
    let modifiers = modifiers_of(parts.next()?)?;
    let kind = match parts.next() {
        Some(part) => kind_of(part)?,
        None => KeyEventKind::Press,
    };
    parts.next().is_none().then_some(Manner { modifiers, kind })
}

// [`;` [mods] [`:` type]].
fn manner_after(tail: &[u8]) -> Option<Manner> {
    match tail {
        [] => Some(PRESSED),
        [b';', field @ ..] => manner_of(field),
        _ => None,
    }
}

fn report_of(key: ReportedKey, manner: Manner) -> KeyReport {
    KeyReport {
        key,
        modifiers: manner.modifiers,
        kind: manner.kind,
        shifted: None,
        base: None,
        text: String::new(),
    }
}

// A press of which nothing else is told.
pub fn pressed(key: ReportedKey, modifiers: KittyModifiers) -> KeyReport {
    let kind = KeyEventKind::Press;
    report_of(key, Manner { modifiers, kind })
}

// c [`:` [shifted] [`:` base]].
struct Codes {
    c: char,
    shifted: Option<char>,
    base: Option<char>,
}

fn codes_of(field: &[u8]) -> Option<Codes> {
    let mut parts = field.split(|byte| *byte == b':');
    let c = scalar_of(parts.next()?)?;
    let shifted_part = parts.next();
    let base_part = parts.next();
    if parts.next().is_some() {
        return None;
    }
    // `c:` alone is none.
    let shifted = match shifted_part {
        Some([]) if base_part.is_some() => None,
        Some(part) => Some(scalar_of(part)?),
        None => None,
    };
    let base = match base_part {
        Some(part) => Some(scalar_of(part)?),
        None => None,
    };
    Some(Codes { c, shifted, base })
}

// [text].
fn text_of(field: &[u8]) -> Option<String> {
    if field.is_empty() {
        return Some(String::new());
    }
    field.split(|byte| *byte == b':').map(scalar_of).collect()
}

// The line of the keys that end in `u`.
fn character_key(t: &[u8]) -> Option<KeyReport> {
    let mut fields = t.strip_suffix(b"u")?.split(|byte| *byte == b';');
    let codes = codes_of(fields.next().unwrap_or(b""))?;
    let manner = manner_of(fields.next().unwrap_or(b""))?;
    let text = text_of(fields.next().unwrap_or(b""))?;
    if fields.next().is_some() {
        return None;
    }
    Some(KeyReport {
        shifted: codes.shifted,
        base: codes.base,
        text,
        ..report_of(key_of(codes.c), manner)
    })
}

// [`1`] [`;` [mods] [`:` type]].
fn manner_before_letter(body: &[u8]) -> Option<Manner> {
    manner_after(body.strip_prefix(b"1").unwrap_or(body))
}

// The line of the keys that end in a letter.
fn lettered_key(t: &[u8]) -> Option<KeyReport> {
    let (letter, body) = t.split_last()?;
    Some(report_of(
        key_of_letter(*letter)?,
        manner_before_letter(body)?,
    ))
}

// The lines of F3: no position can be meant, or none is asked for.
fn third_function_key(t: &[u8]) -> Option<Event> {
    let manner = manner_before_letter(t.strip_suffix(b"R")?)?;
    let key = ReportedKey::Named(KeyCode::Function(3));
    Some(Event::Key(report_of(key, manner)))
}

// The line of rxvt-unicode's keys.
fn rxvt_key(t: &[u8]) -> Option<Event> {
    let (last, number) = t.split_last()?;
    let modifiers = match last {
        b'^' => KittyModifiers::CTRL,
        b'@' => KittyModifiers::SHIFT | KittyModifiers::CTRL,
        b'$' => KittyModifiers::SHIFT,
        _ => return None,
    };
    Some(Event::Key(pressed(rxvt_key_of(number)?, modifiers)))
}

// The line of the keys that end in `~`.
fn numbered_key(t: &[u8]) -> Option<KeyReport> {
    let body = t.strip_suffix(b"~")?;
    let len = body.split(|byte| *byte == b';').next()?.len();
    let (number, tail) = body.split_at(len);
    Some(report_of(
        key_of_number(number_of(number, 7)?)?,
        manner_after(tail)?,
    ))
}

// The line `27;` m `;` c `~`.
fn other_key(t: &[u8]) -> Option<KeyReport> {
    let body = t.strip_prefix(b"27;")?.strip_suffix(b"~")?;
    let [m, c] = fields(body)?;
    let (m, c) = (number_up_to(m, 256)?, scalar_of(c)?);
    let modifiers = modifiers_before(m)?;
    let is_shifted = modifiers.contains(KittyModifiers::SHIFT) && !c.is_control();
    Some(KeyReport {
        shifted: is_shifted.then_some(c),
        ..pressed(other_key_of(c), modifiers)
    })
}

// The lines of keys.
fn key_event(t: &[u8]) -> Option<Event> {
    let report = character_key(t)
        .or_else(|| lettered_key(t))
        .or_else(|| numbered_key(t))
        .or_else(|| other_key(t));
    report.map(Event::Key)
}

// The lines of cursor positions. The first row and column are 1. A page stands only behind `?`.
fn cursor_position(t: &[u8]) -> Option<Event> {
    let body = t.strip_suffix(b"R")?;
    let [row, column] = match body.strip_prefix(b"?") {
        Some(body) => fields(body).or_else(|| {
            let [row, column, page] = fields(body)?;
            short_number(page).map(|_| [row, column])
        })?,
        None => fields(body)?,
    };
    let row = short_number(row).filter(|it| *it > 0)?;
    let column = short_number(column).filter(|it| *it > 0)?;
    Some(Event::CursorPosition { row, column })
}

// The line of the flags of the keyboard.
fn keyboard_flags(t: &[u8]) -> Option<Event> {
    let flags = short_number(t.strip_prefix(b"?")?.strip_suffix(b"u")?)?;
    let bits = u8::try_from(flags).ok()?.into();
    let flags = KittyKeyboardFlags::from_bits_retain(bits);
    Some(Event::KeyboardFlags(flags))
}

// The line of sizes.
fn resize(t: &[u8]) -> Option<Event> {
    let [rows, columns, height, width] = fields(t.strip_prefix(b"48;")?.strip_suffix(b"t")?)?;
    Some(Event::Resized(Size {
        rows: short_number(rows)?,
        columns: short_number(columns)?,
        height: short_number(height)?,
        width: short_number(width)?,
    }))
}

// How a mouse report is written. Only SGR's tell which button was released.
#[derive(Clone, Copy, PartialEq)]
enum Form {
    Pressed,
    Released,
    Other,
}

// The report of a code at x, y: the buttons have the numbers 1 to 3, the wheel 4 to 7, and the side
// buttons 8 to 11.
fn mouse_report(code: u16, x: u16, y: u16, form: Form) -> Option<Event> {
    let is_moved = code & 32 != 0;
    let number = match code & !(4 | 8 | 16 | 32) {
        base @ 0..=2 => Some(base as u8 + 1),
        3 => None,
        base @ 64..=67 if !is_moved => Some(base as u8 - 64 + 4),
        base @ 128..=131 => Some(base as u8 - 128 + 8),
        _ => return None,
    };
    let kind = match number {
        None if !is_moved && form == Form::Other => MouseKind::Release,
        None => MouseKind::Move,
        Some(_) if form == Form::Released => MouseKind::Release,
        Some(4..=7) => MouseKind::Wheel,
        Some(_) if is_moved => MouseKind::Drag,
        Some(_) => MouseKind::Press,
    };
    let buttons = match kind {
        MouseKind::Release => MouseButtons::NONE,
        _ => buttons_of(code & !(4 | 8 | 16)),
    };
    Some(Event::Mouse(MouseReport {
        x,
        y,
        modifiers: modifiers_of_code(code),
        buttons,
        kind,
        button: number,
    }))
}

// The mouse event of code b - 32 at x, y.
fn mouse_event(b: u16, x: u16, y: u16) -> Option<Event> {
    mouse_report(b.checked_sub(32)?, x, y, Form::Other)
}

// SGR's reports, of which the port has those of side buttons not.
pub fn sgr_report(text: &[u8]) -> Option<Event> {
    let (last, body) = text.strip_prefix(b"\x1b[<")?.split_last()?;
    let form = match last {
        b'M' => Form::Pressed,
        b'm' => Form::Released,
        _ => return None,
    };
    let [code, x, y] = fields(body)?.map(short_number);
    mouse_report(code?, x?, y?, form)
}

// The line of side buttons in SGR reports.
fn sgr_side_button(t: &[u8]) -> Option<Event> {
    let event = sgr_report(&[b"\x1b[", t].concat())?;
    let is_side = matches!(&event, Event::Mouse(report) if report.button >= Some(8));
    is_side.then_some(event)
}

// The line of urxvt's mouse reports.
fn urxvt_report(t: &[u8]) -> Option<Event> {
    let [b, x, y] = fields(t.strip_suffix(b"M")?)?.map(short_number);
    mouse_event(b?, x?, y?)
}

// The line of X10 mouse reports. Each byte is at least 32.
fn x10_report(t: &[u8]) -> Option<Event> {
    match t {
        [b'M', b, x, y] => mouse_event(u16::from(*b), u16::from(*x) - 32, u16::from(*y) - 32),
        _ => None,
    }
}

// The line of the Linux console's keys.
fn console_key(t: &[u8]) -> Option<Event> {
    match t {
        [b'[', letter] => Some(Event::Key(pressed(console_key_of(*letter)?, NONE))),
        _ => None,
    }
}

// The line of Tab with Shift.
fn back_tab(t: &[u8]) -> Option<Event> {
    let body = t.strip_suffix(b"Z")?;
    let field = body.strip_prefix(b"1").unwrap_or(body).strip_prefix(b";")?;
    let mut manner = manner_of(field)?;
    manner.modifiers |= KittyModifiers::SHIFT;
    let key = ReportedKey::Named(KeyCode::Tab);
    Some(Event::Key(report_of(key, manner)))
}

// The lines of a letter after a digit, and of `G`.
fn short_key(t: &[u8]) -> Option<Event> {
    Some(Event::Key(match t {
        [m @ b'2'..=b'8', letter] => pressed(key_of_short_letter(*letter)?, modifiers_of(&[*m])?),
        [b'G'] => pressed(ReportedKey::Named(KeyCode::KeyPadBegin), NONE),
        _ => return None,
    }))
}

// The first line that fits, while a question for the cursor is open or not.
fn event_of_control(t: &[u8], is_asked: bool) -> Event {
    match t {
        [b'I'] => return Event::FocusGained,
        [b'O'] => return Event::FocusLost,
        _ => (),
    }
    key_event(t)
        .or_else(|| third_function_key(t).filter(|_| !is_asked))
        .or_else(|| cursor_position(t))
        .or_else(|| keyboard_flags(t))
        .or_else(|| resize(t))
        .or_else(|| third_function_key(t))
        .or_else(|| rxvt_key(t))
        .or_else(|| urxvt_report(t))
        .or_else(|| x10_report(t))
        .or_else(|| sgr_side_button(t))
        .or_else(|| console_key(t))
        .or_else(|| back_tab(t))
        .or_else(|| short_key(t))
        .unwrap_or_else(|| Event::Csi(t.into()))
}

// The key behind ESC `O` and a number.
fn modified_key(m: u8, letter: u8) -> Option<Event> {
    let key = modified_keypad_key_of(letter)?;
    Some(Event::Key(pressed(key, modifiers_of(&[m])?)))
}

// The event of a text of a form, while a question for the cursor is open or not.
pub fn event_of(text: &[u8], is_asked: bool) -> Option<Event> {
    if text.starts_with(b"\x1b]") {
        let end = if text.ends_with(b"\x07") { 1 } else { 2 };
        return Some(event_of_string(&text[..text.len() - end]));
    }
    if let Some(t) = text.strip_prefix(b"\x1b[") {
        return Some(event_of_control(t, is_asked));
    }
    match text {
        [0x1b, b'O', letter] => Some(Event::Key(pressed(keypad_key_of(*letter)?, NONE))),
        [0x1b, b'O', m, letter] | [0x1b, b'O', b'0' | b'1', b';', m, letter] => {
            modified_key(*m, *letter)
        }
        _ => None,
    }
}
