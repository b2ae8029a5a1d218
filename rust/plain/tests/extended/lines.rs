// Events as lines of tests/cases, and texts in quotes.
use crate::port::lines::{key_name, ESCAPED};
use hedrugal::input::{InputEvent, KeyEvent, Modifiers, MouseEvent};
use hedrugal::{
    Event, KeyEventKind, KeyReport, KittyModifiers, MouseReport, ReportedKey, StringKind,
};
use std::fmt::Display;

pub use crate::port::lines::unquoted;

// The names that are in a set, joined by +.
fn joined(set: impl Display) -> String {
    set.to_string().replace('|', "+")
}

fn mouse(report: &MouseReport) -> String {
    let (x, y, button) = (report.x, report.y, report.button.unwrap_or(0));
    let (buttons, modifiers) = (joined(report.buttons), joined(report.modifiers));
    let kind = format!("{:?}", report.kind).to_lowercase();
    format!("mouse {x} {y} {buttons} {modifiers} {kind} {button}")
}

// A press is not named, nor what the terminal didn't report.
fn report(report: &KeyReport) -> String {
    let key = match report.key {
        ReportedKey::Named(key) => key_name(key),
        ReportedKey::Functional(number) => number.to_string(),
    };
    let mut line = format!("key {key} {}", joined(report.modifiers));
    line += match report.kind {
        KeyEventKind::Press => "",
        KeyEventKind::Repeat => " repeat",
        KeyEventKind::Release => " release",
    };
    for (name, character) in [("shifted", report.shifted), ("base", report.base)] {
        if let Some(character) = character {
            line += &format!(" {name} U+{:04X}", u32::from(character));
        }
    }
    if !report.text.is_empty() {
        line += &format!(" text {}", quoted(report.text.as_bytes()));
    }
    line
}

// The name of a kind of strings.
fn name_of(kind: StringKind) -> &'static str {
    match kind {
        StringKind::Osc => "osc",
        StringKind::Dcs => "dcs",
        StringKind::Apc => "apc",
    }
}

// The line of an event, without its end.
pub fn line(event: &Event) -> String {
    match event {
        Event::Key(event) => report(event),
        Event::Mouse(event) => mouse(event),
        Event::Paste(text) => format!("paste {}", quoted(text.as_bytes())),
        Event::PastePart(text) => format!("paste part {}", quoted(text.as_bytes())),
        Event::FocusGained => "focus gained".to_string(),
        Event::FocusLost => "focus lost".to_string(),
        Event::CursorPosition { row, column } => format!("position {row} {column}"),
        Event::Resized(size) => format!(
            "resized {} {} {} {}",
            size.rows, size.columns, size.height, size.width
        ),
        Event::KeyboardFlags(flags) => format!("flags {}", flags.bits()),
        Event::Csi(text) => format!("csi {}", quoted(text)),
        Event::Osc(text) => format!("osc {}", quoted(text)),
        Event::Dcs(text) => format!("dcs {}", quoted(text)),
        Event::Apc(text) => format!("apc {}", quoted(text)),
        Event::StringPart { kind, bytes } => format!("{} part {}", name_of(*kind), quoted(bytes)),
        Event::StringCut { kind, bytes } => format!("{} cut {}", name_of(*kind), quoted(bytes)),
        Event::Resumed => "resumed".to_string(),
    }
}

// The lines of events, parted by commas.
pub fn lines(events: &[Event]) -> String {
    if events.is_empty() {
        return "nothing".to_string();
    }
    let lines: Vec<String> = events.iter().map(line).collect();
    lines.join(", ")
}

// Bytes as a word in quotes.
pub fn quoted(bytes: &[u8]) -> String {
    let mut word = String::from("\"");
    for byte in bytes {
        match (ESCAPED.iter().find(|(it, _)| it == byte), byte) {
            (Some((_, letter)), _) => word.extend(['\\', char::from(*letter)]),
            (None, b'!'..=b'~') => word.push(char::from(*byte)),
            _ => word += &format!("\\x{byte:02x}"),
        }
    }
    word + "\""
}

// The event of the port for a key: a press with these modifiers alone, of which nothing else is told.
fn key_of(report: &KeyReport) -> Option<KeyEvent> {
    let ReportedKey::Named(key) = report.key else {
        return None;
    };
    let (mut modifiers, mut others) = (Modifiers::NONE, report.modifiers);
    for (held, flag) in [
        (Modifiers::SHIFT, KittyModifiers::SHIFT),
        (Modifiers::ALT, KittyModifiers::ALT),
        (Modifiers::CTRL, KittyModifiers::CTRL),
        (Modifiers::SUPER, KittyModifiers::SUPER),
    ] {
        modifiers.set(held, others.contains(flag));
        others.remove(flag);
    }
    let is_told = report.shifted.is_some() || report.base.is_some() || !report.text.is_empty();
    let is_plain = report.kind == KeyEventKind::Press && others.is_empty() && !is_told;
    is_plain.then_some(KeyEvent { key, modifiers })
}

// The port's event of an event that has one.
pub fn port_of(event: &Event) -> Option<InputEvent> {
    match event {
        Event::Key(report) => key_of(report).map(InputEvent::Key),
        Event::Mouse(report) if !matches!(report.button, Some(8..)) => {
            Some(InputEvent::Mouse(MouseEvent {
                x: report.x,
                y: report.y,
                mouse_buttons: report.buttons,
                modifiers: report.modifiers,
            }))
        }
        Event::Paste(text) => Some(InputEvent::Paste(text.clone())),
        _ => None,
    }
}
