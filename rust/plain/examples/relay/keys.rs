//! What the child gets for a key.
use crate::modes::ChildModes;
use hedrugal::input::{KeyCodeEncodeModes, Modifiers};
use hedrugal::{
    typed_text, EraseByte, KeyCode, KeyPress, KeyReport, KittyKeyboardFlags, KittyModifiers,
    ReportedKey,
};

/// The keys of the keypad, and what each sends after ESC `O` in the keypad's application mode. Out
/// of it, and where they type a character, they send what keys of the main block send.
const KEYPAD: [(ReportedKey, char); 18] = [
    (ReportedKey::Functional(57414), 'M'),
    (ReportedKey::Functional(57415), 'X'),
    (ReportedKey::Named(KeyCode::Multiply), 'j'),
    (ReportedKey::Named(KeyCode::Add), 'k'),
    (ReportedKey::Named(KeyCode::Separator), 'l'),
    (ReportedKey::Named(KeyCode::Subtract), 'm'),
    (ReportedKey::Named(KeyCode::Decimal), 'n'),
    (ReportedKey::Named(KeyCode::Divide), 'o'),
    (ReportedKey::Named(KeyCode::Numpad0), 'p'),
    (ReportedKey::Named(KeyCode::Numpad1), 'q'),
    (ReportedKey::Named(KeyCode::Numpad2), 'r'),
    (ReportedKey::Named(KeyCode::Numpad3), 's'),
    (ReportedKey::Named(KeyCode::Numpad4), 't'),
    (ReportedKey::Named(KeyCode::Numpad5), 'u'),
    (ReportedKey::Named(KeyCode::Numpad6), 'v'),
    (ReportedKey::Named(KeyCode::Numpad7), 'w'),
    (ReportedKey::Named(KeyCode::Numpad8), 'x'),
    (ReportedKey::Named(KeyCode::Numpad9), 'y'),
];

/// Returns what a key sends in the child's modes, and nothing for one that they don't tell.
/// `has_kitty` is whether the terminal tells keys by Kitty's protocol. `erase` is what Backspace sends
/// by the settings of the terminal, which are the child's too.
pub fn key_text(
    report: &KeyReport,
    modes: &ChildModes,
    has_kitty: bool,
    erase: EraseByte,
) -> String {
    let text = match modes.kitty_flags() {
        KittyKeyboardFlags::NONE => legacy_text(report, modes, has_kitty),
        flags => kitty_text(report.clone(), flags),
    };
    let press = KeyPress::of_report(report);
    let is_backspace = press.is_some_and(|it| it.key() == ReportedKey::Named(KeyCode::Backspace));
    if is_backspace && erase == EraseByte::Backspace {
        swapped(&text)
    } else {
        text
    }
}

/// Backspace sends one of these two bytes, and with Ctrl the other one.
fn swapped(text: &str) -> String {
    let other = |c| match c {
        '\x08' => '\x7f',
        '\x7f' => '\x08',
        c => c,
    };
    text.chars().map(other).collect()
}

/// Returns what a key sends by Kitty's protocol.
fn kitty_text(mut report: KeyReport, flags: KittyKeyboardFlags) -> String {
    if let Some(press) = KeyPress::of_report(&report) {
        // A terminal without the protocol tells no text, but it is known what the key types. It
        // doesn't tell which key sends a control character either.
        if report.text.is_empty() {
            report.text.extend(press.text());
        }
        if matches!(report.key, ReportedKey::Named(KeyCode::Char(c)) if c.is_ascii_control()) {
            report.key = press.key();
            report.modifiers |= press.held();
        }
    }
    report.encode(flags).unwrap_or_default()
}

/// Returns what a key sends without the protocol.
fn legacy_text(report: &KeyReport, modes: &ChildModes, has_kitty: bool) -> String {
    let Some(press) = KeyPress::of_report(report) else {
        return typed_text(report).to_string();
    };
    if let Some(letter) = keypad_letter(report).filter(|_| modes.keys.keypad) {
        return format!("\x1bO{letter}");
    }
    // Ctrl and a letter of another script is Ctrl and the Latin letter at that place.
    let is_other = matches!(report.key, ReportedKey::Named(KeyCode::Char(c)) if !c.is_ascii());
    let has_place = is_other && report.base.is_some();
    let second =
        KeyPress::second(report).filter(|it| has_place && it.held().contains(KittyModifiers::CTRL));
    press_text(second.unwrap_or(press), modes.key_encoding(has_kitty)).unwrap_or_default()
}

/// Returns what a press sends. SUPER, HYPER and META can't be told, and a shortcut with one of them
/// mustn't type its key instead.
fn press_text(press: KeyPress, encoding: KeyCodeEncodeModes) -> Option<String> {
    let mut held = Modifiers::NONE;
    for modifier in press.held().iter() {
        held |= match modifier {
            KittyModifiers::SHIFT => Modifiers::SHIFT,
            KittyModifiers::ALT => Modifiers::ALT,
            KittyModifiers::CTRL => Modifiers::CTRL,
            _ => return None,
        };
    }
    match press.key() {
        ReportedKey::Named(key) => key.encode(held, encoding, true).ok(),
        ReportedKey::Functional(_) => None,
    }
}

/// Returns the letter of a key of the keypad, if it is held with no modifier and types nothing.
fn keypad_letter(report: &KeyReport) -> Option<char> {
    let (_, letter) = KEYPAD.iter().find(|(key, _)| *key == report.key)?;
    let is_enter = *letter == 'M';
    let types = !report.text.is_empty() || report.modifiers.contains(KittyModifiers::NUM_LOCK);
    let locks = KittyModifiers::CAPS_LOCK | KittyModifiers::NUM_LOCK;
    let is_alone = report.modifiers.difference(locks).is_empty();
    (is_alone && (is_enter || !types)).then_some(*letter)
}
