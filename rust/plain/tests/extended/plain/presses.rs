// A slow reader of presses. It follows the rules of the page of the crate termwiz_bindings sentence by
// sentence, and shares nothing with the library but the types of reports. A number in a comment is
// that of the rule.
use super::keys::functional_key;
use crate::port::lines::{key_named, Keys};
use hedrugal::input::KeyCode::{self, Char};
use hedrugal::{KeyEventKind, KeyReport, KittyModifiers as Held, ReportedKey};
use std::collections::HashMap;
use std::sync::OnceLock;

// A key, and the modifiers held with it.
pub type Press = (ReportedKey, Held);

// What a report says of its press.
#[derive(Debug, Clone, PartialEq, Eq)]
pub enum Said {
    Nothing,
    Press(Press),
    Text(String),
}

// 5: the keypad's keys by their names, or by Kitty's numbers, as the main block has them.
static KEYPAD: Keys = Keys::new(
    "Numpad0: 0 Numpad1: 1 Numpad2: 2 Numpad3: 3 Numpad4: 4 Numpad5: 5 Numpad6: 6 Numpad7: 7 \
     Numpad8: 8 Numpad9: 9 Multiply: * Add: + Separator: , Subtract: - Decimal: . Divide: / \
     KeyPadHome: Home KeyPadEnd: End KeyPadPageUp: PageUp KeyPadPageDown: PageDown \
     ApplicationLeftArrow: LeftArrow ApplicationRightArrow: RightArrow \
     ApplicationUpArrow: UpArrow ApplicationDownArrow: DownArrow 57414: Enter = \
     57417: LeftArrow RightArrow UpArrow DownArrow 57425: Insert Delete",
);

// 2: the keys of `KeyCode` that make no press by themselves.
static ALONE: Keys = Keys::new(
    "Hyper Super Meta Shift LeftShift RightShift Control LeftControl RightControl Alt LeftAlt \
     RightAlt LeftWindows RightWindows Menu LeftMenu RightMenu CapsLock NumLock ScrollLock \
     InternalPasteStart InternalPasteEnd",
);

// The signs of a PC-101 keyboard, each beside what it is with Shift.
const SIGNS: &str = "`~1!2@3#4$5%6^7&8*9(0)-_=+[{]}\\|;:'\",<.>/?";

// U+0000 to U+001F, U+007F to U+009F.
pub fn is_control(c: char) -> bool {
    matches!(u32::from(c), 0..=0x1f | 0x7f..=0x9f)
}

fn has_any(held: Held, some: &[Held]) -> bool {
    some.iter().any(|one| held.contains(*one))
}

// A modifier beside SHIFT and the locks.
const OTHERS: &[Held] = &[Held::ALT, Held::CTRL, Held::SUPER, Held::HYPER, Held::META];

// A text that has control characters counts as none.
fn text_of(report: &KeyReport) -> &str {
    if report.text.chars().any(is_control) {
        ""
    } else {
        &report.text
    }
}

// 2
fn is_alone(key: ReportedKey) -> bool {
    match key {
        ReportedKey::Named(key) => ALONE.rows().iter().any(|(_, it)| *it == key),
        ReportedKey::Functional(number) => {
            (57358..=57360).contains(&number)
                || (57441..=57454).contains(&number)
                || !(57344..=63743).contains(&number)
        }
    }
}

// 5
pub fn main_key(key: ReportedKey) -> ReportedKey {
    let named = match key {
        ReportedKey::Functional(number) => functional_key(number),
        named => named,
    };
    static MAIN: OnceLock<HashMap<ReportedKey, KeyCode>> = OnceLock::new();
    let main = MAIN.get_or_init(|| {
        let rows = KEYPAD.rows().iter().map(|(code, main)| {
            let number = code.parse().map(ReportedKey::Functional);
            let key = number.unwrap_or_else(|_| ReportedKey::Named(key_named(code)));
            (key, *main)
        });
        rows.collect()
    });
    main.get(&named).map_or(named, |it| ReportedKey::Named(*it))
}

// 6: a control character's key, and whether CTRL is held with it.
fn of_control(c: char) -> Option<(KeyCode, bool)> {
    Some(match u32::from(c) {
        0 => (Char(' '), true),
        127 => (KeyCode::Backspace, true),
        9 => (KeyCode::Tab, false),
        13 => (KeyCode::Enter, false),
        27 => (KeyCode::Escape, false),
        28 => (Char('\\'), true),
        29 => (Char(']'), true),
        30 => (Char('^'), true),
        31 => (Char('_'), true),
        place @ 1..=26 => (Char(('a'..='z').nth(place as usize - 1).unwrap()), true),
        _ => return None,
    })
}

// The capital of a cased letter.
fn capital_of(c: char) -> Option<char> {
    let is_cased = matches!(
        c,
        'a'..='z' | 'à'..='ö' | 'ø'..='þ' | 'α'..='ρ' | 'σ'..='ϋ' | 'а'..='я' | 'ѐ'..='џ'
    );
    c.to_uppercase().next().filter(|_| is_cased)
}

// The cased letter of a capital.
fn letter_of(c: char) -> Option<char> {
    let letter = c.to_lowercase().next()?;
    Some(letter).filter(|it| capital_of(*it) == Some(c))
}

// A sign of Shift.
pub fn is_sign_of_shift(c: char) -> bool {
    SIGNS.chars().skip(1).step_by(2).any(|sign| sign == c)
}

// 8: what a character is with Shift on every keyboard.
fn with_shift(c: char) -> Option<char> {
    if letter_of(c).is_some() || is_sign_of_shift(c) {
        return Some(c);
    }
    capital_of(c)
}

// What a report says of its press.
pub fn said_of(report: &KeyReport) -> Said {
    // 1
    if report.kind == KeyEventKind::Release {
        return Said::Nothing;
    }
    // 2, but for the number 0
    if is_alone(report.key) && report.key != ReportedKey::Functional(0) {
        return Said::Nothing;
    }
    let text = text_of(report);
    if !text.is_empty() && !has_any(report.modifiers, OTHERS) {
        let characters: Vec<char> = text.chars().collect();
        return match characters[..] {
            // 3
            [' '] => Said::Press((
                ReportedKey::Named(Char(' ')),
                report.modifiers.intersection(Held::SHIFT),
            )),
            [c] => Said::Press((ReportedKey::Named(Char(c)), Held::NONE)),
            // 4
            _ => Said::Text(text.to_string()),
        };
    }
    // 2, for the number 0
    if is_alone(report.key) {
        return Said::Nothing;
    }
    let shifted = report.shifted.filter(|c| !is_control(*c));
    Said::Press(press_of(report.key, report.modifiers, shifted))
}

// 5 and 6: the key before Shift is looked at.
fn plain_of(key: ReportedKey, modifiers: Held) -> Press {
    // 5
    let key = main_key(key);
    let held = modifiers.difference(Held::CAPS_LOCK.union(Held::NUM_LOCK));
    let ReportedKey::Named(Char(c)) = key else {
        return (key, held);
    };
    // 6
    match of_control(c) {
        Some((key, true)) => (ReportedKey::Named(key), held.union(Held::CTRL)),
        Some((key, false)) => (ReportedKey::Named(key), held),
        None => (key, held),
    }
}

// 5 to 10
fn press_of(key: ReportedKey, modifiers: Held, shifted: Option<char>) -> Press {
    let (key, mut held) = plain_of(key, modifiers);
    let ReportedKey::Named(Char(mut c)) = key else {
        return (key, held);
    };
    // 7
    if let (true, Some(told)) = (held.contains(Held::SHIFT) && c != ' ', shifted) {
        c = told;
        held = held.difference(Held::SHIFT);
    }
    // 8, and 9 of any other character
    if let (true, Some(shown)) = (held.contains(Held::SHIFT), with_shift(c)) {
        c = shown;
        held = held.difference(Held::SHIFT);
    }
    // 10
    let strong = [Held::CTRL, Held::SUPER, Held::HYPER, Held::META];
    if let (true, Some(letter)) = (has_any(held, &strong), letter_of(c)) {
        c = letter;
        held = held.union(Held::SHIFT);
    }
    (ReportedKey::Named(Char(c)), held)
}

// The key at the same place of a PC-101 keyboard.
fn placed_second(report: &KeyReport) -> Option<Press> {
    let is_beyond_ascii = matches!(report.key, ReportedKey::Named(Char(c)) if c >= '\u{80}');
    let base = report.base.filter(|c| !is_control(*c))?;
    if !has_any(report.modifiers, OTHERS) || !is_beyond_ascii {
        return None;
    }
    let signs: Vec<char> = SIGNS.chars().collect();
    let sign = signs.chunks(2).find(|pair| pair[0] == base);
    let key = ReportedKey::Named(Char(base));
    Some(press_of(key, report.modifiers, sign.map(|pair| pair[1])))
}

// The press without what was told, where rule 7 gave another character and rule 9 would have kept
// SHIFT.
fn untold_second(report: &KeyReport) -> Option<Press> {
    let shifted = report.shifted.filter(|c| !is_control(*c))?;
    let (ReportedKey::Named(Char(c)), held) = plain_of(report.key, report.modifiers) else {
        return None;
    };
    let is_told = held.contains(Held::SHIFT) && c != ' ' && c != shifted;
    if !is_told || with_shift(c).is_some() || !has_any(report.modifiers, OTHERS) {
        return None;
    }
    Some(press_of(report.key, report.modifiers, None))
}

// The key that sends a control character on some terminals.
fn sending_second(report: &KeyReport) -> Option<Press> {
    let (key, more) = match report.key {
        ReportedKey::Named(Char('\u{8}')) => (KeyCode::Backspace, Held::CTRL),
        ReportedKey::Named(Char('\n')) => (KeyCode::Enter, Held::NONE),
        _ => return None,
    };
    let held = report.modifiers.union(more);
    Some(press_of(ReportedKey::Named(key), held, None))
}

// The second press: the first of these that there is.
pub fn second_of(report: &KeyReport) -> Option<Press> {
    if report.kind == KeyEventKind::Release || is_alone(report.key) {
        return None;
    }
    placed_second(report)
        .or_else(|| untold_second(report))
        .or_else(|| sending_second(report))
}
