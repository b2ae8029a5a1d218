// Presses of events and of key reports.
use crate::draws::Draws;
use crate::plain::presses::{said_of, second_of, Said};
use crate::plain::{pressed, ALT, CTRL, NONE, SHIFT};
use crate::port::names::PLAIN_KEYS;
use hedrugal::input::{KeyCode, KeyEvent, Modifiers};
use hedrugal::{typed_text, KeyEventKind, KeyPress, KeyReport, KittyModifiers, ReportedKey};
use std::collections::{BTreeSet, HashMap};
use KeyEventKind::{Press, Release, Repeat};

// A press of a key, of which the terminal reports no more.
fn report(key: KeyCode, modifiers: KittyModifiers) -> KeyReport {
    pressed(ReportedKey::Named(key), modifiers)
}

pub fn functional(number: u32, modifiers: KittyModifiers) -> KeyReport {
    pressed(ReportedKey::Functional(number), modifiers)
}

// Keys of the port that no bytes are read as.
#[test]
fn events_have_presses() {
    let held = Modifiers::CTRL | Modifiers::LEFT_CTRL | Modifiers::LEADER;
    for (key, modifiers, name) in [
        (KeyCode::Char('a'), held, Some("ctrl+a")),
        (KeyCode::Char('a'), Modifiers::SUPER, Some("super+a")),
        (KeyCode::LeftControl, Modifiers::NONE, None),
        (KeyCode::NumLock, Modifiers::NONE, None),
        (KeyCode::InternalPasteEnd, Modifiers::NONE, None),
    ] {
        let press = KeyPress::of_event(&KeyEvent { key, modifiers });
        assert_eq!(press.map(|it| it.to_string()).as_deref(), name);
    }
}

// Reports that no bytes are read as.
#[test]
fn reports_have_presses() {
    for (report, name) in [
        (report(KeyCode::Char('\x7f'), ALT), "ctrl+alt+backspace"),
        (functional(57376, NONE), "f13"),
    ] {
        let press = KeyPress::of_report(&report).unwrap();
        assert_eq!(press.to_string(), name);
        assert_eq!(typed_text(&report), "");
    }
}

#[test]
fn some_reports_have_none() {
    let typing = |text: &str, report| KeyReport {
        text: text.to_string(),
        ..report
    };
    for (report, text) in [
        (functional(57343, NONE), ""),
        (functional(63744, NONE), ""),
        (typing("fi", report(KeyCode::Char('\0'), NONE)), "fi"),
        (typing("fi", functional(0, SHIFT)), "fi"),
        (typing("a\t", functional(0, NONE)), ""),
    ] {
        assert_eq!(KeyPress::of_report(&report), None, "{report:?}");
        assert_eq!(typed_text(&report), text, "{report:?}");
    }
}

// What is typed is the press's text, and nothing else is.
#[test]
fn presses_type_their_characters() {
    let text = |key, modifiers| KeyPress::of_report(&report(key, modifiers)).unwrap().text();
    assert_eq!(text(KeyCode::Char('a'), SHIFT), Some('A'));
    assert_eq!(text(KeyCode::Char(' '), SHIFT), Some(' '));
    assert_eq!(text(KeyCode::Numpad3, NONE), Some('3'));
    assert_eq!(text(KeyCode::Numpad3, SHIFT), None);
    assert_eq!(text(KeyCode::Char('a'), ALT), None);
    assert_eq!(text(KeyCode::Char('\u{85}'), NONE), None);
    assert_eq!(text(KeyCode::Tab, NONE), None);
}

// Presses are keys of maps, in the order of the numbers of their keys.
#[test]
fn presses_are_ordered_and_hashed() {
    let press = |key, modifiers| KeyPress::of_report(&report(key, modifiers)).unwrap();
    let functional_press = |number| KeyPress::of_report(&functional(number, NONE)).unwrap();
    let sorted = [
        functional_press(57428),
        press(KeyCode::Char('a'), ALT),
        press(KeyCode::Char('a'), CTRL),
        press(KeyCode::Char('b'), NONE),
        press(KeyCode::Enter, NONE),
        press(KeyCode::Function(2), NONE),
        press(KeyCode::Function(10), NONE),
    ];
    let set: BTreeSet<KeyPress> = sorted.iter().rev().copied().collect();
    assert!(set.into_iter().eq(sorted));
    let map: HashMap<KeyPress, usize> = sorted.iter().copied().zip(0..).collect();
    assert_eq!(map.get(&functional_press(57414)), Some(&4));
}

// Keys that the rules name, and neighbours of these.
pub fn drawn_key(draws: &mut Draws) -> ReportedKey {
    const CHARACTERS: &[char] = &[
        '\0', '\x01', '\x08', '\t', '\n', '\r', '\x1a', '\x1b', '\x1c', '\x1f', ' ', '!', '1', 'A',
        'Z', '[', '`', 'a', 'z', '{', '\x7f', '\u{80}', '\u{9f}', '\u{a0}', '×', 'ß', 'à', 'é',
        'É', 'Þ', '÷', 'þ', 'ÿ', 'Ā', 'Ϋ', 'ά', 'α', 'ς', 'Σ', 'ϋ', 'ό', 'Ѐ', 'Џ', 'А', 'я', 'ѐ',
        'с', 'џ', 'Ѡ', '\u{e016}',
    ];
    let key = match draws.below(3) {
        0 if draws.below(10) == 0 => return ReportedKey::Functional(0),
        0 => return ReportedKey::Functional(57340 + draws.below(120) as u32),
        1 => KeyCode::Char(*draws.one_of(CHARACTERS)),
        _ if draws.below(30) == 0 => *draws.one_of(&[0, 13].map(KeyCode::Function)),
        _ => *draws.one_of(PLAIN_KEYS),
    };
    ReportedKey::Named(key)
}

fn drawn_report(draws: &mut Draws) -> KeyReport {
    const TEXTS: &[&str] = &["", "", "", "a", "A", " ", "é", "ab", "fi ", "\t", "a\u{85}"];
    const OTHERS: &[&str] = &[
        "", "", "A", "!", "b", ",", " ", "Б", "é", "É", "1", "\x1b", "\u{80}",
    ];
    const KINDS: [KeyEventKind; 4] = [Press, Press, Repeat, Release];
    let key = drawn_key(draws);
    let held = draws.below(256) & draws.below(256);
    KeyReport {
        key,
        modifiers: KittyModifiers::from_bits_retain(held as u8),
        kind: *draws.one_of(&KINDS),
        shifted: draws.one_of(OTHERS).chars().next(),
        base: draws.one_of(OTHERS).chars().next(),
        text: draws.one_of(TEXTS).to_string(),
    }
}

// A press is what the rules say, and so is a second one. Each is its own press.
pub fn check_presses(report: &KeyReport) {
    let press = KeyPress::of_report(report);
    let said = match press {
        Some(press) => Said::Press((press.key(), press.held())),
        None if typed_text(report).is_empty() => Said::Nothing,
        None => Said::Text(typed_text(report).to_string()),
    };
    assert_eq!(said, said_of(report), "{report:?}");
    let second = KeyPress::second(report);
    let parts = second.map(|press| (press.key(), press.held()));
    assert_eq!(parts, second_of(report), "{report:?}");
    for press in press.into_iter().chain(second) {
        let again = pressed(press.key(), press.held());
        assert_eq!(KeyPress::of_report(&again), Some(press), "{report:?}");
    }
}

#[test]
fn presses_are_what_the_rules_say() {
    let mut draws = Draws::new(1);
    for _ in 0..200_000 {
        check_presses(&drawn_report(&mut draws));
    }
}

// The press of a key of the port is that of its report, with SUPER too.
#[test]
fn events_and_reports_agree() {
    let mut draws = Draws::new(2);
    let names = [
        (Modifiers::SHIFT, SHIFT),
        (Modifiers::ALT, ALT),
        (Modifiers::CTRL, CTRL),
        (Modifiers::SUPER, KittyModifiers::SUPER),
    ];
    for _ in 0..20_000 {
        let ReportedKey::Named(key) = drawn_key(&mut draws) else {
            continue;
        };
        let modifiers = Modifiers::from_bits_retain(draws.below(1 << 12) as u16);
        let held = names.iter().filter(|row| modifiers.contains(row.0));
        let held = held.fold(NONE, |held, row| held.union(row.1));
        let event = KeyEvent { key, modifiers };
        let press = KeyPress::of_report(&report(key, held));
        assert_eq!(KeyPress::of_event(&event), press, "{event:?}");
    }
}
