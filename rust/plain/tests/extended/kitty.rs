// What kitty sent for keys (kitty.tsv), and what is written for their reports. The report of a key
// is what kitty sent for it with all flags. So it shows which key that was, what it types with
// Shift, and its text.
use crate::calls::Calls;
use crate::port::names::keys;
use hedrugal::input::{KeyCode, KittyKeyboardFlags as Flags};
use hedrugal::{Dialect, Event, KeyEventKind, KeyReport, KittyModifiers, Parser, ReportedKey};

const RECORDED: &str = include_str!("kitty.tsv");

const DISAMBIGUATE: Flags = Flags::DISAMBIGUATE_ESCAPE_CODES;

const EVENT_TYPES: Flags = DISAMBIGUATE.union(Flags::REPORT_EVENT_TYPES);

// The flags of the columns, and whether the key was pressed.
const COLUMNS: [(Flags, bool); 6] = [
    (Flags::all(), true),
    (Flags::all(), false),
    (Flags::NONE, true),
    (DISAMBIGUATE, true),
    (EVENT_TYPES, true),
    (EVENT_TYPES, false),
];

// What kitty sent for a report under these flags.
struct Sent {
    name: &'static str,
    report: KeyReport,
    flags: Flags,
    text: String,
}

// A difference from what kitty 0.26.5 sends, how often it is recorded, and where.
type Difference = (&'static str, usize, fn(&Sent) -> bool);

const DIFFERENCES: &[Difference] = &[
    (
        "kitty 0.26.5 sends F3 by the letter R, as positions of the cursor are told: the page has the number 13 since then",
        47,
        |sent| sent.name == "F3" && (sent.flags != Flags::NONE || !sent.report.modifiers.is_empty()),
    ),
    (
        "the page has no such modifiers for the keys of C0 controls: kitty leaves them out, and here the key's report has them",
        12,
        |sent| sends_control(&sent.report) && is_legacy(sent) && has_no_column(sent.report.modifiers),
    ),
    (
        "kitty makes a control character of what the key types with Shift: by the page Ctrl and Shift are sent as the key's report",
        42,
        |sent| is_legacy(sent) && sent.report.modifiers.contains(KittyModifiers::CTRL) && shows_other(&sent.report),
    ),
    ("of the keypad's digits kitty 0.26.5 makes only 0 and 9 the main keys", 24, |sent| {
        is_legacy(sent) && is_other_digit(&sent.report) && sent.report.text.is_empty()
    }),
    (
        "kitty 0.26.5 sends releases of Enter, Tab and Backspace: by the page that wants REPORT_ALL_KEYS_AS_ESCAPE_CODES",
        30,
        |sent| {
            let named = keys![Enter Tab Backspace].map(ReportedKey::Named);
            sent.report.kind == KeyEventKind::Release && sent.flags == EVENT_TYPES && named.contains(&sent.report.key)
        },
    ),
    (
        "kitty 0.26.5 leaves out the text of a key beyond ASCII, and keeps an empty field before it",
        5,
        |sent| {
            let is_plain = sent.report.kind == KeyEventKind::Press && sent.report.modifiers.is_empty();
            let is_beyond = matches!(sent.report.key, ReportedKey::Named(KeyCode::Char(c)) if !c.is_ascii());
            sent.flags == Flags::all() && is_plain && is_beyond
        },
    ),
];

fn is_legacy(sent: &Sent) -> bool {
    sent.flags == Flags::NONE
}

// Enter, Tab, Backspace, Escape, and Enter of the keypad.
fn sends_control(report: &KeyReport) -> bool {
    let named = keys![Enter Tab Backspace Escape];
    report.key == ReportedKey::Functional(57414)
        || named.map(ReportedKey::Named).contains(&report.key)
}

fn has_no_column(modifiers: KittyModifiers) -> bool {
    let three = KittyModifiers::SHIFT | KittyModifiers::ALT | KittyModifiers::CTRL;
    modifiers.contains(three) || modifiers.contains(KittyModifiers::SUPER)
}

// The key types something else with Shift than a capital letter.
fn shows_other(report: &KeyReport) -> bool {
    report.shifted.is_some_and(|c| !c.is_ascii_uppercase())
}

fn is_other_digit(report: &KeyReport) -> bool {
    let digits = keys![Numpad1 Numpad2 Numpad3 Numpad4 Numpad5 Numpad6 Numpad7 Numpad8];
    digits.map(ReportedKey::Named).contains(&report.key)
}

// A column as bytes.
fn unescaped(column: &str) -> String {
    let mut text = String::new();
    let mut rest = column;
    while let Some((before, escaped)) = rest.split_once('\\') {
        text.push_str(before);
        let is_letter = escaped.starts_with(['e', '\\']);
        let len = if is_letter { 1 } else { 3 };
        text.push(match &escaped[..len] {
            "e" => '\x1b',
            "\\" => '\\',
            octal => char::from(u8::from_str_radix(octal, 8).unwrap()),
        });
        rest = &escaped[len..];
    }
    text + rest
}

// The report that kitty sent with all flags.
fn told(name: &str, modifiers: &str, sent: &str) -> KeyReport {
    let events = Parser::new(Dialect::Extended).read(sent.as_bytes(), true);
    let [Event::Key(report)] = events.as_slice() else {
        panic!("{name} {modifiers}: {}", sent.escape_debug());
    };
    report.clone()
}

// What a line has, and that nothing is sent of releases without REPORT_EVENT_TYPES.
fn sent_of(line: &'static str) -> Vec<Sent> {
    let columns: Vec<&str> = line.split('\t').collect();
    let [name, modifiers, sent @ ..] = columns.as_slice() else {
        panic!("{line}");
    };
    let texts: Vec<String> = sent.iter().map(|column| unescaped(column)).collect();
    let [press, release] = [0, 1].map(|column| told(name, modifiers, &texts[column]));
    for flags in [Flags::NONE, DISAMBIGUATE] {
        assert_eq!(release.encode(flags).as_deref(), Ok(""), "{line}");
    }
    let columns = COLUMNS.into_iter().zip(texts);
    let sent = columns.map(|((flags, is_press), text)| Sent {
        name,
        report: if is_press { &press } else { &release }.clone(),
        flags,
        text,
    });
    sent.collect()
}

#[test]
fn as_kitty_but_for_these() {
    let mut count = 0;
    let mut found = [0; DIFFERENCES.len()];
    let lines = RECORDED.lines().filter(|line| !line.starts_with('#'));
    for sent in lines.flat_map(sent_of) {
        count += 1;
        let is_same = sent.report.encode(sent.flags).as_deref() == Ok(&sent.text);
        let listed = DIFFERENCES.iter().position(|it| it.2(&sent));
        let case = format!("{} {:?} {}", sent.name, sent.report, sent.flags);
        assert_eq!(is_same, listed.is_none(), "{case}");
        if let Some(number) = listed {
            found[number] += 1;
        }
    }
    assert_eq!(count, 6152);
    for (difference, times) in DIFFERENCES.iter().zip(found) {
        assert_eq!(times, difference.1, "{}", difference.0);
    }
}
