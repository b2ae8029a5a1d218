// What real terminals sent (tests/terminals): `Parser` reads it as the plain reader does, by each of these
// readings, and its keys have the presses of the rules.
use crate::compared::Comparison;
use crate::port::lines::bytes;
use hedrugal::{Dialect, EraseByte, Reading};
use std::collections::BTreeSet;
use std::fs;

const USUAL: Reading = Reading::new(Dialect::Extended);

const READINGS: [Reading; 5] = [
    USUAL,
    Reading {
        erase: EraseByte::Backspace,
        ..USUAL
    },
    Reading {
        questions: 1,
        ..USUAL
    },
    Reading {
        x10_mouse: true,
        ..USUAL
    },
    Reading::new(Dialect::Termwiz),
];

// The byte strings of all lines of all files: of keys, the mouse, the focus, pastes and replies. None is left out.
fn sent() -> BTreeSet<Vec<u8>> {
    let folder = concat!(env!("CARGO_MANIFEST_DIR"), "/../../tests/terminals");
    let paths = fs::read_dir(folder).expect(folder);
    let paths = paths.map(|entry| entry.expect(folder).path());
    let mut found = BTreeSet::new();
    for path in paths.filter(|path| path.extension().is_some_and(|it| it == "tsv")) {
        let text = fs::read_to_string(&path).expect(folder);
        let mut lines = text.lines().skip(1).map(|line| line.split('\t'));
        assert_eq!(lines.next().and_then(|mut it| it.nth(3)), Some("bytes"));
        found.extend(lines.map(|mut line| bytes(line.nth(3).expect("four columns"))));
    }
    found
}

#[test]
fn reads_what_terminals_sent_as_the_plain_reader() {
    let sent = sent();
    assert!(sent.len() > 4000, "{}", sent.len());
    for reading in READINGS {
        let mut comparison = Comparison::new(reading.dialect);
        comparison.set_first(reading);
        for text in &sent {
            comparison.check_text(text, text.len() / 2);
        }
    }
}
