// The entries of the sequence table, against the rows of the plain reader, and the entries that
// would complete what stays buffered.
use crate::calls::Buffer;
use crate::generated::Comparison;
use crate::lines::hex;
use crate::plain::{key_event, PlainReader};
use hedrugal::input::{InputParser, KeyCode, KeyEvent, Modifiers};

// All entries, by their places.
fn entries(parser: &InputParser) -> Vec<(Vec<u8>, KeyEvent)> {
    let entries = (0..).map_while(|place| parser.parser().entry(place));
    entries.map(|(bytes, key)| (bytes.to_vec(), key)).collect()
}

// Parses the rest of an entry: its key is the event, with ALT if a first ESC was buffered. But the
// start of a paste opens one, after an Escape if there was a first ESC.
fn check_completed(parser: &mut InputParser, rest: &[u8], key: &KeyEvent, has_alt: bool) {
    let is_start = key.key == KeyCode::InternalPasteStart;
    let escape = key_event(KeyCode::Escape, Modifiers::NONE);
    let alt = [Modifiers::NONE, Modifiers::ALT][usize::from(has_alt)];
    let wanted = match (is_start, has_alt) {
        (true, false) => vec![],
        (true, true) => vec![escape],
        _ => vec![key_event(key.key, key.modifiers | alt)],
    };
    assert_eq!(parser.parse_as_vec(rest, false), wanted, "{}", hex(rest));
    assert_eq!(parser.is_paste_open(), is_start);
    assert_eq!(parser.reset(), if is_start { 6 } else { 0 });
}

// The entries are the rows of the plain reader, in the order of their bytes, which differ.
#[test]
fn tells_entries() {
    let (mut parser, reader) = (InputParser::new(), PlainReader::new());
    parser.parse(b"\x1b[200~text", |_| {}, true);
    let (entries, count) = (entries(&parser), reader.row_count());
    assert_eq!(entries.len(), count);
    assert!(entries
        .iter()
        .map(|(bytes, key)| (bytes, key))
        .eq(reader.rows()));
    assert_eq!(entries.iter().map(|(bytes, _)| bytes.len()).max(), Some(11));
    for place in [count, count + 1, usize::MAX] {
        assert_eq!(parser.parser().entry(place), None);
    }
    let (bytes, _) = parser.parser().entry(count - 1).expect("the last one");
    assert_eq!((&bytes[..], bytes.as_ref().len()), (&b"\x7f"[..], 1));
    assert_eq!(parser.waiting_len(), 10);
}

// Alone each row of the plain reader is read as its key, and after one ESC as its key with ALT.
#[test]
fn reads_rows_of_the_plain_reader() {
    let mut parser = InputParser::new();
    for (bytes, key) in PlainReader::new().rows() {
        check_completed(&mut parser, bytes, key, false);
        check_completed(&mut parser, &[b"\x1b", &bytes[..]].concat(), key, true);
    }
}

#[test]
fn reads_rows_cut_in_two() {
    let mut comparison = Comparison::new(0);
    for bytes in PlainReader::new().rows().keys() {
        comparison.check_whole(bytes);
    }
}

// Texts, and whether the keys of the entries that would complete them get ALT.
const BEGUN: &[(&[u8], bool)] = &[
    (b"", false),
    (b"\x1b", false),
    (b"\x1b\x1b", true),
    (b"\x1b[", false),
    (b"\x1b\x1b[", true),
    (b"\x1bO", false),
    (b"\x1b[1", false),
    (b"\x1b[15", false),
    (b"\x1b[1;5", false),
    (b"\x1b\x1b[1;5", true),
    (b"\x1b\x1b[1;", true),
    (b"\x1b[20", false),
    (b"\x1b\x1b[20", true),
    (b"\x1b[200", false),
    (b"\x1b[<0;3", false),
    (b"\x1b\x1b[<", false),
    (b"\xc3", false),
    (b"\xe2\x82", false),
    (b"\x1b\xf0\x9f", false),
    (b"\x1b[200~te", false),
    (b"\x1b[200~text", false),
];

#[test]
fn tells_completions() {
    let mut parser = InputParser::new();
    let entries = entries(&parser);
    for (text, has_alt) in BEGUN {
        parser.parse(text, |_| {}, true);
        let completions = parser.parser().completions();
        assert_eq!(completions.with_alt, *has_alt, "{}", hex(text));
        assert_eq!(parser.waiting_len(), text.len());
        parser.reset();
        let (begun, mut count) = (&text[usize::from(*has_alt)..], 0);
        for (place, (bytes, key)) in entries.iter().enumerate() {
            let goes_on = bytes.starts_with(begun) && bytes.len() > begun.len();
            let is_told = completions.entries.contains(&place);
            assert_eq!(is_told, goes_on, "{} {}", hex(text), hex(bytes));
            if goes_on {
                count += 1;
                parser.parse(text, |_| panic!("{} stays buffered", hex(text)), true);
                check_completed(&mut parser, &bytes[begun.len()..], key, *has_alt);
            }
        }
        assert_eq!(completions.entries.len(), count, "{}", hex(text));
    }
}
