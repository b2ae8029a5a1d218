// The entries of the sequence table, read by both dialects.
use crate::calls::Calls;
use crate::lines::port_of;
use crate::plain::PlainReader;
use crate::port::plain::PlainReader as PortReader;
use hedrugal::input::{InputParser, KeyCode};
use hedrugal::{Dialect, Event, Parser, Reading};

// While a position is expected, an entry with the bytes of one is that position, and answers the
// question. Any other is read as without a question. Returns whether it is a position.
fn check_asked(parser: &mut Parser, bytes: &[u8], unasked: &[Event]) -> bool {
    parser.expect_position();
    let events = parser.read(bytes, false);
    let is_position = bytes.starts_with(b"\x1b[1;") && bytes.ends_with(b"R");
    match events[..] {
        [Event::CursorPosition { row: 1, .. }] => assert!(is_position, "{bytes:?}"),
        _ => assert_eq!(events, unasked, "{bytes:?}"),
    }
    let questions = u8::from(!is_position);
    assert_eq!(parser.reading().questions, questions, "{bytes:?}");
    is_position
}

// Each entry is read as the plain reader reads it, and by termwiz's dialect as `InputParser` does.
// The start of a paste alone has no event.
#[test]
fn reads_each_entry() {
    let mut termwiz = Parser::new(Dialect::Termwiz);
    let mut parser = Parser::new(Dialect::Extended);
    let mut asked = Parser::new(Dialect::Extended);
    let mut reader = PlainReader::new(Reading::new(Dialect::Extended));
    let entries: Vec<_> = (0..).map_while(|place| parser.entry(place)).collect();
    assert_eq!(entries.len(), PortReader::new().row_count());
    let mut positions = 0;
    for (bytes, key) in entries {
        let mut port = InputParser::new();
        let wanted: Vec<_> = port.parse_as_vec(&bytes, false);
        let has_event = key.key != KeyCode::InternalPasteStart;
        assert_eq!(wanted.len(), usize::from(has_event), "{bytes:?}");
        let events = termwiz.read(&bytes, false);
        let events: Vec<_> = events.iter().filter_map(port_of).collect();
        assert_eq!(events, wanted, "{bytes:?}");
        let events = parser.read(&bytes, false);
        assert_eq!(events, reader.read(&bytes, false).0, "{bytes:?}");
        assert!(events.iter().all(|it| it.key().is_some()), "{bytes:?}");
        positions += usize::from(check_asked(&mut asked, &bytes, &events));
        let left = port.parser().waiting_len();
        for parser in [&mut termwiz, &mut parser, &mut asked] {
            assert_eq!(parser.reset(), left);
        }
    }
    assert_eq!(positions, 16);
}
