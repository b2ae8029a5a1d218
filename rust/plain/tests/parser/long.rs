// Input far past any small bound: many keys in one call, many calls, a long paste, and beginnings
// without an end.
use crate::calls::{check_sizes, read_in_pieces, Buffer, Call, CALLS, LAST, MORE};
use crate::lines::lines;
use crate::plain::key_event;
use hedrugal::input::{InputEvent, InputParser, KeyCode, Modifiers};

// Two keys in four bytes.
const KEYS: &[u8] = b"\x1b[Aq";

// The events of `KEYS`, repeated.
fn keys(count: usize) -> Vec<InputEvent> {
    let keys = [KeyCode::UpArrow, KeyCode::Char('q')].map(|key| key_event(key, Modifiers::NONE));
    keys.into_iter().cycle().take(count).collect()
}

#[test]
fn gives_70000_keys_at_once() {
    let text = KEYS.repeat(35000);
    let wanted = keys(70000);
    let mut parser = InputParser::new();
    for call in CALLS {
        for more in [true, false] {
            let events = call.events(&mut parser, &text, more);
            assert!(events == wanted, "{call:?}, {more}");
            assert_eq!(parser.waiting_len(), 0);
        }
    }
}

#[test]
fn reads_70000_bytes_one_at_a_time() {
    let text = KEYS.repeat(17500);
    assert_eq!(text.len(), 70000);
    let wanted = (keys(35000), 0);
    let mut parser = InputParser::new();
    for call in CALLS {
        let read = read_in_pieces(call, &mut parser, &text, 1);
        assert!(read == wanted, "{call:?}");
    }
}

// A paste of this text, by each call as a whole and in pieces of several sizes.
fn check_paste(text: &str) {
    assert!(text.len() > 100_000);
    let paste = format!("\x1b[200~{text}\x1b[201~");
    let wanted = [InputEvent::Paste(text.to_string())];
    let mut parser = InputParser::new();
    for call in CALLS {
        let events = call.events(&mut parser, paste.as_bytes(), true);
        assert!(events == wanted, "{call:?}");
        assert_eq!(parser.waiting_len(), 0);
        for piece in [999, 4096] {
            let (events, waiting_len) = read_in_pieces(call, &mut parser, paste.as_bytes(), piece);
            assert!(events == wanted, "{call:?}, pieces of {piece}");
            assert_eq!(waiting_len, 0);
        }
    }
}

#[test]
fn gives_the_text_of_a_long_paste() {
    check_paste(&"täxt ".repeat(20000));
    check_paste(&"0123456789abcdef".repeat(6400));
}

#[test]
fn gives_a_long_paste_at_its_last_bytes() {
    let text = "täxt ".repeat(20000);
    let mut parser = InputParser::new();
    for call in CALLS {
        assert_eq!(call.events(&mut parser, b"\x1b[200~", true), []);
        for bytes in text.as_bytes().chunks(4096) {
            assert_eq!(call.events(&mut parser, bytes, true), []);
        }
        assert!(parser.is_paste_open());
        let events = call.events(&mut parser, b"\x1b[201~", true);
        assert!(events == [InputEvent::Paste(text.clone())], "{call:?}");
        assert_eq!(parser.waiting_len(), 0);
    }
}

// What a call gave, and how many bytes are buffered after it.
fn given(events: &[InputEvent], parser: &InputParser) -> String {
    let mut given = lines(events);
    if parser.waiting_len() > 0 {
        given += if given.is_empty() { "" } else { " " };
        given += &format!("; {}", parser.waiting_len());
    }
    if parser.is_paste_open() {
        given += " in a paste";
    }
    given
}

// A call gives this, and so much is buffered then.
fn check_endless(parser: &mut InputParser, text: &[u8], more: bool, wanted: &str) {
    let events = Call::List.events(parser, text, more);
    assert!(given(&events, parser) == wanted, "{wanted}");
}

#[test]
fn reads_beginnings_without_an_end() {
    let mut parser = InputParser::new();
    let report = [b"\x1b[<", &b"0".repeat(100_000)[..]].concat();
    let keys = ",key U+0030 NONE".repeat(100_000);
    let wanted = format!("key U+005B ALT,key U+003C NONE{keys}");
    check_endless(&mut parser, &report, MORE, &wanted);
    check_sizes(&mut parser, "report-without-end", &report);
    let escapes = b"\x1b".repeat(1000);
    let wanted = "key Escape ALT,".repeat(498) + "key Escape ALT ; 2";
    check_endless(&mut parser, &escapes, MORE, &wanted);
    check_endless(&mut parser, b"", LAST, "key Escape ALT");
    check_sizes(&mut parser, "only-escapes", &escapes);
    let paste = [b"\x1b[200~", &b"\xff".repeat(1000)[..], b"\x1b[201~z"].concat();
    let wanted = format!("paste 3000:{},key U+007A NONE", "efbfbd".repeat(1000));
    check_endless(&mut parser, &paste, LAST, &wanted);
    check_sizes(&mut parser, "paste-of-broken-bytes", &paste);
}
