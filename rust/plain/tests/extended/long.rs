// Long texts, by each way to call the parser.
use crate::calls::{parsed, Calls, CALLS, LAST};
use crate::limits::{check_all, repeated, LongExample};
use crate::lines::lines;
use hedrugal::{encode_paste, Dialect, Event, Parser, Waiting};

// A text of one event, by each call as a whole, and in reads of 4096 bytes.
fn check(text: &[u8], wanted: &Event) {
    let mut parser = Parser::new(Dialect::Extended);
    for call in 0..CALLS {
        let events = parsed(call, &mut parser, text, true);
        assert!(events == [wanted.clone()], "call {call}");
        let mut events = Vec::new();
        for bytes in text.chunks(4096) {
            events.extend(parsed(call, &mut parser, bytes, true));
        }
        assert!(events == [wanted.clone()], "call {call}, in reads");
        assert_eq!(parser.waiting_len(), 0);
    }
}

#[test]
fn a_paste_of_100_kb() {
    let text = "täxt \x1b[I\x1b]0;".repeat(8000);
    let paste = Event::Paste(text.clone());
    assert!(text.len() > 100_000);
    check(format!("\x1b[200~{text}\x1b[201~").as_bytes(), &paste);
}

#[test]
fn a_paste_of_2_mb_at_once() {
    let text = "x".repeat(2 << 20);
    let sent = encode_paste(text.as_bytes(), true);
    assert!(Parser::new(Dialect::Extended).read(sent.as_bytes(), true) == [Event::Paste(text)]);
}

#[test]
fn a_command_of_60000_bytes() {
    let text = b"52;c;".repeat(12000);
    for end in [&b"\x1b\\"[..], b"\x07"] {
        let sent = [b"\x1b]", &text[..], end].concat();
        check(&sent, &Event::Osc(text.clone().into()));
    }
}

// What a program gets of a long string: parts, and what ends it. Each begins with the opening, here
// of so many bytes after the introducer. Returns the kinds of these, and all other bytes.
fn joined_string(events: &[Event], opening: usize) -> (String, Vec<u8>) {
    let (mut names, mut data) = (String::new(), Vec::new());
    for event in events {
        let (name, bytes) = match event {
            Event::StringPart { bytes, .. } => ('p', bytes),
            Event::StringCut { bytes, .. } => ('c', bytes),
            Event::Osc(bytes) | Event::Dcs(bytes) | Event::Apc(bytes) => ('e', bytes),
            event => panic!("{event:?}"),
        };
        names.push(name);
        data.extend_from_slice(&bytes[opening..]);
    }
    (names, data)
}

// 100 KB of a clipboard with line ends in it, ended or not, in reads of any length: nothing of it is
// typed, and what follows is read by itself.
#[test]
fn a_clipboard_of_100_kb() {
    let text = b"rm -rf ~\r\x03\x00\x7f\n".repeat(8000);
    assert!(text.len() > 100_000);
    for (opening, end, wanted) in [
        (&b"\x1b]52;"[..], &b"\x07"[..], "pe"),
        (b"\x1b]52;", b"\x1b\\", "pe"),
        (b"\x1b]52;", b"", "pc"),
        (b"\x1b]52;", b"\x1b", "pc"),
        (b"\x1bP>|", b"\x1b\\", "pe"),
        (b"\x1b_Gi=", b"", "pc"),
    ] {
        for size in [1, 4096, 200_000] {
            let mut parser = Parser::new(Dialect::Extended);
            let mut events = Vec::new();
            for bytes in [opening, &text, end].concat().chunks(size) {
                events.extend(parser.read(bytes, true));
                assert!(parser.waiting_len() <= 65535);
            }
            if wanted == "pc" {
                assert_eq!(parser.waiting(), Waiting::String);
                events.extend(parser.read(b"", LAST));
            }
            let (kinds, data) = joined_string(&events, opening.len() - 2);
            assert_eq!(kinds, wanted);
            assert!(data == text, "pieces of {size}");
            assert_eq!(lines(&parser.read(b"q", true)), "key U+0071 NONE");
        }
    }
}

// 70000 events in one call.
#[test]
fn events_70000_at_once() {
    let mut parser = Parser::new(Dialect::Extended);
    for call in 0..CALLS {
        let events = parsed(call, &mut parser, &b"\x1b[I\x1b]4;\x07".repeat(35000), true);
        let wanted = [Event::FocusGained, Event::Osc(b"4;".into())];
        assert_eq!(events.len(), 70000);
        assert!(events.chunks(2).all(|pair| pair == wanted), "call {call}");
    }
}

// A key, and 2000 times 50 bytes, whose 12 events are the same under both readings of the rows.
const MIXED: LongExample = (
    2000,
    b"s{a\x1bOA\x1b[I\x1b[97;5:3u\x1b]0;t\x07\xc3\xa9b\x1b[200~p\x1b[201~\x1b[<0;1;2Mcde}",
    "key U+0073 NONE\
     {, key U+0061 NONE, key ApplicationUpArrow NONE, focus gained, key U+0061 CTRL release, osc \"0;t\", key U+00E9 NONE\
     , key U+0062 NONE, paste \"p\", mouse 1 2 LEFT NONE press 1, key U+0063 NONE, key U+0064 NONE, key U+0065 NONE}",
);

const PASTE: LongExample = (100_000, b"\x1b[200~{x}\x1b[201~", "paste \"{x}\"");

#[test]
fn reads_of_100000_bytes() {
    check_all(&[MIXED, PASTE]);
}

// Each way to call the parser reads many events at once.
#[test]
fn mixed_events_at_once() {
    let (times, text, wanted) = MIXED;
    let [text, wanted] = [text, wanted.as_bytes()].map(|it| repeated(it, times));
    assert_eq!(text.len(), 100_001);
    let mut parser = Parser::new(Dialect::Extended);
    for call in 0..CALLS {
        let events = parsed(call, &mut parser, &text, LAST);
        assert_eq!(events.len(), 24001, "call {call}");
        assert!(lines(&events).as_bytes() == wanted, "call {call}");
    }
}
