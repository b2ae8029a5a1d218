// What replies say: long ones, and generated ones against a plain reader.
use crate::calls::Calls;
use crate::cases::{each_case, sides};
use crate::draws::Draws;
use crate::lines::unquoted;
use crate::plain::replies::reply;
use hedrugal::{
    DeviceAttributes, Dialect, Event, KittyKeyboardFlags, Parser, Reply, SequenceBytes, StringKind,
};

#[test]
fn other_events_are_no_replies() {
    let (kind, bytes) = (StringKind::Osc, SequenceBytes::from(b"11;rgb:0/0/0"));
    let typed = Parser::new(Dialect::Extended).read(b"c\x1b[<0;1;1M", true);
    for event in [
        typed[0].clone(),
        typed[1].clone(),
        Event::Paste("c".to_string()),
        Event::FocusGained,
        Event::CursorPosition { row: 1, column: 1 },
        Event::KeyboardFlags(KittyKeyboardFlags::NONE),
        Event::Apc(bytes.clone()),
        Event::Dcs(bytes.clone()),
        Event::Csi(bytes.clone()),
        Event::Csi(SequenceBytes::default()),
        Event::Osc(SequenceBytes::default()),
        Event::Dcs(SequenceBytes::default()),
        Event::StringPart {
            kind,
            bytes: bytes.clone(),
        },
        Event::StringCut { kind, bytes },
    ] {
        assert_eq!(event.reply(), None, "{event:?}");
    }
}

#[test]
fn versions_may_have_any_bytes() {
    let version = |bytes: &[u8]| Event::Dcs([b">|", bytes].concat().into()).reply();
    for bytes in [
        &b""[..],
        b"a",
        "\u{e9}\u{1f600}".as_bytes(),
        b"a\0b",
        b"a\xffb",
        b"\xe2\x82",
        b"\xf0\x9f\x98x\xc3",
        b"\xed\xa0\x80",
    ] {
        let text = String::from_utf8_lossy(bytes).into_owned();
        assert_eq!(version(bytes), Some(Reply::Version(text)));
    }
}

// The longest string that a parser emits whole.
#[test]
fn reads_long_clipboards() {
    for len in [4, 65520, 65524] {
        let sent = ["\x1b]52;c;", &"QUFB".repeat(len / 4), "\x07"].concat();
        let events = Parser::new(Dialect::Extended).read(sent.as_bytes(), true);
        let (selection, bytes) = (Some('c'), vec![b'A'; len / 4 * 3]);
        let wanted = Reply::Clipboard { selection, bytes };
        assert_eq!(events[0].reply(), Some(wanted));
    }
    let numbers = vec![7; 40_000];
    let sent = [&b"!|"[..], &b"07".repeat(40_000)].concat();
    let report = DeviceAttributes::Tertiary;
    let wanted = Reply::DeviceAttributes { report, numbers };
    assert_eq!(Event::Dcs(sent.into()).reply(), Some(wanted));
}

#[test]
fn generated_replies_are_read_as_by_the_plain_reader() {
    let mut known = Vec::new();
    each_case("replies.txt", |line| known.push(unquoted(sides(line).0)));
    known.retain(|sent| sent.len() > 2);
    assert!(known.len() > 250);
    let mut draws = Draws::new(1);
    let mut replies = 0;
    for _ in 0..200_000 {
        let mut sent = known[draws.below(known.len())].clone();
        for _ in 0..draws.below(4) {
            let from = draws.below(sent.len() + 1).max(2).min(sent.len());
            let to = sent.len().min(from + draws.below(3));
            let count = draws.below(2);
            let symbols = draws.text(count, "replies");
            sent.splice(from..to, symbols);
        }
        let (introducer, mut body) = (sent[1], &sent[2..]);
        if introducer != b'[' {
            body = body.strip_suffix(b"\x07").unwrap_or(body);
            body = body.strip_suffix(b"\x1b\\").unwrap_or(body);
        }
        let event = match introducer {
            b'[' => Event::Csi(body.into()),
            b']' => Event::Osc(body.into()),
            b'P' => Event::Dcs(body.into()),
            _ => Event::Apc(body.into()),
        };
        let told = event.reply();
        assert_eq!(told, reply(introducer, body), "{event:?}");
        replies += usize::from(told.is_some());
    }
    assert!(replies > 30_000, "{replies}");
}
