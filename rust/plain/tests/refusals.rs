// Refuses each request for memory in turn, the library's and this crate's, and goes on: the events
// must be those of a run without a refusal, and each refusal must be told once.
//
// What a thread of the tests asks for is refused if that thread said so.
mod malloc;

use hedrugal::input::{
    EncodeError, InputEvent, InputParser, KeyCodeEncodeModes, KeyboardEncoding, ParseError,
};
use hedrugal::keymap::{Found, InsertError, KeyMap};
use hedrugal::{
    try_encode_paste, try_paste_lines, try_send_names, AllocError, BindErrorKind, Bindings, Chord,
    Dialect, EncodeEventError, Event, FeedError, KeyCode, KittyEncodeError, KittyKeyboardFlags,
    Modifiers, MouseButton, MouseEncoding, MouseError, MouseTracking, Parser, Policy, Reading,
    SendNamesError, SentMouse, StringKind, Waiting,
};
use malloc::{in_use, refusing};
use std::fmt::{Debug, Write};
use std::panic::{catch_unwind, AssertUnwindSafe};
use std::time::{Duration, Instant};

const STREAM: &[u8] =
    b"q\x1b[A\x1b[<0;12;3M\xc3\xa9\x1b[200~hello w\xc3\xb6rld, and some more text that needs memory\x1b[201~\x1b[1;5Dx\x1b[200~again\xff\x1b[201~\x1b";

// What a call returns that asks for no memory.
fn without_memory<T>(call: impl FnOnce() -> T) -> T {
    let (told, refused) = refusing(1, call);
    assert_eq!(refused, 0);
    told
}

// Makes a call with each request refused in turn, until it makes no such request. Returns how many
// there were. The call returns how many were refused.
fn each_refused(mut call: impl FnMut(usize) -> usize) -> usize {
    (1..).take_while(|number| call(*number) > 0).count()
}

// The same of a call that tells each refusal, and succeeds when it is made again.
fn each_told<T: PartialEq + Debug, E: PartialEq + Debug>(
    call: impl Fn() -> Result<T, E>,
    error: &E,
    wanted: &T,
) -> usize {
    each_refused(|number| {
        let (told, refused) = refusing(number, &call);
        let answers = [Ok(wanted), Err(error)];
        assert_eq!(told.as_ref(), answers[refused]);
        assert_eq!(call().as_ref(), Ok(wanted));
        refused
    })
}

// The same of what reads with one request refused, or none, and tells what it read and how many were
// refused: it always reads the same. Returns this too.
fn each_read<T: PartialEq + Debug>(read: impl Fn(usize) -> (T, usize)) -> (T, usize) {
    let (whole, none) = read(0);
    assert_eq!(none, 0);
    let requests = each_refused(|number| {
        let (events, refused) = read(number);
        assert_eq!(events, whole, "request {number}");
        refused
    });
    (whole, requests)
}

// A call that reads a piece. A refusal says whether the piece was taken.
type Parse = fn(&mut InputParser, &[u8], &mut Vec<InputEvent>, bool) -> Result<(), bool>;

// Reads the stream in pieces with one request refused, into a list with room for all events, so that
// storing one asks for nothing. A piece is given until it is taken, and all
// its events are given. Returns the events, and how many refusals were told.
fn read(parse: Parse, piece: usize, number: usize) -> (Vec<InputEvent>, usize) {
    let (mut parser, mut events) = (InputParser::new(), Vec::with_capacity(64));
    let mut give = |mut bytes, more| {
        let mut told = 0;
        while let Err(taken) = parse(&mut parser, bytes, &mut events, more) {
            told += 1;
            if taken {
                bytes = b"";
            }
        }
        told
    };
    let (told, refused) = refusing(number, || {
        let told: usize = STREAM.chunks(piece).map(|bytes| give(bytes, true)).sum();
        told + give(b"", false)
    });
    assert_eq!(told, refused, "pieces of {piece}, request {number}");
    (events, refused)
}

fn check(parse: Parse) {
    for piece in [1, 4, 13, 40, STREAM.len()] {
        let (whole, requests) = each_read(|number| read(parse, piece, number));
        assert_eq!(whole.len(), 9);
        assert!(requests > 1);
    }
}

#[test]
fn goes_on_with_try_parse() {
    check(|parser, bytes, events, more| {
        let parsed = parser.try_parse(bytes, |event| events.push(event), more);
        parsed.map_err(|error| error == ParseError::Taken)
    });
}

#[test]
fn goes_on_with_try_parse_as_vec() {
    check(|parser, bytes, events, more| {
        let (last, parsed) = match parser.try_parse_as_vec(bytes, more) {
            Ok(last) => (last, Ok(())),
            Err(error) => (error.events, Err(error.taken)),
        };
        assert!(parsed != Err(false) || last.is_empty());
        events.extend(last);
        parsed
    });
}

// Reports, replies and strings, of which most bring bytes of their own.
const REPLIES: &[u8] =
    b"q\x1b[97;5:3u\x1b[97;2;65u\x1b[24;80R\x1b[?62;22c\x1b]11;rgb:1e1e/1e1e/1e1e\x1b\\\x1bP>|kitty\x1b\x1b[200~text\x1b[201~\x1b]l\x07";

// How long anything waits at most here.
const LATER: Duration = Duration::from_secs(10);

// Feeds bytes until they are taken. Returns the refusals that were told.
fn feed(parser: &mut Parser, now: Instant, bytes: &[u8]) -> usize {
    let mut told = 0;
    while let Err(error) = parser.try_feed(now, bytes) {
        assert_eq!(error, FeedError::Memory);
        told += 1;
    }
    told
}

// Takes all events. One that is refused memory comes first, and is due at once. Returns the
// refusals that were told.
fn take(parser: &mut Parser, now: Instant, events: &mut Vec<Event>) -> usize {
    let mut told = 0;
    loop {
        match parser.try_next() {
            Ok(Some(event)) => events.push(event),
            Ok(None) => return told,
            Err(AllocError) => {
                assert_eq!(parser.timeout(now), Some(Duration::ZERO));
                assert_eq!(parser.interrupted(now), Err(FeedError::Busy));
                told += 1;
            }
        }
    }
}

// Reads these in pieces, and then a string that stalls and a paste in parts without an end, with one
// request refused. Returns the events, and how many refusals were told.
fn read_replies(piece: usize, number: usize) -> (Vec<Event>, usize) {
    let (mut parser, now) = (Parser::new(Dialect::Extended), Instant::now());
    let mut events = Vec::with_capacity(64);
    parser.set_parts(Some(4));
    let (told, refused) = refusing(number, || {
        let mut told = 0;
        for bytes in REPLIES.chunks(piece) {
            told += feed(&mut parser, now, bytes);
            told += take(&mut parser, now, &mut events);
        }
        told += feed(&mut parser, now, b"\x1b]11;rgb");
        told += take(&mut parser, now, &mut events);
        parser.idle(now + LATER);
        told += take(&mut parser, now + LATER, &mut events);
        told += feed(&mut parser, now, b"\x1b[200~a long text\x1b[20");
        told += take(&mut parser, now, &mut events);
        parser.end();
        told + take(&mut parser, now, &mut events)
    });
    assert_eq!(told, refused, "pieces of {piece}, request {number}");
    (events, refused)
}

#[test]
fn goes_on_with_a_parser() {
    for piece in [7, REPLIES.len()] {
        let (whole, requests) = each_read(|number| read_replies(piece, number));
        let rest = [
            Event::StringCut {
                kind: StringKind::Osc,
                bytes: b"11;rgb".into(),
            },
            Event::PastePart("a long text".to_string()),
            Event::Paste("\x1b[20".to_string()),
        ];
        assert!(whole.ends_with(&rest) && requests > 7);
    }
}

// Parsers that took these bytes, and were refused memory for an event: one for each request.
fn refused_parsers(bytes: &[u8]) -> Vec<Parser> {
    let mut parsers = Vec::new();
    for number in 1.. {
        let mut parser = Parser::new(Dialect::Extended);
        parser.feed(Instant::now(), bytes);
        match refusing(number, || parser.try_next()) {
            (Err(AllocError), 1) => parsers.push(parser),
            (told, refused) => {
                assert!(told.is_ok() && refused == 0);
                break;
            }
        }
    }
    assert_ne!(parsers.len(), 0);
    parsers
}

const PASTE_AND_ESCAPE: &[u8] = b"\x1b[200~text\x1b[201~\x1b";

fn text() -> Event {
    Event::Paste("text".to_string())
}

// A refused event comes before all else: what is fed, flushed or due behind it.
#[test]
fn tells_a_refused_event_first() {
    let now = Instant::now();
    for mut parser in refused_parsers(PASTE_AND_ESCAPE) {
        parser.feed(now, b"[A");
        parser.shrink_to(0);
        assert_eq!(parser.next(), Some(text()));
        assert_eq!(parser.count(), 1);
    }
    for mut parser in refused_parsers(PASTE_AND_ESCAPE) {
        parser.idle(now + LATER);
        assert_eq!(parser.timeout(now), Some(Duration::ZERO));
        assert_eq!((parser.next(), parser.next()), (Some(text()), None));
        assert_eq!(parser.waiting(), Waiting::Escape);
    }
    for mut parser in refused_parsers(PASTE_AND_ESCAPE) {
        parser.end();
        assert_eq!((parser.next(), parser.count()), (Some(text()), 1));
    }
}

#[test]
fn forgets_a_refused_event() {
    for mut parser in refused_parsers(PASTE_AND_ESCAPE) {
        assert!(parser.reset() > 0);
        assert_eq!((parser.next(), parser.waiting_len()), (None, 0));
    }
}

// Replies to two questions for the cursor's position, around one that needs memory, with each
// request refused in turn. No question is answered twice.
#[test]
fn answers_each_question_once_after_a_refusal() {
    let bytes = b"\x1b[1;5R\x1b]4;\x07\x1b[1;5R\x1b[?1;5c\x1b[1;5R";
    let requests = each_refused(|number| {
        let (mut parser, now) = (Parser::new(Dialect::Extended), Instant::now());
        parser.expect_position();
        parser.expect_position();
        let mut events = Vec::with_capacity(8);
        let (told, refused) = refusing(number, || {
            feed(&mut parser, now, bytes) + take(&mut parser, now, &mut events)
        });
        assert_eq!(told, refused);
        let position = Event::CursorPosition { row: 1, column: 5 };
        let is_position: Vec<bool> = events.iter().map(|event| *event == position).collect();
        assert_eq!(is_position, [true, false, true, false, false]);
        assert_eq!(parser.reading(), Reading::new(Dialect::Extended));
        refused
    });
    assert!(requests > 2);
}

// A command of so many bytes, and what is sent of it.
fn command(len: usize) -> (Event, Vec<u8>) {
    let text = [b"4;", &b"x".repeat(len - 2)[..]].concat();
    let sent = [b"\x1b]", &text[..], b"\x07"].concat();
    (Event::Osc(text.into()), sent)
}

// Few bytes are kept in the event.
#[test]
fn tells_few_bytes_without_memory() {
    let (now, mut parser) = (Instant::now(), Parser::new(Dialect::Extended));
    // The library makes room for them once.
    let (event, sent) = command(22);
    parser.feed(now, &sent);
    assert_eq!(parser.next(), Some(event));
    for len in [22, 2, 3, 21, 22] {
        let (event, sent) = command(len);
        parser.feed(now, &sent);
        assert_eq!(without_memory(|| parser.next()), Some(event));
    }
}

#[test]
fn tells_many_bytes_after_a_refusal() {
    let before = in_use();
    for len in [23, 24, 4096, 4097, 65_532] {
        let (event, sent) = command(len);
        for mut parser in refused_parsers(&sent) {
            assert_eq!(
                (parser.next().as_ref(), parser.next()),
                (Some(&event), None)
            );
        }
    }
    assert_eq!(in_use(), before);
}

#[test]
fn changes_a_reading_without_memory() {
    let mut parser = Parser::new(Dialect::Extended);
    let reading = Reading {
        x10_mouse: true,
        questions: 3,
        ..Reading::new(Dialect::Extended)
    };
    without_memory(|| parser.set_reading(reading));
    assert_eq!(without_memory(|| parser.reading()), reading);
    without_memory(|| parser.expect_position());
    assert_eq!(parser.reading().questions, 4);
    without_memory(|| parser.forget_positions());
    assert_eq!(parser.reading().questions, 0);
}

// What replies say, with each request refused in turn: a refusal is told, and the call may be made
// again.
#[test]
fn reads_replies_after_a_refusal() {
    for event in [
        Event::Csi(b"?62;4;22c".into()),
        Event::Csi(b">41;379;0c".into()),
        Event::Csi(b"?25;1$y".into()),
        Event::Dcs(b"!|7E565445".into()),
        Event::Dcs(b">|XTerm(379)".into()),
        Event::Dcs(b">|a\xff".into()),
        Event::Osc(b"11;rgb:0/0/0".into()),
        Event::Osc(b"52;c;Y2xpcA==".into()),
    ] {
        let whole = event.reply();
        assert!(whole.is_some());
        assert!(each_told(|| event.try_reply(), &AllocError, &whole) > 0);
    }
}

// Names are read without memory. To print one takes some: a refusal is told, and nothing is written.
#[test]
fn prints_names_after_a_refusal() {
    let name = "super+hyper+meta+ctrl+alt+shift+up U+10FFFF";
    let chord: Chord = without_memory(|| name.parse().unwrap());
    let requests = each_refused(|number| {
        let mut text = String::with_capacity(64);
        let (told, refused) = refusing(number, || write!(text, "{chord}"));
        assert_eq!((told.is_err(), text.is_empty()), (refused > 0, refused > 0));
        assert!(refused > 0 || text == name);
        assert_eq!((refused / 2, chord.to_string().as_str()), (0, name));
        refused
    });
    assert!(requests > 0);
}

// Makes bindings of some chords with one request refused, and makes a refused call again. A chord
// that was unbound before leaves a place for a value. Returns how many refusals there were.
fn bind_all(chords: &[Chord], number: usize) -> usize {
    let ((bindings, told), refused) = refusing(number, || {
        let mut told = 0;
        let mut bindings = loop {
            match Bindings::try_new() {
                Ok(made) => break made,
                Err(AllocError) => told += 1,
            }
        };
        for (place, chord) in chords.iter().enumerate() {
            while let Err(error) = bindings.try_bind(chord, place) {
                let wanted = (BindErrorKind::Memory, place, place);
                assert_eq!((error.kind, error.value, bindings.len()), wanted);
                assert_eq!(bindings.lookup(chord), None);
                told += 1;
            }
            assert_eq!(bindings.unbind(chord), Some(place));
            while bindings.try_bind(chord, place).is_err() {
                assert_eq!(bindings.len(), place);
                told += 1;
            }
        }
        (bindings, told)
    });
    assert_eq!(told, refused, "request {number}");
    for (place, chord) in chords.iter().enumerate() {
        assert_eq!(bindings.lookup(chord), Some(&place));
    }
    refused
}

// Chords are bound with each request refused in turn, the library's and this crate's.
#[test]
fn binds_after_a_refusal() {
    let names = ["g g", "ctrl+x 4 f", "z", "a", "g", "ctrl+x 4 4 f", "b"];
    let chords = names.map(|name| name.parse::<Chord>().unwrap());
    assert_eq!(bind_all(&chords, 0), 0);
    assert!(each_refused(|number| bind_all(&chords, number)) > 4);
}

// Reads a paste of more than 64 MB in pieces of 4096 bytes, in parts, or skipped after each read.
// Neither takes the memory of more than some parts.
fn read_long_paste(limit: Option<usize>, is_skipped: bool) {
    let text = "täxt \x1b[201\r".repeat(4096);
    let (mut parser, now) = (Parser::new(Dialect::Extended), Instant::now());
    parser.set_parts(limit);
    parser.feed(now, b"\x1b[200~");
    assert_eq!(parser.next(), None);
    let (before, mut most, mut taken) = (in_use(), 0, 0);
    let repeats = (64 << 20) / text.len() + 1;
    for _ in 0..repeats {
        for bytes in text.as_bytes().chunks(4096) {
            parser.feed(now, bytes);
            for event in parser.by_ref() {
                let Event::PastePart(part) = event else {
                    panic!("{event:?}");
                };
                let from = text.as_bytes().iter().cycle().skip(taken % text.len());
                assert!(from.take(part.len()).eq(part.as_bytes()));
                taken += part.len();
            }
            if is_skipped {
                taken += parser.skip_paste().expect("a paste is open");
            }
            most = most.max(in_use() - before);
            assert!(parser.waiting_len() <= 6 + limit.unwrap_or(5));
        }
    }
    parser.feed(now, b"\x1b[201~q");
    let Some(Event::Paste(rest)) = parser.next() else {
        panic!("no paste");
    };
    let all = (taken + rest.len(), parser.count());
    assert_eq!(all, (repeats * text.len(), 1));
    assert!(most < 8 << 20, "{most} bytes");
}

#[test]
fn tells_a_paste_of_64_mb_in_parts() {
    read_long_paste(Some(1 << 20), false);
}

#[test]
fn skips_a_paste_of_64_mb() {
    read_long_paste(None, true);
}

// No call that has to do with time takes memory.
#[test]
fn tells_time_without_memory() {
    let (start, mut parser) = (Instant::now(), Parser::new(Dialect::Extended));
    for _ in 0..2 {
        parser.feed(start, b"\x1b");
        assert_eq!(without_memory(|| parser.next()), None);
        without_memory(|| parser.set_policy(Policy::usual()));
        let left = without_memory(|| parser.timeout(start));
        assert_eq!(left, Policy::usual().escape);
        without_memory(|| parser.idle(start + LATER));
        assert!(parser.next().is_some_and(|event| event.key().is_some()));
        parser.feed(start, b"\x1b[1");
        assert_eq!(parser.next(), None);
        assert_eq!(without_memory(|| parser.interrupted(start)), Ok(()));
        assert_eq!(parser.waiting(), Waiting::Nothing);
    }
}

// Makes parsers once the table is there: tests/table.rs has the first one.
fn check_new<Made>(make: fn() -> Result<Made, AllocError>) {
    assert!(make().is_ok());
    let requests = each_refused(|number| {
        let before = in_use();
        let (made, refused) = refusing(number, make);
        assert_eq!(made.err(), (refused > 0).then_some(AllocError));
        assert_eq!(in_use(), before);
        refused
    });
    assert!(requests > 0);
}

#[test]
fn makes_a_parser_after_a_refusal() {
    check_new(InputParser::try_new);
    check_new(|| Parser::try_new(Dialect::Extended));
}

#[test]
fn encodes_after_a_refusal() {
    let modes = KeyCodeEncodeModes {
        encoding: KeyboardEncoding::Xterm,
        application_cursor_keys: false,
        newline_mode: false,
        modify_other_keys: None,
    };
    let encode = || KeyCode::LeftArrow.try_encode(Modifiers::ALT, modes, true);
    let wanted = "\x1b[1;3D".to_string();
    assert!(each_told(encode, &EncodeError::Memory, &wanted) > 1);
    let send = || try_send_names("x alt+left", modes);
    assert!(each_told(send, &SendNamesError::Memory, &format!("x{wanted}")) > 1);
}

#[test]
fn encodes_reports_after_a_refusal() {
    let mut parser = Parser::new(Dialect::Extended);
    let long = "x".repeat(300);
    for (text, flags, wanted) in [
        ("A", KittyKeyboardFlags::all(), "\x1b[97:65;2;65u"),
        (&long, KittyKeyboardFlags::NONE, &long),
    ] {
        parser.feed(Instant::now(), b"\x1b[97:65;2u");
        let event = parser.next().expect("a key");
        let mut report = event.key().expect("a key").clone();
        report.text = text.to_string();
        let encode = || report.try_encode(flags);
        assert!(each_told(encode, &KittyEncodeError::Memory, &wanted.to_string()) > 1);
    }
}

#[test]
fn sends_pastes_and_mouse_reports_after_a_refusal() {
    for text in ["text", &"long ".repeat(100)] {
        let wanted = format!("\x1b[200~{text}\x1b[201~");
        let encode = || try_encode_paste(text.as_bytes(), true);
        assert!(each_told(encode, &AllocError, &wanted) > 1);
    }
    let lines = || try_paste_lines("one\r\ntwo");
    assert_eq!(each_told(lines, &AllocError, &"one\ntwo".to_string()), 1);
    let report = SentMouse {
        x: 1,
        y: 1,
        button: MouseButton::Button1Press,
        modifiers: Modifiers::NONE,
    };
    let send = || report.try_encode(MouseTracking::Any, MouseEncoding::Sgr);
    let wanted = b"\x1b[<0;1;1M".to_vec();
    assert!(each_told(send, &MouseError::Memory, &wanted) > 1);
}

#[test]
fn writes_events_after_a_refusal() {
    let mut parser = Parser::new(Dialect::Extended);
    for written in [
        &b"\x1b[A"[..],
        b"\x1b[<0;1;1M",
        b"\x1b[?62;22c",
        b"\x1b]52;c;some text that needs memory\x1b\\",
    ] {
        parser.feed(Instant::now(), written);
        let event = parser.next().expect("an event");
        let write = || event.try_encode(&parser);
        assert!(each_told(write, &EncodeEventError::Memory, &written.to_vec()) > 1);
    }
}

// A map of so many keys, each with its number.
fn numbered_keys(count: usize) -> KeyMap<usize> {
    let mut map = KeyMap::new();
    for number in 0..count {
        map.insert(number.to_string(), number);
    }
    map
}

fn assert_numbered(map: &KeyMap<usize>, count: usize) {
    for number in 0..count {
        let key = number.to_string();
        assert_eq!(map.lookup(&key, false), Found::Exact(key.len(), number));
    }
}

// Inserts a key more with each request refused in turn: the map is unchanged, the value comes back,
// and the key can be inserted then. Returns the number of requests.
fn check_insert(count: usize) -> usize {
    let key = "a key of more bytes than are stored beside its value";
    each_refused(|number| {
        let mut map = numbered_keys(count);
        let (inserted, refused) = refusing(number, || map.try_insert(key, 1000));
        let wanted = [Ok(()), Err(InsertError { value: 1000 })];
        assert_eq!(inserted, wanted[refused], "{count} keys, request {number}");
        if refused > 0 {
            assert_eq!(map.lookup(key, false), Found::None);
            assert_numbered(&map, count);
            map.insert(key, 1000);
        }
        assert_eq!(map.lookup(key, false), Found::Exact(key.len(), 1000));
        assert_numbered(&map, count);
        refused
    })
}

// The first key also makes the map, and the fifth finds the list of four places full.
#[test]
fn inserts_after_a_refusal() {
    assert!(check_insert(0) > 2);
    assert!(check_insert(1) > 0);
    assert!(check_insert(4) > check_insert(1));
}

#[test]
fn replaces_and_looks_up_without_memory() {
    let mut map = numbered_keys(20);
    assert_eq!(without_memory(|| map.try_insert("7", 8)), Ok(()));
    let found = without_memory(|| map.lookup("7", true));
    assert_eq!(found, Found::Exact(1, 8));
    without_memory(KeyMap::<usize>::new);
}

#[test]
fn tells_rows_without_memory() {
    let mut parser = Parser::new(Dialect::Termwiz);
    parser.feed(Instant::now(), b"\x1b\x1b[1;5");
    assert_eq!(parser.next(), None);
    let completions = without_memory(|| parser.completions());
    assert!(completions.with_alt);
    let mut places = completions.entries.clone();
    assert!(without_memory(
        || places.all(|place| parser.entry(place).is_some())
    ));
    assert_eq!(without_memory(|| parser.entry(usize::MAX)), None);
}

// Returns the number of the events.
fn count(parser: &mut Parser, bytes: &[u8]) -> usize {
    parser.feed(Instant::now(), bytes);
    parser.count()
}

const LONG: usize = 100_000;

fn long_paste() -> String {
    format!("\x1b[200~{}\x1b[201~", "x".repeat(LONG))
}

// The library keeps a text no longer once it is an event, and nothing past the parser's end. Keys
// of as many bytes come first, so that the buffer has room.
#[test]
fn frees_memory() {
    drop(Parser::new(Dialect::Extended));
    let (keys, paste) = ("x".repeat(LONG + 12), long_paste());
    let before = in_use();
    let mut parser = Parser::new(Dialect::Extended);
    assert_eq!(count(&mut parser, keys.as_bytes()), keys.len());
    let with_buffer = in_use();
    assert_eq!(count(&mut parser, paste.as_bytes()), 1);
    assert!(in_use() < with_buffer + LONG / 2);
    drop(parser);
    assert_eq!(in_use(), before);
}

// A parser that read a long paste gives its memory back, but for the room that is asked for, as far
// as there is that room. What is buffered stays.
#[test]
fn shrinks() {
    drop(Parser::new(Dialect::Extended));
    let paste = long_paste() + "\x1b[1;5";
    let before = in_use();
    let mut parser = Parser::new(Dialect::Extended);
    assert_eq!(count(&mut parser, paste.as_bytes()), 1);
    assert!(in_use() >= before + LONG);
    assert_eq!(refusing(1, || parser.shrink_to(0)).1, 1);
    assert!(in_use() >= before + LONG);
    for (kept, wanted) in [
        (2 * LONG, LONG..usize::MAX),
        (LONG / 2, LONG / 2..LONG),
        (0, 0..1024),
        (LONG, 0..1024),
    ] {
        parser.shrink_to(kept);
        let left = in_use() - before;
        assert!(wanted.contains(&left), "{left} for {kept}");
    }
    assert_eq!(count(&mut parser, b"A"), 1);
    assert_eq!(count(&mut parser, paste.as_bytes()), 1);
}

// Whether a call whose first request is refused panics.
fn panics(call: impl FnOnce()) -> bool {
    let call = AssertUnwindSafe(call);
    refusing(1, || catch_unwind(call)).0.is_err()
}

#[test]
fn panics_if_refused() {
    assert!(panics(|| drop(InputParser::new())));
    assert!(panics(|| drop(Parser::new(Dialect::Extended))));
    assert!(panics(|| KeyMap::new().insert("a", 1)));
    let (mut parser, now) = (Parser::new(Dialect::Extended), Instant::now());
    let long = long_paste();
    assert!(panics(|| parser.feed(now, long.as_bytes())));
    parser.feed(now, PASTE_AND_ESCAPE);
    assert!(panics(|| drop(parser.next())));
    assert_eq!(parser.next(), Some(text()));
}
