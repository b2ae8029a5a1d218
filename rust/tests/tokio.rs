// The decoder for the codecs of tokio-util, which the feature `tokio` has. The stream is tested on a
// pseudo-terminal, by examples/stream.rs.
#[path = "../plain/tests/malloc/mod.rs"]
#[allow(dead_code)] // the count of blocks
mod malloc;

use bytes::BytesMut;
use futures_core::Stream;
use hedrugal::terminal::EventDecoder;
use hedrugal::{EraseByte, Event, NewlineByte, Reading};
use std::future::{poll_fn, Future};
use std::io::{self, Write};
use std::pin::{pin, Pin};
use std::task::Poll;
use std::time::Duration;
use tokio::io::{duplex, AsyncRead, AsyncWriteExt};
use tokio::net::UnixStream;
use tokio::task::yield_now;
use tokio::time::timeout;
use tokio_util::codec::{Decoder, FramedRead};

const SENT: &[u8] = b"a\x1b[A\x1b[200~text\x1b[201~\x1b[24;80R\x1b]11;rgb:1/2/3\x1b\\\xc3\xa9\x1b";

fn decoder() -> EventDecoder {
    EventDecoder::new(Reading::default()).expect("memory is granted")
}

fn decode(decoder: &mut EventDecoder, bytes: &[u8], is_end: bool) -> Vec<Event> {
    let mut bytes = BytesMut::from(bytes);
    let next = || {
        let decoded = match is_end {
            true => decoder.decode_eof(&mut bytes),
            false => decoder.decode(&mut bytes),
        };
        decoded.expect("memory is granted")
    };
    std::iter::from_fn(next).collect()
}

fn names(events: &[Event]) -> Vec<String> {
    let name = |event: &Event| match event.press() {
        Some(press) => press.to_string(),
        None => format!("{event:?}"),
    };
    events.iter().map(name).collect()
}

// What is sent, in these words.
const WANTED: [&str; 7] = [
    "a",
    "up",
    "Paste(\"text\")",
    "CursorPosition { row: 24, column: 80 }",
    "Osc([49, 49, 59, 114, 103, 98, 58, 49, 47, 50, 47, 51])",
    "é",
    "escape",
];

#[test]
fn decodes_however_bytes_are_cut() {
    for size in [1, 2, 3, 7, SENT.len()] {
        let mut decoder = decoder();
        let mut events = Vec::new();
        for bytes in SENT.chunks(size) {
            events.extend(decode(&mut decoder, bytes, false));
        }
        events.extend(decode(&mut decoder, b"", true));
        assert_eq!(names(&events), WANTED, "reads of {size}");
    }
}

#[test]
fn ends_an_open_paste_at_the_end() {
    let events = decode(&mut decoder(), b"\x1b[200~text\x1b[20", true);
    assert_eq!(names(&events), ["Paste(\"text\\u{1b}[20\")"]);
}

#[test]
fn gives_a_long_paste_in_parts() {
    let mut decoder = decoder();
    decoder.parser().set_parts(Some(3));
    let events = decode(&mut decoder, b"\x1b[200~text", false);
    assert_eq!(events, [Event::PastePart("text".to_string())]);
    let events = decode(&mut decoder, b"s\x1b[201~", false);
    assert_eq!(names(&events), ["Paste(\"s\")"]);
}

// What a refused request was for comes once more, and what came before it, too.
#[test]
fn loses_no_event_if_memory_is_refused() {
    for number in 1.. {
        let mut decoder = decoder();
        let mut bytes = BytesMut::from(&b"ab\x1b[?6c"[..]);
        let first = decoder.decode(&mut bytes).expect("memory is granted");
        let (told, refused) = malloc::refusing(number, || decoder.idle());
        assert_eq!(told.is_err(), refused > 0);
        let mut events = Vec::from_iter(first);
        events.extend(told.into_iter().flatten());
        events.extend(decoder.idle().expect("memory is granted"));
        assert_eq!(names(&events), ["a", "b", "Csi([63, 54, 99])"]);
        if refused == 0 {
            assert!(number > 2);
            break;
        }
    }
}

// The bytes 8, 127 and 10 are the keys that the reading says. So is all else in any form.
#[test]
fn reads_as_it_is_told() {
    let sent = b"\x08\x7f\n\x1b[1;9A\x1b[?2u";
    let others = [
        "super+up",
        "KeyboardFlags(KittyKeyboardFlags(REPORT_EVENT_TYPES))",
    ];
    for (erase, eight, last) in [
        (EraseByte::Delete, "ctrl+h", "backspace"),
        (EraseByte::Backspace, "backspace", "ctrl+backspace"),
    ] {
        let tens = [
            (NewlineByte::CtrlJ, "ctrl+j"),
            (NewlineByte::Enter, "enter"),
        ];
        for (newline, ten) in tens {
            let reading = Reading {
                erase,
                newline,
                ..Reading::default()
            };
            let mut decoder = EventDecoder::new(reading).expect("memory is granted");
            let events = decode(&mut decoder, sent, false);
            assert_eq!(names(&events), [&[eight, last, ten][..], &others].concat());
        }
    }
}

// What a server does: it waits for the next event, and for the limit in time. Then it looks once
// more. Returns `None` at the end.
async fn next_events<C: AsyncRead + Unpin>(
    frames: &mut FramedRead<C, EventDecoder>,
) -> io::Result<Option<Vec<Event>>> {
    let mut time = frames.decoder().timeout().unwrap_or(Duration::MAX);
    for is_over in [false, true] {
        if is_over {
            yield_now().await; // the runtime looks at the connection
            time = Duration::ZERO;
        }
        let next = poll_fn(|context| Pin::new(&mut *frames).poll_next(context));
        if let Ok(event) = timeout(time, next).await {
            return event.transpose().map(|event| event.map(|it| vec![it]));
        }
    }
    frames.decoder_mut().idle().map(Some)
}

#[tokio::test]
async fn reads_a_connection_with_limits() -> io::Result<()> {
    let (mut terminal, server) = duplex(64);
    let sends = tokio::spawn(async move {
        terminal.write_all(b"a\x1b").await.expect("it is read");
        tokio::time::sleep(Duration::from_millis(500)).await;
        terminal.write_all(b"[A").await.expect("it is read");
    });
    let mut frames = FramedRead::new(server, decoder());
    let mut events = Vec::new();
    while let Some(next) = next_events(&mut frames).await? {
        events.extend(next);
    }
    sends.await.expect("all is sent");
    assert_eq!(names(&events), ["a", "escape", "[", "A"]);
    Ok(())
}

// The runtime looked at the connection when the limit passed, and not since.
#[tokio::test]
async fn reads_what_came_before_the_task_went_on() -> io::Result<()> {
    let (mut terminal, server) = std::os::unix::net::UnixStream::pair()?;
    server.set_nonblocking(true)?;
    let mut frames = FramedRead::new(UnixStream::from_std(server)?, decoder());
    for _ in 0..2 {
        terminal.write_all(b"a\x1b")?;
        let events = next_events(&mut frames).await?.unwrap_or_default();
        assert_eq!(names(&events), ["a"]);
        let mut next = pin!(next_events(&mut frames));
        let first = poll_fn(|context| Poll::Ready(next.as_mut().poll(context))).await;
        assert!(first.is_pending(), "ESC waits");
        tokio::time::sleep(Duration::from_millis(80)).await;
        terminal.write_all(b"[A")?;
        assert_eq!(names(&next.await?.unwrap_or_default()), ["up"]);
    }
    Ok(())
}
