// Threads that make, use and free parsers. All of these share one sequence table.
use crate::lines::lines;
use crate::plain::key_event;
use hedrugal::input::{InputEvent, InputParser, KeyCode, Modifiers};
use hedrugal::{Dialect, Event, Parser, Waiting};
use std::sync::mpsc::{channel, Sender};
use std::thread;
use std::time::Instant;

const THREADS: usize = 4;
const ROUNDS: usize = 200;

fn ctrl_up() -> InputEvent {
    key_event(KeyCode::UpArrow, Modifiers::CTRL)
}

// Makes parsers and reads with them. Some are freed here, and some are passed on in the middle of a
// key.
fn make_and_use(passed_on: &Sender<InputParser>) {
    for _ in 0..ROUNDS {
        let (mut parser, mut extended) = (InputParser::new(), Parser::new(Dialect::Extended));
        assert_eq!(parser.parse_as_vec(b"\x1b[1;5A", true), [ctrl_up()]);
        extended.feed(Instant::now(), b"\x1b[1;5A");
        assert!(matches!(extended.next(), Some(Event::Key(_))));
        drop(extended);
        parser.parse(b"\x1b[1;", |_| {}, true);
        passed_on.send(parser).expect("the main thread takes it");
    }
}

#[test]
fn four_threads() {
    let (sender, parsers) = channel();
    let threads: Vec<_> = (0..THREADS)
        .map(|_| sender.clone())
        .map(|sender| thread::spawn(move || make_and_use(&sender)))
        .collect();
    drop(sender);
    let mut count = 0;
    for mut parser in parsers {
        assert_eq!(parser.parse_as_vec(b"5A", true), [ctrl_up()]);
        count += 1;
    }
    assert_eq!(count, THREADS * ROUNDS);
    for thread in threads {
        thread.join().expect("the thread read what it wanted");
    }
}

// What stays buffered and the table are read by two threads at once, and the parser goes on in a third.
#[test]
fn goes_on_in_another_thread() {
    for (begun, kind, end, wanted) in [
        (
            &b"\x1b[200~text"[..],
            Waiting::Paste,
            &b"\x1b[201~"[..],
            "paste 4:74657874",
        ),
        (b"\x1b[1;5", Waiting::Sequence, b"A", "key UpArrow CTRL"),
        (b"\x1b[", Waiting::Sequence, b"A", "key UpArrow NONE"),
    ] {
        let mut parser = InputParser::new();
        parser.parse(begun, |_| {}, true);
        let read = || {
            let parser = parser.parser();
            for _ in 0..1000 {
                let waiting = (parser.waiting(), parser.waiting_len());
                assert_eq!(waiting, (kind, begun.len()));
            }
            let mut places = parser.completions().entries;
            assert!(places.all(|place| parser.entry(place).is_some()));
        };
        thread::scope(|scope| {
            for _ in 0..2 {
                scope.spawn(read);
            }
        });
        let events = thread::spawn(move || parser.parse_as_vec(end, true)).join();
        assert_eq!(lines(&events.expect("no panic")), wanted);
    }
}
