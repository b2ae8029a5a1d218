// All parsers of a process share one sequence table, which is made with the first. There is one
// test, since a process has one first parser.
mod malloc;

use hedrugal::input::{InputEvent, InputParser, KeyCode, KeyEvent, Modifiers};
use hedrugal::{AllocError, Dialect, Event, Parser};
use malloc::{in_use, refusing};
use std::time::Instant;

const PARSERS: usize = 1000;

// Less than a table, and more than half of one; and more than a parser has beside it.
const TABLE: usize = 150_000;
const PARSER: usize = 1024;

// Each request of the first parser is refused in turn, of one kind and of the other. Nothing is
// left of it, and the next call tries again. The last request is the parser's own: then the table
// is there.
fn refuse_the_first() {
    let start = in_use();
    for number in 1.. {
        let (refusal, refused) = refusing(number, || {
            if number % 2 == 0 {
                InputParser::try_new().err()
            } else {
                Parser::try_new(Dialect::Extended).err()
            }
        });
        let told = (refusal, refused);
        assert_eq!(told, (Some(AllocError), 1), "request {number}");
        if in_use() != start {
            break;
        }
    }
    let bytes = in_use() - start;
    assert!((TABLE..2 * TABLE).contains(&bytes), "{bytes} bytes");
}

// A key as it is read by each kind of parser.
fn up() -> InputEvent {
    InputEvent::Key(KeyEvent {
        key: KeyCode::UpArrow,
        modifiers: Modifiers::CTRL,
    })
}

// Many parsers of both kinds, in place of as many tables, read the same; and the last of them reads
// when the others are gone.
fn share_the_table() {
    let start = in_use();
    let mut parsers = Vec::from_iter((0..PARSERS).map(|_| InputParser::new()));
    let mut extended = Vec::from_iter((0..PARSERS).map(|_| Parser::new(Dialect::Extended)));
    let bytes = in_use() - start;
    assert!(bytes < 2 * PARSERS * PARSER, "{bytes} bytes");
    while let Some(mut parser) = parsers.pop() {
        assert_eq!(parser.parse_as_vec(b"\x1b[1;5A", true), [up()]);
    }
    for mut parser in extended.drain(..) {
        parser.feed(Instant::now(), b"\x1b[1;5A");
        assert!(matches!(parser.next(), Some(Event::Key(_))));
    }
    drop((parsers, extended));
    assert_eq!(in_use(), start);
}

#[test]
fn one_table() {
    refuse_the_first();
    share_the_table();
}
