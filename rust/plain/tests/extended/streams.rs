// Random streams of sequences and their beginnings: how they are cut changes no event, and what a
// pause flushes is flushed in time.
use crate::calls::Calls;
use crate::cases::LIMITS;
use crate::draws::Draws;
use crate::lines::port_of;
use crate::plain::timed::PlainTimed;
use crate::port::feeder::at;
use crate::waiting::different_limits;
use hedrugal::{Dialect, Event, Parser, Reading};
use std::iter;

// The events of a text in pieces, and of a flush at its end; then what an open paste gives. Also how
// many bytes are buffered before the flush, and the reading at the end.
fn read(
    parser: &mut Parser,
    reading: Reading,
    text: &[u8],
    piece: usize,
) -> (Vec<Event>, usize, Reading) {
    parser.set_reading(reading);
    let mut events = Vec::new();
    for bytes in text.chunks(piece) {
        events.extend(parser.read(bytes, true));
    }
    let waiting = parser.waiting_len();
    parser.end();
    events.extend(parser.by_ref());
    assert_eq!(parser.waiting_len(), 0);
    (events, waiting, parser.reading())
}

#[test]
fn cuts_change_nothing() {
    let (mut draws, mut parser) = (Draws::new(31), Parser::new(Dialect::Extended));
    let mut extra = 0;
    for _ in 0..5000 {
        let count = 1 + draws.below(20);
        let text = draws.text(count, "streams");
        let reading = draws.reading(Dialect::Extended);
        let whole = read(&mut parser, reading, &text, text.len());
        for piece in [1, 2, 3, 7] {
            let (cut, shown) = (
                read(&mut parser, reading, &text, piece),
                text.escape_ascii(),
            );
            assert_eq!(cut, whole, "{reading:?}, pieces of {piece}: {shown}");
        }
        let events = whole.0.iter();
        extra += events.filter(|it| port_of(it).is_none()).count();
    }
    assert!(extra > 5000, "{extra}");
}

// What comes at a time, and whether a position is asked for before.
type Read = (u64, Vec<u8>, bool);

// A program's loop: it waits as long as the parser says, or until the next read. Bytes that come at the last moment
// come first. With a `step` it wakes so often besides. The slow parser with a clock tells the same at each step.
// Returns how often something was flushed.
fn check_loop(
    parser: &mut Parser,
    plain: &mut PlainTimed,
    reads: &[Read],
    step: Option<u64>,
) -> usize {
    let (mut flushed, mut now) = (0, 0);
    let mut coming = reads.iter().peekable();
    loop {
        let left = parser.timeout(at(now)).map(|it| it.as_millis() as u64);
        assert_eq!(left, plain.timeout(now), "at {now} of {reads:?}");
        let due = left.map(|left| now + left.min(step.unwrap_or(left)));
        let read = coming.next_if(|(time, ..)| due.map_or(true, |due| *time <= due));
        match (read, due) {
            (Some((time, bytes, is_asked)), _) => {
                now = *time;
                if *is_asked {
                    parser.expect_position();
                    plain.expect_position();
                }
                parser.feed(at(now), bytes);
                plain.feed(now, bytes).expect("all is told");
            }
            (None, Some(due)) => {
                now = due;
                parser.idle(at(now));
                plain.idle(now);
            }
            (None, None) => return flushed,
        }
        let events: Vec<Event> = parser.collect();
        let wanted: Vec<Event> = iter::from_fn(|| plain.next()).collect();
        assert_eq!(events, wanted, "at {now} of {reads:?}");
        flushed += usize::from(read.is_none() && !events.is_empty());
    }
}

#[test]
fn pauses_flush_in_time() {
    let (mut draws, mut parser) = (Draws::new(32), Parser::new(Dialect::Extended));
    let mut plain = PlainTimed::new(Dialect::Extended);
    parser.set_policy(different_limits());
    for (number, (name, _)) in (1..).zip(LIMITS) {
        plain.set_limit(name, Some(10 * number));
    }
    let mut flushed = 0;
    for number in 0..2000 {
        let (mut time, mut reads) = (0, Vec::new());
        let reading = draws.reading(Dialect::Extended);
        parser.set_reading(reading);
        plain.set_reading(reading);
        for _ in 0..=draws.below(12) {
            let count = 1 + draws.below(3);
            let text = draws.text(count, "streams");
            reads.push((time, text, draws.below(4) == 0));
            time += [0, 5, 9, 10, 11, 19, 20, 21, 30, 45, 51, 70][draws.below(12)];
        }
        let step = (number % 2 == 1).then_some(1);
        flushed += check_loop(&mut parser, &mut plain, &reads, step);
        assert_eq!(parser.reading(), plain.reading());
    }
    assert!(flushed > 1000, "{flushed}");
}
