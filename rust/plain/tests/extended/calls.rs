// The calls with which most tests read: bytes that come at one time, and their events.
use crate::lines::lines;
use crate::port::feeder::at;
use hedrugal::{Dialect, Event, Parser, Reading, Waiting};

pub const MORE: bool = true;

pub const LAST: bool = false;

pub const BOTH: &[Dialect] = &[Dialect::Extended, Dialect::Termwiz];

pub trait Calls {
    // The events of what is buffered and of these bytes, and of a flush if no more may come.
    fn read(&mut self, bytes: &[u8], more: bool) -> Vec<Event>;

    fn is_paste_open(&self) -> bool;
}

impl Calls for Parser {
    fn read(&mut self, bytes: &[u8], more: bool) -> Vec<Event> {
        self.feed(at(0), bytes);
        if !more {
            self.flush();
        }
        self.collect()
    }

    fn is_paste_open(&self) -> bool {
        self.waiting() == Waiting::Paste
    }
}

// Forgets what is buffered, and reads so from now on.
pub fn begin(parser: &mut Parser, reading: Reading) {
    parser.reset();
    parser.set_reading(reading);
}

// How many ways there are to take events.
pub const CALLS: usize = 2;

// The events, taken in each way until there is none.
pub fn taken(call: usize, parser: &mut Parser) -> Vec<Event> {
    if call == 0 {
        return parser.collect();
    }
    let next = || parser.try_next().expect("memory is granted");
    std::iter::from_fn(next).collect()
}

// The events of what is buffered and of these bytes, in each way.
pub fn parsed(call: usize, parser: &mut Parser, bytes: &[u8], more: bool) -> Vec<Event> {
    if call == 0 {
        return parser.read(bytes, more);
    }
    parser.try_feed(at(0), bytes).expect("memory is granted");
    if !more {
        parser.flush();
    }
    taken(call, parser)
}

// The events of bytes that are cut: those before `place` in pieces of `size`, with more to come,
// and the others by one call under the flag.
pub fn read_cut(
    parser: &mut Parser,
    bytes: &[u8],
    more: bool,
    place: usize,
    size: usize,
) -> Vec<Event> {
    let (front, last) = bytes.split_at(place.min(bytes.len()));
    let mut events = Vec::new();
    for piece in front.chunks(size) {
        events.extend(parser.read(piece, MORE));
    }
    events.extend(parser.read(last, more));
    events
}

// What a call gave, and how many bytes are buffered after it.
pub fn given(events: &[Event], parser: &Parser) -> String {
    let mut given = lines(events);
    if parser.waiting_len() > 0 {
        given += &format!("; {}", parser.waiting_len());
    }
    if parser.is_paste_open() {
        given += " in a paste";
    }
    given
}

// A parser that reads so.
pub fn parser_by(reading: Reading) -> Parser {
    let mut parser = Parser::new(reading.dialect);
    parser.set_reading(reading);
    parser
}

// The event that the bytes are, with nothing left over.
pub fn read_one(bytes: &[u8], reading: Reading, more: bool) -> Event {
    let mut parser = parser_by(reading);
    let mut events = parser.read(bytes, more);
    assert_eq!((events.len(), parser.waiting_len()), (1, 0), "{events:?}");
    events.remove(0)
}
