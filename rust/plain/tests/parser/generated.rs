// Generated texts in pieces, read by the parser as by the plain reader.
use crate::calls::{Buffer, Call, CALLS, MOST};
use crate::draws::Draws;
use crate::lines::hex;
use crate::plain::PlainReader;
use hedrugal::input::{InputEvent, InputParser};
use hedrugal::Waiting;

// What the plain reader finds in a call with these bytes.
struct Reading<'a> {
    bytes: &'a [u8],
    more: bool,
    events: Vec<InputEvent>,
    rest: Vec<u8>,
    kind: Waiting,
}

impl<'a> Reading<'a> {
    // How the reader reads these bytes after what is buffered. What it leaves may stay buffered.
    fn new(reader: &PlainReader, waiting: &[u8], bytes: &'a [u8], more: bool) -> Reading<'a> {
        let text = [waiting, bytes].concat();
        let (events, rest) = reader.read(&text, more);
        let shown = format!("{} waits of {}", hex(rest), hex(&text));
        let kind = reader.kind_of(rest, more).expect(&shown);
        assert!(rest.len() <= MOST || kind == Waiting::Paste, "{shown}");
        Reading {
            bytes,
            more,
            events,
            rest: rest.to_vec(),
            kind,
        }
    }

    // The call, `+` with more to come and `-` without.
    fn name(&self) -> String {
        let mark = if self.more { '+' } else { '-' };
        format!("{mark}{}", hex(self.bytes))
    }
}

// The calls that follow one another.
fn names(readings: &[Reading]) -> String {
    let names: Vec<String> = readings.iter().map(Reading::name).collect();
    names.join(" ")
}

// A parser whose buffer is empty gives each reading by this call.
fn check_readings(parser: &mut InputParser, call: Call, readings: &[Reading]) {
    for (number, reading) in readings.iter().enumerate() {
        let name = || format!("call {number} of {} by {call:?}", names(readings));
        let events = call.events(parser, reading.bytes, reading.more);
        assert_eq!(events, reading.events, "{}", name());
        let waiting = (parser.waiting_len(), parser.parser().waiting());
        let wanted = (reading.rest.len(), reading.kind);
        assert_eq!(waiting, wanted, "{}", name());
    }
    parser.reset();
}

// The parser, what it is compared with, and what draws the texts.
pub struct Comparison {
    parser: InputParser,
    reader: PlainReader,
    draws: Draws,
}

impl Comparison {
    pub fn new(seed: u64) -> Comparison {
        let (parser, reader) = (InputParser::new(), PlainReader::new());
        let draws = Draws::new(seed, &reader);
        Comparison {
            parser,
            reader,
            draws,
        }
    }

    // How the plain reader reads the pieces, all but the last with more to come, and then a flush.
    fn readings<'a>(&self, pieces: &[&'a [u8]], more: bool) -> Vec<Reading<'a>> {
        let flags = (1..=pieces.len()).map(|number| more || number < pieces.len());
        let calls = pieces.iter().copied().zip(flags).chain([(&b""[..], false)]);
        let mut readings: Vec<Reading> = Vec::new();
        for (bytes, more) in calls {
            let waiting = readings.last().map_or(&b""[..], |reading| &reading.rest);
            readings.push(Reading::new(&self.reader, waiting, bytes, more));
        }
        readings
    }

    // The parser reads the text in pieces that are drawn as the plain reader does, by each of its calls.
    fn check_in_pieces(&mut self, text: &[u8]) {
        let pieces = self.draws.pieces(text);
        let more = self.draws.below(2) == 0;
        let readings = self.readings(&pieces, more);
        for call in CALLS {
            check_readings(&mut self.parser, call, &readings);
        }
    }

    // The same of the text as a whole. It has the same events cut in two at each place.
    pub fn check_whole(&mut self, text: &[u8]) {
        let reading = Reading::new(&self.reader, b"", text, false);
        for place in 0..=text.len() {
            let (first, second) = text.split_at(place);
            let mut events = Call::List.events(&mut self.parser, first, true);
            events.extend(Call::List.events(&mut self.parser, second, false));
            assert_eq!(events, reading.events, "{} cut at {place}", hex(text));
            let waiting = self.parser.reset();
            assert_eq!(waiting, reading.rest.len(), "{} cut at {place}", hex(text));
        }
        check_readings(&mut self.parser, Call::List, &[reading]);
    }

    fn check(&mut self, text: &[u8]) {
        self.check_in_pieces(text);
        self.check_whole(text);
    }
}

// How many texts are drawn by each seed.
const TEXTS: usize = 5000;

// Compares the texts that this seed draws.
fn check_texts(seed: u64) {
    let mut comparison = Comparison::new(seed);
    for _ in 0..TEXTS {
        let text = comparison.draws.text();
        comparison.check(&text);
    }
}

#[test]
fn reads_as_the_plain_reader_1() {
    check_texts(1);
}

#[test]
fn reads_as_the_plain_reader_2() {
    check_texts(2);
}

#[test]
fn reads_as_the_plain_reader_3() {
    check_texts(3);
}

#[test]
fn reads_as_the_plain_reader_4() {
    check_texts(4);
}

#[test]
fn reads_long_texts_as_the_plain_reader() {
    let mut comparison = Comparison::new(5);
    for _ in 0..20 {
        let text = comparison.draws.symbols(200);
        comparison.check(&text);
    }
}

// Reads the pieces of a text, and a flush. Where an item of the whole text ends, and ESC or ESC ESC waits, the Escape key is flushed.
fn read_with_pauses(parser: &mut InputParser, pieces: &[&[u8]], ends: &[usize]) -> Vec<InputEvent> {
    let mut events = Vec::new();
    let mut place = 0;
    for piece in pieces {
        place += piece.len();
        events.append(&mut Call::List.events(parser, piece, true));
        if ends.contains(&place) && parser.parser().waiting() == Waiting::Escape {
            events.append(&mut Call::List.events(parser, b"", false));
        }
    }
    events.append(&mut Call::List.events(parser, b"", false));
    events
}

// A pause where an item ends changes no event.
#[test]
fn pauses_between_items() {
    let (mut parser, reader) = (InputParser::new(), PlainReader::new());
    let mut draws = Draws::new(6, &reader);
    for _ in 0..3000 {
        let text = draws.text();
        let (pieces, ends) = (draws.pieces(&text), reader.ends_of(&text, false));
        let events = read_with_pauses(&mut parser, &pieces, &ends);
        let (wanted, rest) = reader.read(&text, false);
        assert_eq!(events, wanted, "{}", hex(&text));
        assert_eq!(parser.reset(), rest.len(), "{}", hex(&text));
    }
}
