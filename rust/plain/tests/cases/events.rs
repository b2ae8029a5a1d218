// Bytes, and the events that are told of them.
use super::{reading, reading_and_text};
use crate::calls::{begin, parsed, read_cut, taken, Calls, CALLS};
use crate::compared::Comparison;
use crate::lines::{lines, port_of};
use crate::port::calls::{check_sizes, CALLS as PORT_CALLS};
use hedrugal::input::{InputEvent, InputParser};
use hedrugal::{Dialect, Event, Parser, Reading};

// Bytes that come, and whether more may.
pub type Call = (Vec<u8>, bool);

// The readers that a parser is compared with.
pub struct Models(Comparison);

impl Models {
    pub fn new() -> Models {
        Models(Comparison::new(Dialect::Extended))
    }

    // The calls have the events of the plain reader. By termwiz's dialect they have those of the
    // port too.
    pub fn check(&mut self, reading: Reading, calls: &[Call]) {
        self.0.set_first(reading);
        self.0.check_calls(calls);
        self.0.check_rest();
        if reading.dialect == Dialect::Termwiz {
            let wanted = events_of(&mut Parser::new(Dialect::Termwiz), calls);
            check_port(calls, &wanted);
            self.check_own([calls, &[(Vec::new(), false)]].concat());
        }
    }

    // With a flush the own dialect has the same events as termwiz's, unless there is an extra
    // sequence, or a byte that it reads otherwise.
    fn check_own(&mut self, calls: Vec<Call>) {
        self.0.set_first(Reading::new(Dialect::Extended));
        let has_extra = self.0.check_calls(&calls);
        let has_byte = |(bytes, _): &Call| bytes.iter().any(|it| [8, 10, 127].contains(it));
        if !has_extra && !calls.iter().any(has_byte) {
            let [own, termwiz] = [Dialect::Extended, Dialect::Termwiz]
                .map(|dialect| events_of(&mut Parser::new(dialect), &calls).concat());
            assert_eq!(own, termwiz);
        }
    }
}

// The events of each call.
fn events_of(parser: &mut Parser, calls: &[Call]) -> Vec<Vec<Event>> {
    let events = calls.iter().map(|(bytes, more)| parser.read(bytes, *more));
    events.collect()
}

// `InputParser` has these events, by each way to call it, and in pieces.
fn check_port(calls: &[Call], wanted: &[Vec<Event>]) {
    for call in PORT_CALLS {
        let (mut port, mut parser) = (InputParser::new(), Parser::new(Dialect::Termwiz));
        for ((bytes, more), wanted) in calls.iter().zip(wanted) {
            let wanted: Option<Vec<InputEvent>> = wanted.iter().map(port_of).collect();
            let events = call.events(&mut port, bytes, *more);
            assert_eq!(Some(events.clone()), wanted, "{call:?}");
            parser.read(bytes, *more);
            let waiting = (port.parser().waiting(), port.parser().waiting_len());
            assert_eq!(waiting, (parser.waiting(), parser.waiting_len()));
        }
    }
    let text: Vec<u8> = calls.iter().flat_map(|(bytes, _)| bytes.clone()).collect();
    check_sizes(&mut InputParser::new(), "in pieces", &text);
}

// What is told of events, and behind a bar what the end tells of what stays buffered after them.
fn told(parser: &mut Parser, events: &[Event]) -> String {
    let waiting = parser.waiting_len();
    parser.end();
    let others = taken(0, parser);
    assert_eq!(parser.waiting_len(), 0);
    if waiting == 0 {
        assert_eq!(others, []);
        return lines(events);
    }
    format!("{} | {}", lines(events), lines(&others))
}

// `READING "BYTES" = EVENTS | EVENTS = READING`.
pub fn check() -> impl FnMut(&str) {
    let (mut parser, mut models) = (Parser::new(Dialect::Extended), Models::new());
    move |line| {
        let (given, wanted, left) = match line.split(" = ").collect::<Vec<_>>()[..] {
            [given, wanted] => (given, wanted, None),
            [given, wanted, left] => (given, wanted, Some(reading(left))),
            _ => panic!("a case has two or three sides"),
        };
        let (by, bytes) = reading_and_text(given);
        for call in 0..CALLS {
            begin(&mut parser, by);
            let events = parsed(call, &mut parser, &bytes, true);
            assert_eq!(told(&mut parser, &events), wanted, "by call {call}");
        }
        for place in 0..=bytes.len() {
            for size in [1, place.max(1)] {
                begin(&mut parser, by);
                let events = read_cut(&mut parser, &bytes, true, place, size);
                let told = told(&mut parser, &events);
                assert_eq!(told, wanted, "to {place} in pieces of {size}");
                let questions = parser.reading().questions;
                let left = left.unwrap_or(Reading { questions, ..by });
                assert_eq!(parser.reading(), left);
            }
        }
        models.check(by, &[(bytes.clone(), true), (Vec::new(), false)]);
        models.check(by, &[(bytes, false)]);
    }
}
