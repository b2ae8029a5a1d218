// Texts that look random: how they are cut, by which call they are read, and what the port reads of
// them.
use crate::calls::{begin, parsed, read_cut, Calls, BOTH, CALLS};
use crate::draws::Draws;
use crate::lines::port_of;
use hedrugal::input::InputParser;
use hedrugal::{Dialect, Event, Parser, Reading};

// A text of at most 20 symbols.
fn drawn(draws: &mut Draws, list: &str) -> Vec<u8> {
    let count = draws.below(21);
    draws.text(count, list)
}

// A text in which there may be anything.
pub fn any_text(draws: &mut Draws) -> Vec<u8> {
    drawn(draws, "any")
}

// The events of a reading that begins, how many bytes are buffered then, and the reading.
fn all_told(
    parser: &mut Parser,
    reading: Reading,
    read: impl FnOnce(&mut Parser) -> Vec<Event>,
) -> (Vec<Event>, usize, Reading) {
    begin(parser, reading);
    let events = read(parser);
    (events, parser.waiting_len(), parser.reading())
}

// The same is told of the text in whatever pieces it is read, and by whatever call.
fn check_text(draws: &mut Draws, parser: &mut Parser, reading: Reading, text: &[u8], more: bool) {
    let shown = text.escape_ascii();
    let wanted = all_told(parser, reading, |it| it.read(text, more));
    for limit in [1, 2, 4, 16] {
        let place = draws.place_in(text);
        let size = 1 + draws.below(limit);
        let told = all_told(parser, reading, |it| read_cut(it, text, more, place, size));
        assert_eq!(told, wanted, "{shown}, to {place} in pieces of {size}");
    }
    for call in 0..CALLS {
        let told = all_told(parser, reading, |it| parsed(call, it, text, more));
        assert_eq!(told, wanted, "{shown}, call {call}");
    }
}

#[test]
fn reads_2000_texts_however_cut() {
    for dialect in BOTH {
        let (mut draws, mut parser) = (Draws::new(1), Parser::new(*dialect));
        for _ in 0..2000 {
            let text = any_text(&mut draws);
            let more = draws.below(2) == 0;
            let reading = draws.reading(*dialect);
            check_text(&mut draws, &mut parser, reading, &text, more);
        }
    }
}

// A parser whose buffer is empty reads the text as the port does.
fn check_port(parser: &mut Parser, text: &[u8], more: bool) {
    let mut port = InputParser::new();
    let wanted = port.parse_as_vec(text, more);
    let events: Option<Vec<_>> = parser.read(text, more).iter().map(port_of).collect();
    assert_eq!(events, Some(wanted), "{}", text.escape_ascii());
    let port = port.parser();
    let waiting = (port.waiting_len(), port.waiting());
    assert_eq!((parser.waiting_len(), parser.waiting()), waiting);
}

// A text without extra sequences is read as the port reads it.
#[test]
fn reads_2000_usual_texts_as_the_port() {
    let mut parser = Parser::new(Dialect::Extended);
    let mut draws = Draws::new(2);
    for _ in 0..2000 {
        parser.reset();
        check_port(&mut parser, &drawn(&mut draws, "usual"), false);
    }
}

// By termwiz's dialect each text is read as the port reads it, whatever else is set.
#[test]
fn reads_2000_texts_as_the_port() {
    let mut parser = Parser::new(Dialect::Termwiz);
    let mut draws = Draws::new(6);
    for _ in 0..2000 {
        let (text, more) = (any_text(&mut draws), draws.below(2) == 0);
        begin(&mut parser, draws.reading(Dialect::Termwiz));
        check_port(&mut parser, &text, more);
    }
}
