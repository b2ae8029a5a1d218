// The answers in tests/recorded, and the port's on generated texts. By termwiz's dialect a
// parser gives the same. By its own it does, but for the bytes 8, 10 and 127, and where an extra
// sequence occurs or has begun.
use crate::calls::Calls;
use crate::compared::Comparison;
use crate::lines::{self, port_of};
use crate::port::draws::Draws;
use crate::port::feeder::{answer, check_file, feed_file, told, Feeder, Reader};
use crate::port::lines::{hex, line};
use crate::port::plain::PlainReader as PortReader;
use hedrugal::input::InputParser;
use hedrugal::{Dialect, Event, Parser};

impl Reader for Parser {
    fn reset(&mut self) {
        Parser::reset(self);
    }

    fn call(&mut self, bytes: &[u8], more: bool) -> Vec<String> {
        self.read(bytes, more).iter().map(answer_line).collect()
    }

    fn waiting_len(&self) -> usize {
        Parser::waiting_len(self)
    }
}

// The line of an event: that of the port, if it has one.
fn answer_line(event: &Event) -> String {
    match port_of(event) {
        Some(event) => line(&event),
        None => lines::line(event),
    }
}

// The parser, its calls since the last reset, and whether one had another answer than the port's.
struct OwnReader {
    parser: Parser,
    calls: Vec<(Vec<u8>, bool)>,
    is_other: bool,
    comparison: Comparison,
    // The text and the answer that the plain reader gave last.
    compared: (Vec<u8>, String),
}

impl OwnReader {
    fn new() -> OwnReader {
        OwnReader {
            parser: Parser::new(Dialect::Extended),
            calls: Vec::new(),
            is_other: false,
            comparison: Comparison::new(Dialect::Extended),
            compared: Default::default(),
        }
    }
}

impl Reader for OwnReader {
    fn reset(&mut self) {
        self.parser.reset();
        self.calls.clear();
        self.is_other = false;
    }

    fn call(&mut self, bytes: &[u8], more: bool) -> Vec<String> {
        self.calls.push((bytes.to_vec(), more));
        self.parser.call(bytes, more)
    }

    fn waiting_len(&self) -> usize {
        self.parser.waiting_len()
    }

    // The plain reader answers the calls as the parser does. In the first other answer there is an
    // extra sequence, or the beginning of one is buffered that the port doesn't buffer, or a byte that
    // the port reads otherwise.
    fn check_other(&mut self, came: &str, waiting: &[u8], wanted: &str) {
        let text = self.calls.iter().flat_map(|(bytes, _)| bytes).copied();
        let compared = (text.collect(), came.to_string());
        if compared == self.compared {
            return;
        }
        self.compared = compared;
        let has_extra = self.comparison.check_calls(&self.calls);
        let has_begun = self.comparison.begins_extra() && !wanted.ends_with(&hex(waiting));
        let has_byte = self.compared.0.iter().any(|it| matches!(it, 8 | 10 | 127));
        let may_be_other = self.is_other || has_extra || has_begun || has_byte;
        assert!(may_be_other, "{came}, and not {wanted}");
        self.is_other = true;
    }
}

// By termwiz's dialect all lines are answered so. By its own the parser answers as many otherwise as
// tests/recorded/README.md says.
fn check(file: &str) {
    check_file(&mut Parser::new(Dialect::Termwiz), file);
    assert_eq!(feed_file(&mut OwnReader::new(), file), told(file), "{file}");
}

#[test]
fn rows() {
    check("parse-rows.txt");
}

#[test]
fn cases() {
    check("parse-cases.txt");
}

// 5000 texts that the port's generated tests draw, each whole, cut in two at each place and byte by
// byte. So many of them are answered otherwise than the port answers.
fn check_drawn(seed: u64, others: usize) {
    let mut reader = OwnReader::new();
    let mut draws = Draws::new(seed, &PortReader::new());
    let mut seen = 0;
    for _ in 0..5000 {
        let text = draws.text();
        let mut port = InputParser::new();
        let events = port.parse_as_vec(&text, false);
        let lines: Vec<String> = events.iter().map(line).collect();
        let waiting = &text[text.len() - port.parser().waiting_len()..];
        let mut feeder = Feeder::new(&mut reader);
        feeder.check_whole(&text, &answer(&lines, waiting));
        seen += usize::from(feeder.is_other);
    }
    assert_eq!(seen, others, "seed {seed}");
}

#[test]
fn generated_texts_1() {
    check_drawn(1, 1205);
}

#[test]
fn generated_texts_2() {
    check_drawn(2, 1201);
}

#[test]
fn generated_texts_3() {
    check_drawn(3, 1210);
}

#[test]
fn generated_texts_4() {
    check_drawn(4, 1225);
}

// Long ones, which the plain reader reads.
#[test]
fn long_generated_texts() {
    let mut comparison = Comparison::new(Dialect::Extended);
    let mut draws = Draws::new(5, &PortReader::new());
    for _ in 0..20 {
        let text = draws.symbols(200);
        let (first, second) = text.split_at(text.len() / 2);
        comparison.check_calls(&[(text.clone(), false)]);
        comparison.check_calls(&[(first.to_vec(), true), (second.to_vec(), false)]);
    }
}
