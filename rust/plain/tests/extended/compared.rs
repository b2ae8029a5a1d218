// Texts that `Parser` reads as the plain reader does, and keys that have the presses of the rules.
use crate::calls::{Calls, BOTH, LAST, MORE};
use crate::draws::Draws;
use crate::generated::any_text;
use crate::plain::PlainReader;
use crate::port::plain::END;
use crate::presses::check_presses;
use hedrugal::{Dialect, EraseByte, Event, NewlineByte, Parser, Reading};

// The parser, the plain reader, how both read first, and what the reader has buffered.
pub struct Comparison {
    parser: Parser,
    reader: PlainReader,
    first: Reading,
    waiting: Vec<u8>,
}

impl Comparison {
    pub fn new(dialect: Dialect) -> Comparison {
        let first = Reading::new(dialect);
        Comparison {
            parser: Parser::new(dialect),
            reader: PlainReader::new(first),
            first,
            waiting: Vec::new(),
        }
    }

    // How both read from the next beginning on.
    pub fn set_first(&mut self, reading: Reading) {
        self.first = reading;
    }

    // Forgets what is buffered, and reads as at first.
    fn begin(&mut self) {
        self.parser.reset();
        self.waiting.clear();
        self.set_reading(self.first);
    }

    // Both read so from now on.
    fn set_reading(&mut self, reading: Reading) {
        self.parser.set_reading(reading);
        self.reader.set_reading(reading);
    }

    // Another drawn call between two reads, or none. What is buffered stays, but for a reset.
    fn call_between(&mut self, draws: &mut Draws, dialect: Dialect) {
        match draws.below(10) {
            0 => {
                self.parser.reset();
                self.waiting.clear();
                self.reader.forget_positions();
            }
            1 => {
                self.parser.forget_positions();
                self.reader.forget_positions();
            }
            2..=4 => {
                self.parser.expect_position();
                self.reader.expect_position();
            }
            5 => self.set_reading(draws.reading(dialect)),
            _ => (),
        }
        assert_eq!(self.parser.reading(), self.reader.reading());
    }

    // The calls have the events of the plain reader. Returns whether an extra sequence is among them.
    pub fn check_calls(&mut self, calls: &[(Vec<u8>, bool)]) -> bool {
        self.begin();
        let mut has_extra = false;
        for (bytes, more) in calls {
            let text = [&self.waiting, &bytes[..]].concat();
            has_extra |= self.reader.has_extra(&text, *more);
            self.check_call(bytes, *more);
        }
        has_extra
    }

    // Whether what is buffered is a string or begins an extra sequence, after at most one ESC.
    pub fn begins_extra(&self) -> bool {
        self.reader.begins_extra(&self.waiting)
    }

    // A call has the events of the plain reader, and as many bytes are buffered after it.
    fn check_call(&mut self, bytes: &[u8], more: bool) {
        let text = [&self.waiting, bytes].concat();
        let (events, rest) = self.reader.read(&text, more);
        let parsed = self.parser.read(bytes, more);
        let shown = text.escape_ascii();
        assert_eq!(parsed, events, "{shown}, {more}");
        parsed.iter().filter_map(Event::key).for_each(check_presses);
        assert_eq!(self.parser.waiting_len(), rest.len(), "{shown}, {more}");
        assert_eq!(self.parser.reading(), self.reader.reading());
        self.waiting = rest;
    }

    // What is buffered after a flush is an open paste: its end tells the text of it.
    pub fn check_rest(&mut self) {
        self.check_call(b"", LAST);
        self.check_call(END, LAST);
    }

    // A text whole, and in two pieces before a flush.
    pub fn check_text(&mut self, text: &[u8], place: usize) {
        let (front, last) = text.split_at(place);
        self.begin();
        self.check_call(text, LAST);
        self.check_rest();
        self.begin();
        self.check_call(front, MORE);
        self.check_call(last, MORE);
        self.check_rest();
    }
}

// How many texts are drawn by each seed.
const TEXTS: usize = 1000;

fn check_texts(seed: u64) {
    for dialect in BOTH {
        let (mut comparison, mut draws) = (Comparison::new(*dialect), Draws::new(seed));
        for _ in 0..TEXTS {
            let text = any_text(&mut draws);
            let place = draws.place_in(&text);
            comparison.set_first(draws.reading(*dialect));
            comparison.check_text(&text, place);
        }
    }
}

#[test]
fn reads_as_the_plain_reader_1() {
    check_texts(3);
}

#[test]
fn reads_as_the_plain_reader_2() {
    check_texts(4);
}

// Texts of these, which often begin as a sequence.
#[test]
fn reads_keys_and_positions_as_the_plain_reader() {
    let usual = Reading::new(Dialect::Extended);
    let (mut comparison, mut draws) = (Comparison::new(Dialect::Extended), Draws::new(7));
    for (questions, erase, newline) in [
        (0, EraseByte::Delete, NewlineByte::CtrlJ),
        (1, EraseByte::Delete, NewlineByte::CtrlJ),
        (0, EraseByte::Backspace, NewlineByte::CtrlJ),
        (0, EraseByte::Delete, NewlineByte::Enter),
    ] {
        comparison.set_first(Reading {
            questions,
            erase,
            newline,
            ..usual
        });
        for _ in 0..3000 {
            let count = 1 + draws.below(9);
            let text = [draws.text(1, "beginnings"), draws.text(count, "keys")].concat();
            let place = draws.place_in(&text);
            comparison.check_text(&text, place);
        }
    }
}

// Reads with other calls between them: questions are asked and forgotten, and the reading changes,
// also its dialect, while bytes are buffered.
#[test]
fn reads_as_the_plain_reader_however_asked() {
    let mut draws = Draws::new(5);
    let mut comparison = Comparison::new(Dialect::Extended);
    for _ in 0..TEXTS {
        comparison.set_first(draws.reading(Dialect::Extended));
        comparison.begin();
        for _ in 0..4 {
            let text = any_text(&mut draws);
            let place = draws.place_in(&text);
            for piece in [&text[..place], &text[place..]] {
                let dialect = BOTH[usize::from(draws.below(8) == 0)];
                comparison.call_between(&mut draws, dialect);
                comparison.check_call(piece, MORE);
            }
        }
        comparison.check_rest();
    }
}

// Each number that may name a key, and each letter.
#[test]
fn reads_keys_as_the_plain_reader() {
    for dialect in BOTH {
        let mut comparison = Comparison::new(*dialect);
        for number in (0..=300).chain(57300..=57500).chain(63740..=63750) {
            for text in [
                format!("\x1b[{number}u"),
                format!("\x1b[{number}~"),
                format!("\x1b[27;5;{number}~"),
                format!("\x1b[27;{number};97~"),
                format!("\x1b[{number}^"),
                format!("\x1b[{number}@"),
                format!("\x1b\x1b[{number}$x"),
            ] {
                comparison.check_text(text.as_bytes(), 3);
            }
        }
        for letter in '@'..='~' {
            let starts = "[ [1;2 [1;1:3 [[ O O2 O0;8 \x1bO \x1bO5 O1;8 [2 \x1b[8 [;6";
            for start in starts.split(' ') {
                let text = format!("\x1b{start}{letter}");
                comparison.check_text(text.as_bytes(), text.len() - 1);
            }
        }
    }
}

// Each code of a mouse report, in all three ways to write it.
#[test]
fn reads_mouse_reports_as_the_plain_reader() {
    for dialect in BOTH {
        let mut comparison = Comparison::new(*dialect);
        for x10_mouse in [false, true] {
            comparison.set_first(Reading {
                x10_mouse,
                ..Reading::new(*dialect)
            });
            for code in 0..=300 {
                for text in [
                    format!("\x1b[<{code};3;4M"),
                    format!("\x1b[<{code};3;4m"),
                    format!("\x1b[{code};3;4M"),
                ] {
                    comparison.check_text(text.as_bytes(), 4);
                }
            }
            for code in 0..=255 {
                comparison.check_text(&[0x1b, b'[', b'M', code, b'!', 0xff], 3);
                comparison.check_text(&[0x1b, b'[', b'M', b' ', code, b'!'], 4);
            }
        }
    }
}

// Each entry that ends in R, while so many questions are open, and after ESC.
#[test]
fn reads_positions_as_the_plain_reader() {
    for dialect in BOTH {
        let mut comparison = Comparison::new(*dialect);
        for questions in [0, 1, 2, 255] {
            comparison.set_first(Reading {
                questions,
                ..Reading::new(*dialect)
            });
            for column in (0..=20).chain(255..=258) {
                let entry = format!("\x1b[1;{column}R");
                for text in [
                    entry.clone(),
                    format!("\x1b{entry}"),
                    format!("{entry}{entry}\x1b[1;5P{entry}"),
                    format!("\x1b[?1;{column}R{entry}\x1b{entry}"),
                ] {
                    comparison.check_text(text.as_bytes(), 5);
                }
            }
        }
    }
}
