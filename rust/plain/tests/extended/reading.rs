// How a parser reads: the reading that it begins with, and what changes it. Runs of tests/cases have more.
use crate::calls::{Calls, BOTH};
use crate::lines::lines;
use crate::port::feeder::at;
use hedrugal::{Dialect, EraseByte, NewlineByte, Parser, Reading};

fn questions(parser: &Parser) -> u8 {
    parser.reading().questions
}

#[test]
fn begins_without_questions() {
    for dialect in BOTH {
        let parser = Parser::new(*dialect);
        let wanted = Reading {
            dialect: *dialect,
            x10_mouse: false,
            questions: 0,
            erase: EraseByte::Delete,
            newline: NewlineByte::CtrlJ,
        };
        assert_eq!(parser.reading(), wanted);
        assert_eq!(Reading::new(*dialect), wanted);
    }
    assert_eq!(Reading::default(), Reading::new(Dialect::Extended));
}

// Each reading is the one that was set.
#[test]
fn tells_the_reading() {
    let mut parser = Parser::new(Dialect::Extended);
    for number in 0..64 {
        let bit = |place: usize| number >> place & 1;
        let reading = Reading {
            dialect: BOTH[bit(0)],
            x10_mouse: bit(1) == 1,
            questions: [0, 1, 254, 255][number >> 4],
            erase: [EraseByte::Delete, EraseByte::Backspace][bit(2)],
            newline: [NewlineByte::CtrlJ, NewlineByte::Enter][bit(3)],
        };
        parser.set_reading(reading);
        assert_eq!(parser.reading(), reading);
    }
}

// A position that nobody asked for, or that no entry has the bytes of, takes no question below 0.
#[test]
fn counts_from_0_to_255() {
    let mut parser = Parser::new(Dialect::Extended);
    assert_eq!(parser.read(b"\x1b[?24;80R", true).len(), 1);
    assert_eq!(questions(&parser), 0);
    for count in 1..=300 {
        parser.expect_position();
        assert_eq!(questions(&parser), u8::try_from(count).unwrap_or(255));
    }
    assert_eq!(parser.read(&b"\x1b[24;80R".repeat(254), true).len(), 254);
    assert_eq!(questions(&parser), 1);
    assert_eq!(parser.read(&b"\x1b[24;80R".repeat(3), true).len(), 3);
    assert_eq!(questions(&parser), 0);
}

// Between two events of one read the reading may change too.
#[test]
fn changes_between_events() {
    let mut parser = Parser::new(Dialect::Extended);
    parser.feed(at(0), b"\x1b[1;9A\x1b[1;9A\n\n");
    let mut next = |reading| {
        parser.set_reading(reading);
        lines(parser.next().as_slice())
    };
    let extended = Reading::new(Dialect::Extended);
    let newline = NewlineByte::Enter;
    let enter = Reading {
        newline,
        ..extended
    };
    assert_eq!(next(extended), "key UpArrow SUPER");
    assert_eq!(next(Reading::new(Dialect::Termwiz)), "key UpArrow ALT");
    assert_eq!(next(extended), "key U+000A NONE");
    assert_eq!(next(enter), "key Enter NONE");
    assert_eq!(next(extended), "nothing");
}
