// A paste that comes in three parts.
use crate::calls::{Buffer, Call};
use crate::lines::{hex, lines};
use hedrugal::input::InputParser;

// The paste in three parts comes once.
fn check_parts(parser: &mut InputParser, parts: [&[u8]; 3]) {
    let mut events = Vec::new();
    for part in parts {
        events.extend(Call::List.events(parser, part, true));
    }
    assert_eq!(lines(&events), "paste 1:61", "{}", parts.map(hex).join("|"));
    assert_eq!(parser.waiting_len(), 0, "{}", parts.map(hex).join("|"));
}

#[test]
fn reads_a_paste_cut_twice() {
    let paste = b"\x1b[200~a\x1b[201~";
    let mut parser = InputParser::new();
    for place in 0..=paste.len() {
        let (first, last) = paste.split_at(place);
        for place in 0..=first.len() {
            let (start, middle) = first.split_at(place);
            check_parts(&mut parser, [start, middle, last]);
        }
    }
}
