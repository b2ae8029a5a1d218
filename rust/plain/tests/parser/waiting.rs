// What stays buffered.
use crate::calls::Buffer;
use crate::draws::Draws;
use crate::lines::hex;
use crate::plain::PlainReader;
use hedrugal::input::InputParser;
use hedrugal::Waiting;
use std::time::Instant;

fn check_rest(parser: &InputParser, rest: &[u8], kind: Waiting) {
    let waiting = (parser.waiting_len(), parser.parser().waiting());
    assert_eq!(waiting, (rest.len(), kind), "{}", hex(rest));
    let timeout = parser.parser().timeout(Instant::now());
    assert_eq!(timeout, None, "{}", hex(rest));
}

// After each byte of random streams the kind is that of the plain reader.
#[test]
fn kinds_in_streams() {
    let (mut parser, mut seen) = (InputParser::new(), [0; 6]);
    let reader = PlainReader::new();
    let mut draws = Draws::new(27, &reader);
    for _ in 0..5000 {
        let stream = draws.text();
        for len in 1..=stream.len() {
            parser.parse(&stream[len - 1..len], |_| (), true);
            let rest = &stream[len - parser.waiting_len()..len];
            let kind = reader.kind_of(rest, true).expect("it is of a kind");
            check_rest(&parser, rest, kind);
            seen[kind as usize] += 1;
        }
        parser.reset();
    }
    assert!(seen[..5].iter().all(|count| *count > 100), "{seen:?}");
}
