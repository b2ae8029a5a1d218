//! One pass of a parser over a file: `measure [extended] FILE READ` feeds the file in reads of READ
//! bytes, and prints its nanoseconds, the number of events, and the number of bytes that stay
//! buffered. The parser is an `InputParser`, or with `extended` a `Parser`.
use hedrugal::input::{InputEvent, InputParser};
use hedrugal::{Dialect, Parser};
use std::error::Error;
use std::time::Instant;
use std::{env, fs};

/// Returns the nanoseconds, the number of events, and that of the bytes that stay buffered.
fn read_termwiz(text: &[u8], read: usize) -> (u128, usize, usize) {
    let (mut parser, mut events) = (InputParser::new(), 0);
    let start = Instant::now();
    let mut count = |_: InputEvent| events += 1;
    for bytes in text.chunks(read) {
        parser.parse(bytes, &mut count, true);
    }
    parser.parse(b"", &mut count, false);
    let nanoseconds = start.elapsed().as_nanos();
    (nanoseconds, events, parser.parser().waiting_len())
}

fn read_extended(text: &[u8], read: usize) -> (u128, usize, usize) {
    let (mut parser, mut events) = (Parser::new(Dialect::Extended), 0);
    let start = Instant::now();
    for bytes in text.chunks(read) {
        parser.feed(start, bytes);
        events += parser.by_ref().count();
    }
    parser.flush();
    events += parser.by_ref().count();
    (start.elapsed().as_nanos(), events, parser.waiting_len())
}

fn main() -> Result<(), Box<dyn Error>> {
    let words: Vec<String> = env::args().skip(1).collect();
    let words: Vec<_> = words.iter().map(String::as_str).collect();
    let (pass, file, read): (fn(&[u8], usize) -> _, _, _) = match words[..] {
        [file, read] => (read_termwiz, file, read),
        ["extended", file, read] => (read_extended, file, read),
        _ => return Err("usage: measure [extended] FILE READ".into()),
    };
    let (text, read) = (fs::read(file)?, read.parse()?);
    let (nanoseconds, events, waiting) = pass(&text, read);
    println!("{nanoseconds} {events} {waiting}");
    Ok(())
}
