// Press to press: what comes through a pipe in random cuts and pauses is told as what was pressed, typed, pasted, clicked
// and replied, in this order. Flags and modes change between any two things.
use crate::calls::{parser_by, read_one, MORE};
use crate::draws::Draws;
use crate::plain::pressed;
use crate::plain::presses::Press;
use crate::plain::sending::{safe, BUTTONS, TRACKINGS};
use crate::plain::twins::{kitty_twin, Modes};
use crate::port::feeder::at;
use crate::sending::sets;
use crate::twins::{keys, kitty_keys, kitty_reports, port_texts, LEVELS, USUAL};
use hedrugal::input::KittyKeyboardFlags as Flags;
use hedrugal::ColourScheme::{Dark, Light};
use hedrugal::KeyEventKind::{Press as Pressed, Release, Repeat};
use hedrugal::{
    encode_colour_scheme, encode_cursor_position, encode_device_attributes, encode_paste,
    typed_text, DeviceAttributes, Event, KeyReport, KittyModifiers, MouseEncoding, Reply,
    ReportedKey, SentMouse,
};
use std::io::{Read, Write};
use std::os::unix::net::UnixStream;

#[derive(Debug, PartialEq)]
enum Told {
    Press(Press),
    Text(String),
    Reply(Reply),
    Other(Event),
}

// What an event tells a program: of a release and of a modifier alone, nothing.
fn told_of(event: Event) -> Option<Told> {
    if let Some(press) = event.press() {
        return Some(Told::Press((press.key(), press.held())));
    }
    if let Some(text) = event.key().map(typed_text) {
        return (!text.is_empty()).then(|| Told::Text(text.to_string()));
    }
    Some(event.reply().map_or(Told::Other(event), Told::Reply))
}

// The bytes of a thing, and what is told of it.
type Sent = (Vec<u8>, Vec<Told>);

fn flags(draws: &mut Draws) -> Flags {
    Flags::from_bits_retain(draws.below(32) as u16)
}

fn kitty(draws: &mut Draws) -> Sent {
    let key = *draws.one_of(&kitty_keys());
    let kind = [Pressed, Repeat, Release][draws.below(3)];
    let (reports, flags) = (kitty_reports(key, kind), flags(draws));
    let report = draws.one_of(&reports);
    let press = kitty_twin(report, flags).filter(|_| kind != Release);
    let sent = report.encode(flags).unwrap();
    (sent.into_bytes(), Vec::from_iter(press.map(Told::Press)))
}

// Several characters at once.
fn text(draws: &mut Draws) -> Sent {
    let report = KeyReport {
        text: ["fi", "да", "日本語"][draws.below(3)].to_string(),
        ..pressed(ReportedKey::Functional(0), KittyModifiers::NONE)
    };
    let texts = Flags::REPORT_ALL_KEYS_AS_ESCAPE_CODES | Flags::REPORT_ASSOCIATED_TEXT;
    let sent = report.encode(flags(draws) | texts).unwrap();
    (sent.into_bytes(), vec![Told::Text(report.text)])
}

fn port(draws: &mut Draws) -> Sent {
    let (is_csi_u, level) = (draws.below(2) == 0, *draws.one_of(&LEVELS));
    let (key, held) = (*draws.one_of(&keys()), draws.below(16) as u8);
    let (sent, [twins, _]) = port_texts(key, held, Modes { is_csi_u, level }, draws.below(2) == 0);
    let told = twins.into_iter().flatten().map(Told::Press);
    (sent.into_bytes(), told.collect())
}

fn paste(draws: &mut Draws) -> Sent {
    let count = draws.below(12);
    let text = draws.text(count, "any");
    let pasted = Event::Paste(safe(&String::from_utf8_lossy(&text)));
    let sent = encode_paste(&text, true);
    (sent.into_bytes(), vec![Told::Other(pasted)])
}

// A mouse report is told as it is alone.
fn mouse(draws: &mut Draws) -> Sent {
    let report = SentMouse {
        x: draws.below(65536) as u16,
        y: draws.below(65536) as u16,
        button: draws.one_of(BUTTONS).1,
        modifiers: sets().nth(draws.below(8)).unwrap(),
    };
    let tracking = draws.one_of(TRACKINGS).1;
    let sent = report.encode(tracking, MouseEncoding::Sgr).unwrap();
    let told = (!sent.is_empty()).then(|| Told::Other(read_one(&sent, USUAL, MORE)));
    (sent, told.into_iter().collect())
}

fn position(draws: &mut Draws, is_asked: bool) -> Sent {
    let private = !is_asked || draws.below(2) == 0;
    let (row, column) = (1 + draws.below(2) as u16, 1 + draws.below(300) as u16);
    let told = Told::Other(Event::CursorPosition { row, column });
    (encode_cursor_position(row, column, private), vec![told])
}

fn colours(draws: &mut Draws) -> Sent {
    let scheme = [Dark, Light][draws.below(2)];
    let told = Told::Reply(Reply::ColourScheme(scheme));
    (encode_colour_scheme(scheme), vec![told])
}

fn attributes(draws: &mut Draws) -> Sent {
    let count = 1 + draws.below(8);
    let numbers: Vec<u16> = (0..count).map(|_| draws.below(65536) as u16).collect();
    let sent = encode_device_attributes(&numbers).unwrap();
    let report = DeviceAttributes::Primary;
    let numbers = numbers.into_iter().map(u32::from).collect();
    let told = Reply::DeviceAttributes { report, numbers };
    (sent, vec![Told::Reply(told)])
}

// F3 with modifiers is sent only while no question for the cursor's position is open, and a position without a question
// mark only while one is.
fn any(draws: &mut Draws, is_asked: bool) -> Sent {
    let sent = match draws.below(16) {
        0 => text(draws),
        1 => paste(draws),
        2 => mouse(draws),
        3 => position(draws, is_asked),
        4 => colours(draws),
        5 => attributes(draws),
        6..=10 => kitty(draws),
        _ => port(draws),
    };
    let is_press = matches!(sent.1[..], [Told::Press(_)]);
    if is_asked && is_press && sent.0.ends_with(b"R") && sent.0.len() > 3 {
        return any(draws, is_asked);
    }
    sent
}

// A text that waits for more may go on with this one: ESC and ESC ESC with a key alone, and the others with printable ASCII.
fn may_go_on(text: &[u8], (next, told): &Sent) -> bool {
    match text {
        [0x1b] | [0x1b, 0x1b] => {
            !next.is_empty() && !matches!(told[..], [Told::Other(_) | Told::Reply(_)])
        }
        [0x1b, b'[' | b'O' | b'P' | b']' | b'_'] => matches!(next[..], [b' '..=b'~', ..]),
        _ => false,
    }
}

// Things up to one after which nothing may come for a while, while so many questions are open.
fn things(draws: &mut Draws, asked: &mut usize) -> Sent {
    let (mut sent, mut told, mut last) = (Vec::new(), Vec::new(), Vec::new());
    for _ in 0..12 {
        let next = any(draws, *asked > 0);
        if may_go_on(&last, &next) {
            break;
        }
        let (bytes, more) = next;
        let is_position = matches!(more[..], [Told::Other(Event::CursorPosition { .. })]);
        *asked -= usize::from(is_position).min(*asked);
        sent.extend(&bytes);
        told.extend(more);
        if !bytes.is_empty() {
            last = bytes;
        }
    }
    (sent, told)
}

// The pauses between the cuts are too short for a flush, and the last one isn't.
fn check_run(seed: u64) {
    let (mut terminal, mut program) = UnixStream::pair().unwrap();
    let (mut parser, draws) = (parser_by(USUAL), &mut Draws::new(seed));
    let (mut now, mut asked) = (0, 0);
    for _ in 0..20 {
        if draws.below(3) == 0 {
            parser.expect_position();
            asked += 1;
        }
        let (sent, wanted) = things(draws, &mut asked);
        let (mut rest, mut told) = (&sent[..], Vec::new());
        while !rest.is_empty() {
            let (piece, more) = rest.split_at(1 + draws.below(rest.len().min(20)));
            let mut read = [0; 20];
            terminal.write_all(piece).unwrap();
            let count = program.read(&mut read).unwrap();
            parser.feed(at(now), &read[..count]);
            told.extend(parser.by_ref().filter_map(told_of));
            now += draws.below(3) as u64;
            parser.idle(at(now));
            told.extend(parser.by_ref().filter_map(told_of));
            rest = more;
        }
        now += 100;
        parser.idle(at(now));
        told.extend(parser.by_ref().filter_map(told_of));
        assert_eq!(told, wanted, "the seed {seed}");
    }
}

#[test]
fn what_is_sent_is_told() {
    for seed in 0..60 {
        println!("the seed {seed}");
        check_run(seed);
    }
}
