// A `Parser` and its events as values.
use crate::calls::Calls;
use crate::lines::lines;
use hedrugal::input::{InputEvent, InputParser, KittyKeyboardFlags};
use hedrugal::{Dialect, Event, KittyModifiers, MouseReport, Parser, Reading, Waiting};

// A key that is typed is a press, so a program needs one case for both.
#[test]
fn finds_keys_of_events() {
    let text = b"a\x1b[1;8A\x1b[I\x1b[97;5:3u\x1b[200~p\x1b[201~\x1b[<0;1;1M\x1b[?1u\x1b]4;\x07\
        \x1b[97;5u\x1b[1;2:3A\x1b[97;;65u\x1bOP";
    let events = Parser::new(Dialect::Extended).read(text, false);
    let keys = events.iter().map(|it| it.key().cloned().map(Event::Key));
    let keys: Vec<String> = keys.map(|it| lines(it.as_slice())).collect();
    assert_eq!(
        keys.join(", "),
        "key U+0061 NONE, key UpArrow SHIFT+ALT+CTRL, nothing, key U+0061 CTRL release, nothing, \
         nothing, nothing, nothing, key U+0061 CTRL, key UpArrow SHIFT release, \
         key U+0061 NONE text \"A\", key F1 NONE"
    );
}

// The flags of a reply are those that a program pushes.
#[test]
fn tells_keyboard_flags() {
    let events = Parser::new(Dialect::Extended).read(b"\x1b[?5u", true);
    let flags =
        KittyKeyboardFlags::DISAMBIGUATE_ESCAPE_CODES | KittyKeyboardFlags::REPORT_ALTERNATE_KEYS;
    assert_eq!(events, [Event::KeyboardFlags(flags)]);
}

#[test]
fn writes_and_reads_modifiers() {
    let held = KittyModifiers::CTRL | KittyModifiers::NUM_LOCK;
    assert_eq!((held.bits(), &held.to_string()[..]), (132, "CTRL|NUM_LOCK"));
    assert_eq!("CTRL|NUM_LOCK".parse(), Ok(held));
    assert_eq!(KittyModifiers::from_bits(255), Some(KittyModifiers::all()));
}

// What stays buffered is read by two threads at once, and the parser then goes on in a third.
#[test]
fn shares_a_parser_between_threads() {
    let mut parser = Parser::new(Dialect::Extended);
    assert_eq!(parser.read(b"\x1b]0;title", true), []);
    std::thread::scope(|scope| {
        for _ in 0..2 {
            scope.spawn(|| {
                for _ in 0..1000 {
                    let waiting = (parser.waiting(), parser.waiting_len());
                    assert_eq!(waiting, (Waiting::String, 9));
                    assert!(!parser.is_paste_open());
                    assert_eq!(parser.reading(), Reading::new(Dialect::Extended));
                }
            });
        }
    });
    let events = std::thread::spawn(move || parser.read(b"\x07", true)).join();
    assert_eq!(events.ok(), Some(vec![Event::Osc(b"0;title".into())]));
}

#[test]
fn has_the_traits() {
    fn is_shared<T: Send + Sync + std::panic::UnwindSafe + std::panic::RefUnwindSafe>() {}
    is_shared::<Parser>();
    is_shared::<Event>();
    is_shared::<KittyModifiers>();
    is_shared::<Reading>();
    is_shared::<MouseReport>();
}

#[test]
fn shows_a_parser() {
    let mut parser = Parser::new(Dialect::Extended);
    assert_eq!(parser.read(b"\x1b[", true), []);
    assert_eq!(
        format!("{parser:?}"),
        "Parser { reading: Reading { dialect: Extended, x10_mouse: false, questions: 0, \
         erase: Delete, newline: CtrlJ }, waiting_len: 2, .. }"
    );
}

// Two parsers at once, of either kind, have nothing in common.
#[test]
fn parts_parsers() {
    let (mut plain, mut extended) = (InputParser::new(), Parser::new(Dialect::Extended));
    assert_eq!(plain.parse_as_vec(b"\x1b[200~a", true), []);
    assert_eq!(extended.read(b"\x1b[200~b", true), []);
    let a = InputEvent::Paste("a".to_string());
    assert_eq!(plain.parse_as_vec(b"\x1b[201~", true), [a]);
    let b = Event::Paste("b".to_string());
    assert_eq!(extended.read(b"\x1b[201~", true), [b]);
}
