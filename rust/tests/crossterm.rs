// crossterm's events of what terminals send, which the feature `crossterm` has.
use crossterm::event::{
    Event, KeyCode, KeyEvent, KeyEventKind, KeyEventState, KeyModifiers, MediaKeyCode,
    ModifierKeyCode, MouseButton, MouseEvent, MouseEventKind,
};
use hedrugal::crossterm::Converter;
use hedrugal::{Dialect, Parser};
use std::time::Instant;

const NONE: KeyModifiers = KeyModifiers::NONE;
const SHIFT: KeyModifiers = KeyModifiers::SHIFT;
const CONTROL: KeyModifiers = KeyModifiers::CONTROL;
const ALT: KeyModifiers = KeyModifiers::ALT;

fn parsed(bytes: &[u8]) -> Vec<hedrugal::Event> {
    let mut parser = Parser::new(Dialect::Extended);
    parser.feed(Instant::now(), bytes);
    parser.flush();
    parser.collect()
}

fn check_keys(keys: &[(&[u8], KeyCode, KeyModifiers)]) {
    for (bytes, code, modifiers) in keys {
        let [event] = &parsed(bytes)[..] else {
            panic!("{bytes:?} isn't one event");
        };
        let Ok(Event::Key(key)) = Event::try_from(event.clone()) else {
            panic!("{bytes:?} is no key");
        };
        assert_eq!((key.code, key.modifiers), (*code, *modifiers), "{bytes:?}");
        assert_eq!(key.kind, KeyEventKind::Press);
    }
}

#[test]
fn keys() {
    check_keys(&[
        (b"a", KeyCode::Char('a'), NONE),
        (b"A", KeyCode::Char('A'), SHIFT),
        (b"\x1bA", KeyCode::Char('A'), SHIFT.union(ALT)),
        ("é".as_bytes(), KeyCode::Char('é'), NONE),
        (b"!", KeyCode::Char('!'), NONE),
        (b"\x03", KeyCode::Char('c'), CONTROL),
        (b"\0", KeyCode::Char(' '), CONTROL),
        (b"\x08", KeyCode::Char('h'), CONTROL),
        (b"\n", KeyCode::Char('j'), CONTROL),
        (b"\x1b[1;9A", KeyCode::Up, KeyModifiers::SUPER),
        (b"\x1b\x1f", KeyCode::Char('7'), CONTROL.union(ALT)),
        (b"\x1b[13;2u", KeyCode::Enter, SHIFT),
        (b"\x1b", KeyCode::Esc, NONE),
        (b"\r", KeyCode::Enter, NONE),
        (b"\t", KeyCode::Tab, NONE),
        (b"\x1b[Z", KeyCode::BackTab, SHIFT),
        (b"\x7f", KeyCode::Backspace, NONE),
        (b"\x1b[A", KeyCode::Up, NONE),
        (b"\x1bOB", KeyCode::Down, NONE),
        (b"\x1b[1;5C", KeyCode::Right, CONTROL),
        (b"\x1b[1;4D", KeyCode::Left, SHIFT.union(ALT)),
        (b"\x1b[H", KeyCode::Home, NONE),
        (b"\x1b[F", KeyCode::End, NONE),
        (b"\x1b[5~", KeyCode::PageUp, NONE),
        (b"\x1b[6~", KeyCode::PageDown, NONE),
        (b"\x1b[2~", KeyCode::Insert, NONE),
        (b"\x1b[3;5~", KeyCode::Delete, CONTROL),
        (b"\x1bOP", KeyCode::F(1), NONE),
        (b"\x1b[24;2~", KeyCode::F(12), SHIFT),
    ]);
}

#[test]
fn reports_of_kittys_protocol() {
    let modifier = KeyCode::Modifier(ModifierKeyCode::LeftControl);
    check_keys(&[
        (b"\x1b[97;9u", KeyCode::Char('a'), KeyModifiers::SUPER),
        (
            b"\x1b[97;49u",
            KeyCode::Char('a'),
            KeyModifiers::HYPER.union(KeyModifiers::META),
        ),
        (b"\x1b[57358u", KeyCode::CapsLock, NONE),
        (b"\x1b[57363u", KeyCode::Menu, NONE),
        (b"\x1b[57376u", KeyCode::F(13), NONE),
        (
            b"\x1b[57430u",
            KeyCode::Media(MediaKeyCode::PlayPause),
            NONE,
        ),
        (b"\x1b[57434u", KeyCode::Media(MediaKeyCode::Rewind), NONE),
        (b"\x1b[57442;5u", modifier, CONTROL),
        (
            b"\x1b[57453u",
            KeyCode::Modifier(ModifierKeyCode::IsoLevel3Shift),
            NONE,
        ),
    ]);
    let [event] = &parsed(b"\x1b[57400;129:3u")[..] else {
        panic!("it isn't one event");
    };
    let wanted = KeyEvent {
        code: KeyCode::Char('1'),
        modifiers: NONE,
        kind: KeyEventKind::Release,
        state: KeyEventState::KEYPAD | KeyEventState::NUM_LOCK,
    };
    assert_eq!(Event::try_from(event.clone()), Ok(Event::Key(wanted)));
}

#[test]
fn mouse_reports() {
    use MouseEventKind::{Down, Drag, Moved, ScrollDown, ScrollUp, Up};
    let wanted = [
        (&b"\x1b[<0;3;4M"[..], Down(MouseButton::Left), NONE),
        (b"\x1b[<32;3;4M", Drag(MouseButton::Left), NONE),
        (b"\x1b[<0;3;4m", Up(MouseButton::Left), NONE),
        (b"\x1b[<35;3;4M", Moved, NONE),
        (b"\x1b[<18;3;4M", Down(MouseButton::Right), CONTROL),
        (b"\x1b[<1;3;4M", Down(MouseButton::Middle), NONE),
        (b"\x1b[<64;3;4M", ScrollUp, NONE),
        (b"\x1b[<69;3;4M", ScrollDown, SHIFT),
        // A release that names no button is of the one that was down last, or else of the left one.
        (b"\x1b[34;3;4M", Down(MouseButton::Right), NONE),
        (b"\x1b[35;3;4M", Up(MouseButton::Right), NONE),
        (b"\x1b[35;3;4M", Up(MouseButton::Left), NONE),
    ];
    let mut converter = Converter::default();
    for (bytes, kind, modifiers) in wanted {
        let event = parsed(bytes).remove(0);
        let (column, row) = (2, 3);
        let mouse = MouseEvent {
            kind,
            column,
            row,
            modifiers,
        };
        assert_eq!(
            converter.convert(event),
            Ok(Event::Mouse(mouse)),
            "{bytes:?}"
        );
    }
}

#[test]
fn other_events() {
    let events = parsed(b"\x1b[I\x1b[O\x1b[200~text\x1b[201~\x1b[48;40;100;600;900t");
    let converted: Vec<_> = events.into_iter().map(Event::try_from).collect();
    let paste = Event::Paste("text".to_string());
    let wanted = [
        Event::FocusGained,
        Event::FocusLost,
        paste,
        Event::Resize(100, 40),
    ];
    assert_eq!(converted, wanted.map(Ok));
    let part = hedrugal::Event::PastePart("part".to_string());
    assert_eq!(Event::try_from(part), Ok(Event::Paste("part".to_string())));
}

#[test]
fn what_crossterm_cannot_say_comes_back() {
    let sent = b"\x1b[<66;3;4M\x1b[<128;3;4M\x1b[?62c\x1b]11;a\x07\x1b[12;40R\x1bP>|xterm\x1b\\";
    let events = parsed(sent);
    assert_eq!(events.len(), 6);
    for event in events {
        assert_eq!(Event::try_from(event.clone()), Err(event));
    }
    let resumed = hedrugal::Event::Resumed;
    assert_eq!(Event::try_from(resumed.clone()), Err(resumed));
}
