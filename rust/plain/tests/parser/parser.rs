// The parser as a value.
use crate::plain::key_event;
use hedrugal::input::{InputParser, KeyCode, Modifiers};

// A callback that panics loses no later event.
#[test]
fn goes_on_after_a_panic() {
    let mut parser = InputParser::new();
    let caught = std::panic::catch_unwind(std::panic::AssertUnwindSafe(|| {
        parser.parse(b"ab", |_| std::panic::resume_unwind(Box::new(())), true);
    }));
    assert!(caught.is_err());
    let b = key_event(KeyCode::Char('b'), Modifiers::NONE);
    assert_eq!(parser.parse_as_vec(b"", true), [b]);
}

#[test]
fn shows_a_parser() {
    let mut parser = InputParser::new();
    parser.parse(b"\x1b[", |_| (), true);
    assert_eq!(
        format!("{parser:?}"),
        "InputParser { parser: Parser { reading: Reading { dialect: Termwiz, x10_mouse: false, \
         questions: 0, erase: Delete, newline: CtrlJ }, waiting_len: 2, .. } }"
    );
}
