// The paths of termwiz, as a program has them that names this package `termwiz`.
use hedrugal as termwiz;
use termwiz::escape::csi::KittyKeyboardFlags;
use termwiz::input::{
    EncodeError, InputEvent, InputParser, KeyCode, KeyCodeEncodeModes, KeyboardEncoding, Modifiers,
    MouseButtons,
};

#[test]
fn has_the_traits() {
    fn is_shared<T: Send + Sync + std::panic::UnwindSafe + std::panic::RefUnwindSafe>() {}
    is_shared::<InputParser>();
    is_shared::<InputEvent>();
    is_shared::<Modifiers>();
    is_shared::<MouseButtons>();
}

// A bit without a name is refused, whether the key is up or down.
#[test]
fn refuses_bits_without_a_name() {
    let modes = |encoding| KeyCodeEncodeModes {
        encoding,
        application_cursor_keys: false,
        newline_mode: false,
        modify_other_keys: None,
    };
    let kitty = |bits| KeyboardEncoding::Kitty(KittyKeyboardFlags::from_bits_retain(bits));
    let up = |held, encoding, is_down| KeyCode::UpArrow.encode(held, modes(encoding), is_down);
    for is_down in [true, false] {
        for place in (0..16).filter(|place| Modifiers::from_bits(1 << place).is_none()) {
            let held = Modifiers::CTRL | Modifiers::from_bits_retain(1 << place);
            let sent = up(held, KeyboardEncoding::Xterm, is_down);
            assert_eq!(sent, Err(EncodeError::UnnamedBits), "bit {place}");
        }
        for place in 5..16 {
            let sent = up(Modifiers::CTRL, kitty(1 << place), is_down);
            assert_eq!(sent, Err(EncodeError::UnnamedBits), "flag {place}");
        }
    }
    let all = kitty(KittyKeyboardFlags::all().bits());
    assert_eq!(up(Modifiers::CTRL, all, true).as_deref(), Ok("\x1b[1;5A"));
    assert!(up(Modifiers::all(), all, true).is_ok());
}
