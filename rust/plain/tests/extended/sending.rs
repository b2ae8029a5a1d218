// Pasted texts and mouse reports: whole tables of what is sent, beside a plain model.
use crate::cases::is_one_paste;
use crate::plain::sending::{mouse, safe, BUTTONS, ENCODINGS, TRACKINGS};
use hedrugal::{
    encode_paste, Modifiers, MouseButton, MouseEncoding, MouseError, MouseTracking, SentMouse,
};

#[test]
fn a_paste_of_escapes() {
    is_one_paste(&[0x1b; 1000], "␛".repeat(1000).as_bytes());
}

// Each character, with a letter before it and alone.
#[test]
fn each_character_of_a_paste() {
    let text: String = ('\0'..=char::MAX).flat_map(|it| ['x', it]).collect();
    assert_eq!(text.chars().count(), 2 * (0x110000 - 0x800));
    assert!(encode_paste(text.as_bytes(), false) == safe(&text));
    for character in '\0'..'\u{3000}' {
        let text = character.to_string();
        is_one_paste(text.as_bytes(), safe(&text).as_bytes());
    }
}

// The sets of the modifiers that are sent.
pub fn sets() -> impl Iterator<Item = Modifiers> {
    let flags = [Modifiers::SHIFT, Modifiers::ALT, Modifiers::CTRL];
    (0..8).map(move |bits| {
        let held = (0..3).filter(|place| bits >> place & 1 == 1);
        held.fold(Modifiers::NONE, |set, place| set | flags[place])
    })
}

// The columns and rows at the limits of the encodings.
const PLACES: [u16; 9] = [0, 1, 94, 95, 223, 224, 2015, 2016, 65535];

// Sends a report in each mode and encoding.
fn check_mouse(report: SentMouse) {
    for &(_, tracking) in TRACKINGS {
        for &(_, encoding) in ENCODINGS {
            let wanted = mouse(report, tracking, encoding);
            let [sent, tried] = [SentMouse::encode, SentMouse::try_encode]
                .map(|encode| encode(&report, tracking, encoding));
            assert_eq!(sent, wanted, "{report:?} {tracking:?} {encoding:?}");
            assert_eq!(tried, wanted, "{report:?} {tracking:?} {encoding:?}");
        }
    }
}

#[test]
fn each_mouse_report() {
    let buttons = BUTTONS.iter().map(|(_, button)| *button);
    for (button, modifiers) in buttons.flat_map(|button| sets().map(move |set| (button, set))) {
        for (x, y) in PLACES.into_iter().flat_map(|x| PLACES.map(|y| (x, y))) {
            check_mouse(SentMouse {
                x,
                y,
                button,
                modifiers,
            });
        }
    }
}

// Other modifiers aren't sent, and a bit that no flag has is refused.
#[test]
fn other_modifiers() {
    let report = |modifiers| SentMouse {
        x: 1,
        y: 1,
        button: MouseButton::None,
        modifiers,
    };
    let encode = |it: SentMouse| it.encode(MouseTracking::Any, MouseEncoding::Default);
    let others = Modifiers::all() - Modifiers::SHIFT - Modifiers::ALT - Modifiers::CTRL;
    assert_eq!(encode(report(others)), encode(report(Modifiers::NONE)));
    let unnamed = report(Modifiers::from_bits_retain(1));
    assert_eq!(encode(unnamed), Err(MouseError::UnnamedBits));
}
