// 1 and 2: the forms.
use super::keys::rxvt_key_of;
use super::strings::is_title;

const CSI: &[u8] = b"\x1b[";

// A byte from 0x20 to 0x3f.
fn is_inner(byte: u8) -> bool {
    matches!(byte, 0x20..=0x3f)
}

// A number of a key of rxvt-unicode's, and `$`.
fn is_shifted(t: &[u8]) -> bool {
    t.strip_suffix(b"$")
        .is_some_and(|number| rxvt_key_of(number).is_some())
}

// 2: whether what follows ESC `[` begins a console key, a row, a key of rxvt-unicode's with Shift,
// or a mouse report, where X10 reports are read.
fn begins_no_control(t: &[u8], x10_mouse: bool) -> bool {
    let begins_report = x10_mouse && t.starts_with(b"M");
    let begins_shifted = (0..=t.len().min(3)).any(|len| is_shifted(&t[..len]));
    begins_report || begins_shifted || matches!(t, [b'[', ..] | [b'1'..=b'8', b'$', ..])
}

fn is_control_sequence(text: &[u8], x10_mouse: bool) -> bool {
    let Some(t) = text.strip_prefix(CSI) else {
        return false;
    };
    let Some((last, inner)) = t.split_last() else {
        return false;
    };
    text.len() <= 256
        && matches!(last, 0x40..=0x7e)
        && inner.iter().all(|byte| is_inner(*byte))
        && !begins_no_control(t, x10_mouse)
}

fn is_x10_report(text: &[u8]) -> bool {
    matches!(text, [0x1b, b'[', b'M', b, x, y] if *b >= 0x20 && *x >= 0x20 && *y >= 0x20)
}

fn is_console_key(text: &[u8]) -> bool {
    matches!(text, [0x1b, b'[', b'[', b'A'..=b'E'])
}

pub fn is_keypad_key(text: &[u8]) -> bool {
    matches!(text, [0x1b, b'O', b'M' | b'X' | b'E' | b'G' | b'j'..=b'y'])
}

// A keypad key or F1 to F4 with modifiers.
fn is_modified_key(text: &[u8]) -> bool {
    matches!(
        text,
        [0x1b, b'O', b'2'..=b'8', b'P'..=b'S' | b'M' | b'X' | b'j'..=b'y']
            | [0x1b, b'O', b'0', b';', b'2'..=b'8', b'P'..=b'S' | b'M' | b'X' | b'j'..=b'y']
            | [0x1b, b'O', b'1', b';', b'2'..=b'8', b'P'..=b'S']
    )
}

// A key of rxvt-unicode's with Shift.
fn is_shifted_key(text: &[u8]) -> bool {
    text.strip_prefix(CSI).is_some_and(is_shifted)
}

// Whether the text is of a form, where X10 mouse reports are read or not.
pub fn is_form(text: &[u8], x10_mouse: bool) -> bool {
    is_control_sequence(text, x10_mouse)
        || (x10_mouse && is_x10_report(text))
        || is_console_key(text)
        || is_keypad_key(text)
        || is_modified_key(text)
        || is_shifted_key(text)
        || is_title(text)
}
