// 5 to 7: strings, and what comes of them.
use crate::port::plain::ESC;
use hedrugal::{Event, SequenceBytes, StringKind};

const ST: &[u8] = b"\x1b\\";

const BEL: &[u8] = b"\x07";

// 6: a string with its opening is given in parts of so many bytes.
const PART: usize = 65535;

// One to five digits.
fn is_number(text: &[u8]) -> bool {
    matches!(text.len(), 1..=5) && text.iter().all(u8::is_ascii_digit)
}

// Whether no byte is ESC or BEL.
fn is_title_text(text: &[u8]) -> bool {
    !text.iter().any(|byte| matches!(byte, 0x1b | 0x07))
}

// 1: whether the text is a title.
pub fn is_title(text: &[u8]) -> bool {
    let [0x1b, b']', b'l' | b'L', after @ ..] = text else {
        return false;
    };
    after
        .strip_suffix(BEL)
        .or_else(|| after.strip_suffix(ST))
        .is_some_and(|title| title.len() < 252 && is_title_text(title))
}

// 5: whether the text is an opening.
fn is_opening(text: &[u8]) -> bool {
    match text {
        [0x1b, b']', b'l' | b'L', title @ ..] => title.len() == 252 && is_title_text(title),
        [0x1b, b']', number @ .., b';'] => is_number(number),
        [0x1b, b'P', b'>' | b'!', b'|'] | b"\x1bP@kitty-" => true,
        [0x1b, b'P', number @ .., b'$' | b'+' | b'!', 0x40..=0x7e] => is_number(number),
        [0x1b, b'_', b'G', letter, b'='] => letter.is_ascii_alphabetic(),
        _ => false,
    }
}

// 8: ends of openings. With one of these each text that properly begins one is a whole one, but
// the beginning of a long title, which begins a title too.
const ENDS_OF_OPENINGS: &[&[u8]] = &[
    b"]1;", b"1;", b";", b">|", b"|", b"@kitty-", b"kitty-", b"itty-", b"tty-", b"ty-", b"y-",
    b"-", b"1$r", b"$r", b"r", b"Gi=", b"i=", b"=",
];

// 8: whether some opening is longer than the text and begins with it.
pub fn begins_opening(text: &[u8]) -> bool {
    !text.is_empty()
        && ENDS_OF_OPENINGS
            .iter()
            .any(|end| is_opening(&[text, end].concat()))
}

// 5: the opening that is a prefix of the text.
pub fn opening_of(text: &[u8]) -> Option<&[u8]> {
    (0..=text.len().min(255))
        .map(|len| &text[..len])
        .find(|front| is_opening(front))
}

// What introduces a string, and the kind that it tells.
fn kind_of(opening: &[u8]) -> StringKind {
    match opening[1] {
        b']' => StringKind::Osc,
        b'P' => StringKind::Dcs,
        _ => StringKind::Apc,
    }
}

// The event of a string that has its end.
pub fn event_of_string(string: &[u8]) -> Event {
    let bytes = SequenceBytes::from(&string[2..]);
    match kind_of(string) {
        StringKind::Osc => Event::Osc(bytes),
        StringKind::Dcs => Event::Dcs(bytes),
        StringKind::Apc => Event::Apc(bytes),
    }
}

// 6 and 7: what comes of a text that an opening begins: an event, and what is left.
pub fn string_at(opening: &[u8], text: &[u8], more: bool) -> Option<(Event, Vec<u8>)> {
    let kind = kind_of(opening);
    let is_end = |byte: &u8| *byte == 0x1b || (kind == StringKind::Osc && *byte == 0x07);
    let data = &text[opening.len()..];
    let len = opening.len() + data.iter().position(is_end).unwrap_or(data.len());
    if len >= PART {
        let bytes = SequenceBytes::from(&text[2..PART]);
        let left = [opening, &text[PART..]].concat();
        return Some((Event::StringPart { kind, bytes }, left));
    }
    let (string, after) = text.split_at(len);
    if let Some(left) = after.strip_prefix(ST).or_else(|| after.strip_prefix(BEL)) {
        return Some((event_of_string(string), left.to_vec()));
    }
    let bytes = SequenceBytes::from(&string[2..]);
    let cut = Event::StringCut { kind, bytes };
    match after {
        [0x1b, 0x1b, ..] => Some((cut, after[1..].to_vec())),
        [0x1b, _, ..] => Some((cut, after.to_vec())),
        _ if more => None,
        _ => Some((cut, after.strip_prefix(ESC).unwrap_or(after).to_vec())),
    }
}
