// The answers in tests/recorded, of the parser and of the encoder.
use crate::calls::Buffer;
use crate::feeder::{check_file, data, Reader};
use crate::lines::{bytes, key_named, line, modifiers_named};
use crate::names::PLAIN_KEYS;
use hedrugal::input::{
    EncodeError, InputParser, KeyCode, KeyCodeEncodeModes, KeyboardEncoding, Modifiers,
};

impl Reader for InputParser {
    fn reset(&mut self) {
        Buffer::reset(self);
    }

    fn call(&mut self, bytes: &[u8], more: bool) -> Vec<String> {
        self.parse_as_vec(bytes, more).iter().map(line).collect()
    }

    fn waiting_len(&self) -> usize {
        Buffer::waiting_len(self)
    }
}

#[test]
fn rows() {
    check_file(&mut InputParser::new(), "parse-rows.txt");
}

#[test]
fn cases() {
    check_file(&mut InputParser::new(), "parse-cases.txt");
}

// The modes of a number, as tests/recorded/README.md lists its bits.
fn modes(number: u32) -> KeyCodeEncodeModes {
    let encodings = [KeyboardEncoding::Xterm, KeyboardEncoding::CsiU];
    KeyCodeEncodeModes {
        encoding: encodings[(number >> 4 & 1) as usize],
        application_cursor_keys: number & 1 != 0,
        newline_mode: number & 2 != 0,
        modify_other_keys: [None, Some(0), Some(1), Some(2)][(number >> 2 & 3) as usize],
    }
}

fn wanted_text(key: KeyCode, text: &str) -> Result<String, EncodeError> {
    match (text, key) {
        ("refused", KeyCode::Function(number)) => Err(EncodeError::UnhandledFunctionKey(number)),
        ("-", _) => Ok(String::new()),
        _ => Ok(String::from_utf8(bytes(text)).expect("a text is UTF-8")),
    }
}

// A key in all modes: `TEXT@MASK ..`, and the empty text while it is up.
fn check_key(key: KeyCode, mods: Modifiers, texts: &str) {
    let mut seen = 0u32;
    for text in texts.split(' ') {
        let (text, mask) = text.split_once('@').unwrap_or((text, "ffffffff"));
        let mask = u32::from_str_radix(mask, 16).expect(texts);
        let wanted = wanted_text(key, text);
        for number in (0..32).filter(|number| mask >> number & 1 != 0) {
            let encode = |is_down| key.encode(mods, modes(number), is_down);
            assert_eq!(encode(true), wanted, "{key:?} {mods:?} {number}");
            assert_eq!(encode(false), Ok(String::new()));
        }
        seen |= mask;
    }
    assert_eq!(seen, u32::MAX, "{key:?} {mods:?} {texts}");
}

#[test]
fn encodings() {
    let (mut lines, mut count, mut others) = (0, 0, PLAIN_KEYS.to_vec());
    for line in data("encode.txt").lines() {
        let (asked, texts) = line.split_once(" = ").expect(line);
        let (names, held) = asked.split_once(' ').expect(line);
        let keys: Vec<KeyCode> = match names {
            "*" => others.clone(),
            _ => names.split(',').map(key_named).collect(),
        };
        others.retain(|key| !keys.contains(key));
        for held in held.split(',').map(modifiers_named) {
            keys.iter().for_each(|&key| check_key(key, held, texts));
            count += if names == "*" { 0 } else { 32 * keys.len() };
        }
        lines += 1;
    }
    assert_eq!((lines, count, others), (727, 61952, vec![]));
}
